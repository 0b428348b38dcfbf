"""Who ran when: the schedule of a run or of a history, worked out of its lines."""
from typing import Callable, Dict, List, Optional, Tuple

from .lanes import (DEFERRED, DIRECT, FRAME, HANDLER, HELD, READY, RUN, SIGNAL, STOPPED, TAKE, TICK, TMR, TOP, WAIT, Frame, Held,
                    Level, Mark, Piece, Schedule, Span, Task, Vector, join)
from .lines import BadInput, Line
from .waking import NONE, Moment, Wait, Wakers

LAST_UNIT, WAITING = 3, 2               # raw steps of the timer task's last unit for a signal, and more where it then waits
SWITCHING = ("ret", "wait", "gone", "trap", "tick", "tmr", "fire", "exit", "take")
COSTS = {"start": (0, 0), "call": (1, 0), "ret": (1, 1), "wait": (1, 1), "gone": (1, 1), "st": (1, 1), "trap": (1, 1),
         "tick": (1, 1), "tmr": (1, 1), "fire": (1, 1), "irq": (0, 0), "post": (1, 0), "icall": (1, 0),
         "exit": (1, 0), "take": (1, 0), "look": (0, 0), "end": (0, 0)}


def method_of(lines: List[Line]) -> Optional[str]:
    """The method of a run, where a line tells it: only the deferred one has takes, a full queue, or an interrupt within a call;
    only under the direct one a post of interrupt code has another value than 0, or an exit changes the current task."""
    in_call, found, before = False, None, None
    for line in lines:
        if line.kind == "call":
            in_call = True
        elif line.kind in ("ret", "wait", "gone"):
            in_call = False
        if line.kind == "take" or line.error == "OS_ERR_INT_Q_FULL" or line.kind == "irq" and in_call:
            return DEFERRED
        if line.kind == "post" and line.value > 0 or line.kind == "sw" and before == "exit":
            found = DIRECT
        before = line.kind
    return found


def timer_division(lines: List[Line], deferred: bool) -> int:
    """So many tick calls make one signal of the timer task: the greatest number by which each `tmr` line had its calls."""
    calls, found, signal = 0, None, "take" if deferred else "post"
    for line in lines:
        if line.kind in (signal, "ret") and line.service == "OSTimeTick" and line.error == NONE:
            calls += 1
        elif line.kind == "tmr" and line.value:
            found = min(found or calls, calls // line.value)
    return max(found or 1, 1)


class Builder:
    """Makes a schedule, one line after the other."""

    def __init__(self, is_run: bool, method: Optional[str], division: int):
        self.made = Schedule(is_run, method)
        self.division = division                # tick calls for a signal of the timer task
        self.is_run, self.deferred = is_run, method == DEFERRED
        self.clock: Moment = (0, 0)             # behind the last event
        self.current = ""
        self.frames: List[Frame] = []
        self.queued = 0
        self.taking: Optional[Moment] = None    # since when a take is in hand
        self.lock = 0
        self.callbacks = False                  # the timer task holds the lock
        self.timer_count = 0
        self.wakers = Wakers()
        self.signals = 0                        # of the tick task
        self.last_irq: Optional[Moment] = None
        self.own: List[Piece] = []              # pieces of the current task since its last line or switch
        self.own_since: Moment = (0, 0)
        self.before: Optional[Line] = None
        self.later_step = 0                     # task steps before the next line
        self.handlers: Dict[str, Callable[[Line], None]] = {
            kind: getattr(self, "on_" + kind) for kind in [*COSTS, "sw"]}

    # ------------------------------------------------------------------------------------------------- all lines

    def feed(self, line: Line) -> None:
        if (self.before is None) != (line.kind == "start") and (line.raw, line.step, line.kind) != (0, 0, "end"):
            raise BadInput(line.number, "`start` is the first event, and no other")
        if line.kind == "sw":
            self.on_sw(line)
        else:
            self.quiet(line)
            self.check_actor(line)
            self.spend(self.cost(line))
            self.handlers[line.kind](line)
        self.made.lines.append(line)
        self.before = line
        self.begin_take()

    def cost(self, line: Line) -> Tuple[int, int]:
        raw, step = COSTS[line.kind]
        if line.kind == "exit" and line.how == "limit":
            raw = 0
        if line.kind == "st" and line.vector is not None:
            step = 0
        return (raw, step) if self.is_run else (step, step)

    def owner(self) -> str:
        if self.frames:
            return f"#{self.frames[-1].vector}"
        return self.current if self.taking is None else HANDLER

    def quiet(self, line: Line) -> None:
        """The events without a line, up to the line's own."""
        raw, step = line.raw - self.clock[0], line.step - self.clock[1]
        if raw < 0 or step < 0:
            raise BadInput(line.number, "its counts are less than those behind the line before")
        if step > raw:
            raise BadInput(line.number, "more task steps than raw steps went by")
        if step and (self.owner() != self.current or self.task(self.current).open_call):
            raise BadInput(line.number, "task steps went by where no task could do one")
        self.spend((raw, step))

    def spend(self, cost: Tuple[int, int]) -> None:
        """The owner does so many raw steps, and the current task so many task steps."""
        end = (self.clock[0] + cost[0], self.clock[1] + cost[1])
        if end == self.clock:
            return
        owner, current = self.owner(), self.task(self.current)
        current.steps += cost[1]
        waiting = current.name if owner != current.name and current.off_since is None else None
        last = self.made.pieces[-1] if self.made.pieces else None
        goes_on = owner != current.name or self.own and self.own[-1] is last
        if last and goes_on and (last.owner, last.current) == (owner, waiting):
            last.end = end
        else:
            piece = Piece(self.clock, end, owner, waiting)
            self.made.pieces.append(piece)
            if owner == current.name:
                self.own.append(piece)
        self.clock = end

    def own_raw(self) -> int:
        """Raw steps that the current task did since its last line or switch."""
        return sum(piece.end[0] - piece.start[0] for piece in self.own)

    def acted(self) -> None:
        self.own, self.own_since = [], self.clock

    def check_actor(self, line: Line) -> None:
        """The line is one of whoever runs."""
        frame = self.frames[-1] if self.frames else None
        if line.vector is not None and line.kind != "irq":
            if self.is_run and (frame is None or frame.vector != line.vector):
                raise BadInput(line.number, f"interrupt code of vector {line.vector} does not run here")
            return
        actor = {"tick": TICK, "tmr": TMR, "fire": TMR}.get(line.kind, line.task)
        if actor and line.kind != "start" and (actor != self.current or frame or self.taking is not None):
            raise BadInput(line.number, f"{actor} does not run here")

    def begin_take(self) -> None:
        """A take begins where a post waits, the lock is 0, and nothing else is to do first."""
        if self.deferred and self.queued and not self.lock and not self.frames and self.taking is None:
            if not self.in_hand():
                self.taking = self.clock

    def in_hand(self) -> bool:
        if self.current in (TICK, TMR):
            return self.own_raw() > 0 or self.task(self.current).open_call is not None
        return self.task(self.current).open_call is not None

    # --------------------------------------------------------------------------------------------- tasks, their lanes

    def task(self, name: str) -> Task:
        found = self.made.tasks.get(name)
        if found is None:
            found = self.made.tasks[name] = Task(name)
        return found

    def mark(self, line: Line) -> None:
        self.task(self.current).marks.append(Mark((line.raw, line.step), line))

    def span(self, task: Task, start: Moment, end: Moment, what: str) -> None:
        if start < end:
            task.spans.append(Span(start, end, what))

    def off_then_on(self, task: Task, since: Moment, woken: Optional[Moment], on: Moment) -> None:
        """The task was off from `since` to `on`, waiting up to `woken`; None: it was ready all the time."""
        ready = since if woken is None else min(max(woken, since), on)
        self.span(task, since, ready, WAIT)
        self.span(task, ready, on, READY)
        task.longest_ready = max(task.longest_ready, on[0] - ready[0])
        if woken is not None:
            task.longest_woken = max(task.longest_woken, on[0] - ready[0])

    def switch_in(self, task: Task) -> None:
        since, on = task.off_since, self.clock
        task.off_since = None
        task.runs += 1
        if since is None:
            return
        if task.wait is SIGNAL:
            self.off_then_on(task, since, self.signalled(task, since) or on, on)
            task.wait = None
        elif task.wait is not None and task.window is None:
            task.window = (since, on)
        else:
            self.off_then_on(task, since, None, on)

    def signalled(self, task: Task, since: Moment) -> Optional[Moment]:
        """When the tick task or the timer task was signalled, if it was."""
        if task.name == TICK:
            return self.wakers.first_after(since, "OSTimeTick")
        return self.wakers.nth("OSTimeTick", (self.timer_count + 1) * self.division)

    def switch_out(self, task: Task) -> None:
        if task.off_since is None:
            task.off_since = self.clock
        if task.name == TICK and self.signals <= 0 or task.name == TMR and not self.callbacks:
            task.wait = SIGNAL

    def end_wait(self, task: Task, line: Line) -> None:
        """The task acts again, and is answered."""
        since, on = task.window or (task.off_since, (line.raw, line.step))
        woken = self.wakers.end_of(task.wait, line.error, line.value, line.size, on)
        if woken is None and not self.is_run and self.last_irq is not None and self.last_irq >= since:
            woken = self.last_irq           # a history has no posts of interrupt code
        self.off_then_on(task, since, on if woken is None else woken, on)
        task.wait = task.window = task.off_since = None

    def end_call(self, task: Task) -> Line:
        """The call in hand is over; answers its line."""
        call = task.open_call
        task.open_call = None
        task.calls.append(Span(call.moment, self.clock, call.line.service, call.line.number))
        self.hold_off(self.clock[0] - call.moment[0] - 1, f"{call.line.service} of {task.name}", call.line.raw + 1)
        return call.line

    def hold_off(self, length: int, what: str, since: int) -> None:
        if length > self.made.held_off.length:
            self.made.held_off = Held(length, what, since)

    def end_unit(self, line: Line, what: str) -> None:
        """A unit of the tick task or the timer task is over. The quiet actions before it, a callback's instructions, did one
        raw step and one task step each; the other raw steps are the unit's."""
        length = self.own_raw() - (self.clock[1] - self.own_since[1])
        if line.kind == "tmr" and self.callbacks:
            length -= 2                     # the end of the work for the signal before, which is not printed
        self.hold_off(length, what, self.clock[0] - length)
        self.acted()

    # ------------------------------------------------------------------------------------------------ lines of tasks

    def on_start(self, line: Line) -> None:
        self.current = line.task
        task = self.task(line.task)
        task.off_since, task.runs = None, 1
        self.mark(line)

    def on_call(self, line: Line) -> None:
        task = self.task(self.current)
        if task.open_call or task.wait:
            raise BadInput(line.number, f"{line.task} did not get the answer of its last call")
        task.open_call = Mark((line.raw, line.step), line)
        self.acted()
        self.mark(line)

    def on_ret(self, line: Line) -> None:
        task = self.task(self.current)
        asked = task.open_call.line.service if task.open_call else task.wait.service if task.wait else ""
        if asked != line.service:
            raise BadInput(line.number, f"{line.task} did not call {line.service}")
        if task.open_call:
            call = self.end_call(task)
            self.answered(call, line)
        else:
            self.end_wait(task, line)
        self.acted()
        self.mark(line)

    def answered(self, call: Line, line: Line) -> None:
        """What the answer of a call tells of other tasks and of the lock."""
        if line.service == "OSSchedLock" and line.error == NONE:
            self.lock += 1
        elif line.service == "OSSchedUnlock" and line.error == NONE:
            self.lock = 0
        elif line.service == "OSSchedUnlock" and line.error == "OS_ERR_SCHED_LOCKED":
            self.lock -= 1
        if line.error == NONE:
            self.note(call.service, call.args, line.value)

    def note(self, service: str, args: Tuple[int, ...], value: int) -> None:
        self.wakers.add(self.clock, service, args, value)
        if service == "OSTimeTick":
            self.signals += 1

    def on_wait(self, line: Line) -> None:
        task = self.task(self.current)
        if not task.open_call or task.open_call.line.service != line.service:
            raise BadInput(line.number, f"{line.task} did not call {line.service}")
        call = self.end_call(task)
        task.wait = Wait(self.clock, line.service, call.args, self.wakers.count)
        task.off_since = self.clock
        task.waits += 1
        self.acted()
        self.mark(line)

    def on_gone(self, line: Line) -> None:
        task = self.task(self.current)
        if not task.open_call:
            raise BadInput(line.number, f"{line.task} called nothing")
        self.end_call(task)
        self.stop(task, line)

    def stop(self, task: Task, line: Line) -> None:
        task.stopped, task.off_since = True, self.clock
        self.acted()
        self.mark(line)

    def on_trap(self, line: Line) -> None:
        if self.current == TMR and self.callbacks:
            self.lock = 1
            self.acted()
            self.mark(line)
        else:
            self.lock = 0
            self.stop(self.task(self.current), line)

    def on_st(self, line: Line) -> None:
        if line.vector is None:
            self.acted()
            self.mark(line)
        else:
            self.frame_mark(line)

    def on_tick(self, line: Line) -> None:
        self.end_unit(line, "the tick task")
        self.signals -= 1
        self.wakers.tick(self.clock, line.value)
        self.mark(line)

    def on_tmr(self, line: Line) -> None:
        self.end_unit(line, "the timer task")
        self.lock, self.callbacks, self.timer_count = 1, True, line.value
        self.mark(line)

    def on_fire(self, line: Line) -> None:
        self.end_unit(line, "the timer task")
        self.mark(line)

    # -------------------------------------------------------------------------------- interrupt code and the handler

    def on_irq(self, line: Line) -> None:
        if self.frames and self.frames[-1].level >= line.level:
            raise BadInput(line.number, "its level is not above that of the interrupt code that runs")
        vector = self.made.vectors.setdefault(line.vector, Vector(line.vector, line.level))
        if vector.level != line.level:
            raise BadInput(line.number, f"vector {line.vector} had another level before")
        vector.entries += 1
        self.made.levels.setdefault(line.level, Level(line.level)).marks.append(Mark(self.clock, line))
        self.last_irq = self.clock
        if self.is_run:
            self.frames.append(Frame(line.vector, line.level, self.clock))

    def frame_mark(self, line: Line) -> None:
        vector = self.made.vectors.get(line.vector)
        if vector is None:
            raise BadInput(line.number, f"vector {line.vector} did not enter before")
        self.made.levels[vector.level].marks.append(Mark((line.raw, line.step), line))

    def on_post(self, line: Line) -> None:
        self.made.vectors[line.vector].posts += 1
        self.frame_mark(line)
        if line.error != NONE:
            return
        if self.deferred:
            self.queued += 1
        else:
            self.note(line.service, line.args, line.value)

    def on_icall(self, line: Line) -> None:
        self.frame_mark(line)

    def on_exit(self, line: Line) -> None:
        self.frame_mark(line)
        self.leave()

    def leave(self) -> None:
        frame = self.frames.pop()
        self.made.levels[frame.level].spans.append(Span(frame.start, self.clock, FRAME, frame.vector))
        vector = self.made.vectors[frame.vector]
        vector.longest = max(vector.longest, self.clock[0] - frame.start[0])

    def on_take(self, line: Line) -> None:
        if self.taking is None and self.callbacks and self.queued and self.current == TMR and not self.frames:
            self.split_for_take()
        if self.taking is None or self.frames:
            raise BadInput(line.number, "no post can be taken here")
        self.made.takes.append(Span(self.taking, self.clock, TAKE, line.number))
        self.made.take_marks.append(Mark((line.raw, line.step), line))
        self.taking = None
        self.queued -= 1
        if line.error == NONE:
            self.note(line.service, line.args, line.value)

    def split_for_take(self) -> None:
        """The last unit of the timer task has no line; behind it the raw steps are those of the take. Before it a callback's
        instructions did one raw step and one task step each."""
        rest = self.clock[1] - self.own_since[1] - 1 + LAST_UNIT
        if self.signalled(self.task(TMR), self.clock) is None:
            rest += WAITING
        self.lock, self.callbacks = 0, False
        for piece in self.own:
            length = piece.end[0] - piece.start[0]
            if length <= rest:
                rest -= length
                continue
            middle = (piece.start[0] + rest, self.clock[1])
            self.made.pieces.append(Piece(middle, piece.end, HANDLER, TMR))
            piece.end = middle
            if self.taking is None:
                self.taking = middle
            rest = 0
        self.acted()

    def on_look(self, line: Line) -> None:
        self.mark(line)

    def on_end(self, line: Line) -> None:
        self.made.end = self.clock

    # ------------------------------------------------------------------------------------------------------- switches

    def on_sw(self, line: Line) -> None:
        """A switch takes effect behind its event. It stands behind the event's own line, which has the same counts; only the
        timer task's last unit, and in a history an exit or a take, has no line of its own."""
        if not self.same_event(line):
            self.quiet(line)
            if self.is_run or line.task == TMR and self.callbacks and self.later_step > line.step:
                self.last_unit(line)
        if line.task != self.current or self.frames or self.taking is not None:
            raise BadInput(line.number, f"{line.task} is not the current task here")
        self.switch_out(self.task(line.task))
        self.current = line.to
        self.switch_in(self.task(line.to))
        self.acted()
        self.mark(line)

    def same_event(self, line: Line) -> bool:
        before = self.before
        if before is None or before.kind not in SWITCHING or (before.raw, before.step) != (line.raw, line.step):
            return False
        return not (before.kind == "exit" and before.how == "limit" and self.deferred)

    def last_unit(self, line: Line) -> None:
        """The timer task's last unit for a signal: it ends the lock."""
        if line.task != TMR or self.current != TMR:
            raise BadInput(line.number, "a switch stands behind the line of its event")
        self.spend((1, 1))
        self.end_unit(line, "the timer task")
        self.lock, self.callbacks = 0, False

    # ---------------------------------------------------------------------------------------------------- the end

    def finish(self) -> Schedule:
        made = self.made
        for frame in list(self.frames):
            self.leave()
        for task in made.tasks.values():
            self.close(task)
        for piece in sorted(made.pieces, key=lambda piece: piece.start):
            self.lay(piece)
        for task in made.tasks.values():
            task.spans.sort()
        for level in made.levels.values():
            level.spans.sort(key=lambda span: (span.start, span.what == TOP))
        return made

    def close(self, task: Task) -> None:
        """What a task that is off, or in a call, is at the end."""
        if task.open_call:
            task.calls.append(Span(task.open_call.moment, self.clock, task.open_call.line.service,
                                   task.open_call.line.number))
        if task.window:
            self.span(task, *task.window, WAIT)
        if task.off_since is not None:
            since = task.off_since
            if task.wait is SIGNAL:
                since = max(since, self.signalled(task, since) or self.clock)
                self.span(task, task.off_since, since, WAIT)
            waits = task.wait not in (None, SIGNAL) and task.window is None
            state = STOPPED if task.stopped else WAIT if waits else READY
            self.span(task, since, self.clock, state)

    def lay(self, piece: Piece) -> None:
        """A piece goes to the lane of its owner, and as held to that of the current task."""
        made, raw = self.made, piece.end[0] - piece.start[0]
        if piece.current is not None:
            join(made.tasks[piece.current].spans, Span(piece.start, piece.end, HELD))
        if piece.owner == HANDLER:
            made.handler_raw += raw
        elif piece.owner.startswith("#"):
            vector = made.vectors[int(piece.owner[1:])]
            vector.raw += raw
            made.levels[vector.level].spans.append(Span(piece.start, piece.end, TOP, vector.number))
        else:
            task = made.tasks[piece.owner]
            task.raw += raw
            join(task.spans, Span(piece.start, piece.end, RUN))


def schedule(lines: List[Line], is_run: bool = True, method: Optional[str] = None,
             told: Callable[[int], None] = lambda count: None) -> Schedule:
    """The schedule of a run or of a history. Raises BadInput at the first line that can not follow those before it."""
    if is_run and method is None:
        method = method_of(lines)
    builder = Builder(is_run, method, timer_division(lines, method == DEFERRED))
    for line, later in zip(lines, lines[1:] + lines[-1:]):
        told(line.number)
        builder.later_step = later.step
        builder.feed(line)
    return builder.finish()
