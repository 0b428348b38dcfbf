"""What a schedule is made of: spans and marks on lanes, and counts.

Time is counted in moments, the raw steps and the task steps that are done; in a history, which has task steps alone, both are the
task steps. A span goes from one moment to a later one.
"""
from typing import Dict, List, NamedTuple, Optional, Tuple

from .lines import Line
from .waking import Moment, Wait

HANDLER = "#handler"                    # no task has such a name
TICK, TMR, IDLE = "tick", "tmr", "idle"
DIRECT, DEFERRED = "direct", "deferred"
RUN, HELD, READY, WAIT, STOPPED = "run", "held", "ready", "wait", "stopped"
FRAME, TOP, TAKE = "frame", "top", "take"
SIGNAL = Wait((0, 0), "signal", (), 0)  # the tick task and the timer task wait for a signal


class Span(NamedTuple):
    start: Moment
    end: Moment
    what: str           # the state; of a call its service
    line: int = 0       # of a call or a take its line


class Mark(NamedTuple):
    moment: Moment
    line: Line


class Task:
    """A task's lane and counts."""

    def __init__(self, name: str):
        self.name = name
        self.spans: List[Span] = []
        self.calls: List[Span] = []
        self.marks: List[Mark] = []
        self.steps = self.raw = self.waits = self.runs = 0
        self.longest_ready = self.longest_woken = 0
        self.off_since: Optional[Moment] = (0, 0)       # not running since then
        self.wait: Optional[Wait] = SIGNAL if name in (TICK, TMR) else None
        self.window: Optional[Tuple[Moment, Moment]] = None     # of a wait that ended: off since, runs again
        self.open_call: Optional[Mark] = None
        self.stopped = False


class Vector:
    """A vector's counts."""

    def __init__(self, number: int, level: int):
        self.number, self.level = number, level
        self.entries = self.raw = self.posts = self.longest = 0


class Level:
    """The lane of an interrupt level."""

    def __init__(self, level: int):
        self.level = level
        self.spans: List[Span] = []
        self.marks: List[Mark] = []


class Frame:
    def __init__(self, vector: int, level: int, start: Moment):
        self.vector, self.level, self.start = vector, level, start


class Piece:
    """Raw steps that one owner did: a task by its name, HANDLER, or `#` and a vector. `current` is the current task where it
    is not the owner and could run."""
    __slots__ = ("start", "end", "owner", "current")

    def __init__(self, start: Moment, end: Moment, owner: str, current: Optional[str]):
        self.start, self.end, self.owner, self.current = start, end, owner, current


class Held(NamedTuple):
    """Interrupts were held off for so many raw steps, by a service or unit that began there."""
    length: int
    what: str
    since: int


class Schedule:
    """All lanes and counts."""

    def __init__(self, is_run: bool, method: Optional[str]):
        self.is_run, self.method = is_run, method
        self.tasks: Dict[str, Task] = {}
        self.vectors: Dict[int, Vector] = {}
        self.levels: Dict[int, Level] = {}
        self.takes: List[Span] = []
        self.take_marks: List[Mark] = []
        self.handler_raw = 0
        self.pieces: List[Piece] = []
        self.held_off = Held(0, "", 0)
        self.end: Moment = (0, 0)
        self.lines: List[Line] = []


def join(spans: List[Span], span: Span) -> None:
    """The span is added, as one with the last where that goes on in it."""
    if spans and (spans[-1].end, spans[-1].what) == (span.start, span.what):
        span = span._replace(start=spans.pop().start)
    spans.append(span)
