"""A VCD file (value change dump, IEEE 1364) as GTKWave and Surfer read it: strings for the state of each task and the service
that it calls, the vector on each interrupt level, the handler. A raw step, in a history a task step, is a nanosecond."""
from typing import Iterable, Iterator, List, TextIO, Tuple

from .lanes import FRAME, Schedule, Span
from .parts import Parts, levels_in_order, tasks_in_order

NOTHING = "-"
FIRST_ID, IDS = 33, 94                  # an identifier is of printable characters


class Changes:
    """The declared variables and all changes of their values."""

    def __init__(self):
        self.header: List[str] = []
        self.changes: List[Tuple[int, str]] = []        # time, text; of a variable in order
        self.count = 0

    def declare(self, kind: str, width: int, name: str) -> str:
        """A new variable; answers its identifier."""
        number, found = self.count, ""
        self.count += 1
        while not found or number:
            number, digit = divmod(number, IDS)
            found += chr(FIRST_ID + digit)
        self.header.append(f"$var {kind} {width} {found} {name} $end")
        return found

    def at(self, time: int, text: str) -> None:
        self.changes.append((time, text))

    def strings(self, name: str, values: Iterable[Tuple[Span, str]]) -> None:
        """A variable that has these values in these spans, one after the other, and else none."""
        identifier = self.declare("string", 1, name)
        before = 0
        for span, value in values:
            if span.start[0] > before:
                self.at(before, f"s{NOTHING} {identifier}")
            self.at(span.start[0], f"s{value} {identifier}")
            before = span.end[0]
        self.at(before, f"s{NOTHING} {identifier}")

    def counts(self, name: str, values: Iterable[Tuple[int, int]]) -> None:
        """A number that changes at these times."""
        identifier = self.declare("integer", 32, name)
        for time, value in values:
            self.at(time, f"b{value:b} {identifier}")


def declare_all(title: str, made: Schedule, found: Changes) -> None:
    found.header.append(f"$scope module {title} $end")
    found.counts("task_steps", sorted({piece.end for piece in made.pieces} | {(0, 0)}))
    for number in levels_in_order(made):
        spans = made.levels[number].spans
        found.strings(f"level_{number}", ((span, f"vector_{span.line}") for span in spans if span.what == FRAME))
    if made.takes:
        found.strings("handler", ((span, span.what) for span in made.takes))
    for task in tasks_in_order(made):
        found.header.append(f"$scope module {task.name} $end")
        found.strings("state", ((span, span.what) for span in task.spans))
        if task.calls:
            found.strings("call", ((span, span.what) for span in task.calls))
        found.header.append("$upscope $end")
    found.header.append("$upscope $end")


def vcd_lines(parts: Parts) -> Iterator[str]:
    found = Changes()
    for title, made in parts.schedules:
        declare_all(title, made, found)
    yield "$timescale 1 ns $end"
    yield from found.header
    yield "$enddefinitions $end"
    now = -1
    for time, text in sorted(found.changes, key=lambda change: change[0]):
        if time != now:
            now = time
            yield f"#{time}"
        yield text
    last = max(made.end[0] for _, made in parts.schedules)
    if last != now:
        yield f"#{last}"


def write_waveform(parts: Parts, out: TextIO) -> None:
    for line in vcd_lines(parts):
        out.write(line + "\n")
