"""The Chrome trace format, as Perfetto reads it: one process for a run or method, two threads for a task, one for each interrupt
level and one for the handler. A raw step, in a history a task step, is a microsecond."""
import json
from typing import Dict, Iterator, List, TextIO, Tuple

from .lanes import FRAME, Mark, Schedule, Span
from .parts import Parts, levels_in_order, tasks_in_order


def slice_of(place: Tuple[int, int], span: Span, name: str) -> Dict:
    process, thread = place
    return {"ph": "X", "pid": process, "tid": thread, "ts": span.start[0], "dur": span.end[0] - span.start[0], "name": name,
            "args": {"task steps": f"{span.start[1]} to {span.end[1]}"}}


def instant(place: Tuple[int, int], mark: Mark) -> Dict:
    process, thread = place
    return {"ph": "i", "s": "t", "pid": process, "tid": thread, "ts": mark.moment[0], "name": mark.line.kind,
            "args": {"text": mark.line.text, "line": mark.line.number, "task step": mark.moment[1]}}


def named(process: int, thread: int, what: str, name: str) -> Dict:
    return {"ph": "M", "pid": process, "tid": thread, "name": what, "args": {"name": name}}


class Threads:
    """Numbers the threads of a process, and tells their names and order."""

    def __init__(self, process: int):
        self.process, self.count = process, 0
        self.events: List[Dict] = []

    def add(self, name: str) -> Tuple[int, int]:
        self.count += 1
        self.events.append(named(self.process, self.count, "thread_name", name))
        self.events.append({"ph": "M", "pid": self.process, "tid": self.count, "name": "thread_sort_index",
                            "args": {"sort_index": self.count}})
        return self.process, self.count


def events_of(process: int, title: str, made: Schedule) -> Iterator[Dict]:
    yield named(process, 0, "process_name", title)
    threads = Threads(process)
    for number in levels_in_order(made):
        place, level = threads.add(f"level {number}"), made.levels[number]
        yield from (slice_of(place, span, f"vector {span.line}") for span in level.spans if span.what == FRAME)
        yield from (instant(place, mark) for mark in level.marks)
    if made.takes:
        place = threads.add("handler")
        yield from (slice_of(place, span, "take") for span in made.takes)
        yield from (instant(place, mark) for mark in made.take_marks)
    for task in tasks_in_order(made):
        place = threads.add(task.name)
        yield from (slice_of(place, span, span.what) for span in task.spans)
        yield from (instant(place, mark) for mark in task.marks)
        if task.calls:
            place = threads.add(f"{task.name} calls")
            yield from (slice_of(place, span, span.what) for span in task.calls)
    yield from threads.events


def write_trace(parts: Parts, out: TextIO) -> None:
    out.write('{"displayTimeUnit": "ns", "traceEvents": [')
    separator = "\n"
    for process, (title, made) in enumerate(parts.schedules, 1):
        for event in events_of(process, title, made):
            out.write(separator + json.dumps(event))
            separator = ",\n"
    out.write("\n]}\n")
