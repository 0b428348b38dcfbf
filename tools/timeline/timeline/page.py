"""The HTML page: page.html with the data of the parts in it."""
import json
from pathlib import Path
from typing import Dict, Iterable, List, TextIO

from .lanes import FRAME, HELD, READY, RUN, STOPPED, TAKE, TOP, WAIT, Mark, Schedule, Span
from .parts import Parts, levels_in_order, tasks_in_order

STATES = [RUN, HELD, READY, WAIT, STOPPED, FRAME, TOP, TAKE]        # the page has them in this order
MARKS = ["start", "post", "take", "st", "tick", "tmr", "fire", "irq", "exit", "icall", "look", "trap", "gone", "call", "ret",
         "wait", "sw"]
TEMPLATE = Path(__file__).with_name("page.html")


def numbers_of_spans(spans: Iterable[Span]) -> List[int]:
    """Five numbers a span."""
    found: List[int] = []
    for span in spans:
        found += (*span.start, *span.end, STATES.index(span.what))
    return found


def numbers_of_calls(spans: Iterable[Span]) -> List[int]:
    """Five numbers a call, the last its line."""
    found: List[int] = []
    for span in spans:
        found += (*span.start, *span.end, span.line)
    return found


def numbers_of_marks(marks: Iterable[Mark]) -> List[int]:
    """Four numbers a mark: the moment, the kind and the line. A task's call of a post is a post too."""
    found: List[int] = []
    for moment, line in marks:
        kind = "post" if line.kind == "call" and line.service.endswith("Post") else line.kind
        found += (*moment, MARKS.index(kind), line.number)
    return found


def lane(name: str, spans: List[Span], calls: List[Span], marks: List[Mark]) -> Dict:
    return {"name": name, "spans": numbers_of_spans(spans), "calls": numbers_of_calls(calls), "marks": numbers_of_marks(marks)}


def lanes_of(made: Schedule) -> List[Dict]:
    lanes = []
    for number in levels_in_order(made):
        level = made.levels[number]
        frames = [span for span in level.spans if span.what == FRAME]
        lanes.append(lane(f"level {number}", frames, [], level.marks))
        lanes[-1]["tops"] = numbers_of_spans(span for span in level.spans if span.what == TOP)
    if made.takes:
        lanes.append(lane("handler", made.takes, [], made.take_marks))
    lanes += [lane(task.name, task.spans, task.calls, task.marks) for task in tasks_in_order(made)]
    return lanes


def data_of(parts: Parts) -> Dict:
    """What the page shows; its lines by their numbers."""
    panels, lines = [], {}
    for title, made in parts.schedules:
        panels.append({"title": title, "lanes": lanes_of(made), "end": made.end})
        lines.update((line.number, line) for line in made.lines)
    shown = [""] * (max(lines) + 1)
    is_run = parts.raw is None
    for number, line in lines.items():
        counts = f"{line.raw} {line.step}" if is_run else f"{line.step}"
        shown[number] = f"{counts} {line.text}"
    difference = parts.difference
    differs = None if difference is None else {
        "step": difference.step,
        "lines": [line.number if line is not None else 0 for line in (difference.direct, difference.deferred)]}
    return {"panels": panels, "lines": shown, "raw": is_run, "differs": differs, "both": parts.raw is not None}


def write_page(parts: Parts, out: TextIO) -> None:
    before, after = TEMPLATE.read_text(encoding="ascii").split("/*DATA*/null")
    out.write(before)
    out.write(json.dumps(data_of(parts), separators=(",", ":")).replace("<", "\\u003c"))
    out.write(after)
