"""The table on the terminal."""
from typing import Iterator, List, Sequence

from .lanes import DEFERRED, IDLE, Schedule
from .parts import Parts, tasks_in_order


def columns(rows: Sequence[Sequence[object]]) -> Iterator[str]:
    """The rows as lines, the first column to the left and the others to the right."""
    texts = [["" if cell is None else str(cell) for cell in row] for row in rows]
    widths = [max(map(len, column)) for column in zip(*texts)]
    for first, *rest in texts:
        cells = [first.ljust(widths[0])] + [cell.rjust(width) for cell, width in zip(rest, widths[1:])]
        yield "  ".join(cells).rstrip()


def task_rows(made: Schedule) -> List[List[object]]:
    rows = [["task", "task steps", "raw steps", "calls", "waits", "runs", "ready to run", "woken to run"]]
    for task in tasks_in_order(made):
        waits = [None, None] if task.name == IDLE else [task.longest_ready, task.longest_woken]
        rows.append([task.name, task.steps, task.raw, len(task.calls), task.waits, task.runs, *waits])
    return rows


def run_rows(made: Schedule) -> List[List[object]]:
    """The tasks of a run, with the raw steps of the others, and the sums."""
    rows = task_rows(made)
    code = sum(vector.raw for vector in made.vectors.values())
    if made.vectors:
        rows.append(["interrupt code", None, code, None, None, None, None, None])
    if made.takes:
        rows.append(["handler", None, made.handler_raw, None, None, None, None, None])
    steps = sum(task.steps for task in made.tasks.values())
    raw = sum(task.raw for task in made.tasks.values()) + code + made.handler_raw
    rows.append(["sum", steps, raw, None, None, None, None, None])
    return rows


def history_rows(made: Schedule) -> List[List[object]]:
    rows = [row[:2] + row[3:] for row in task_rows(made)]
    rows.append(["sum", sum(task.steps for task in made.tasks.values())] + [None] * 5)
    return rows


def vector_rows(made: Schedule) -> List[List[object]]:
    vectors = sorted(made.vectors.values(), key=lambda vector: vector.number)
    if made.is_run:
        rows = [["vector", "level", "entries", "raw steps", "posts", "longest"]]
        return rows + [[v.number, v.level, v.entries, v.raw, v.posts, v.longest] for v in vectors]
    return [["vector", "level", "entries"]] + [[v.number, v.level, v.entries] for v in vectors]


def held_off(made: Schedule) -> str:
    """The longest time that services held interrupts off."""
    if made.method == DEFERRED:
        return "interrupts were held off by no service: posts are deferred"
    unless = "" if made.method else " (no line tells the method; read as direct)"
    held = made.held_off
    if not held.length:
        return f"interrupts were held off by no service{unless}"
    return f"interrupts were held off for at most {held.length} raw steps, by {held.what}, from raw step {held.since}{unless}"


def run_lines(made: Schedule) -> Iterator[str]:
    yield f"{made.end[0]} raw steps, {made.end[1]} task steps"
    yield ""
    yield from columns(run_rows(made))
    if made.vectors:
        yield ""
        yield from columns(vector_rows(made))
    yield ""
    yield held_off(made)


def history_lines(title: str, made: Schedule, raw: int) -> Iterator[str]:
    yield f"method {title}: {raw} raw steps, {made.end[1]} task steps"
    yield ""
    yield from columns(history_rows(made))
    if made.vectors:
        yield ""
        yield from columns(vector_rows(made))
    yield ""


def difference_lines(parts: Parts) -> Iterator[str]:
    if parts.difference is None:
        yield "the histories are equal"
        return
    yield f"the histories differ first at task step {parts.difference.step}"
    for title, line in (("direct", parts.difference.direct), ("deferred", parts.difference.deferred)):
        shown = "(ended)" if line is None else f"{line.step} {line.text}, line {line.number}"
        yield f"  {title + ':':9} {shown}"


def table(parts: Parts) -> Iterator[str]:
    """The lines of the table."""
    if parts.raw is None:
        yield from run_lines(parts.schedules[0][1])
        return
    for (title, made), raw in zip(parts.schedules, parts.raw):
        yield from history_lines(title, made, raw)
    yield from parts.premises
    yield from difference_lines(parts)
