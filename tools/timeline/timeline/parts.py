"""What all outputs are made of: one part for a run, and one for each method of `both`."""
from itertools import zip_longest
from typing import Callable, List, NamedTuple, Optional, Tuple

from .lanes import DEFERRED, DIRECT, IDLE, Schedule, Task
from .lines import Both, Line
from .schedule import schedule


class Difference(NamedTuple):
    """Where two histories differ first: the task steps, and the line of each, or None behind its end."""
    step: int
    direct: Optional[Line]
    deferred: Optional[Line]


class Parts(NamedTuple):
    schedules: List[Tuple[str, Schedule]]       # each with its title
    premises: List[str]                         # of `both`
    raw: Optional[Tuple[int, int]]              # of `both`
    difference: Optional[Difference]


def first_difference(direct: List[Line], deferred: List[Line]) -> Optional[Difference]:
    for one, other in zip_longest(direct, deferred):
        if one is None or other is None or (one.step, one.text) != (other.step, other.text):
            return Difference(min(line.step for line in (one, other) if line is not None), one, other)
    return None


def parts_of(found, method: Optional[str], told: Callable[[int], None]) -> Parts:
    """The parts of what `read_input` answered."""
    if not isinstance(found, Both):
        made = schedule(found, True, method, told)
        return Parts([("run", made)], [], None, None)
    schedules = [(DIRECT, schedule(found.direct, False, DIRECT, told)),
                 (DEFERRED, schedule(found.deferred, False, DEFERRED, told))]
    return Parts(schedules, found.premises, found.raw, first_difference(found.direct, found.deferred))


def tasks_in_order(made: Schedule) -> List[Task]:
    """The tasks as they came, the idle task last."""
    return sorted(made.tasks.values(), key=lambda task: task.name == IDLE)


def levels_in_order(made: Schedule) -> List[int]:
    """The highest first."""
    return sorted(made.levels, reverse=True)
