"""What ended a wait. No line says which event made a waiting task ready: the answer that the task gets tells its kind, and the
lines between the wait and the answer tell the moment."""
from bisect import bisect_right
from typing import Dict, List, NamedTuple, Optional, Tuple

Moment = Tuple[int, int]                # raw steps, task steps
NONE, ABORT, DELETED, TIMEOUT = "OS_ERR_NONE", "OS_ERR_PEND_ABORT", "OS_ERR_OBJ_DEL", "OS_ERR_TIMEOUT"
# The service that waits: the family of services that end the wait, whether the first argument names the object, and the
# places of the timeout and of the option among the arguments.
PENDS = {"OSSemPend": ("OSSem", True, 1), "OSQPend": ("OSQ", True, 1), "OSFlagPend": ("OSFlag", True, 2),
         "OSMutexPend": ("OSMutex", True, 1), "OSTaskSemPend": ("OSTaskSem", False, 0),
         "OSTaskQPend": ("OSTaskQ", False, 0), "OSPendMulti": ("OSSem OSQ", False, 2)}
ENDINGS = {NONE: "Post", ABORT: "PendAbort", DELETED: "Del"}
WORD = 2 ** 32


class Wait(NamedTuple):
    """A task waits since that moment, in that service, when the tick counter had that value."""
    since: Moment
    service: str
    args: Tuple[int, ...]
    ticks: int


class Waker:
    """A successful call or post that may have readied a task, with the moment when it took effect."""

    def __init__(self, moment: Moment, service: str, args: Tuple[int, ...], value: int):
        self.moment, self.service, self.args, self.value = moment, service, args, value
        self.used = False

    def option(self) -> int:
        return self.args[-1] if self.args else 0

    def wakes_all(self) -> bool:
        if self.service == "OSSemPost" or self.service == "OSQPost":
            return self.option() & 2 != 0
        return self.service == "OSFlagPost" or self.service.endswith("Del") or (
            self.service.endswith("PendAbort") and self.option() & 1 != 0)


def flags_allow(bits: int, mask: int, option: int) -> bool:
    """The condition of OSFlagPend: bits 0 and 1 of the option are all set, any set, all clear, any clear."""
    seen = bits & mask if option & 2 == 0 else ~bits & mask
    return seen != 0 if option & 1 else seen == mask


class Wakers:
    """All that happened so far which can end a wait, in order."""

    def __init__(self):
        self.by_service: Dict[Tuple[str, Optional[int]], Tuple[List[Moment], List[Waker]]] = {}
        self.ticks: List[Moment] = []           # of each `tick` line, when it took effect
        self.counts: List[int] = []             # what the line said
        self.count = 0

    def add(self, moment: Moment, service: str, args: Tuple[int, ...], value: int) -> None:
        """A call or a post of interrupt code, or the handler's, that was answered OS_ERR_NONE."""
        waker = Waker(moment, service, args, value)
        for key in {(service, args[0] if args else None), (service, None)}:
            moments, wakers = self.by_service.setdefault(key, ([], []))
            moments.append(moment)
            wakers.append(waker)

    def tick(self, moment: Moment, count: int) -> None:
        self.ticks.append(moment)
        self.counts.append(count)
        self.count = count

    def first_after(self, since: Moment, service: str) -> Optional[Moment]:
        """When that service was first called behind the moment."""
        moments, _ = self.by_service.get((service, None), ([], []))
        place = bisect_right(moments, since)
        return moments[place] if place < len(moments) else None

    def nth(self, service: str, count: int) -> Optional[Moment]:
        """When that service was called for the count-th time, from 1; None where it was not yet."""
        moments, _ = self.by_service.get((service, None), ([], []))
        return moments[count - 1] if count <= len(moments) else None

    def end_of(self, wait: Wait, error: str, value: int, size: Optional[int], until: Moment) -> Optional[Moment]:
        """When the wait that was answered so ended, at `until` or before; None where no line tells."""
        if wait.service == "OSTimeDly":
            return self.end_of_delay(wait, until)
        if wait.service == "OSTaskSuspend":
            return self.claim(wait, [("OSTaskResume", None)], until, lambda waker: True)
        family, names_object, timeout = PENDS.get(wait.service, ("", False, 0))
        if error == TIMEOUT:
            return self.at_tick(wait, wait.args[timeout], until) if len(wait.args) > timeout else None
        if error not in ENDINGS:
            return None
        wanted = wait.args[0] if names_object and wait.args else None
        keys = [(name + ENDINGS[error], wanted) for name in family.split()]
        return self.claim(wait, keys, until, lambda waker: self.fits(waker, wait, error, value, size))

    def fits(self, waker: Waker, wait: Wait, error: str, value: int, size: Optional[int]) -> bool:
        """The waker can have given this answer."""
        if error != NONE:
            return True
        if waker.service in ("OSSemPost", "OSTaskSemPost"):
            return waker.value == 0                     # a count that rose woke nobody
        if wait.service in ("OSQPend", "OSTaskQPend") and len(waker.args) > 2:
            return waker.args[1:3] == (value, size)
        if wait.service == "OSFlagPend" and len(wait.args) > 3:
            return flags_allow(waker.value, wait.args[1], wait.args[3])
        return True

    def claim(self, wait: Wait, keys, until: Moment, fits) -> Optional[Moment]:
        """The first fitting event behind the wait; one that wakes a single task is used up by it."""
        found = None
        for key in keys:
            moments, wakers = self.by_service.get(key, ([], []))
            for place in range(bisect_right(moments, wait.since), bisect_right(moments, until)):
                waker = wakers[place]
                if not waker.used and fits(waker):
                    if found is None or waker.moment < found.moment:
                        found = waker
                    break
        if found is None:
            return None
        found.used = not found.wakes_all()
        return found.moment

    def end_of_delay(self, wait: Wait, until: Moment) -> Optional[Moment]:
        delay, option = (wait.args + (0, 0))[:2]
        due = self.at_tick(wait, delay if option == 0 else delay - wait.ticks, until)
        if due is not None:
            return due
        return self.claim(wait, [("OSTimeDlyResume", None)], until, lambda waker: True)

    def at_tick(self, wait: Wait, ticks: int, until: Moment) -> Optional[Moment]:
        """When the tick counter came to so many behind the wait."""
        wanted = (wait.ticks + ticks) % WORD
        for place in range(bisect_right(self.ticks, wait.since), bisect_right(self.ticks, until)):
            if self.counts[place] == wanted:
                return self.ticks[place]
        return None
