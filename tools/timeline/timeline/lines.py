"""The printed lines: what each says, word by word, and which lines make a run or the output of `both`.

A line of a run is `S T TEXT`, with the raw steps and the task steps before the event; a line of a history is `T TEXT`.
"""
import re
from typing import Callable, Dict, Iterable, List, NamedTuple, Optional, Tuple

NAME = re.compile(r"[A-Za-z_][A-Za-z0-9_]{0,15}")
NUMBER = re.compile(r"0|[1-9][0-9]*")
SERVICE = re.compile(r"OS[A-Za-z]+|0|[1-9][0-9]*")
ERROR = re.compile(r"(OS_)?ERR_[A-Z0-9_]+")
ENTRY = re.compile(r"0|1:[0-9]+:[0-9]+")
PREMISE_LINE = re.compile(r"P([1-5]) (?:held|broken [0-9]+)")
RAW_LINE = re.compile(r"raw ([0-9]+) ([0-9]+)")
TRAP_KINDS = ("illegal", "break", "jump", "fetch", "load", "store")
WIDTHS = ("1", "2", "4")


class BadInput(Exception):
    """The input is at fault at the line of that number, counted from 1."""

    def __init__(self, number: int, reason: str):
        super().__init__(f"line {number}: {reason}")
        self.number = number


class BadWords(Exception):
    """The words are those of no line."""


class Line(NamedTuple):
    """One line. Fields that its kind does not have keep their defaults."""
    number: int                     # its place in the input, from 1
    raw: int                        # raw steps before the event; in a history the task steps
    step: int                       # task steps before the event
    kind: str                       # the first word of TEXT
    text: str                       # TEXT
    task: str = ""                  # the task that the line names; of `sw` the one before
    to: str = ""                    # of `sw` the task behind
    vector: Optional[int] = None    # of interrupt code
    level: int = 0                  # of `irq`
    service: str = ""
    args: Tuple[int, ...] = ()
    error: str = ""
    value: int = 0                  # of an answer, a store's, or a count
    size: Optional[int] = None      # of a message
    how: str = ""                   # of `exit`: ret, limit or trap


class Both(NamedTuple):
    """The output of `both`."""
    direct: List[Line]
    deferred: List[Line]
    premises: List[str]
    raw: Tuple[int, int]            # raw steps at the end of each


# ---------------------------------------------------------------------------------------------------- single words

def number(word: str) -> int:
    if not NUMBER.fullmatch(word):
        raise BadWords
    return int(word)


def such(pattern, word: str) -> str:
    if not pattern.fullmatch(word):
        raise BadWords
    return word


def one_of(words: Iterable[str], word: str) -> str:
    if word not in words:
        raise BadWords
    return word


# ------------------------------------------------------------------------------------------------------------ texts

def read_start(words: List[str]) -> Dict:
    task, = words
    return {"task": such(NAME, task)}


def read_call(words: List[str]) -> Dict:
    task, service, *args = words
    if len(args) > 4:
        raise BadWords
    return {"task": such(NAME, task), "service": such(SERVICE, service), "args": tuple(map(number, args))}


def read_ret(words: List[str]) -> Dict:
    task, service, error, value, *rest = words
    if "tab" in rest:
        place = rest.index("tab")
        for entry in rest[place + 1:]:
            such(ENTRY, entry)
        rest = rest[:place]
    if len(rest) > 1:
        raise BadWords
    return {"task": such(NAME, task), "service": such(SERVICE, service), "error": such(ERROR, error),
            "value": number(value), "size": number(rest[0]) if rest else None}


def read_wait(words: List[str]) -> Dict:
    task, service = words
    return {"task": such(NAME, task), "service": such(SERVICE, service)}


def read_st(words: List[str]) -> Dict:
    *who, address, width, value = words
    number(address)
    one_of(WIDTHS, width)
    if len(who) == 2 and who[0] == "isr":
        return {"vector": number(who[1]), "value": number(value)}
    task, = who
    return {"task": such(NAME, task), "value": number(value)}


def read_trap(words: List[str]) -> Dict:
    task, kind, pc = words
    one_of(TRAP_KINDS, kind)
    number(pc)
    return {"task": such(NAME, task)}


def read_count(words: List[str]) -> Dict:
    count, = words
    return {"value": number(count)}


def read_irq(words: List[str]) -> Dict:
    vector, level = words
    return {"vector": number(vector), "level": number(level)}


def read_posted(words: List[str]) -> Dict:
    """The words of a post behind the vector: the service, its arguments, and the answer."""
    service, *args, error, value = words
    if len(args) > 4:
        raise BadWords
    return {"service": such(SERVICE, service), "args": tuple(map(number, args)), "error": such(ERROR, error),
            "value": number(value)}


def read_post(words: List[str]) -> Dict:
    return {"vector": number(words[0]), **read_posted(words[1:])}


def read_icall(words: List[str]) -> Dict:
    vector, service, error = words
    return {"vector": number(vector), "service": such(SERVICE, service), "error": such(ERROR, error)}


def read_exit(words: List[str]) -> Dict:
    vector, how, *rest = words
    if how == "trap":
        kind, pc = rest
        one_of(TRAP_KINDS, kind)
        number(pc)
    elif rest:
        raise BadWords
    return {"vector": number(vector), "how": one_of(("ret", "limit", "trap"), how)}


def read_look(words: List[str]) -> Dict:
    name, forward, *rest = words
    if forward != "fwd" or not (NAME.fullmatch(name) or NUMBER.fullmatch(name)) or "back" not in rest:
        raise BadWords
    for word in rest:
        if word != "back":
            number(word)
    if rest.count("back") != 1:
        raise BadWords
    return {}


def read_sw(words: List[str]) -> Dict:
    task, to = words
    return {"task": such(NAME, task), "to": such(NAME, to)}


def read_end(words: List[str]) -> Dict:
    if words:
        raise BadWords
    return {}


IN_HISTORIES: Dict[str, Callable[[List[str]], Dict]] = {
    "start": read_start, "call": read_call, "ret": read_ret, "wait": read_wait, "gone": read_start, "st": read_st,
    "trap": read_trap, "tick": read_count, "tmr": read_count, "fire": read_start, "irq": read_irq, "sw": read_sw,
    "end": read_end}
IN_RUNS: Dict[str, Callable[[List[str]], Dict]] = {
    **IN_HISTORIES, "post": read_post, "icall": read_icall, "exit": read_exit, "take": read_posted, "look": read_look}


def read_text(readers: Dict, place: int, raw: int, step: int, words: List[str]) -> Line:
    """The line with these counts and this TEXT."""
    reader = readers.get(words[0]) if words else None
    if reader is None:
        raise BadWords
    try:
        fields = reader(words[1:])
    except (ValueError, IndexError):                # too many words, or too few
        raise BadWords from None
    return Line(place, raw, step, words[0], " ".join(words), **fields)


def run_line(place: int, text: str) -> Line:
    """`S T TEXT`."""
    words = text.split(" ")
    try:
        if len(words) < 3:
            raise BadWords
        return read_text(IN_RUNS, place, number(words[0]), number(words[1]), words[2:])
    except BadWords:
        raise BadInput(place, f"this is no line of a run: {text[:100]!r}") from None


def history_line(place: int, text: str) -> Line:
    """`T TEXT`."""
    words = text.split(" ")
    try:
        step = number(words[0])
        return read_text(IN_HISTORIES, place, step, step, words[1:])
    except BadWords:
        raise BadInput(place, f"this is no line of a history: {text[:100]!r}") from None


# ----------------------------------------------------------------------------------------------------- whole inputs

class Reader:
    """The lines of an input in turn. `told` is called with the number of lines read, now and then."""

    def __init__(self, lines: Iterable[str], told: Callable[[int], None] = lambda count: None):
        self.lines, self.told, self.place = iter(lines), told, 0

    def next(self) -> Optional[str]:
        """The next line without its end, or None behind the last."""
        line = next(self.lines, None)
        self.place += 1
        if line is None:
            return None
        self.told(self.place)
        return line[:-1] if line.endswith("\n") else line

    def up_to_end(self, read: Callable[[int, str], Line], first: Optional[str] = None) -> List[Line]:
        """The lines up to `end`, the text `first` before those that are not read yet."""
        found = []
        while not found or found[-1].kind != "end":
            text = self.next() if first is None else first
            first = None
            if text is None:
                raise BadInput(self.place, "the text stops before the line `end`")
            found.append(read(self.place, text))
        return found

    def nothing_more(self) -> None:
        if self.next() is not None:
            raise BadInput(self.place, "nothing stands behind the end")


def read_premises(reader: Reader) -> Tuple[List[str], Tuple[int, int]]:
    """Four or five premise lines, and the two numbers of the line `raw` behind them."""
    premises: List[str] = []
    while True:
        text = reader.next() or ""
        raw = RAW_LINE.fullmatch(text)
        if raw and len(premises) in (4, 5):
            return premises, (int(raw.group(1)), int(raw.group(2)))
        premise = PREMISE_LINE.fullmatch(text)
        if premise is None or int(premise.group(1)) != len(premises) + 1:
            raise BadInput(reader.place, f"this is neither the line of premise P{len(premises) + 1} nor `raw D E`")
        premises.append(text)


def read_both(reader: Reader) -> Both:
    """What stands behind `method direct`."""
    direct = reader.up_to_end(history_line)
    text = reader.next()
    if text != "method deferred":
        raise BadInput(reader.place, "`method deferred` should stand here")
    deferred = reader.up_to_end(history_line)
    premises, raw = read_premises(reader)
    reader.nothing_more()
    return Both(direct, deferred, premises, raw)


def read_input(lines: Iterable[str], told: Callable[[int], None] = lambda count: None):
    """A printed run as a list of its lines, or the output of `both`. Raises BadInput at the first line at fault."""
    reader = Reader(lines, told)
    first = reader.next()
    if first is None:
        raise BadInput(1, "the text is empty")
    if first == "method direct":
        return read_both(reader)
    found = reader.up_to_end(run_line, first)
    reader.nothing_more()
    return found
