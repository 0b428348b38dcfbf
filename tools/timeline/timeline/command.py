"""The command: its words, its input, its progress, and its outputs."""
import argparse
import io
import sys
import time
from typing import List, Optional, TextIO

from .lanes import DEFERRED, DIRECT
from .lines import BadInput, read_input
from .page import write_page
from .parts import parts_of
from .table import table
from .trace import write_trace
from .waveform import write_waveform

LONG = 20_000           # lines between two signs of progress


class Progress:
    """Tells on a stream how many lines are done, now and then; nothing of short inputs."""

    def __init__(self, out: TextIO):
        self.out, self.begun = out, time.monotonic()

    def told(self, doing: str):
        def tell(count: int) -> None:
            if count % LONG == 0:
                self.out.write(f"timeline: {count} lines {doing}, {time.monotonic() - self.begun:.1f} s\n")
                self.out.flush()
        return tell


def words_of(argv: List[str]) -> argparse.Namespace:
    parser = argparse.ArgumentParser(
        prog="python3 tools/timeline",
        description="Reads a printed run, or the output of `both`, and writes a table; and a page, a trace or a waveform.")
    parser.add_argument("input", nargs="?", help="the file to read; the standard input where none is named")
    parser.add_argument("--page", metavar="FILE", help="write an HTML page that needs nothing else")
    parser.add_argument("--trace", metavar="FILE", help="write a trace in the Chrome format, for Perfetto")
    parser.add_argument("--waveform", metavar="FILE", help="write a VCD file, for GTKWave or Surfer")
    parser.add_argument("--method", choices=(DIRECT, DEFERRED), help="the method of the run, where its lines do not tell it")
    return parser.parse_args(argv)


def write_file(name: Optional[str], write, parts) -> None:
    if name is not None:
        with open(name, "w", encoding="ascii") as out:
            write(parts, out)


def work(words: argparse.Namespace) -> None:
    progress = Progress(sys.stderr)
    if words.input is None:
        found = read_input(io.TextIOWrapper(sys.stdin.buffer, "ascii", "replace"), progress.told("read"))
    else:
        with open(words.input, encoding="ascii", errors="replace") as lines:
            found = read_input(lines, progress.told("read"))
    parts = parts_of(found, words.method, progress.told("placed"))
    write_file(words.page, write_page, parts)
    write_file(words.trace, write_trace, parts)
    write_file(words.waveform, write_waveform, parts)
    for line in table(parts):
        print(line)


def main(argv: List[str]) -> int:
    """The status: 0 done, 1 where the input is no run or a file fails, 2 where the words are wrong."""
    words = words_of(argv)
    try:
        work(words)
    except (BadInput, OSError) as fault:
        print(f"timeline: {fault}", file=sys.stderr)
        return 1
    return 0
