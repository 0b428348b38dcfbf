"""Tests: `python3 -m unittest discover -s tools/timeline` at the top of the repository."""
from pathlib import Path

from timeline.lines import read_input

DATA = Path(__file__).with_name("data")
RUNS = ["behind_timer", "data_ready", "delay", "multi", "mutex", "nested", "taken", "timer", "trapped"]
BOTHS = ["differs", "equal"]


def read(name: str):
    """What a file of data/ holds."""
    with open(DATA / name, encoding="ascii") as lines:
        return read_input(lines)
