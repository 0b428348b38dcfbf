"""The table, the page, the trace and the waveform, and the command that writes them."""
import contextlib
import io
import json
import tempfile
import unittest
from collections import defaultdict
from pathlib import Path

from timeline.command import LONG, main
from timeline.page import MARKS, STATES, write_page
from timeline.parts import Parts, parts_of
from timeline.table import table
from timeline.trace import write_trace
from timeline.waveform import write_waveform

from . import BOTHS, DATA, RUNS, read

FILES = [name + ".run" for name in RUNS] + [name + ".both" for name in BOTHS]
TABLE = """\
60 raw steps, 32 task steps

task             task steps  raw steps  calls  waits  runs  ready to run  woken to run
reader_task              26         38      2      2     3             1             1
background_task           6          6      0      0     2            20             0
interrupt code                      16
sum                      32         60

vector  level  entries  raw steps  posts  longest
3           2        2         16      2        8

interrupts were held off for at most 6 raw steps, by OSSemPend of reader_task, from raw step 4
"""


def parts(name: str) -> Parts:
    return parts_of(read(name), None, lambda count: None)


def written(write, name: str) -> str:
    out = io.StringIO()
    write(parts(name), out)
    return out.getvalue()


class Tables(unittest.TestCase):
    def test_a_run(self):
        self.assertEqual("".join(line + "\n" for line in table(parts("data_ready.run"))), TABLE)

    def test_both(self):
        lines = list(table(parts("differs.both")))
        self.assertIn("method direct: 31 raw steps, 7 task steps", lines)
        self.assertIn("P1 broken 23", lines)
        self.assertEqual(lines[-3:], ["the histories differ first at task step 5", "  direct:   5 wait c OSSemPend, line 10",
                                      "  deferred: 5 irq 3 2, line 25"])
        self.assertEqual(list(table(parts("equal.both")))[-1], "the histories are equal")


class Traces(unittest.TestCase):
    def test_slices_of_a_thread_follow_one_another(self):
        for name in FILES:
            events = json.loads(written(write_trace, name))["traceEvents"]
            slices = defaultdict(list)
            for event in events:
                if event["ph"] == "X":
                    slices[event["pid"], event["tid"]].append((event["ts"], event["ts"] + event["dur"]))
            for found in slices.values():
                for one, other in zip(sorted(found), sorted(found)[1:]):
                    self.assertLessEqual(one[1], other[0], name)

    def test_running_is_as_long_as_in_the_table(self):
        events = json.loads(written(write_trace, "data_ready.run"))["traceEvents"]
        threads = {event["tid"]: event["args"]["name"] for event in events if event["name"] == "thread_name"}
        runs = defaultdict(int)
        for event in events:
            if event["ph"] == "X" and event["name"] == "run":
                runs[threads[event["tid"]]] += event["dur"]
        self.assertEqual(runs, {"reader_task": 38, "background_task": 6})


class Waveforms(unittest.TestCase):
    def values(self, name: str):
        """The last value of each variable at each time, by its scopes and name."""
        names, scopes, found, time = {}, [], defaultdict(dict), 0
        for line in written(write_waveform, name).splitlines():
            words = line.split()
            if words[0] == "$scope":
                scopes.append(words[2])
            elif words[0] == "$upscope":
                scopes.pop()
            elif words[0] == "$var":
                names[words[3]] = "/".join(scopes + [words[4]])
            elif line[0] == "#":
                self.assertGreater(int(line[1:]) + 1, time)
                time = int(line[1:])
            elif line[0] in "sb":
                found[names[words[1]]][time] = words[0][1:]
        return found

    def test_states(self):
        found = self.values("nested.run")
        self.assertEqual(found["run/b/state"], {0: "run", 8: "wait", 12: "ready", 18: "run", 19: "-"})
        self.assertEqual(found["run/level_1"], {0: "-", 9: "vector_1", 18: "-"})
        self.assertEqual(found["run/b/call"], {0: "-", 1: "OSSemPend", 8: "-"})
        self.assertEqual(found["run/task_steps"][19], "100")

    def test_both(self):
        self.assertIn("deferred/c/state", self.values("differs.both"))


class Pages(unittest.TestCase):
    def data(self, name: str):
        text = written(write_page, name)
        start = text.index("const DATA = ") + len("const DATA = ")
        return json.loads(text[start:text.index(";\n", start)])

    def test_data(self):
        data = self.data("taken.run")
        lanes = {lane["name"]: lane for lane in data["panels"][0]["lanes"]}
        self.assertEqual(list(lanes), ["level 2", "handler", "a", "b", "c"])
        self.assertEqual(lanes["handler"]["spans"], [30, 6, 38, 6, STATES.index("take")])
        self.assertEqual(lanes["level 2"]["marks"][4:8], [24, 5, MARKS.index("post"), 10])
        self.assertEqual(data["lines"][10], "24 5 post 3 OSSemPost 0 0 OS_ERR_NONE 0")
        self.assertEqual(data["panels"][0]["end"], [39, 7])

    def test_both(self):
        data = self.data("differs.both")
        self.assertEqual([panel["title"] for panel in data["panels"]], ["direct", "deferred"])
        self.assertEqual(data["differs"], {"step": 5, "lines": [10, 25]})

    def test_each_mark_has_a_kind(self):
        for name in FILES:
            written(write_page, name)

    def test_needs_nothing_else(self):
        text = written(write_page, "data_ready.run")
        for word in ("http:", "https:", "src=", "@import", "/*DATA*/"):
            self.assertNotIn(word, text)


class Command(unittest.TestCase):
    def run_main(self, *words: str):
        """The status, the standard output and the standard error."""
        out, err = io.StringIO(), io.StringIO()
        with contextlib.redirect_stdout(out), contextlib.redirect_stderr(err):
            status = main(list(words))
        return status, out.getvalue(), err.getvalue()

    def test_all_outputs(self):
        with tempfile.TemporaryDirectory() as folder:
            names = {kind: str(Path(folder) / kind) for kind in ("page", "trace", "waveform")}
            words = [word for kind, name in names.items() for word in ("--" + kind, name)]
            self.assertEqual(self.run_main(str(DATA / "data_ready.run"), *words), (0, TABLE, ""))
            self.assertTrue(all(Path(name).stat().st_size for name in names.values()))

    def test_no_task_step(self):
        with tempfile.TemporaryDirectory() as folder:
            name = Path(folder) / "none.run"
            name.write_text("0 0 end\n", encoding="ascii")
            words = [word for kind in ("page", "trace", "waveform") for word in ("--" + kind, str(Path(folder) / kind))]
            self.assertEqual(self.run_main(str(name), *words)[0], 0)

    def test_no_run(self):
        with tempfile.TemporaryDirectory() as folder:
            name = Path(folder) / "bad.run"
            name.write_text("0 0 start a\n1 1 oops\n2 2 end\n", encoding="ascii")
            status, out, err = self.run_main(str(name))
        self.assertEqual((status, out), (1, ""))
        self.assertTrue(err.startswith("timeline: line 2: this is no line of a run"), err)

    def test_no_file(self):
        self.assertEqual(self.run_main(str(DATA / "absent"))[0], 1)

    def test_long_inputs_show_progress(self):
        with tempfile.TemporaryDirectory() as folder:
            name = Path(folder) / "long.run"
            stores = "".join(f"{k} {k} st a 1048576 4 {k}\n" for k in range(LONG))
            name.write_text(f"0 0 start a\n{stores}{LONG} {LONG} end\n", encoding="ascii")
            status, out, err = self.run_main(str(name))
        self.assertEqual(status, 0)
        self.assertIn(f"{LONG} lines read", err)
        self.assertTrue(out.startswith(f"{LONG} raw steps, {LONG} task steps"))


if __name__ == "__main__":
    unittest.main()
