"""Which lines are read, and as what."""
import unittest

from timeline.lines import BadInput, Both, history_line, read_input, run_line

from . import BOTHS, RUNS, read

# Each TEXT with the fields that matter.
TEXTS = [
    ("start a", {"task": "a"}),
    ("call a OSSemPend 0 1 0", {"task": "a", "service": "OSSemPend", "args": (0, 1, 0)}),
    ("call a OSSchedLock", {"service": "OSSchedLock", "args": ()}),
    ("call a 4294967295", {"service": "4294967295", "args": ()}),
    ("ret a OSQPend OS_ERR_NONE 49 4", {"error": "OS_ERR_NONE", "value": 49, "size": 4}),
    ("ret a OSPendMulti OS_ERR_NONE 2 tab 1:0:0 0 1:77:4", {"value": 2, "size": None}),
    ("ret a 99 ERR_CALL_UNKNOWN 0", {"error": "ERR_CALL_UNKNOWN"}),
    ("wait a OSSemPend", {"service": "OSSemPend"}),
    ("gone a", {"task": "a"}),
    ("st a 1048576 4 15", {"task": "a", "vector": None, "value": 15}),
    ("st isr 1048576 4 15", {"task": "isr", "vector": None}),
    ("st isr 3 1048576 1 15", {"task": "", "vector": 3}),
    ("trap a store 12", {"task": "a"}),
    ("tick 7", {"value": 7}),
    ("tmr 7", {"value": 7}),
    ("fire k", {"task": "k"}),
    ("irq 3 2", {"vector": 3, "level": 2}),
    ("post 3 OSQPost 2 9 1 0 OS_ERR_NONE 0", {"vector": 3, "service": "OSQPost", "args": (2, 9, 1, 0)}),
    ("post 3 OSTimeTick OS_ERR_NONE 0", {"args": (), "error": "OS_ERR_NONE"}),
    ("icall 3 OSSemPend OS_ERR_PEND_ISR", {"vector": 3, "error": "OS_ERR_PEND_ISR"}),
    ("exit 3 ret", {"vector": 3, "how": "ret"}),
    ("exit 3 limit", {"how": "limit"}),
    ("exit 3 trap fetch 65536", {"how": "trap"}),
    ("take OSSemPost 0 0 OS_ERR_NONE 1", {"service": "OSSemPost", "args": (0, 0), "value": 1}),
    ("look fwd fwd 1 2 0 back 0 2 1", {}),
    ("look 10 fwd back", {}),
    ("sw a b", {"task": "a", "to": "b"}),
    ("end", {}),
]
BAD_TEXTS = [
    "", "halt", "start", "start a b", "start 3", "start abcdefghijklmnopq", "call a", "call a OSSemPend -1",
    "call a OSSemPend  0", "call a OSSemPend 1 2 3 4 5", "ret a OSSemPend OS_ERR_NONE", "ret a OSSemPend NONE 0",
    "ret a OSQPend OS_ERR_NONE 1 2 3", "ret a OSPendMulti OS_ERR_NONE 1 tab 2:0:0", "wait a", "st a 1048576 3 0",
    "st a 1048576 4", "st isr x 1 4 0", "trap a oops 12", "tick", "tick x", "irq 3", "post 3 OSSemPost 0 0 OS_ERR_NONE",
    "icall 3 OSSemPend", "exit 3", "exit 3 trap", "exit 3 ret 5", "take OS_ERR_NONE 0", "look s fwd 1",
    "look s back fwd", "sw a", "end 1", "start a ", "tick 07",
]


class Texts(unittest.TestCase):
    def test_each_line_is_read(self):
        for text, fields in TEXTS:
            line = run_line(4, f"12 5 {text}")
            self.assertEqual((line.number, line.raw, line.step, line.text), (4, 12, 5, text))
            self.assertEqual({name: getattr(line, name) for name in fields}, fields, text)

    def test_lines_that_histories_do_not_have(self):
        for text, _ in TEXTS:
            if text.split()[0] in ("post", "icall", "exit", "take", "look"):
                self.assertRaises(BadInput, history_line, 1, f"5 {text}")
            else:
                self.assertEqual(history_line(1, f"5 {text}").text, text)

    def test_no_lines(self):
        for text in BAD_TEXTS:
            with self.assertRaises(BadInput, msg=text) as caught:
                run_line(9, f"12 5 {text}")
            self.assertEqual(caught.exception.number, 9)

    def test_counts(self):
        for text in ("x 5 end", "12 end", "end", "12 5", "-1 5 end", "12 05 end", "12  5 end"):
            self.assertRaises(BadInput, run_line, 1, text)


class Inputs(unittest.TestCase):
    def fault(self, text: str) -> int:
        """The number of the line at fault."""
        with self.assertRaises(BadInput) as caught:
            read_input(text.splitlines(keepends=True))
        return caught.exception.number

    def test_runs(self):
        for name in RUNS:
            lines = read(name + ".run")
            self.assertEqual([line.number for line in lines], list(range(1, len(lines) + 1)))
            self.assertEqual(lines[-1].kind, "end")

    def test_both(self):
        for name in BOTHS:
            self.assertIsInstance(read(name + ".both"), Both)
        found = read("differs.both")
        self.assertEqual(found.premises, ["P1 broken 23", "P2 held", "P3 held", "P4 held"])
        self.assertEqual(found.raw, (31, 39))
        self.assertEqual((found.direct[0].number, found.deferred[0].number), (2, 17))

    def test_five_premises(self):
        text = "method direct\n0 end\nmethod deferred\n0 end\n" + "".join(f"P{k} held\n" for k in range(1, 6)) + "raw 0 0\n"
        self.assertEqual(len(read_input(text.splitlines(True)).premises), 5)

    def test_faults(self):
        start = "0 0 start a\n"
        both = "method direct\n0 start a\n1 end\nmethod deferred\n0 start a\n1 end\n"
        premises = "P1 held\nP2 held\nP3 held\nP4 held\n"
        self.assertEqual(self.fault(""), 1)
        self.assertEqual(self.fault("refused 3 A5\n"), 1)
        self.assertEqual(self.fault(start), 2)
        self.assertEqual(self.fault(start + "1 1 oops\n1 1 end\n"), 2)
        self.assertEqual(self.fault(start + "1 1 end\n1 1 end\n"), 3)
        self.assertEqual(self.fault("method direct\n0 start a\n1 1 end\n"), 3)
        self.assertEqual(self.fault("method direct\n0 start a\n1 end\nmethod other\n"), 4)
        self.assertEqual(self.fault(both), 7)
        self.assertEqual(self.fault(both + "P2 held\n"), 7)
        self.assertEqual(self.fault(both + premises), 11)
        self.assertEqual(self.fault(both + premises + "raw 1\n"), 11)
        self.assertEqual(self.fault(both + premises + "raw 1 1\nraw 1 1\n"), 12)


if __name__ == "__main__":
    unittest.main()
