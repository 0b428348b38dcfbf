"""Who ran when. The expected spans and counts are worked out by hand from the printed lines of data/."""
import unittest

from timeline.lanes import DEFERRED, DIRECT, FRAME, HELD, READY, RUN, STOPPED, TOP, WAIT, Schedule
from timeline.lines import BadInput, Both, history_line, read_input
from timeline.parts import first_difference
from timeline.schedule import schedule
from timeline.waking import flags_allow

from . import BOTHS, RUNS, read


def made_of(name: str) -> Schedule:
    return schedule(read(name + ".run"))


def raw_spans(spans):
    """The raw steps and the state of each span."""
    return [(span.start[0], span.end[0], span.what) for span in spans]


def lines_of(*texts: str):
    return read_input(text + "\n" for text in texts)


class Sums(unittest.TestCase):
    def histories(self):
        for name in BOTHS:
            found = read(name + ".both")
            for lines, method in ((found.direct, DIRECT), (found.deferred, DEFERRED)):
                yield schedule(lines, False, method), lines[-1]

    def test_runs_agree_with_their_end(self):
        for name in RUNS:
            made, lines = made_of(name), read(name + ".run")
            raw = made.handler_raw + sum(lane.raw for lane in [*made.tasks.values(), *made.vectors.values()])
            steps = sum(task.steps for task in made.tasks.values())
            self.assertEqual((raw, steps), (lines[-1].raw, lines[-1].step), name)

    def test_histories_agree_with_their_end(self):
        for made, end in self.histories():
            self.assertEqual(sum(task.steps for task in made.tasks.values()), end.step)

    def test_each_lane_is_whole(self):
        schedules = [made_of(name) for name in RUNS] + [made for made, _ in self.histories()]
        for made in schedules:
            for task in made.tasks.values():
                self.assertEqual(task.spans[0].start, (0, 0))
                self.assertEqual(task.spans[-1].end, made.end)
                for one, other in zip(task.spans, task.spans[1:]):
                    self.assertEqual(one.end, other.start, task.name)

    def test_no_task_step(self):
        made = schedule(lines_of("0 0 end"))
        self.assertEqual((made.end, made.tasks), ((0, 0), {}))

    def test_counts(self):
        made = made_of("data_ready")
        reader, background, vector = made.tasks["reader_task"], made.tasks["background_task"], made.vectors[3]
        self.assertEqual((reader.steps, reader.raw, len(reader.calls), reader.waits, reader.runs), (26, 38, 2, 2, 3))
        self.assertEqual((background.steps, background.raw, len(background.calls)), (6, 6, 0))
        self.assertEqual((vector.entries, vector.raw, vector.posts, vector.longest), (2, 16, 2, 8))


class Lanes(unittest.TestCase):
    def check(self, name: str, task: str, spans):
        self.assertEqual(raw_spans(made_of(name).tasks[task].spans), spans)

    def test_a_post_of_interrupt_code_readies_and_the_exit_switches(self):
        self.check("data_ready", "reader_task", [(0, 10, RUN), (10, 21, WAIT), (21, 22, READY), (22, 42, RUN),
                                                 (42, 51, WAIT), (51, 52, READY), (52, 60, RUN)])
        self.check("data_ready", "background_task", [(0, 10, READY), (10, 14, RUN), (14, 22, HELD), (22, 42, READY),
                                                     (42, 44, RUN), (44, 52, HELD), (52, 60, READY)])

    def test_frames_on_one_another(self):
        made = made_of("nested")
        self.assertEqual(raw_spans(made.levels[1].spans), [(9, 18, FRAME), (9, 10, TOP), (16, 18, TOP)])
        self.assertEqual(raw_spans(made.levels[3].spans), [(10, 13, FRAME), (10, 13, TOP)])
        self.assertEqual(raw_spans(made.levels[2].spans), [(13, 16, FRAME), (13, 16, TOP)])
        self.check("nested", "b", [(0, 8, RUN), (8, 12, WAIT), (12, 18, READY), (18, 19, RUN)])

    def test_a_take_begins_where_nothing_is_in_hand(self):
        made = made_of("taken")
        self.assertEqual(made.method, DEFERRED)
        self.assertEqual(raw_spans(made.takes), [(30, 38, "take")])
        self.check("taken", "a", [(0, 8, RUN), (8, 38, WAIT), (38, 39, RUN)])
        self.check("taken", "c", [(0, 17, READY), (17, 23, RUN), (23, 26, HELD), (26, 30, RUN), (30, 39, WAIT)])

    def test_a_take_behind_the_timer_task(self):
        """The callback's instructions are at 29 to 33, the interrupt at 34 to 36, the timer task's last unit at 37 to 41, and the
        take at 42 to 44."""
        made = made_of("behind_timer")
        self.assertEqual(raw_spans(made.takes), [(9, 18, "take"), (42, 45, "take")])
        self.check("behind_timer", "tmr", [(0, 18, WAIT), (18, 23, READY), (23, 34, RUN), (34, 37, HELD), (37, 42, RUN),
                                           (42, 45, HELD), (45, 46, WAIT)])

    def test_ticks_end_delays(self):
        self.check("delay", "c", [(0, 7, RUN), (7, 19, WAIT), (19, 28, RUN)])
        self.check("delay", "tick", [(0, 10, WAIT), (10, 11, READY), (11, 19, RUN), (19, 28, WAIT)])

    def test_the_last_unit_of_the_timer_task_has_only_its_switch(self):
        self.check("timer", "tmr", [(0, 7, WAIT), (7, 13, READY), (13, 28, RUN)])
        self.check("timer", "a", [(0, 5, RUN), (5, 8, HELD), (8, 28, READY)])

    def test_an_exit_at_the_limit_takes_no_raw_step(self):
        self.check("trapped", "a", [(0, 6, RUN), (6, 10, STOPPED)])
        self.check("trapped", "b", [(0, 6, READY), (6, 9, HELD), (9, 10, RUN)])
        made = schedule(lines_of("0 0 start a", "1 1 irq 3 2", "2 1 post 3 OSSemPost 0 0 OS_ERR_NONE 0", "5 1 exit 3 limit",
                                 "5 1 sw a b", "6 2 end"))
        self.assertEqual(raw_spans(made.tasks["b"].spans), [(0, 5, READY), (5, 6, RUN)])

    def test_longest_times(self):
        made = made_of("nested")
        self.assertEqual((made.tasks["b"].longest_ready, made.tasks["b"].longest_woken), (6, 6))
        self.assertEqual((made.tasks["a"].longest_ready, made.tasks["a"].longest_woken), (8, 0))
        tmr = made_of("timer").tasks["tmr"]
        self.assertEqual(tmr.longest_woken, 6)

    def test_interrupts_held_off(self):
        held = {name: tuple(made_of(name).held_off) for name in RUNS}
        self.assertEqual(held["nested"], (6, "OSSemPend of b", 2))
        self.assertEqual(held["delay"], (7, "the tick task", 12))       # starts at 11, seven micro-steps from 12
        self.assertEqual(held["multi"], (13, "OSPendMulti of a", 23))
        self.assertEqual(held["timer"], (4, "the tick task", 9))


class Waking(unittest.TestCase):
    def test_conditions_of_flags(self):
        rows = ((3, 3, 0, True), (1, 3, 0, False), (1, 3, 1, True), (4, 3, 1, False), (4, 3, 2, True), (5, 3, 2, False),
                (5, 3, 3, True), (7, 3, 3, False), (3, 3, 4, True))
        for bits, mask, option, allowed in rows:
            self.assertEqual(flags_allow(bits, mask, option), allowed, (bits, mask, option))

    def test_two_waiters_are_woken_by_two_posts(self):
        """Both wait for object 0, and c posts twice, with the scheduler locked."""
        made = schedule(lines_of(
            "0 0 start a", "1 1 call a OSSemPend 0 0 0", "7 1 wait a OSSemPend", "7 1 sw a b", "9 3 call b OSSemPend 0 0 0",
            "16 3 wait b OSSemPend", "16 3 sw b c", "17 4 call c OSSchedLock", "19 4 ret c OSSchedLock OS_ERR_NONE 1",
            "20 5 call c OSSemPost 0 0", "27 5 ret c OSSemPost OS_ERR_NONE 0", "30 8 call c OSSemPost 0 0",
            "37 8 ret c OSSemPost OS_ERR_NONE 0", "40 11 call c OSSchedUnlock", "42 11 ret c OSSchedUnlock OS_ERR_NONE 0",
            "42 11 sw c a", "43 12 ret a OSSemPend OS_ERR_NONE 0", "44 13 call a OSSemPend 0 0 0", "50 13 wait a OSSemPend",
            "50 13 sw a b", "51 14 ret b OSSemPend OS_ERR_NONE 0", "52 15 end"))
        self.assertEqual(raw_spans(made.tasks["a"].spans)[1:3], [(8, 28, WAIT), (28, 43, READY)])
        self.assertEqual(raw_spans(made.tasks["b"].spans)[2:4], [(17, 38, WAIT), (38, 51, READY)])

    def test_a_woken_task_is_switched_away_before_its_answer(self):
        made = schedule(lines_of(
            "0 0 start a", "1 1 call a OSSemPend 0 0 0", "7 1 wait a OSSemPend", "7 1 sw a b", "9 3 irq 3 2",
            "10 3 post 3 OSSemPost 0 0 OS_ERR_NONE 0", "11 3 exit 3 ret", "11 3 sw b a", "12 3 irq 4 2",
            "13 3 post 4 OSSemPost 1 0 OS_ERR_NONE 0", "14 3 exit 4 ret", "14 3 sw a c", "16 4 call c OSSemPend 1 0 0",
            "22 4 wait c OSSemPend", "22 4 sw c a", "23 5 ret a OSSemPend OS_ERR_NONE 0", "24 6 end"))
        self.assertEqual(raw_spans(made.tasks["a"].spans), [(0, 8, RUN), (8, 11, WAIT), (11, 12, READY), (12, 15, HELD),
                                                            (15, 23, READY), (23, 24, RUN)])

    def test_a_timeout_ends_at_its_tick(self):
        self.assertEqual(raw_spans(made_of("mutex").tasks["h"].spans), [(0, 10, RUN), (10, 32, WAIT), (32, 48, RUN),
                                                                        (48, 67, WAIT), (67, 79, RUN), (79, 91, WAIT)])

    def test_a_message_goes_to_whoever_got_it(self):
        made = made_of("multi")
        self.assertEqual(raw_spans(made.tasks["a"].spans), [(0, 36, RUN), (36, 39, WAIT), (39, 40, READY), (40, 41, RUN)])


class Histories(unittest.TestCase):
    def test_the_first_difference(self):
        found = read("differs.both")
        difference = first_difference(found.direct, found.deferred)
        self.assertEqual((difference.step, difference.direct.number, difference.deferred.number), (5, 10, 25))
        same = read("equal.both")
        self.assertIsNone(first_difference(same.direct, same.deferred))

    def test_a_shorter_history_differs_at_its_end(self):
        one, other = read_input(["method direct\n", "0 start a\n", "1 end\n", "method deferred\n", "0 start a\n", "1 irq 3 2\n",
                                 "1 end\n", "P1 held\n", "P2 held\n", "P3 held\n", "P4 held\n", "raw 1 3\n"])[:2]
        difference = first_difference(one, other)
        self.assertEqual((difference.step, difference.direct.text, difference.deferred.text), (1, "end", "irq 3 2"))

    def test_task_steps_alone(self):
        found = read("differs.both")
        self.assertIsInstance(found, Both)
        made = schedule(found.direct, False, DIRECT)
        self.assertEqual({task.name: task.steps for task in made.tasks.values()}, {"a": 3, "b": 2, "c": 2, "idle": 0})


    def test_the_last_unit_of_the_timer_task(self):
        """At 5 it has no line and no switch, since a signal waits; the switch at 6 is that of an exit. At 8 it has its switch."""
        texts = ["0 start a", "3 irq 3 2", "3 sw a tick", "3 tick 1", "3 sw tick tmr", "4 tmr 1", "6 irq 3 2", "6 sw tmr tick",
                 "6 tick 2", "6 sw tick tmr", "7 tmr 2", "8 sw tmr a", "10 end"]
        made = schedule([history_line(place, text) for place, text in enumerate(texts, 2)], False, DIRECT)
        self.assertEqual({task.name: task.steps for task in made.tasks.values()}, {"a": 4, "tick": 2, "tmr": 4})
        self.assertEqual(raw_spans(made.tasks["a"].spans), [(0, 3, RUN), (3, 9, READY), (9, 10, RUN)])


class Faults(unittest.TestCase):
    """Lines that can not follow those before them."""

    def check(self, place: int, *texts: str):
        with self.assertRaises(BadInput) as caught:
            schedule(lines_of(*texts))
        self.assertEqual(caught.exception.number, place)

    def test_order(self):
        self.check(1, "0 0 sw a b", "0 0 end")
        self.check(2, "0 0 start a", "0 0 start a", "0 0 end")
        self.check(3, "0 0 start a", "5 5 st a 1048576 4 0", "5 5 end")
        self.check(2, "0 0 start a", "1 2 end")
        self.check(2, "0 0 start a", "1 1 st b 1048576 4 0", "2 2 end")
        self.check(2, "0 0 start a", "1 1 sw a b", "2 2 end")
        self.check(3, "0 0 start a", "1 1 trap a store 12", "1 1 sw b c", "2 2 end")

    def test_calls(self):
        self.check(2, "0 0 start a", "1 1 ret a OSSemPost OS_ERR_NONE 0", "2 2 end")
        self.check(3, "0 0 start a", "1 1 call a OSSemPost 0 0", "3 1 ret a OSSemPend OS_ERR_NONE 0", "4 2 end")
        self.check(3, "0 0 start a", "1 1 call a OSSemPost 0 0", "3 2 ret a OSSemPost OS_ERR_NONE 0", "4 3 end")
        self.check(3, "0 0 start a", "1 1 call a OSSemPost 0 0", "2 1 call a OSSemPost 0 0", "4 3 end")

    def test_interrupts(self):
        self.check(2, "0 0 start a", "1 1 exit 3 ret", "2 1 end")
        self.check(3, "0 0 start a", "1 1 irq 3 2", "1 1 irq 4 2", "2 1 end")
        self.check(3, "0 0 start a", "1 1 irq 3 2", "2 1 post 4 OSSemPost 0 0 OS_ERR_NONE 0", "3 1 end")
        self.check(3, "0 0 start a", "1 1 irq 3 2", "3 2 exit 3 ret", "4 2 end")
        self.check(2, "0 0 start a", "4 0 take OSSemPost 0 0 OS_ERR_NONE 0", "5 0 end")


if __name__ == "__main__":
    unittest.main()
