"""Tests of the schedule by which proofs run side by side."""
import pathlib
import sys
import threading
import types
import unittest

sys.path.insert(0, str(pathlib.Path(__file__).resolve().parent.parent / "tools"))
import kit  # noqa: E402


def task(name, waits, seconds, call=lambda jobs: True):
    return kit.Task(name, waits, seconds, 1, call)


# A chain of three, and what stands beside it.
TASKS = [task("low", [], 100), task("beside", [], 60), task("middle", ["low"], 100), task("top", ["low", "middle"], 100)]


class Order(unittest.TestCase):
    def started(self, tasks, lanes):
        """Which tasks start where each takes as long as foreseen, with their jobs."""
        schedule, found, now = kit.Schedule(tasks, None, lanes), [], 0.0
        found += schedule.starting(now)
        while schedule.running:
            name = min(schedule.running, key=lambda it: schedule.running[it].ends)
            now, schedule.given[name] = schedule.running.pop(name).ends, True
            found += schedule.starting(now)
        return [(it.name, jobs) for it, jobs, _ in found], now

    def test_one_job_where_several_can_run(self):
        self.assertEqual(self.started(TASKS, 1), ([("low", 1), ("middle", 1), ("top", 1), ("beside", 1)], 360.0))
        self.assertEqual(self.started(TASKS, 2), ([("low", 1), ("beside", 1), ("middle", 2), ("top", 2)], 100 + 200 * kit.GAIN))

    def test_the_chain_takes_what_idles(self):
        self.assertEqual(self.started(TASKS, 4), ([("low", 4), ("beside", 1), ("middle", 4), ("top", 4)], 300 * kit.GAIN))

    def test_the_chain_takes_it_from_others(self):
        beside = [task(f"beside{n}", [], 200) for n in range(3)]
        self.assertEqual(self.started([*beside, *TASKS], 4)[0][0], ("low", 4))
        self.assertEqual(self.started([*beside, *TASKS], 3)[0][0], ("low", 1))

    def test_two_chains_of_about_a_length(self):
        tasks = [task("beside", [], 60), task("low", [], 10), task("left", ["low"], 100), task("right", ["low"], 98), task("top", ["left", "right"], 100)]
        # Neither waits for the processor that `beside` has, and both share the jobs.
        self.assertEqual(self.started(tasks, 2), ([("low", 1), ("beside", 1), ("left", 1), ("right", 1), ("top", 2)], 110 + 100 * kit.GAIN))
        self.assertEqual(self.started(tasks, 4)[0], [("low", 4), ("beside", 1), ("left", 2), ("right", 2), ("top", 4)])

    def test_many_of_a_length_start_as_processors_get_free(self):
        tasks = [task(f"same{n}", [], 100) for n in range(9)]
        self.assertEqual(len(kit.Schedule(tasks, None, 4).starting(0.0)), 4)
        self.assertEqual(self.started(tasks, 4)[0], [(f"same{n}", 1) for n in range(7)] + [("same7", 2), ("same8", 4)])

    def test_a_task_gives_way_by_how_much_time_it_has_to_spare(self):
        tasks = [task("low", [], 10), task("soon", [], 8), task("late", [], 1), task("middle", ["low"], 10), task("top", ["middle", "soon"], 80), task("end", ["late"], 9)]
        found = {it.name: gives_way for it, _, gives_way in kit.Schedule(tasks, None, 4).starting(0.0)}
        self.assertEqual(found, {"low": 0, "soon": kit.LEAST_WAY + 1, "late": kit.LEAST_WAY + 7})

    def test_what_runs_counts_by_what_is_left_of_it(self):
        tasks = [task("short", [], 50), task("long", [], 100), task("other", ["short"], 90)]
        self.assertEqual(self.started(tasks, 4)[0], [("short", 4), ("long", 1), ("other", 4)])

    def test_the_time_that_is_left(self):
        schedule = kit.Schedule(TASKS, None, 2)
        self.assertAlmostEqual(schedule.foreseen(), 100 + 200 * kit.GAIN)
        schedule.took, schedule.expected = 20.0, 10.0
        self.assertAlmostEqual(schedule.foreseen(), 2 * (100 + 200 * kit.GAIN))
        self.assertEqual((len(schedule.left), schedule.running, schedule.given), (4, {}, {}))

    def test_a_crate_in_the_table_and_one_that_is_not(self):
        crate = types.SimpleNamespace(folder=str(kit.ROOT / "crates/proto_lex"))
        self.assertEqual(kit.seconds_of("proto_lex", crate), kit.SECONDS["proto_lex"])
        self.assertGreater(kit.seconds_of("another", crate), 1)


class Run(unittest.TestCase):
    def test_all_run_once_what_is_below_went_well(self):
        done, lock = [], threading.Lock()

        def well(name):
            def call(jobs):
                with lock:
                    done.append(name)
                return name != "middle"

            return call

        lines = []
        tasks = [task(it.name, it.waits, it.seconds, well(it.name)) for it in TASKS]
        given = kit.run_tasks(tasks, lambda it, went, seconds, left: lines.append((it.name, went, left >= 0)), lanes=2)
        self.assertEqual(given, {"low": True, "beside": True, "middle": False, "top": None})
        self.assertEqual(sorted(done), ["beside", "low", "middle"])
        self.assertEqual(sorted(lines), [("beside", True, True), ("low", True, True), ("middle", False, True)])


if __name__ == "__main__":
    unittest.main()
