"""What the tools of this folder share: the kit's command `rt` as a module, the crates of this repository, and tasks side by side.

Relied on of the kit: `rt` on the PATH is a Python file with `rtlib.py` beside it. Of `rt`: KIT, processors(), free(), checked(), read_edit(),
must_fail(), with REFUSED, AT_LIMIT and linked() in some kits, unread(), read_files(). Of `rtlib`: RATTLE, STALE, LIMIT, crates_below(), guarded(), lock(),
text_of(), sum_of(), files_of() and the class Crate with name, folder, said, is_program, of_kit, deps, rlib, out, makes_rlib(), below(), stamp(), stream(),
need(), words(), is_built(), has_kept(), build_rlib(), check(), run(), has_tests() and test_whole(). Of `rt ci`: RT_JOBS, the lines `rt: NAME proved` and `rt: NAME is kept: ..`, and the last one.
"""
import collections
import contextlib
import copy
import importlib.machinery
import importlib.util
import json
import os
import pathlib
import shutil
import sys
import threading
import time

ROOT = pathlib.Path(__file__).resolve().parent.parent
PROGRAM = "protols"
# The processor seconds that each crate's proof takes from nothing at one job, that of its tests, and the compiling of a program. tools/times.py writes it.
TIMES = ROOT / "tools" / "times.json"
SECONDS = json.loads(TIMES.read_text())
# These try the tools themselves, without the program, and take minutes.
TESTS_OF_TOOLS = ("test_gate.py", "test_schedule.py", "test_wrong_bodies.py")
# The most jobs that one check gains from, how many processors it keeps busy then, and which part of its time at one job it takes (a chain of 3,650 s at one
# job took 2,770 s by the clock).
MOST_JOBS, BUSY, GAIN = 4, 2, 0.76
# A chain of at least this part of the longest counts as the longest.
NEARLY = 0.95
# Which part of its time from nothing a check takes over kept work, as seen of the program's.
OVER_KEPT = 0.3
# What a crate without a row takes: so many seconds for any check, and one for so many bytes.
LEAST, BYTES = 10, 500
# By how much the priority of a task is lowered that nothing waits for, as `nice` counts, and at least by how much that of one without the longest chain.
GIVES_WAY, LEAST_WAY = 10, 2
# The most memory that a check has been seen to take: what the kit foresees is far more for a crate above many others.
MOST_MEMORY = 4_000_000_000


def load():
    """The kit's `rt` as a module, and with it its library."""
    found = shutil.which("rt")
    if not found:
        sys.exit("protols is written in Rattle: put the Rattle kit's command rt on the PATH (CONTRIBUTING.md)")
    sys.dont_write_bytecode = True
    loader = importlib.machinery.SourceFileLoader("rt_of_the_kit", os.path.realpath(found))
    made = importlib.util.module_from_spec(importlib.util.spec_from_loader("rt_of_the_kit", loader))
    sys.modules["rt_of_the_kit"] = made
    loader.exec_module(made)
    return made


rt = load()
rtlib = rt.rtlib


def linked(kept, to):
    """Makes a folder of kept work whose files are links to those of another: a check writes new files and changes none."""
    if hasattr(rt, "linked"):
        rt.linked(kept, to)
    else:
        shutil.copytree(kept, to, copy_function=os.link)


def logic():
    """The kit's logic, by the last part of its line: kits that share it prove the same."""
    line = rtlib.text_of(f"{rt.KIT}/KIT-ID").strip()
    return line[line.find("logic") :] if "logic" in line else line


def in_order(some):
    """Crates, each after those that it stands on."""
    return sorted(some, key=lambda it: (len(it.below()), it.name))


def crates(root=ROOT):
    """The crates of crates.txt, each after those that it stands on. The current folder is then the repository's."""
    os.chdir(root)
    # (its first call sets a signal's handler, which only the main thread may)
    rtlib.guarded()
    # (what a program is run on is in files beside src/)
    found = in_order(rtlib.crates_below(str(root)))
    for it in found:
        rt.read_files(it)
        os.makedirs(f"{it.folder}/out", exist_ok=True)
    return found


def hold(some):
    """Keeps every other rt out of these crates until what is returned is closed, or this process ends."""
    return rtlib.lock(some)


@contextlib.contextmanager
def summed_once():
    """Has each crate's sum worked out once: rt does so again for each that stands on it."""
    known, stamp = {}, rtlib.Crate.stamp

    def once(crate):
        if crate.folder not in known:
            known[crate.folder] = stamp(crate)
        return known[crate.folder]

    rtlib.Crate.stamp = once
    try:
        yield
    finally:
        rtlib.Crate.stamp = stamp


def is_current(program):
    """Whether the built program is that of the present sources."""
    made = f"{program.folder}/out/{program.name}"
    with summed_once():
        return os.path.isfile(made) and rtlib.text_of(f"{made}.stamp") == program.stamp() + rtlib.sum_of(made)


def seconds_of(name, crate, share=1):
    """About how many seconds the task of this name takes, if its proof takes this share of that from nothing: by the table, or by the size of the crate's files."""
    proof = SECONDS.get(name) or LEAST + sum(os.path.getsize(it) for it in rtlib.files_of(crate.folder)) / BYTES
    return share * proof + SECONDS.get(f"{name} (built)", 0)


def tests_in(root):
    """The files of tests of a repository: those of its tools, and the others."""
    names = sorted(it.name for it in pathlib.Path(root, "tests").glob("test_*.py"))
    return [it for it in names if it in TESTS_OF_TOOLS], [it for it in names if it not in TESTS_OF_TOOLS]


class Task:
    """Work on a crate: its name, the names of the tasks that it waits for, about how many seconds it takes at one job, its memory in bytes, and a call
    that is given how many jobs it may use and returns whether all went well."""

    def __init__(self, name, waits, seconds, memory, call):
        self.name, self.waits, self.seconds, self.memory, self.call = name, waits, seconds, memory, call


def log_of(crate, what):
    return f"{crate.folder}/out/{what}.log"


def logged(crate, what, call):
    """Runs a call whose output goes to a file in the crate's out/."""
    with open(log_of(crate, what), "w+", encoding="utf-8", errors="replace") as crate.out:
        return call() == 0


def task_of(crate, name, waits, call):
    """The task of a crate that proves over kept work, if there is any."""
    seconds = seconds_of(name, crate, OVER_KEPT if crate.has_kept() else 1)
    return Task(name, waits, seconds, min(crate.need() // 2, MOST_MEMORY), call)


def proof_task(crate, is_used):
    """The task that proves a crate over kept work, and builds it where others stand on it."""

    def call(jobs):
        flags = ["--jobs", str(jobs)]
        return logged(crate, "proof", lambda: crate.build_rlib(flags, anew=False) if is_used else crate.check(flags))

    return task_of(crate, crate.name, [it.name for it in crate.below()], call)


Running = collections.namedtuple("Running", "processors memory ends is_first")


class Schedule:
    """Tasks side by side: each once those that it waits for went well, first the one with the longest chain of others behind it.

    A check has one job. Those with the longest chain of all that are left or running, less what those have done, or nearly, share as many as a check gains
    from, if they start where the processors that these keep busy would idle, or where there are so many processors that the others still have some. They
    don't wait for a processor that one with a shorter chain has: all others run at a lower priority, since the whole ends no sooner than that chain does. The
    shorter a task's chain, the lower: one with little time to spare would else hold up the longest, which waits for it too.
    """

    def __init__(self, tasks, ended, lanes):
        self.left, self.ended = [*tasks], ended
        self.lanes, self.memory = lanes or rt.processors(), 0.85 * rt.free()
        self.running, self.given, self.turn = {}, {}, threading.Condition()
        self.known = {it.name: it.seconds for it in tasks}
        self.behind, self.took, self.expected = {**self.known}, 0.0, 0.0
        for task in reversed(tasks):
            for below in self.waits_for(task):
                self.behind[below] = max(self.behind[below], self.behind[task.name] + self.known[below])
        self.left.sort(key=lambda it: -self.behind[it.name])

    def waits_for(self, task):
        return [it for it in task.waits if it in self.known]

    def skip_lost(self):
        """Leaves out what waits for a task that failed, and what waits for that."""
        lost = True
        while lost:
            lost = [it for it in self.left if any(self.given.get(below, True) is not True for below in self.waits_for(it))]
            self.left = [it for it in self.left if it not in lost]
            self.given.update({it.name: None for it in lost})

    def chain(self, name, now):
        """About how many seconds a task and the longest chain behind it still take at one job."""
        done = self.known[name] - max(0.0, self.running[name].ends - now) if name in self.running else 0.0
        return self.behind[name] - max(0.0, done)

    def starting(self, now):
        """The tasks that start now, each with its jobs and by how much its priority is lowered. They count as running from then on."""
        ready = [it for it in self.left if all(self.given.get(below) is True for below in self.waits_for(it))]
        longest = max((self.chain(it, now) for it in [*self.running, *(other.name for other in self.left)]), default=0)
        first, found = [it for it in ready if self.behind[it.name] >= NEARLY * longest], []
        for at, task in enumerate(ready):
            is_first = task in first
            idle = self.lanes - sum(it.processors for it in self.running.values())
            # (the processors of those that don't give way to it)
            taken = sum(it.processors for it in self.running.values() if it.is_first or not is_first)
            room = self.memory - sum(it.memory for it in self.running.values())
            if taken >= self.lanes or self.running and task.memory > room:
                continue
            may_share = is_first and (self.lanes >= 2 * BUSY or idle - (len(ready) - at - 1) >= BUSY)
            jobs = max(1, min(MOST_JOBS, self.lanes) // len(first)) if may_share else 1
            self.left.remove(task)
            processors, part = (BUSY, GAIN) if jobs > 1 else (1, 1)
            self.running[task.name] = Running(processors, task.memory, now + task.seconds * part, is_first)
            spare = 1 - self.behind[task.name] / longest if longest else 0
            found.append((task, jobs, 0 if is_first else LEAST_WAY + round((GIVES_WAY - LEAST_WAY) * spare)))
        return found

    def foreseen(self):
        """About how many seconds pass until all has ended, by what the tasks that ended took so far."""
        it, began = copy.copy(self), time.time()
        it.left, it.running, it.given, now = [*self.left], {**self.running}, {**self.given}, began
        it.starting(now)
        while it.running:
            name = min(it.running, key=lambda name: it.running[name].ends)
            now, it.given[name] = max(now, it.running.pop(name).ends), True
            it.starting(now)
        return (now - began) * (self.took / self.expected if self.expected else 1)

    def one(self, task, jobs, gives_way):
        began, well = time.time(), False
        try:
            # (on Linux a priority is a thread's own, and what it starts has the same)
            os.setpriority(os.PRIO_PROCESS, threading.get_native_id(), os.getpriority(os.PRIO_PROCESS, 0) + gives_way)
            well = task.call(jobs)
        finally:
            with self.turn:
                seconds = time.time() - began
                self.took, self.expected = self.took + seconds, self.expected + self.running.pop(task.name).ends - began
                self.given[task.name] = well
                self.skip_lost()
                self.turn.notify_all()
                self.ended(task, well, seconds, self.foreseen())

    def run(self):
        with self.turn:
            while self.left or self.running:
                for it in self.starting(time.time()):
                    threading.Thread(target=self.one, args=it, daemon=True).start()
                if self.running:
                    self.turn.wait()
        return self.given


def run_tasks(tasks, ended=lambda task, well, seconds, left: None, lanes=None):
    """What each task gave, by its name: true, false, or None where it wasn't run since one that it waits for failed. Tasks come lowest first."""
    return Schedule(tasks, ended, lanes).run()


def foreseen(tasks):
    """About how many seconds these tasks take side by side."""
    return Schedule(tasks, None, None).foreseen()


def about(seconds):
    """A number of seconds that isn't known well, in words."""
    return f"about {seconds / 60:.0f} minutes" if seconds > 90 else "about a minute" if seconds > 20 else "some seconds"


class Progress:
    """Prints a line for each task that ended, with how many there are and about how long the rest takes."""

    def __init__(self, what, count):
        self.what, self.count, self.number, self.began = what, count, 0, time.time()

    def __call__(self, task, well, seconds, left):
        self.number += 1
        word = "" if well else ": FAILED"
        rest = f"; {about(left)} left" if self.number < self.count else ""
        print(f"{time.time() - self.began:6.0f} s  {self.what} {self.number} of {self.count}: {task.name}, {seconds:.0f} s{word}{rest}", flush=True)
