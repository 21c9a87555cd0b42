#!/usr/bin/env python3
"""What to run before each commit: `make quick`.

It says what it is going to do and about how long that takes. Over what earlier runs kept it proves the crates that changed since they last passed and those
that stand on them, runs their tests and programs, tries the edits of must-fail/ and wrong-bodies/ whose verdict is not current, and runs the tests in
tests/, those of the tools only if something of them changed. Only `make test` is the verdict.

The last line is `N passed, M failed`, and the status is 0 only if M is 0.
"""
import os
import pathlib
import subprocess
import sys
import time

import kit

TESTS = kit.ROOT / "tests"
# About how many seconds a file of tests of the program takes beside others, one of the tools, and the edits where all verdicts are current.
OF_PROGRAM, OF_TOOLS, OF_EDITS = 40, 150, 20
# The memory that these take, in bytes.
MEMORY = 1_000_000_000


def unless_passed(crate, task, what):
    """The task, which notes in the crate's out/ what it has passed, or nothing if that is what stands there now."""
    passed = pathlib.Path(crate.folder, "out", f"{what}.passed")
    # (of what stands there before the task runs)
    stamp = crate.stamp() + "".join(kit.rtlib.sum_of(f"{crate.folder}/{it}") for it in ("stdin", "stdout", "args", "status"))
    if kit.rtlib.text_of(str(passed)) == stamp and (not crate.is_program or kit.is_current(crate)):
        return []
    call = task.call

    def noting(jobs):
        well = call(jobs)
        if well:
            passed.write_text(stamp)
        return well

    task.call = noting
    return [task]


def tasks_of(crate, is_used):
    """What is to be done for a crate. A program is proved as it is built, and then run. The layout of sources is one of the tests in tests/."""
    below = [it.name for it in crate.below()]
    name, waits = (crate.name, below) if crate.is_program else (f"{crate.name} (tests)", [*below, crate.name])
    tests = kit.task_of(crate, name, waits, lambda jobs: kit.logged(crate, "tests", lambda: crate.test_whole(["--jobs", str(jobs)])))
    found = []
    if is_used:
        found = [] if crate.is_built() else [kit.proof_task(crate, True)]
    elif not crate.is_program:
        found = unless_passed(crate, kit.proof_task(crate, False), "proof")
    return found + (unless_passed(crate, tests, "tests") if crate.is_program or crate.has_tests() else [])


def command_task(name, seconds, words):
    """The task that runs a command, and shows what it said if it failed."""

    def call(jobs):
        ran = subprocess.run([sys.executable, *words], cwd=kit.ROOT, stdin=subprocess.DEVNULL, stdout=subprocess.PIPE, stderr=subprocess.STDOUT, text=True)
        print(ran.stdout if ran.returncode else "", end="", flush=True)
        return ran.returncode == 0

    return kit.Task(name, [], seconds, MEMORY, call)


def commands():
    """What is done with the built program and the edits, and what notes that the tests of the tools passed on what stands there now."""
    of_tools, others = kit.tests_in(kit.ROOT)
    files = [*sorted((kit.ROOT / "tools").glob("*.py")), *(TESTS / it for it in ("gate.py", "run_file.py", *of_tools))]
    kept, stamp = kit.ROOT / "out" / "tools-passed", "".join(kit.rtlib.sum_of(str(it)) for it in files)
    of_tools = [] if kit.rtlib.text_of(str(kept)) == stamp else of_tools
    edits = ["tools/wrong_bodies.py", "--jobs", str(max(1, kit.rt.processors() // 2))]
    tasks = [command_task("wrong bodies", OF_EDITS, edits), command_task("must-fail edits", OF_EDITS, [*edits, "--must-fail"])]
    tasks += [command_task(f"tests/{it}", OF_TOOLS if it in of_tools else OF_PROGRAM, ["tests/run_file.py", f"tests/{it}"]) for it in [*of_tools, *others]]

    def note(given):
        if all(given[f"tests/{it}"] for it in of_tools):
            kept.parent.mkdir(exist_ok=True)
            kept.write_text(stamp)

    return tasks, note


def main():
    began, crates = time.time(), kit.crates()
    held = kit.hold(crates)
    used = {below.name for it in crates for below in it.deps}
    with kit.summed_once():
        tasks = [task for it in crates for task in tasks_of(it, it.name in used)]
    more, note = commands()
    proves = f"proves and runs {', '.join(it.name for it in tasks)}: {kit.about(kit.foreseen(tasks))}" if tasks else "has nothing to prove: no crate changed"
    print(f"this run {proves}\nthen edits without a current verdict, and {len(more) - 2} files of tests: {kit.about(kit.foreseen(more))}", flush=True)
    given = kit.run_tasks(tasks, kit.Progress("step", len(tasks)))
    for it in held:
        os.close(it)
    for it in crates:
        for what, name in (("proof", it.name), ("tests", it.name if it.is_program else f"{it.name} (tests)")):
            if given.get(name) is False and os.path.isfile(kit.log_of(it, what)):
                print(f"== {name}\n{kit.rtlib.text_of(kit.log_of(it, what))[-4000:]}")
    if all(given.values()):
        also = kit.run_tasks(more, kit.Progress("step", len(more)))
        note(also)
        given.update(also)
    passed = sum(it is True for it in given.values())
    print(f"{time.time() - began:.0f} s")
    print(f"{passed} passed, {len(given) - passed} failed", flush=True)
    return 0 if passed == len(given) else 1


sys.exit(main())
