#!/usr/bin/env python3
"""Proves the program and all that it stands on, over what earlier runs kept, and builds it: crates/protols/out/protols.

A line tells of each crate that ended, how many there are and about how long the rest takes. With nothing changed it takes seconds. If anything fails,
the status is 1 and no program is left that could be taken for the new one.
"""
import os
import subprocess
import sys

import kit


def program_task(program):
    """The task that proves and builds the program."""

    def made(jobs):
        # (it is run once, on its stored stream)
        how = {"input": program.stream("stdin") or b"", "stdout": subprocess.PIPE, "stderr": program.out, "timeout": kit.rtlib.LIMIT}
        return program.run(["--jobs", str(jobs)], program.said.get("args", []), **how)

    def call(jobs):
        kit.logged(program, "proof", lambda: made(jobs))
        return kit.is_current(program)

    return kit.task_of(program, program.name, [it.name for it in program.below()], call)


def build(program):
    """Proves and builds the program and the libraries below it that aren't built, and says whether all is well."""
    with kit.summed_once():
        libraries = [it for it in kit.in_order(program.below()) if not it.is_built()]
    tasks = [*(kit.proof_task(it, True) for it in libraries), program_task(program)]
    held = kit.hold([*program.below(), program])
    given = kit.run_tasks(tasks, kit.Progress("crate", len(tasks)))
    for it in held:
        os.close(it)
    for it in [*libraries, program]:
        if given[it.name] is False:
            print(kit.rtlib.text_of(kit.log_of(it, "proof"))[-3000:])
    return all(given.values())


def main():
    program = next(it for it in kit.crates() if it.name == kit.PROGRAM)
    made = f"{program.folder}/out/{kit.PROGRAM}"
    if not kit.is_current(program) and not build(program):
        if os.path.lexists(made):
            os.remove(made)
        print("the program was not built", file=sys.stderr)
        return 1
    print(f"the program is crates/{kit.PROGRAM}/out/{kit.PROGRAM}")
    return 0


sys.exit(main())
