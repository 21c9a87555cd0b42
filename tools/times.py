#!/usr/bin/env python3
"""Measures how many processor seconds each crate takes from nothing, renews the table tools/times.json, and says what the proofs take of the budget.

usage: times.py [CRATE..] [--lanes N] [--functions N] [--modules N] [--table]

The libraries below are taken as built, from earlier runs or now. Each crate is proved at one job, N crates side by side (2 if nothing is said), so
that other work of the machine counts for little: the figures are user and system time. The compiling of a program and a crate's tests have rows of their
own. Nothing else is kept. It prints the slowest functions, what each crate waits for, the longest chain of crates, and what the
last commit changed in the table. With --modules it prints for each crate the N kinds of modules that take longest, of those that the kit makes of a
function (`Lts` has what is borrowed at each step of it, `Proof` the proof), by the clock. With --table nothing is measured.
"""
import argparse
import collections
import json
import os
import pathlib
import re
import subprocess
import sys
import tempfile
import threading
import time
from concurrent.futures import ThreadPoolExecutor

import kit

CHECKED = re.compile(r"checked (\S+), \d+ of \d+")
# The processor minutes that `make test` may take.
BUDGET = 200


def seconds_of_kinds(folder):
    """How many seconds by the clock the modules of each kind took that a check at one job kept in a folder: it keeps each as soon as it is checked."""
    kept = sorted((it.stat().st_mtime_ns, it.name) for it in pathlib.Path(folder).rglob("*.oantt"))
    kinds = collections.Counter()
    for (before, _), (now, name) in zip(kept, kept[1:]):
        kinds[name.removesuffix(".oantt").removesuffix(".decls").rsplit(".", 1)[-1]] += (now - before) / 1e9
    return kinds


def measured(crate, words):
    """The processor seconds of one of rattle's commands, whether it went well, and the seconds of each function by its progress line."""
    functions, before = [], None
    how = {"stdin": subprocess.DEVNULL, "stdout": subprocess.PIPE, "stderr": subprocess.STDOUT, "text": True, "errors": "replace"}
    started = subprocess.Popen([kit.rtlib.RATTLE, *words], cwd=crate.folder, **how)
    for line in started.stdout:
        found, now = CHECKED.search(line), time.time()
        if found and before is not None:
            functions.append((now - before, f"{crate.name}::{found[1]}"))
        before = now if found or before is None else before
    _, status, used = os.wait4(started.pid, 0)
    return used.ru_utime + used.ru_stime, status == 0, functions


def commands(crate, kept, room):
    """The commands to measure for a crate, each with the name of its row. The check keeps its work in a folder, if one is named."""
    words, made = crate.words(["--jobs", "1"], keeps=False), ["--toolchain", f"{kit.rt.KIT}/toolchain", "--backend", "llvm", "-o", f"{room}/made.o"]
    checked = ["-o", f"{room}/checked"] if crate.is_program else []
    yield crate.name, ["check", *words, *checked, "--progress", *(["--incremental", kept] if kept else [])]
    if crate.is_program:
        for flag in ("--logic-built", "--jobs"):
            at = words.index(flag)
            words = [*words[:at], *words[at + 2 :]]
        yield f"{crate.name} (built)", ["build", *words, "--crate-checked", f"{room}/checked", *made]
    if crate.has_tests():
        yield f"{crate.name} (tests)", ["build", *crate.words(["--jobs", "1"], tests=True, keeps=False), *made]


class Measuring:
    """Measures crates side by side, and prints what each took."""

    def __init__(self, modules):
        self.modules, self.rows, self.functions, self.printing = modules, {}, [], threading.Lock()

    def __call__(self, crate):
        with tempfile.TemporaryDirectory() as kept, tempfile.TemporaryDirectory() as room:
            rows, bad = collections.Counter(), ""
            for name, words in commands(crate, kept if self.modules else None, room):
                seconds, is_well, functions = measured(crate, words)
                rows[name] += seconds
                bad = bad if is_well else ": NOT PROVED"
                self.functions.extend(functions)
            kinds = seconds_of_kinds(kept)
        with self.printing:
            for name, seconds in rows.items():
                print(f"{seconds:7.0f} s  {name}{bad}", flush=True)
            for kind, took in kinds.most_common(self.modules):
                print(f"            {took:7.1f} s  {kind}", flush=True)
            self.rows.update({} if bad else {name: round(seconds) for name, seconds in rows.items()})


def changes(old, new):
    """The rows that differ between two tables, in words."""
    if not old:
        return "the first table"
    names = sorted(it for it in {*old, *new} if old.get(it) != new.get(it))
    rows = [f"{it} {old.get(it, 'new')} -> {new.get(it, 'gone')}" for it in names]
    return f"{(sum(new.values()) - sum(old.values())) / 60:+.1f} processor minutes{': ' + ', '.join(rows) if rows else ''}"


def committed(commit):
    """The table of times in a commit; empty where there is none."""
    ran = subprocess.run(["git", "show", f"{commit}:tools/times.json"], cwd=kit.ROOT, capture_output=True, text=True)
    return json.loads(ran.stdout) if ran.returncode == 0 else {}


def chains(crates, seconds):
    """For each crate, lowest first, the seconds until it ends where nothing waits for a processor, and the crates one after the other that it ends with."""
    found = {}
    for it in crates:
        ends, chain = max((found[dep.name] for dep in it.deps), default=(0, []))
        found[it.name] = ends + seconds[it.name], [*chain, it.name]
    return found


def print_table(crates, was):
    """Says what the table has: what each crate takes and waits for, the longest chains, what the last commit and this run changed, and the budget."""
    seconds = {it.name: round(kit.seconds_of(it.name, it)) for it in crates}
    found = chains(crates, seconds)
    print("what each crate takes, and what it waits for:")
    for it in crates:
        ends, chain = found[it.name]
        print(f"{seconds[it.name]:7} s  {it.name}{f', after {ends - seconds[it.name]} s behind {chain[-2]}' if chain[1:] else ''}")
    for what, (ends, chain) in (("make build", found[kit.PROGRAM]), ("make test", max(found.values()))):
        print(f"the longest chain of {what}: {', '.join(f'{it} {seconds[it]}' for it in chain)}; {ends} s")
    print(f"the last commit: {changes(committed('HEAD~1'), committed('HEAD'))}")
    if kit.SECONDS != was:
        print(f"this run: {changes(was, kit.SECONDS)}")
    used = sum(kit.SECONDS.values()) / 60
    print(f"all proofs, programs and crates' tests: {used:.0f} of the {BUDGET} processor minutes that make test may take; the rest is for edits and tests/")


def main(words):
    asks = argparse.ArgumentParser(description=__doc__, formatter_class=argparse.RawDescriptionHelpFormatter)
    asks.add_argument("crates", nargs="*")
    asks.add_argument("--lanes", type=int, default=2)
    asks.add_argument("--functions", type=int, default=12)
    asks.add_argument("--modules", type=int, default=0)
    asks.add_argument("--table", action="store_true")
    given = asks.parse_args(words)
    every, was = kit.in_order(kit.crates()), kit.SECONDS
    crates = [it for it in every if not given.table and (not given.crates or it.name in given.crates)]
    below = kit.in_order({lower for it in crates for lower in it.below()})
    if not all(kit.run_tasks([kit.proof_task(it, True) for it in below]).values()):
        sys.exit("times: a library is not proved")
    measure = Measuring(given.modules)
    with ThreadPoolExecutor(given.lanes) as pool:
        for _ in pool.map(measure, sorted(crates, key=lambda it: kit.seconds_of(it.name, it), reverse=True)):
            pass
    if crates:
        kit.SECONDS = {it: seconds for it, seconds in {**was, **measure.rows}.items() if it.partition(" ")[0] in {one.name for one in every}}
        kit.TIMES.write_text(json.dumps(kit.SECONDS, indent=1, sort_keys=True) + "\n")
        print("the slowest functions, by the clock:")
        for took, name in sorted(measure.functions, reverse=True)[: given.functions]:
            print(f"{took:7.1f} s  {name}")
    print_table(every, was)


if __name__ == "__main__":
    main(sys.argv[1:])
