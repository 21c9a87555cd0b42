#!/usr/bin/env python3
"""Times `protols serve` with 1, 2 and 4 workers, in workspaces of 1,000 and 10,000 files (those of bench/check).

The first answer is the time from the start of the program to the diagnostics of one file, and to the end of its first analysis. While the workers
lex, parse and gather facts, the main thread waits: that part is the time of the clock less the processor time of the main thread, and less what
it waits in a workspace of one file, while the program starts. With four workers it may be at most 0.35 of that with one, and the session may take at most 1.1 times the memory. A typed character with four workers may
take at most 0.1 ms longer than with one, or than in the program before. An idle server may take no processor time in 10 seconds. The status is 1
where a limit is passed; that of the waiting is judged only on four processors or more.

A time is the best of 5. The program is crates/protols/out/protols, or the one that PROTOLS names; the one that BEFORE names, which takes no
`--workers`, is timed beside it where a character is typed."""
import os
import pathlib
import statistics
import sys
import tempfile
import time

HERE = pathlib.Path(__file__).resolve().parent
sys.path[:0] = [str(HERE.parent), str(HERE.parent.parent / "tests")]
import lab
import stream
from editors import Editor, put_tree
from trees import ordinary, path

SIZES = [1_000, 10_000]
WORKERS = [1, 2, 4]
TIMES = 5

# How many characters are typed.
KEYSTROKES = 200

# The most that the main thread may wait with four workers, as a part of the time with one.
WAITING = 0.35

# The most memory that a session may take with four workers, as a multiple of that with one.
MEMORY = 1.1

# The most that a typed character may take longer with four workers, in seconds.
LONGER = 0.0001


def first_answer(holder, size, workers):
    """The seconds from the start to the first answer, those of them in which the main thread did nothing, and the most memory, in megabytes."""
    began = time.perf_counter()
    with Editor(holder, path(size // 2), ordinary(size // 2), ("--workers", str(workers))) as editor:
        editor.ask(editor.question())
        taken = time.perf_counter() - began
        place = pathlib.Path(f"/proc/{editor.server.process.pid}/task/{editor.server.process.pid}/schedstat")
        return taken, taken - int(place.read_text().split()[0]) / 1e9, editor.memory()


def waiting_for_nothing():
    """The seconds that the main thread does nothing before the first answer where there is one file: the start of the program, and messages."""
    with tempfile.TemporaryDirectory() as holder:
        put_tree(pathlib.Path(holder), 1)
        return min(first_answer(holder, 1, 1)[1] for _ in range(TIMES))


def keystroke(holder, size, *options, program=None):
    """Half of the times from a typed character to its diagnostics are shorter than this, in seconds."""
    with Editor(holder, path(size // 2), ordinary(size // 2), options, program) as editor:
        editor.open()
        return statistics.median(editor.change(0, " ") for _ in range(KEYSTROKES))


def idle_seconds(holder):
    """The processor seconds that a server takes in 10 seconds of the clock without a message."""
    with Editor(holder, path(0), ordinary(0), ("--workers", "4")) as editor:
        editor.open()
        stat = pathlib.Path(f"/proc/{editor.server.process.pid}/stat")

        def used():
            return sum(map(int, stat.read_text().rpartition(")")[2].split()[11:13])) / os.sysconf("SC_CLK_TCK")

        time.sleep(0.2)
        before = used()
        time.sleep(10)
        return used() - before


def in_workspace(size):
    """Prints the figures of a workspace, and says whether the limits are kept."""
    kept = True
    with tempfile.TemporaryDirectory() as holder:
        put_tree(pathlib.Path(holder), size)
        runs = {workers: [first_answer(holder, size, workers) for _ in range(TIMES)] for workers in WORKERS}
        least = {workers: [min(column) for column in zip(*runs[workers])] for workers in WORKERS}
        nothing = waiting_for_nothing()
        for workers, (taken, waiting, memory) in least.items():
            part = (waiting - nothing) / (least[1][1] - nothing)
            print(f"{size:,} files, {workers} workers: first answer {taken:.3f} s, of it the main thread waits {waiting - nothing:.3f} s ({part:.2f}), {memory:.0f} MB")
        if len(os.sched_getaffinity(0)) >= WORKERS[-1]:
            kept = part <= WAITING
        kept = kept and least[WORKERS[-1]][2] <= MEMORY * least[1][2]
        typed = {workers: keystroke(holder, size, "--workers", str(workers)) for workers in WORKERS}
        print(f"{size:,} files, a typed character: " + ", ".join(f"{1000 * taken:.2f} ms with {workers}" for workers, taken in typed.items()))
        other = typed[1]
        if "BEFORE" in os.environ:
            other = keystroke(holder, size, program=os.environ["BEFORE"])
            print(f"{size:,} files, a typed character, the program before: {1000 * other:.2f} ms")
        kept = kept and typed[WORKERS[-1]] <= other + LONGER
        if size == SIZES[0]:
            idle = idle_seconds(holder)
            print(f"an idle server: {idle:.2f} processor seconds in 10 s")
            kept = kept and idle <= 0.01
    return kept


def main():
    print(lab.machine())
    kept = all([in_workspace(size) for size in SIZES])
    print("kept" if kept else "NOT kept")
    return 0 if kept else 1


if __name__ == "__main__":
    sys.exit(main())
