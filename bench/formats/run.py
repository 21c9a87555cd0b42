#!/usr/bin/env python3
"""Times `protols check` in each format on 10,000 files with 100,000 diagnostics, ten in each file, by one worker and by four.

Each format may take at most 1.1 times the time and the memory of plain lines. The status is 1 where a limit is passed.

A time is the best of 5. The program is crates/protols/out/protols, or the one that PROTOLS names."""
import pathlib
import sys
import tempfile

HERE = pathlib.Path(__file__).resolve().parent
sys.path[:0] = [str(HERE.parent), str(HERE.parent.parent / "tests")]
import lab
import stream
from editors import cost, put_tree

FORMATS = ("plain", "gnu", "github", "json", "sarif")
FILES, FAULTS, TIMES = 10_000, 10, 5
WORKERS = (1, 4)

# The most that a format may take, as a multiple of plain lines.
MOST = 1.1


def measured(folder, workers):
    """The least time and memory of a check in each format. All are run in turn."""
    runs = {name: [] for name in FORMATS}
    for _ in range(TIMES):
        for name in FORMATS:
            command = stream.command(("check", "--format", name, "--workers", str(workers)))
            runs[name].append(cost(["sh", "-c", '"$@" > /dev/null; test $? = 1', "sh", *command], folder))
    return {name: [min(column) for column in zip(*rows)] for name, rows in runs.items()}


def main():
    kept = True
    with tempfile.TemporaryDirectory() as folder:
        for place in put_tree(pathlib.Path(folder), FILES):
            with open(pathlib.Path(folder, place), "a", encoding="utf-8") as file:
                file.write("#\n" * FAULTS)
        for workers in WORKERS:
            found = measured(folder, workers)
            for name, (taken, memory) in found.items():
                parts = [taken / found["plain"][0], memory / found["plain"][1]]
                kept = kept and max(parts) <= MOST
                print(f"{name}, {workers} workers: {taken:.3f} s, {memory:.0f} MB ({parts[0]:.2f} of the time of plain lines, {parts[1]:.2f} of the memory)")
    print(f"limit: {MOST}")
    print(lab.machine())
    sys.exit(0 if kept else 1)


if __name__ == "__main__":
    main()
