#!/usr/bin/env python3
"""Times how `protols serve --root` reads a folder, against a plain C program that walks the same tree and reads the same
files into memory.

The trees have 5,000 and 10,000 files of 5 KB of ordinary proto3, 50 in a folder, which are in the system's cache. The
input asks for nothing: it is `initialize`, `shutdown` and `exit`. A time is the best of 9, in turn. Two roots of 5,000 of these files are read and
checked beside one root of 10,000, and a folder of 50,000 entries with 20 files that count, as /usr/include has them, beside no folder. The status is 1
if the program takes more than twice the time of the C program, if twice the files take more than thrice the time, if two roots take more than 1.05 times
the time of one, or if the folder of many entries takes more than 0.2 s.

The program is crates/protols/out/protols, or another one that the variable PROTOLS names: `make build` builds it."""
import json
import pathlib
import shutil
import sys

HERE = pathlib.Path(__file__).resolve().parent
sys.path[:0] = [str(HERE.parent), str(HERE.parent.parent / "tests")]
import lab
import stream

TIMES = 9
SIZE = 5_000
IN_A_FOLDER = 50

# The most that the program may take, as a multiple of the C program's time.
MOST = 2

# The most that twice the files may take, as a multiple of the time of the others. A quadratic step costs 4.
GROWTH = 3

# The most that two roots may take, as a multiple of the time of one with the same files.
OF_ONE_ROOT = 1.05

# The most that a folder of many entries may take, in seconds.
MOST_ENTRIES = 0.2

INPUT = stream.frames(
    [
        json.dumps({"jsonrpc": "2.0", "id": 1, "method": "initialize", "params": stream.PULLING}),
        '{"jsonrpc":"2.0","id":2,"method":"shutdown"}',
        '{"jsonrpc":"2.0","method":"exit"}',
    ]
)


def content(number):
    """The text of a file: 5 KB, comments and all."""
    head = f'syntax = "proto3";\npackage shop.p{number};\n\n'
    parts = [head]
    length = len(head)
    while True:
        n = len(parts)
        part = f"// Message {n} of file {number}.\nmessage M{n} {{\n  string name = 1;\n  repeated int64 values = {n + 1};\n}}\n\n"
        if length + len(part) > SIZE:
            return "".join(parts) + "\n" * (SIZE - length)
        parts.append(part)
        length += len(part)


def new_folder(name):
    """A folder of that name, with nothing in it."""
    folder = lab.WORK / name
    shutil.rmtree(folder, ignore_errors=True)
    folder.mkdir(parents=True)
    return folder


def make_tree(count, first=0):
    """A folder with that many files, those from a number on, and its path."""
    tree = new_folder(f"folder{first}to{first + count}")
    for number in range(first, first + count):
        group, place = divmod(number, IN_A_FOLDER)
        folder = tree / f"area{group // 10}" / f"part{group % 10}"
        folder.mkdir(parents=True, exist_ok=True)
        (folder / f"file{place}.proto").write_text(content(number))
    return str(tree)


def make_headers():
    """A folder of 50,000 entries, 20 of them files that count, and its path."""
    tree = new_folder("headers")
    for number in range(50_000 - 100):
        if number % 500 == 0:
            (tree / f"part{number // 500}").mkdir()
        (tree / f"part{number // 500}" / f"file{number}.{'proto' if number % 2500 == 0 else 'h'}").write_text('syntax = "proto3";\n')
    return str(tree)


def are_two_roots_kept(given, one, two):
    """Whether two roots are read, and checked, about as fast as one with their files."""
    words = [option for it in zip(("--root", "--proto-path"), two) for option in it]
    kept = True
    for name, command, stdin in (("read", "serve", given), ("checked", "check", None)):
        single, double = lab.best_of_each([(stream.command([command, "--root", one]), stdin), (stream.command([command, *words]), stdin)], TIMES)
        print(f"two roots of 5,000 files are {name} in {double * 1000:.1f} ms, one of 10,000 in {single * 1000:.1f} ms: {double / single:.3f}", flush=True)
        kept = kept and double <= OF_ONE_ROOT * single
    return kept


def are_headers_kept(given, start):
    """Whether a folder of many entries of which few count is read fast."""
    tree = make_headers()
    [took] = lab.best_of_each([(stream.command(["serve", "--root", tree]), given)], TIMES)
    print(f"50,000 entries with 20 files that count take {(took - start) * 1000:.1f} ms", flush=True)
    shutil.rmtree(tree)
    return took - start <= MOST_ENTRIES


def main():
    plain = lab.c_program(HERE / "plain.c")
    given = lab.text_file("folder.frames", INPUT)
    counts = [5_000, 10_000]
    trees = [make_tree(count) for count in counts]
    start, *_ = lab.best_of_each([(stream.command(), given)], TIMES)
    kept = True
    print(lab.machine())
    print(f"without a folder the program takes {start * 1000:.1f} ms")
    print(f"{'files':>7} {'protols':>10} growth {'C':>10} ratio")
    before = None
    for count, tree in zip(counts, trees):
        ours, theirs = lab.best_of_each([(stream.command(["serve", "--root", tree]), given), ([plain, tree], None)], TIMES)
        growth = f"{ours / before:6.2f}" if before else " " * 6
        print(f"{count:>7,} {ours * 1000:>7.1f} ms {growth} {theirs * 1000:>7.1f} ms {ours / theirs:5.2f}", flush=True)
        kept = kept and ours <= MOST * theirs and (before is None or ours <= GROWTH * before)
        before = ours
    trees.append(make_tree(5_000, 5_000))
    kept = are_two_roots_kept(given, trees[1], (trees[0], trees[2])) and kept
    kept = are_headers_kept(given, start) and kept
    for tree in trees:
        shutil.rmtree(tree)
    print("kept" if kept else "NOT kept")
    return 0 if kept else 1


if __name__ == "__main__":
    sys.exit(main())
