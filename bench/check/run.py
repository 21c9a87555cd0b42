#!/usr/bin/env python3
"""Times `protols check` with one worker on workspaces of 1,000 and 4,000 files, with 1, 2 and 4 workers on 1,000 and 10,000, and an editor's change
of one file among 1,000.

Each file has 8 messages with messages and enums inside, a package and 5 imports, and names that refer to declarations of its
own and of the files that it imports. Four times the files may take at most 4.8 times the time. Where `protoc` is on the PATH, or
its library of Debian is there (protoc.c), it is timed on the same files (`--descriptor_set_out=/dev/null`), and `check` may take
at most 3 times its time and at most its memory. With four workers a check may take at most 0.4 of the time with one, and at most 0.1 of
protoc's; both are judged only on four processors or more. After a change of one file, a blank, a declaration or an import more, its
diagnostics may take at most 0.25 of the time of the first analysis, and after a new name in a file that 1,000 or 10,000 others import and use
at most 0.02 and 0.2 s. Two documents that are changed at once may take twice the time of one. A new
document and one that leaves are timed and not judged. The status is 1 where a limit is passed. A typed character is timed in workspaces of 100 to 10,000 files, and not judged.

A time is the best of 5. The program is crates/protols/out/protols, or the one that PROTOLS names."""
import os
import pathlib
import shutil
import statistics
import subprocess
import sys
import tempfile

HERE = pathlib.Path(__file__).resolve().parent
sys.path[:0] = [str(HERE.parent), str(HERE.parent.parent / "tests")]
import lab
import stream
from editors import HUB, HUB_TEXT, LAST_LINE, Editor, cost, put_tree
from trees import ordinary, path

SIZES = [1_000, 4_000]
TIMES = 5

# The most that four times the files may take, as a multiple of the time.
GROWTH = 4.8

# Where Debian's package libprotoc32 has protoc's library, and that of Protocol Buffers beside it.
LIBRARIES = [pathlib.Path("/usr/lib/x86_64-linux-gnu") / name for name in ("libprotoc.so.32", "libprotobuf.so.32")]

# The most that a check may take, as a multiple of protoc's time.
PROTOC = 3

# The sizes of the workspaces that are checked with each of these numbers of workers.
SHARED_SIZES = [1_000, 10_000]
WORKERS = [1, 2, 4]

# The most that a check with four workers may take, as a part of the time with one, and of protoc's time.
SHARED = 0.4
SHARED_PROTOC = 0.1

# The most that the diagnostics of a changed file may take, as a part of the time of the first analysis.
CHANGED = 0.25

# The most seconds that an answer may take after a new name in a file that all others import, by the number of these.
HUB_LIMITS = {1_000: 0.02, 10_000: 0.2}

# The most that changes of two documents at once may take, as a multiple of the time after a change of one.
TOGETHER = 2

# The sizes of the workspaces in which characters are typed, and how many are.
TYPED_IN = [100, 1_000, 4_000, 10_000]
KEYSTROKES = 200


def least(runs):
    """The least time of some runs, and the least memory."""
    return min(taken for taken, _ in runs), min(memory for _, memory in runs)


def protoc():
    """The command protoc, if it is there or can be made."""
    command = shutil.which("protoc")
    if command is None and all(library.exists() for library in LIBRARIES):
        command = lab.c_program(HERE / "protoc.c", LIBRARIES)
    return command


def checked(size, other, numbers):
    """The cost of a check by each of these numbers of workers, and that of the other command protoc, if there is one. All are run in turn."""
    with tempfile.TemporaryDirectory() as holder:
        paths = put_tree(pathlib.Path(holder), size)
        with open(pathlib.Path(holder) / "files", "w") as files:
            files.write("\n".join(paths))
        ours, theirs = {number: [] for number in numbers}, []
        for _ in range(TIMES):
            for number in numbers:
                ours[number].append(cost([*stream.command(("check",)), "--workers", str(number), "--root", "."], holder))
            if other is not None:
                theirs.append(cost([other, "--descriptor_set_out=/dev/null", "@files"], holder))
        return {number: least(runs) for number, runs in ours.items()}, least(theirs) if theirs else None


def check_with_workers(size, other):
    """Prints the times of a check with each number of workers, as parts of that with one and of protoc's, and says whether the limits are kept."""
    ours, theirs = checked(size, other, WORKERS)
    one, most = ours[WORKERS[0]][0], max(WORKERS)
    for number, (taken, memory) in ours.items():
        line = f"check of {size:,} files with {number} workers: {taken:.2f} s, {memory:.0f} MB ({taken / one:.2f} of the time with one"
        print(line + (f", {taken / theirs[0]:.3f} of protoc's)" if theirs else ")"))
    if os.cpu_count() < most:
        return True
    taken = ours[most][0]
    print(f"limits with {most} workers: {SHARED} of the time with one" + (f", {SHARED_PROTOC} of protoc's" if theirs else ""))
    return taken <= SHARED * one and (theirs is None or taken <= SHARED_PROTOC * theirs[0])


def answer_times(size):
    """The seconds of the first answer about a file of a workspace, and of the answers after a blank more in it, after a
    declaration more, and after an import more."""
    with tempfile.TemporaryDirectory() as holder:
        put_tree(pathlib.Path(holder), size)
        with Editor(holder, path(size // 2), ordinary(size // 2)) as editor:
            first = editor.open()
            blank = min(editor.change(0, " ") for _ in range(TIMES))
            declared = min(editor.change(LAST_LINE, f"message Added{n} {{ }} ") for n in range(TIMES))
            imported = min(editor.change(LAST_LINE, f'import \\"{path(n)}\\"; ') for n in range(TIMES))
        return first, blank, declared, imported


def keystrokes(size):
    """The median of the seconds from a typed character to the diagnostics of its document, in a workspace of so many files, and the most memory that
    the session took, in megabytes."""
    with tempfile.TemporaryDirectory() as holder:
        put_tree(pathlib.Path(holder), size)
        with Editor(holder, path(size // 2), ordinary(size // 2)) as editor:
            editor.open()
            middle = statistics.median(editor.change(0, " ") for _ in range(KEYSTROKES))
            memory = editor.memory()
        return middle, memory


def together(size):
    """The medians of the seconds after a message more in one of two open documents, and after one in each of them at once."""
    with tempfile.TemporaryDirectory() as holder:
        put_tree(pathlib.Path(holder), size)
        with Editor(holder, path(size - 1), ordinary(size - 1)) as editor:
            editor.open()
            other = f"file://{holder}/{path(size // 2)}"
            editor.after(editor.opening(other, ordinary(size // 2)))
            one = statistics.median(editor.change(LAST_LINE, f"message One{n} {{ }} ") for n in range(4 * TIMES))
            both = statistics.median(
                editor.after(*(editor.changing(uri, LAST_LINE, f"message Two{n} {{ }} ") for uri in (other, editor.uri))) for n in range(4 * TIMES)
            )
        return one, both


def come_and_leave(size):
    """The medians of the seconds after a new document is opened that imports a file of the workspace, and after it is closed, so that it leaves."""
    with tempfile.TemporaryDirectory() as holder:
        put_tree(pathlib.Path(holder), size)
        with Editor(holder, path(size // 2), ordinary(size // 2)) as editor:
            editor.open()
            uris = [f"file://{holder}/new{n}.proto" for n in range(2 * TIMES)]
            come = statistics.median(editor.after(editor.opening(uri, f'syntax = "proto3";\nimport "{path(0)}";\n')) for uri in uris)
            leave = statistics.median(editor.after(editor.closing(uri)) for uri in uris)
        return come, leave


def hub_times(size):
    """The seconds of the first answer about a file that all others import and use, and the medians of those after a declaration more behind
    the one that they use, and before it, so that it gets another number."""
    with tempfile.TemporaryDirectory() as holder:
        put_tree(pathlib.Path(holder), size, hub=True)
        with Editor(holder, HUB, HUB_TEXT) as editor:
            first = editor.open()
            behind = statistics.median(editor.change(LAST_LINE, f"message Behind{n} {{ }} ") for n in range(TIMES))
            before = statistics.median(editor.change(2, f"message Before{n} {{ }} ") for n in range(TIMES))
            return first, behind, before


def main():
    print(lab.machine())
    kept = True
    before = None
    command = protoc()
    for size in SIZES:
        costs, other = checked(size, command, [1])
        ours, memory = costs[1]
        line = f"check of {size:,} files with one worker: {ours:.2f} s, {memory:.0f} MB"
        if before is not None:
            line += f" ({ours / before:.2f} times as long)"
            kept = kept and ours <= GROWTH * before
        if other is not None:
            line += f"; protoc {other[0]:.2f} s, {other[1]:.0f} MB ({ours / other[0]:.2f} times its time)"
            kept = kept and ours <= PROTOC * other[0] and memory <= other[1]
        print(line)
        before = ours
    for size in SHARED_SIZES:
        kept = check_with_workers(size, command) and kept
    first, *changes = answer_times(SIZES[0])
    print(f"an editor's file among {SIZES[0]:,}: first answer {first:.2f} s")
    for what, changed in zip(("a blank", "a declaration", "an import"), changes):
        print(f"the answer after {what} more in that file: {changed:.4f} s ({changed / first:.3f} of it)")
        kept = kept and changed <= CHANGED * first
    for size in TYPED_IN:
        middle, memory = keystrokes(size)
        print(f"a typed character among {size:,} files: {1000 * middle:.2f} ms to the diagnostics, half of the times; {memory:.0f} MB")
    for size in TYPED_IN:
        one, both = together(size)
        print(f"a message more in one document of {size:,}: {1000 * one:.2f} ms; in two at once: {1000 * both:.2f} ms")
        kept = kept and both <= TOGETHER * one
        come, leave = come_and_leave(size)
        print(f"a new document among {size:,}: {1000 * come:.2f} ms; it leaves: {1000 * leave:.2f} ms")
    for size, limit in HUB_LIMITS.items():
        first, behind, before = hub_times(size)
        print(f"a file that all {size:,} import: first answer {first:.2f} s; after a name more behind the others in it {behind:.4f} s, before them {before:.4f} s (limit {limit} s)")
        kept = kept and max(behind, before) <= limit
    print("kept" if kept else "NOT kept")
    return 0 if kept else 1


if __name__ == "__main__":
    sys.exit(main())
