#!/usr/bin/env python3
"""Times the graph of imports and the names of workspaces of 1,000, 2,000 and 4,000 files, without the reading of their texts.

In the first each file has 8 messages with messages and enums inside, a package and 5 imports, and names that refer to
declarations of its own and of the files that it imports. In the second every other file declares the same name outside any
package, and all files refer to it. Twice the files may take at most 2.4 times the time; the status is 1 where they take longer.
Best of 5, all sizes in turn."""
import pathlib
import sys

HERE = pathlib.Path(__file__).resolve().parent
sys.path[:0] = [str(HERE.parent)]
import lab
from trees import ordinary, path, same_name

LIBRARIES = ["proto_resolve", "import_graph", "proto_facts", "proto_lex", "proto_syntax", "anyhow"]
SIZES = [1_000, 2_000, 4_000]
TIMES = 5
# The most that twice the files may take, as a multiple of the time.
MOST = 2.4


def workspace(size, text):
    return "\x01".join(f"{path(n)}\n{text(n)}" for n in range(size))


def measured(program, title, text):
    """Prints the times of the workspaces of that kind, and says whether all were within the limit."""
    paths = [lab.text_file(f"{text.__name__}{size}.txt", workspace(size, text).encode()) for size in SIZES]
    kept = True
    before = None
    for size, (found, times) in zip(SIZES, lab.fastest([[program, path] for path in paths], TIMES)):
        reading, linking, resolving = times
        both = linking + resolving
        line = f"{title}, {size:,}: graph and table {linking:.1f} ms, names {resolving:.1f} ms, together {both:.1f} ms"
        if before is not None:
            line += f" ({both / before:.2f} times as long)"
            kept = kept and both <= MOST * before
        print(f"{line}; reading {reading:.1f} ms; uses and diagnostics: {found}")
        before = both
    return kept


def main():
    program = lab.rattle_program("proto_resolve", LIBRARIES)
    print(lab.machine())
    kept = [measured(program, "ordinary files", ordinary), measured(program, "one name in every other file", same_name)]
    print("kept" if all(kept) else "NOT kept")
    return 0 if all(kept) else 1


if __name__ == "__main__":
    sys.exit(main())
