#!/usr/bin/env python3
"""What `--read-others` finds in a tree of real files, and what it costs.

usage: run.py FOLDER      the folder's files have to be good ones that see each other, such as protoc takes together

A type that nobody declares is planted in a message at the end of each proto3 file of a copy: at least 97 % of them have to be reported (401) with the
option. On the files as they are it may add no diagnostic, and take at most 1.05 times the time and the memory. The status is 1 where a limit is passed.

A time is the best of 25, with one worker. The program is crates/protols/out/protols, or the one that PROTOLS names."""
import pathlib
import re
import shutil
import sys
import tempfile

HERE = pathlib.Path(__file__).resolve().parent
sys.path[:0] = [str(HERE.parent), str(HERE.parent.parent / "tests")]
import lab
import stream
from editors import cost

TIMES = 25
LEAST, MOST = 0.97, 1.05
WORDS = {"without": (), "with": ("--read-others",)}
PROTO3 = re.compile(r"^\s*syntax\s*=\s*[\"']proto3[\"']", re.MULTILINE)


def plant(folder):
    """Plants a type in each proto3 file, and says how many there are."""
    found = 0
    for file in sorted(folder.rglob("*.proto")):
        text = file.read_text(errors="replace")
        if PROTO3.search(text):
            found += 1
            file.write_text(f"{text}\nmessage Planted{found} {{ NobodyDeclaresThis planted = 1; }}\n")
    return found


def costs(folder):
    """The least time and memory of a check without the option and with it, run in turn."""
    runs = {name: [] for name in WORDS}
    for _ in range(TIMES):
        for name, words in WORDS.items():
            runs[name].append(cost(["sh", "-c", '"$@" > /dev/null; test $? -le 1', "sh", *stream.command(("check", "--quiet", "--workers", "1", *words))], folder))
    return {name: [min(column) for column in zip(*rows)] for name, rows in runs.items()}


def told(folder):
    """The lines of a check without the option and with it."""
    return {name: stream.check(words, folder)[0].splitlines() for name, words in WORDS.items()}


def main(words):
    print(lab.machine())
    folder = pathlib.Path(words[0]).resolve()
    said, taken = told(folder), costs(folder)
    added = len({*said["with"]} - {*said["without"]})
    ratios = [with_it / without for with_it, without in zip(taken["with"], taken["without"])]
    print(f"as it is: {added} lines are added; {ratios[0]:.2f} of the time, {ratios[1]:.2f} of the memory")
    with tempfile.TemporaryDirectory() as room:
        planted = pathlib.Path(room, "planted")
        shutil.copytree(folder, planted)
        count = plant(planted)
        found = {name: sum(b" 401 " in it for it in lines) for name, lines in told(planted).items()}
    print(f"planted: {count}; without the option {found['without']} are reported, with it {found['with']}")
    return 0 if not added and max(ratios) <= MOST and found["with"] >= LEAST * count else 1


if __name__ == "__main__":
    sys.exit(main(sys.argv[1:]))
