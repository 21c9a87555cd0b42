#!/usr/bin/env python3
"""Times `protols serve` in each position encoding: the other two may take at most 1.05 times as long as UTF-16.

Measured are the diagnostics of one line of 200,000 bad characters from the start of the process to its end; a typed character in the middle of a
document of 1 MB, with its diagnostics; and, in a tree of 1,000 files, all symbols and the references of a name that each file uses ten times. A time is the
best of several, and the encodings take turns, so that all meet the same machine. The status is 1 if a limit is exceeded.
"""
import itertools
import json
import pathlib
import subprocess
import sys
import tempfile
import time

HERE = pathlib.Path(__file__).resolve().parent
sys.path[:0] = [str(HERE.parent), str(HERE.parent.parent / "tests")]
import lab
import stream
import trees

ENCODINGS = ("utf-16", "utf-8", "utf-32")
TIMES = 15
MOST = 1.05
URI = "file:///w/a.proto"
PROTO3 = 'syntax = "proto3";\n'


def message(**members):
    return json.dumps({"jsonrpc": "2.0", **members})


def initialize(encoding):
    capabilities = {"general": {"positionEncodings": [encoding]}, "textDocument": {"diagnostic": {}}}
    return message(id=1, method="initialize", params={"capabilities": capabilities})


def opening(uri, text):
    return message(method="textDocument/didOpen", params={"textDocument": {"uri": uri, "languageId": "proto", "version": 1, "text": text}})


def asking(uri):
    return message(id=2, method="textDocument/diagnostic", params={"textDocument": {"uri": uri}})


def session_of_signs(encoding):
    """A whole process, from its start to its end."""
    ending = [message(id=3, method="shutdown"), message(method="exit")]
    data = stream.frames([initialize(encoding), opening(URI, PROTO3 + "#" * 200_000), asking(URI), *ending])
    start = time.perf_counter()
    subprocess.run(stream.command(), input=data, stdout=subprocess.DEVNULL, check=True)
    return time.perf_counter() - start


class Asked:
    """A server in an encoding, and what is asked of it again and again, behind messages that may come before each."""

    def __init__(self, encoding, options, first, *bodies):
        self.server, self.data = stream.Server(("serve", *options)), stream.frames(bodies)
        self.server.send_bytes(stream.frames([initialize(encoding), *first]))
        self.server.receive()
        self.seconds()

    def seconds(self):
        start = time.perf_counter()
        self.server.send_bytes(self.data)
        self.server.receive()
        return time.perf_counter() - start


def typing(encoding):
    """A character that is put into a long text and taken out again."""
    text = PROTO3 + "// é😀 a line of words, as comments have them\n" * 20_000
    place = {"line": 10_000, "character": 20}

    def changing(end, more):
        change = {"range": {"start": place, "end": {**place, "character": end}}, "text": more}
        return message(method="textDocument/didChange", params={"textDocument": {"uri": URI, "version": 2}, "contentChanges": [change]})

    return Asked(encoding, (), [opening(URI, text)], changing(20, "x"), changing(21, ""), asking(URI))


def tree(folder):
    for n in range(1000):
        file = pathlib.Path(folder, trees.path(n))
        file.parent.mkdir(parents=True, exist_ok=True)
        file.write_text(trees.user_of_one_name(n))
    pathlib.Path(folder, trees.ONE_NAME).write_text(trees.ONE_NAME_TEXT)


def searching(encoding, folder):
    return Asked(encoding, ("--root", folder), [], message(id=2, method="workspace/symbol", params={"query": ""}))


def referring(encoding, folder):
    at = {"line": 2, "character": trees.ONE_NAME_TEXT.splitlines()[2].index("Money")}
    params = {"textDocument": {"uri": f"file://{folder}/{trees.ONE_NAME}"}, "position": at, "context": {"includeDeclaration": True}}
    return Asked(encoding, ("--root", folder), [], message(id=2, method="textDocument/references", params=params))


def best_of_each(measures):
    """The best time of each measure, which take turns."""
    bests = [float("inf")] * len(measures)
    for _, (place, measure) in itertools.product(range(TIMES), enumerate(measures)):
        bests[place] = min(bests[place], measure())
    return bests


def main():
    print(lab.machine())
    print(f"{'':>28}" + "".join(f"{it:>12}" for it in ENCODINGS) + "   relative")
    kept = True
    with tempfile.TemporaryDirectory() as folder:
        tree(folder)
        kinds = [
            ("200,000 diagnostics", lambda it: lambda: session_of_signs(it)),
            ("a typed character, 1 MB", lambda it: typing(it).seconds),
            ("all symbols, 1,000 files", lambda it: searching(it, folder).seconds),
            ("10,000 references", lambda it: referring(it, folder).seconds),
        ]
        for name, measure_in in kinds:
            bests = best_of_each([measure_in(it) for it in ENCODINGS])
            relative = [it / bests[0] for it in bests[1:]]
            kept = kept and all(it <= MOST for it in relative)
            print(f"{name:>28}" + "".join(f"{it * 1000:>9.2f} ms" for it in bests) + "".join(f"{it:>8.3f}" for it in relative), flush=True)
    print("kept" if kept else "NOT kept")
    return 0 if kept else 1


if __name__ == "__main__":
    sys.exit(main())
