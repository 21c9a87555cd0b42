"""The program with little memory, a megabyte more each time from the least on with which it starts: it writes what it writes with ample memory, or a part
of that and then 803 or 804."""
import concurrent.futures
import itertools
import json
import os
import pathlib
import subprocess
import tempfile
import unittest

import stream
from stream import frames
from test_serve import EXIT, FIRST_INPUT, FIRST_OUTPUT, INITIALIZE, PROTO3, SHUTDOWN, request

FILES = 200

# After so many runs in a row that write all, no more memory is tried.
ENOUGH = 8

FAULTS = {(b"protols: fault 803\n", 3), (b"protols: fault 804\n", 3)}


def run(args, data, megabytes):
    """A run of the program with so much memory: its standard output, standard error and exit status."""
    limited = ["sh", "-c", 'ulimit -v "$0" && exec "$@"', str(megabytes << 10), *stream.command(args)]
    done = subprocess.run(limited, input=data, capture_output=True, timeout=stream.LIMIT)
    return done.stdout, done.stderr, done.returncode


def least():
    """The fewest megabytes with which the program starts."""
    return next(megabytes for megabytes in itertools.count(1) if run(("--help",), b"", megabytes)[2] == 0)


def runs(args, data, whole):
    """The runs with more and more memory, until enough of them have come to this end."""
    first, in_a_row = least(), 0
    with concurrent.futures.ThreadPoolExecutor(os.cpu_count()) as pool:
        while in_a_row < ENOUGH:
            for megabytes, found in enumerate(pool.map(lambda most: run(args, data, most), range(first, first + ENOUGH)), first):
                in_a_row = in_a_row + 1 if found == whole else 0
                yield megabytes, found
            first += ENOUGH


def text_of(number):
    """A file that names the message of the first one."""
    front = 'import "000.proto";\n' if number else ""
    return f"{PROTO3}{front}message M{number} {{ M0 m = 1; }}\n"


class LittleMemory(unittest.TestCase):
    def folder(self):
        """A folder of files each of which names the message of the first."""
        folder = tempfile.TemporaryDirectory()
        self.addCleanup(folder.cleanup)
        for number in range(FILES):
            pathlib.Path(folder.name, f"{number:03}.proto").write_text(text_of(number))
        return folder.name

    def check_each(self, args, data, whole, status):
        self.assertEqual(stream.run(data, args), (whole, b"", status))
        seen = set()
        for megabytes, (out, err, ended) in runs(args, data, (whole, b"", status)):
            with self.subTest(megabytes=megabytes):
                self.assertTrue(whole.startswith(out))
                self.assertIn((err, ended), FAULTS if err else {(b"", status)})
                self.assertTrue(err or out == whole)
            seen.add(err)
        self.assertGreater(len(seen), 1)

    def test_a_first_session(self):
        for workers in ("1", "4"):
            self.check_each(("serve", "--workers", workers), FIRST_INPUT, FIRST_OUTPUT, 0)

    def test_a_session_of_many_files(self):
        root = self.folder()
        place = {"textDocument": {"uri": f"file://{root}/000.proto"}, "position": {"line": 1, "character": 8}}
        messages = [
            INITIALIZE,
            *(self.message(root, "didOpen", number, {"version": 1, "text": text_of(number) + "#\n"}) for number in range(0, FILES, 10)),
            request("2", "workspace/diagnostic", "{}"),
            *(self.message(root, "didChange", number, {"version": 2}, contentChanges=[{"text": text_of(number)}]) for number in range(0, FILES, 10)),
            request("4", "textDocument/rename", json.dumps({**place, "newName": "Other"})),
            SHUTDOWN,
            EXIT,
        ]
        args = ("serve", "--root", root, "--workers", "4")
        whole, _, _ = stream.run(frames(messages), args)
        renamed = json.loads(stream.split_frames(whole)[2])
        self.assertEqual(len(renamed["result"]["changes"]), FILES)
        self.check_each(args, frames(messages), whole, 0)

    def message(self, root, method, number, document, **params):
        """A notification of a document."""
        document = {"uri": f"file://{root}/{number:03}.proto", **document}
        return json.dumps({"jsonrpc": "2.0", "method": f"textDocument/{method}", "params": {"textDocument": document, **params}})

    def test_a_check(self):
        root = self.folder()
        lines = []
        for number in range(0, FILES, 2):
            pathlib.Path(root, f"{number:03}.proto").write_text(text_of(number) + "#\n")
            lines.append(f"{number:03}.proto:{4 if number else 3}:1: 201 illegal character\n")
        self.check_each(("check", "--quiet", "--root", root, "--workers", "4"), b"", "".join(lines).encode(), 1)


if __name__ == "__main__":
    unittest.main()
