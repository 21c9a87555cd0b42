"""End-to-end tests of `protols check`: its lines, its statuses and its command line.

In a row `|` stands for a line feed, and `S|` at the front for the line `syntax = "proto3";`.
"""
import concurrent.futures
import os
import subprocess
import unittest

import stream
from test_folder import FOLDER, SKIPPED, FolderTest, fixed

CHECK_USAGE = b"""\
Usage: protols check [--root DIR] [--proto-path DIR]... [--read-others]
                     [--workers N] [--format FORMAT] [--quiet] [FILE]...
"""

# How often a small tree is checked, side by side.
RUNS = 1_000


def spelled(row):
    """The text that a row stands for."""
    return row.replace("S|", 'syntax = "proto3";|', 1).replace("|", "\n") if row.startswith("S|") else row.replace("|", "\n")


# Files by path, the lines of a check, and its status.
WORKSPACES = [
    ({}, "", 0),
    ({"a.proto": "S|message M { M m = 1; }|"}, "", 0),
    ({"a.proto": "S|#|"}, "a.proto:2:1: 201 illegal character\n", 1),
    (
        {"x.proto": 'S|import "none.proto";|import "x.proto";|import "old.proto";|message X { Gone g = 1; }|', "old.proto": 'syntax = "proto2";|message Old { required int32 a = 1; }|'},
        "old.proto:1:1: 317 not a proto3 file\nx.proto:2:8: 403 import not found\nx.proto:3:8: 404 import cycle\n",
        1,
    ),
    ({"old.proto": 'syntax = "proto2";|'}, "old.proto:1:1: 317 not a proto3 file\n", 0),
    (
        {"b/q.proto": 'S|import "a/p.proto";|package b;|message Q { a.P p = 1; a.Other o = 2; }|', "a/p.proto": "S|package a;|message P { }|"},
        "b/q.proto:4:24: 401 unresolved name\n",
        1,
    ),
    # Names that differ in case are different names, and so are paths.
    ({"a.proto": 'S|import "b.proto";|message A { b x = 1; B y = 2; }|', "b.proto": "S|message B { }|"}, "a.proto:3:13: 401 unresolved name\n", 1),
    ({"a.proto": 'S|import "B.proto";|', "b.proto": "S|message B { }|"}, "a.proto:2:8: 403 import not found\n", 1),
    # The same name in two files is told in the file that sees the other.
    ({"a.proto": 'S|import "b.proto";|message M { }|', "b.proto": "S|message M { }|"}, "a.proto:3:9: 405 name declared in a visible file\n", 1),
    # A package of a visible file, and a name of the wrong kind.
    (
        {"a.proto": 'S|import "b.proto";|message b { }|service T { rpc Do(E) returns (b); }|enum E { Z = 0; }|', "b.proto": "S|package b.c;|"},
        "a.proto:3:9: 406 name is a package\na.proto:4:20: 402 wrong kind of name\n",
        1,
    ),
    # Columns count UTF-16 units from 1; a path stands as it is, and files come by the bytes of their paths.
    ({"é.proto": "S|/* 😀 */ #|", "Z.proto": "S|#|", "a b.proto": "S|#|"}, "Z.proto:2:1: 201 illegal character\na b.proto:2:1: 201 illegal character\né.proto:2:10: 201 illegal character\n", 1),
]

# Files that only import each other, in a ring.
RING = {f"f{n}.proto": f'S|import "f{(n + 1) % 50}.proto";|message M{n} {{ M{(n + 1) % 50} m = 1; }}|' for n in range(50)}

# Files that each import the next one, and name a message of it and one of the last file, which only the last two see.
CHAIN = {f"f{n}.proto": f'S|import "f{n + 1}.proto";|message M{n} {{ M{n + 1} a = 1; M7 b = 2; }}|' for n in range(1, 7)}
CHAIN["f7.proto"] = "S|message M7 { M7 a = 1; }|"


class Check(FolderTest):
    def put_all(self, files):
        for path, row in files.items():
            self.put(path, spelled(row))

    def run_check(self, *words, cwd=None):
        """What `protols check` writes on standard output, the fixed lines of its standard error, and its status, with each number of workers alike."""
        out, err, status = stream.check_with_each(words, cwd)
        return out, fixed(err), status

    def test_lines_and_statuses(self):
        for files, lines, status in WORKSPACES:
            with self.subTest(files=files):
                self.setUp()
                self.put_all(files)
                self.assertEqual(self.run_check("--root", self.root), (lines.encode(), b"", status))

    def test_the_folder_is_the_current_one_by_default(self):
        self.put_all({"b.proto": "S|#|"})
        wanted = (b"b.proto:2:1: 201 illegal character\n", b"", 1)
        self.assertEqual(self.run_check(cwd=self.root), wanted)
        self.assertEqual(self.run_check("--root", ".", cwd=self.root), wanted)
        self.assertEqual(self.run_check("--root=root", cwd=self.holder), wanted)
        self.assertEqual(self.run_check("--root", f"{self.root}/"), wanted)

    def test_a_ring_of_imports(self):
        self.put_all(RING)
        lines = "".join(f"{path}:2:8: 404 import cycle\n" for path in sorted(RING))
        self.assertEqual(self.run_check("--root", self.root), (lines.encode(), b"", 1))

    def test_a_chain_of_imports(self):
        self.put_all(CHAIN)
        lines = "".join(f"f{n}.proto:3:24: 401 unresolved name\n" for n in range(1, 6))
        self.assertEqual(self.run_check("--root", self.root), (lines.encode(), b"", 1))

    def test_a_small_tree_again_and_again(self):
        self.put_all(CHAIN)
        with concurrent.futures.ThreadPoolExecutor(os.cpu_count()) as pool:
            seen = set(pool.map(lambda _: stream.check(("--workers", 4, "--root", self.root)), range(RUNS)))
        lines = "".join(f"f{n}.proto:3:24: 401 unresolved name\n" for n in range(1, 6))
        self.assertEqual(seen, {(lines.encode(), b"", 1)})

    def test_what_cannot_be_read_is_skipped(self):
        self.put("a.proto")
        self.put("b.proto", spelled('S|import "a.proto";|'))
        self.assertEqual(self.run_check("--root", self.root), (b"b.proto:2:8: 403 import not found\n", SKIPPED, 1))

    def test_a_folder_that_cannot_be_listed(self):
        self.assertEqual(self.run_check("--root", self.root / "none"), (b"", FOLDER, 3))
        self.assertEqual(self.run_check("--root", ""), (b"", FOLDER, 3))

    def test_wrong_words(self):
        for words in (("--stdio",), ("--clientProcessId", "1"), ("--root", "a", "--root", "b"), ("--roo", "a")):
            with self.subTest(words=words):
                out, err, status = stream.check(words)
                self.assertEqual((out, status), (b"", 2))
                self.assertTrue(err.startswith(b"error: "), err)
                self.assertIn(CHECK_USAGE, err)

    def test_help(self):
        out, err, status = stream.check(("--help",))
        self.assertEqual((err, status), (b"", 0))
        for part in (CHECK_USAGE, b"--root <DIR>", b"--read-others", b"--workers <N>", b"[default: 4]", b"--format <FORMAT>", b"--quiet", b"[FILE]..."):
            self.assertIn(part, out)

    def test_a_closed_output(self):
        self.put_all({"a.proto": "S|" + "#|" * 20_000})
        reader, writer = os.pipe()
        os.close(reader)
        with os.fdopen(writer, "wb") as closed:
            for number in stream.NUMBERS:
                with self.subTest(workers=number):
                    words = stream.command(("check", "--root", str(self.root), "--workers", str(number)))
                    ended = subprocess.run(words, stdin=subprocess.DEVNULL, stdout=closed, stderr=subprocess.PIPE, timeout=stream.CHECK_LIMIT)
                    self.assertEqual((ended.stderr, ended.returncode), (b"protols: fault 802\n", 3))

    def test_many_lines(self):
        # (threads make those of 1,024 to 65,536 diagnostics)
        rows = ([0, 0, 1_023], [0, 1_024, 0], [512, 512, 0], [n % 7 for n in range(700)], [1_000, 0, 0, 1, 30, 0], [1] * 1_500, [65_536], [32_768, 0, 32_769])
        for numbers in rows:
            with self.subTest(files=len(numbers), diagnostics=sum(numbers)):
                self.setUp()
                files = {f"d{n % 3}/f{n}.proto": number for n, number in enumerate(numbers)}
                self.put_all({path: "S|" + "#|" * number for path, number in files.items()})
                lines = "".join(f"{path}:{line}:1: 201 illegal character\n" for path in sorted(files) for line in range(2, files[path] + 2))
                self.assertEqual(self.run_check("--root", self.root), (lines.encode(), b"", 1))

    def test_many_files(self):
        self.put_all({f"d{n % 100}/f{n}.proto": f"S|package p{n % 7};|message M{n} {{ M{n} m = 1; }}|" for n in range(10_000)})
        self.assertEqual(self.run_check("--root", self.root), (b"", b"", 0))


if __name__ == "__main__":
    unittest.main()
