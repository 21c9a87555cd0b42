"""End-to-end tests of what `protols check` offers to builds and editors: formats, files by name, what standard error says, and what is in editors/.

In a row `|` stands for a line feed, and `S|` at the front for the line `syntax = "proto3";`. What is expected is worked out by hand: of `gnu` from the
GNU coding standards ("Formatting Error Messages"), of `github` from "Workflow commands for GitHub Actions", of `sarif` from SARIF 2.1.0.
"""
import json
import os
import pathlib
import re
import shutil
import subprocess
import unittest
import urllib.parse

import stream
from test_check import spelled
from test_folder import FolderTest

EDITORS = stream.ROOT / "editors"
FORMATS = ("plain", "gnu", "github", "json", "sarif")

# A file that isn't proto3, and one with a fault behind an emoji, of two UTF-16 units and four bytes, and an `é`, of one unit and two bytes.
OLD, ORDER, GOOD = 'syntax = "proto2";|', "S|/* 😀é */ message M { Gone g = 1; }|", "S|message Good { }|"
TREE = {"old.proto": OLD, "shop/order.proto": ORDER, "good.proto": GOOD}
SUMMARY = b"protols: 3 files checked, 1 error\n"

# A file that imports a missing one, one that sees it, and one that sees only that one, so that its view is closed.
LOST = {
    "a.proto": 'S|import "gone/none.proto";|message A { Gone g = 1; }|',
    "b.proto": 'S|import "a.proto";|message B { Gone g = 1; }|',
    "c.proto": 'S|import "b.proto";|message C { Gone g = 1; }|',
}
WHY = "not checked for unknown names, since an import is missing, too long or not proto3"

# Files by path, the files that are named, and what the last line says behind `protols: `.
UNCHECKED = [
    ({"a.proto": 'S|import "b.proto";|message A { Gone g = 1; }|', "b.proto": "S|"}, [], "2 files checked, 1 error"),
    ({"a.proto": 'S|import "none.proto";|'}, [], f"1 file checked, 1 error; 1 file {WHY}: none.proto"),
    # A terminal would obey control characters.
    ({"a.proto": 'S|import "\x1b[2J\x7f é.proto";|'}, [], f"1 file checked, 1 error; 1 file {WHY}: \\u{{1b}}[2J\\u{{7f}} é.proto"),
    (LOST, [], f"3 files checked, 2 errors; 2 files {WHY}: gone/none.proto"),
    (LOST, ["protos/b.proto"], f"1 file checked, 0 errors; 1 file {WHY}: gone/none.proto"),
    (LOST, ["protos/c.proto"], "1 file checked, 1 error"),
    (LOST, ["protos/c.proto", "protos/b.proto"], f"2 files checked, 1 error; 1 file {WHY}: gone/none.proto"),
    # A file that isn't proto3 is a file whose imports aren't known, and none of those that aren't checked.
    ({"a.proto": 'S|import "old.proto";|message A { Gone g = 1; }|', "old.proto": OLD + 'import "none.proto";|'}, [], f"2 files checked, 0 errors; 1 file {WHY}: old.proto"),
    ({"old.proto": OLD + 'import "none.proto";|'}, [], "1 file checked, 0 errors"),
    # Of a file that is too long the imports aren't known either.
    ({"a.proto": 'S|import "big.proto";|message A { Gone g = 1; }|', "big.proto": "S|" + " " * 16_777_216}, [], f"2 files checked, 1 error; 1 file {WHY}: big.proto"),
    # Public imports show a file from afar.
    (
        {"a.proto": 'S|import public "old.proto";|', "b.proto": 'S|import public "a.proto";|', "c.proto": 'S|import "b.proto";|', "d.proto": 'S|import "c.proto";|', "old.proto": OLD},
        [],
        f"5 files checked, 0 errors; 3 files {WHY}: old.proto",
    ),
    # The first file, of the files that it sees the first, and there the first import, by paths and by the text; not the first of all paths.
    (
        {"b.proto": 'S|import "d.proto";|import "none.proto";|', "c.proto": 'S|import "a.proto";|', "d.proto": 'S|import "good.proto";|import "z.proto";|import "old.proto";|', "good.proto": GOOD, "old.proto": OLD},
        [],
        f"5 files checked, 3 errors; 3 files {WHY}: none.proto",
    ),
    (
        {"c.proto": 'S|import "b.proto";|import "none.proto";|', "b.proto": 'S|import "good.proto";|import "z.proto";|import "old.proto";|', "good.proto": GOOD, "old.proto": OLD},
        ["protos/c.proto"],
        f"1 file checked, 1 error; 1 file {WHY}: z.proto",
    ),
    # Files in a ring see each other.
    ({"a.proto": 'S|import public "b.proto";|', "b.proto": 'S|import public "a.proto";|import "none.proto";|'}, [], f"2 files checked, 3 errors; 2 files {WHY}: none.proto"),
    # The path stands there as it is written.
    ({"a.proto": 'S|import "/a b/é.proto";|'}, [], f"1 file checked, 1 error; 1 file {WHY}: /a b/é.proto"),
]

# The name of a file, how a property of a workflow command writes it, and how a URI does.
NAMES = [
    ("a\nb", "a%0Ab", "a%0Ab"),
    ("a\rb", "a%0Db", "a%0Db"),
    ("a b", "a b", "a%20b"),
    ('a"b', 'a"b', "a%22b"),
    ("a%25b", "a%2525b", "a%2525b"),
    ("a'b", "a'b", "a%27b"),
    ("a,b", "a%2Cb", "a%2Cb"),
    ("a:7:3: error: b", "a%3A7%3A3%3A error%3A b", "a%3A7%3A3%3A%20error%3A%20b"),
    ("a\\b", "a\\b", "a%5Cb"),
    ("é", "é", "%C3%A9"),
]

GNU_LINE = re.compile(r"(.+):(\d+):(\d+): (error|info): (.+) \[(\d+)\]")

SCHEMA = "https://json.schemastore.org/sarif-2.1.0.json"


def place(byte, line, column):
    return {"byte": byte, "line": line, "column": column}


def found(folder, path, code, severity, message, start, end):
    """A line of `json`."""
    return {"folder": folder, "path": path, "code": code, "severity": severity, "message": message, "start": place(*start), "end": place(*end)}


def result(uri, code, level, message, start, end):
    """A result of SARIF; it starts and ends at a line and a column."""
    region = {"startLine": start[0], "startColumn": start[1], "endLine": end[0], "endColumn": end[1]}
    location = {"physicalLocation": {"artifactLocation": {"uri": uri}, "region": region}}
    return {"ruleId": code, "level": level, "message": {"text": message}, "locations": [location]}


def document(results):
    """A document of SARIF."""
    run = {"tool": {"driver": {"name": "protols"}}, "columnKind": "utf16CodeUnits", "results": results}
    return {"version": "2.1.0", "$schema": SCHEMA, "runs": [run]}


class FormatsTest(FolderTest):
    """A folder `protos` beside others, in the folder in which the program is run."""

    def setUp(self):
        super().setUp()
        self.root = self.holder / "protos"
        self.root.mkdir()

    def put_all(self, files):
        for path, row in files.items():
            self.put(path, spelled(row))

    def run_check(self, *words, cwd=None):
        """What it writes on standard output and on standard error, and its status, with each number of workers alike."""
        return stream.check_with_each(words, cwd or self.holder, quiet=False)

    def lines(self, form, *words, cwd=None, status=1):
        """The lines in a format. Standard error is empty."""
        out, err, ended = self.run_check("--quiet", "--format", form, *words, cwd=cwd)
        self.assertEqual((err, ended), (b"", status))
        text = out.decode()
        self.assertTrue(text.endswith("\n") or not text, text)
        return text[:-1].split("\n") if text else []


class Formats(FormatsTest):
    def test_plain_is_the_default(self):
        self.put_all(TREE)
        lines = ["old.proto:1:1: 317 not a proto3 file", "shop/order.proto:2:23: 401 unresolved name"]
        self.assertEqual(self.lines("plain", "--root", "protos"), lines)
        self.assertEqual(self.run_check("--root", "protos"), ("".join(line + "\n" for line in lines).encode(), SUMMARY, 1))

    def test_gnu(self):
        self.put_all(TREE)
        lines = ["protos/old.proto:1:1: info: not a proto3 file [317]", "protos/shop/order.proto:2:23: error: unresolved name [401]"]
        self.assertEqual(self.lines("gnu", "--root", "protos"), lines)

    def test_github(self):
        self.put_all(TREE)
        lines = ["::notice file=protos/old.proto,line=1,col=1::317 not a proto3 file", "::error file=protos/shop/order.proto,line=2,col=23::401 unresolved name"]
        self.assertEqual(self.lines("github", "--root", "protos"), lines)

    def test_json(self):
        self.put_all(TREE)
        wanted = [
            found("protos", "old.proto", 317, "info", "not a proto3 file", (0, 1, 1), (18, 1, 19)),
            # (19 bytes of the line before; 3 + 4 + 2 + 4 of the comment, and 12 up to the name)
            found("protos", "shop/order.proto", 401, "error", "unresolved name", (44, 2, 23), (48, 2, 27)),
        ]
        self.assertEqual([json.loads(line) for line in self.lines("json", "--root", "protos")], wanted)

    def test_sarif(self):
        self.put_all(TREE)
        results = [
            result("protos/old.proto", "317", "note", "not a proto3 file", (1, 1), (1, 19)),
            result("protos/shop/order.proto", "401", "error", "unresolved name", (2, 23), (2, 27)),
        ]
        lines = self.lines("sarif", "--root", "protos")
        self.assertEqual(len(lines), 1)
        self.assertEqual(json.loads(lines[0]), document(results))

    def test_a_diagnostic_inside_another_one(self):
        # (19 bytes of the line before; 3 + 2 + 4 + 4 of the comment, whose emoji is two units; the statement reaches to its `;`)
        self.put_all({"a.proto": "S|/* é😀 */ foo # bar|;|#|"})
        wanted = [
            found("protos", "a.proto", 202, "error", "statement not understood", (32, 2, 11), (43, 3, 2)),
            found("protos", "a.proto", 201, "error", "illegal character", (36, 2, 15), (37, 2, 16)),
            found("protos", "a.proto", 201, "error", "illegal character", (44, 4, 1), (45, 4, 2)),
        ]
        self.assertEqual([json.loads(line) for line in self.lines("json", "--root", "protos")], wanted)

    def test_nothing_is_wrong(self):
        self.put_all({"good.proto": GOOD})
        for form in FORMATS[:-1]:
            with self.subTest(format=form):
                self.assertEqual(self.lines(form, "--root", "protos", status=0), [])
        self.assertEqual([json.loads(line) for line in self.lines("sarif", "--root", "protos", status=0)], [document([])])

    def test_names_of_files(self):
        self.put_all({f"{name}.proto": "S|#|" for name, _, _ in NAMES})
        gnu = "\n".join(f"protos/{name}.proto:2:1: error: illegal character [201]" for name, _, _ in NAMES)
        self.assertEqual(self.lines("gnu", "--root", "protos"), gnu.split("\n"))
        github = [f"::error file=protos/{name}.proto,line=2,col=1::201 illegal character" for _, name, _ in NAMES]
        self.assertEqual(self.lines("github", "--root", "protos"), github)
        wanted = [found("protos", f"{name}.proto", 201, "error", "illegal character", (19, 2, 1), (20, 2, 2)) for name, _, _ in NAMES]
        self.assertEqual([json.loads(line) for line in self.lines("json", "--root", "protos")], wanted)
        results = [result(f"protos/{uri}.proto", "201", "error", "illegal character", (2, 1), (2, 2)) for _, _, uri in NAMES]
        self.assertEqual([json.loads(line) for line in self.lines("sarif", "--root", "protos")], [document(results)])

    def test_names_of_folders(self):
        for name, property_name, uri in NAMES:
            with self.subTest(folder=name):
                self.put_all({"a.proto": "S|#|"})
                self.root = self.root.rename(self.holder / name)
                self.assertEqual("\n".join(self.lines("gnu", "--root", name)), f"{name}/a.proto:2:1: error: illegal character [201]")
                self.assertEqual(self.lines("github", "--root", name), [f"::error file={property_name}/a.proto,line=2,col=1::201 illegal character"])
                self.assertEqual([json.loads(line)["folder"] for line in self.lines("json", "--root", name)], [name])
                (line,) = self.lines("sarif", "--root", name)
                self.assertEqual(json.loads(line), document([result(f"{uri}/a.proto", "201", "error", "illegal character", (2, 1), (2, 2))]))

    def test_lines_name_files_that_can_be_opened(self):
        self.put_all({"a b.proto": "S|#|", "sub/c.proto": "S|#|"})
        rows = [
            (["--root", "protos"], self.holder, "protos/"),
            (["--root", "protos/"], self.holder, "protos/"),
            (["--root", "protos//"], self.holder, "protos//"),
            (["--root", "./protos"], self.holder, "./protos/"),
            (["--root", "../protos"], self.root, "../protos/"),
            (["--root", "."], self.root, "./"),
            (["--root", ".."], self.root / "sub", "../"),
            (["--root", self.root], self.holder, f"{self.root}/"),
            ([], self.root, ""),
        ]
        for words, folder, before in rows:
            with self.subTest(words=words):
                shown = [GNU_LINE.fullmatch(line)[1] for line in self.lines("gnu", *words, cwd=folder)]
                self.assertEqual(shown, [f"{before}a b.proto", f"{before}sub/c.proto"])
                self.assertEqual([(folder / path).read_bytes() for path in shown], [spelled("S|#|").encode()] * 2)
                (line,) = self.lines("sarif", *words, cwd=folder)
                uris = [one["locations"][0]["physicalLocation"]["artifactLocation"]["uri"] for one in json.loads(line)["runs"][0]["results"]]
                start = f"file://{urllib.parse.quote(before)}" if before.startswith("/") else before
                self.assertEqual(uris, [f"{start}a%20b.proto", f"{start}sub/c.proto"])

    def test_each_line_shows_the_folder_of_its_file(self):
        self.put_all({"a.proto": "S|#|", "c.proto": "S|#|"})
        other = self.holder / "other"
        other.mkdir()
        for name in ("b.proto", "c.proto"):
            (other / name).write_text(spelled("S|#|"))
        lines = [f"{path}:2:1: error: illegal character [201]" for path in ("protos/a.proto", "other/b.proto", "protos/c.proto")]
        self.assertEqual(self.lines("gnu", "--root", "protos", "--proto-path", "other"), lines)

    def test_many_lines(self):
        # (threads make those of 1,024 to 65,536 diagnostics)
        for numbers in ([1], [0, 1_023], [0, 1_024, 0, 1], [3] * 700, [0, 66_000, 0, 1]):
            with self.subTest(files=len(numbers), diagnostics=sum(numbers)):
                shutil.rmtree(self.root)
                files = {f"f{n:03}.proto": number for n, number in enumerate(numbers)}
                self.put_all({path: "S|" + "#|" * number for path, number in files.items()})
                places = [(path, line) for path in files for line in range(2, files[path] + 2)]
                self.assertEqual(self.lines("gnu", "--root", "protos"), [f"protos/{path}:{line}:1: error: illegal character [201]" for path, line in places])
                (line,) = self.lines("sarif", "--root", "protos")
                results = json.loads(line)["runs"][0]["results"]
                self.assertEqual(results, [result(f"protos/{path}", "201", "error", "illegal character", (line, 1), (line, 2)) for path, line in places])

    def test_formats_that_are_none(self):
        self.put_all(TREE)
        for name in ("xml", "JSON", "json ", "", "plai"):
            with self.subTest(format=name):
                out, err, status = self.run_check("--root", "protos", "--format", name)
                self.assertEqual((out, status), (b"", 2))
                self.assertIn(", ".join(FORMATS).encode(), err)

    def test_a_closed_output(self):
        self.put_all({"a.proto": "S|" + "#|" * 20_000})
        for form in FORMATS:
            with self.subTest(format=form):
                reader, writer = os.pipe()
                os.close(reader)
                with os.fdopen(writer, "wb") as closed:
                    words = stream.command(("check", "--root", str(self.root), "--format", form))
                    ended = subprocess.run(words, stdin=subprocess.DEVNULL, stdout=closed, stderr=subprocess.PIPE, timeout=stream.CHECK_LIMIT)
                self.assertEqual((ended.stderr, ended.returncode), (b"protols: fault 802\n", 3))


class StandardError(FormatsTest):
    def test_the_last_line(self):
        self.put_all(TREE)
        for form in FORMATS:
            with self.subTest(format=form):
                self.assertEqual(self.run_check("--root", "protos", "--format", form)[1:], (SUMMARY, 1))
        self.assertEqual(self.run_check("--root", "protos", "protos/good.proto"), (b"", b"protols: 1 file checked, 0 errors\n", 0))
        self.put("more.proto", spelled("S|##|"))
        self.assertEqual(self.run_check("--root", "protos")[1:], (b"protols: 4 files checked, 3 errors\n", 1))

    def test_files_that_are_not_checked_for_unknown_names(self):
        for files, words, line in UNCHECKED:
            with self.subTest(files=files, words=words):
                shutil.rmtree(self.root)
                self.root.mkdir()
                self.put_all(files)
                out, err, status = self.run_check("--root", "protos", *words)
                self.assertEqual((err.decode(), status), (f"protols: {line}\n", int(", 0 errors" not in line)))
                self.assertEqual(self.run_check("--quiet", "--root", "protos", *words), (out, b"", status))

    def test_a_folder_without_files(self):
        nothing, none = b"protols: no .proto files below protos\n", b"protols: 0 files checked, 0 errors\n"
        self.assertEqual(self.run_check("--root", "protos"), (b"", nothing + none, 0))
        self.assertEqual(self.run_check(cwd=self.root), (b"", b"protols: no .proto files below .\n" + none, 0))
        self.assertEqual(self.run_check("--quiet", "--root", "protos"), (b"", b"", 0))
        other = self.holder / "other"
        other.mkdir()
        (other / "a.proto").write_text(spelled(GOOD))
        self.assertEqual(self.run_check("--root", "protos", "--proto-path", "other"), (b"", nothing + b"protols: 1 file checked, 0 errors\n", 0))

    def test_quiet(self):
        self.put_all(TREE)
        out, _, _ = self.run_check("--root", "protos")
        self.assertEqual(self.run_check("--root", "protos", "--quiet"), (out, b"", 1))

    def test_it_is_closed(self):
        self.put_all(TREE)
        words = stream.command(("check", "--root", str(self.root)))
        ended = subprocess.run(["sh", "-c", 'exec "$@" 2>&-', "sh", *words], stdin=subprocess.DEVNULL, stdout=subprocess.PIPE, timeout=stream.CHECK_LIMIT)
        self.assertEqual((ended.stdout, ended.returncode), self.run_check("--root", "protos")[::2])


class Files(FormatsTest):
    def test_the_lines_and_the_status_are_theirs(self):
        self.put_all(TREE)
        rows = [
            (["protos/shop/order.proto"], ["protos/shop/order.proto:2:23: error: unresolved name [401]"], 1),
            (["protos/old.proto"], ["protos/old.proto:1:1: info: not a proto3 file [317]"], 0),
            (["protos/good.proto"], [], 0),
            (["protos/shop/order.proto", "protos/good.proto", "protos/shop/order.proto"], ["protos/shop/order.proto:2:23: error: unresolved name [401]"], 1),
            (["./protos/shop/../old.proto"], ["protos/old.proto:1:1: info: not a proto3 file [317]"], 0),
            ([self.root / "old.proto"], ["protos/old.proto:1:1: info: not a proto3 file [317]"], 0),
        ]
        for files, lines, status in rows:
            with self.subTest(files=files):
                self.assertEqual(self.lines("gnu", "--root", "protos", *files, status=status), lines)
                self.assertEqual(self.lines("gnu", *files, "--root", "protos", status=status), lines)

    def test_the_others_are_read_too(self):
        self.put_all({"a.proto": 'S|import "b.proto";|message A { B b = 1; }|', "b.proto": "S|message B { } #|"})
        self.assertEqual(self.lines("plain", "--root", "protos", "protos/a.proto", status=0), [])

    def test_names_of_files(self):
        self.put_all({f"{name}.proto": "S|#|" for name, _, _ in NAMES})
        for name, _, _ in NAMES:
            with self.subTest(file=name):
                lines = f"{name}.proto:2:1: 201 illegal character".split("\n")
                self.assertEqual(self.lines("plain", "--root", "protos", f"protos/{name}.proto"), lines)

    def test_names_that_begin_with_a_dash(self):
        self.put_all({"-a.proto": "S|#|"})
        self.assertEqual(self.lines("gnu", "--", "-a.proto", cwd=self.root), ["-a.proto:2:1: error: illegal character [201]"])

    def test_a_file_of_two_folders(self):
        self.put_all({"sub/a.proto": "S|#|", "a.proto": "S|"})
        # (below `sub` its path is that of another file, of the first folder)
        self.assertEqual(self.lines("plain", "--root", "protos", "--proto-path", "protos/sub", "protos/sub/a.proto"), ["sub/a.proto:2:1: 201 illegal character"])
        self.put("sub/b.proto", spelled("S|#|"))
        lines = ["b.proto:2:1: 201 illegal character", "sub/b.proto:2:1: 201 illegal character"]
        self.assertEqual(self.lines("plain", "--root", "protos", "--proto-path", "protos/sub", "protos/sub/b.proto"), lines)

    def test_a_folder_that_is_a_link(self):
        self.put_all({"a.proto": "S|#|"})
        (self.holder / "link").symlink_to("protos")
        for file in ("link/a.proto", "protos/a.proto"):
            with self.subTest(file=file):
                self.assertEqual(self.lines("gnu", "--root", "link", file), ["link/a.proto:2:1: error: illegal character [201]"])

    def test_files_that_cannot_be_checked(self):
        self.put_all({"a.proto": "S|#|", "a.txt": "S|", ".hidden.proto": "S|", "sub/c.proto": "S|"})
        self.put("latin.proto", b"\xe9")
        (self.holder / "beside.proto").write_text("")
        (self.holder / "protos2").mkdir()
        (self.holder / "protos2/a.proto").write_text("")
        rows = [
            ("protos/none.proto", b"can't be found: "),
            ("", b"can't be found: "),
            ("protos", b"isn't below a folder that is checked"),
            ("protos/sub", b"isn't a .proto file that is checked"),
            ("protos/a.txt", b"isn't a .proto file that is checked"),
            ("protos/.hidden.proto", b"isn't a .proto file that is checked"),
            ("protos/latin.proto", b"isn't a .proto file that is checked"),
            ("beside.proto", b"isn't below a folder that is checked"),
            ("protos2/a.proto", b"isn't below a folder that is checked"),
            ("/dev/null", b"isn't below a folder that is checked"),
        ]
        for file, why in rows:
            with self.subTest(file=file):
                out, err, status = self.run_check("--root", "protos", "protos/a.proto", file)
                self.assertEqual((out, status), (b"", 2))
                self.assertTrue(err.splitlines()[-1].startswith(b"error: " + file.encode() + b": " + why), err)

    def test_a_folder_that_cannot_be_read_is_told_first(self):
        out, err, status = self.run_check("--root", "none", "none.proto")
        self.assertEqual((out, err.splitlines()[0], status), (b"", b"protols: folder", 3))


class Editors(FormatsTest):
    """What is in editors/ for the lines of `gnu`."""

    def test_the_problem_matcher(self):
        matcher = json.loads((EDITORS / "problem-matcher.json").read_text(encoding="utf-8"))
        pattern = matcher["pattern"]
        self.put_all(TREE)
        self.put("a:7:3: b.proto", spelled("S|#|"))
        seen = []
        for line in self.lines("gnu", "--root", "protos"):
            match = re.fullmatch(pattern["regexp"].removeprefix("^").removesuffix("$"), line)
            seen.append([match[pattern[part]] for part in ("file", "line", "column", "severity", "message", "code")])
        wanted = [
            ["protos/a:7:3: b.proto", "2", "1", "error", "illegal character", "201"],
            ["protos/old.proto", "1", "1", "info", "not a proto3 file", "317"],
            ["protos/shop/order.proto", "2", "23", "error", "unresolved name", "401"],
        ]
        self.assertEqual(seen, wanted)

    def test_vim_jumps(self):
        # (a test that is skipped would fail the gate, and nobody has to have Vim)
        if not shutil.which("vim"):
            return
        self.put_all(TREE)
        self.put("a b.proto", spelled("S|  #|"))
        seen = self.holder / "seen"
        commands = [
            "set nocompatible shellpipe=>",
            f"set runtimepath^={EDITORS}/vim",
            "compiler protols",
            "silent make! --root protos",
            "cfirst",
            f"call writefile([expand('%') . ' ' . line('.') . ' ' . col('.')] + map(getqflist(), {{_, one -> bufname(one.bufnr) . ' ' . one.lnum . ' ' . one.col . ' ' . one.type . ' ' . one.text}}), '{seen}')",
            "qall!",
        ]
        environment = {**os.environ, "PATH": f"{stream.PROGRAM.parent}:{os.environ['PATH']}", "HOME": str(self.holder), "TERM": "dumb"}
        words = ["vim", "-u", "NONE", "-i", "NONE", "-es", *(word for command in commands for word in ("-c", command))]
        subprocess.run(words, stdin=subprocess.DEVNULL, stdout=subprocess.DEVNULL, stderr=subprocess.DEVNULL, cwd=self.holder, env=environment, timeout=stream.LIMIT)
        wanted = [
            "protos/a b.proto 2 3",
            "protos/a b.proto 2 3 e illegal character [201]",
            "protos/old.proto 1 1 i not a proto3 file [317]",
            "protos/shop/order.proto 2 23 e unresolved name [401]",
        ]
        self.assertEqual(seen.read_text(encoding="utf-8").splitlines(), wanted)

    def test_emacs_jumps(self):
        # (a test that is skipped would fail the gate, and nobody has to have Emacs)
        if not shutil.which("emacs"):
            return
        self.put_all(TREE)
        self.put("a b.proto", spelled("S|  #|"))
        seen = self.holder / "seen"
        script = self.holder / "jumps.el"
        script.write_text(
            f"""(require 'compile)
(let ((lines (compilation-start "protols check --root protos --format gnu")) (places nil))
  (while (get-buffer-process lines) (accept-process-output nil 0.1))
  (ignore-errors
    (while t
      (with-current-buffer lines (next-error 1 (null places)))
      (with-current-buffer (window-buffer)
        (push (format "%s %d %d" (file-relative-name buffer-file-name "{self.holder}") (line-number-at-pos) (1+ (current-column))) places))))
  (write-region (mapconcat #'identity (nreverse places) "\n") nil "{seen}"))
"""
        )
        environment = {**os.environ, "PATH": f"{stream.PROGRAM.parent}:{os.environ['PATH']}", "HOME": str(self.holder), "TERM": "dumb"}
        words = ["emacs", "--batch", "-Q", "-l", str(script)]
        subprocess.run(words, stdin=subprocess.DEVNULL, stdout=subprocess.DEVNULL, stderr=subprocess.DEVNULL, cwd=self.holder, env=environment, timeout=stream.LIMIT)
        # (M-x compile passes over what is for information)
        self.assertEqual(seen.read_text(encoding="utf-8").splitlines(), ["protos/a b.proto 2 3", "protos/shop/order.proto 2 23"])

    def test_the_hook_before_a_commit(self):
        # (a test that is skipped would fail the gate, and nobody has to have git)
        if not shutil.which("git"):
            return
        environment = {**os.environ, "PATH": f"{stream.PROGRAM.parent}:{os.environ['PATH']}", "HOME": str(self.holder), "GIT_CONFIG_NOSYSTEM": "1"}

        def git(*words):
            who = ("-c", "user.name=a", "-c", "user.email=a@b")
            done = subprocess.run(["git", *who, *words], cwd=self.holder, env=environment, stdin=subprocess.DEVNULL, capture_output=True, timeout=stream.LIMIT)
            return done.stdout + done.stderr, done.returncode

        git("init")
        shutil.copy(EDITORS / "pre-commit", self.holder / ".git/hooks/pre-commit")
        self.put_all(TREE)
        git("add", "protos/good.proto", "protos/old.proto")
        said, status = git("commit", "-m", "good")
        self.assertEqual(status, 0, said)
        git("add", "protos")
        said, status = git("commit", "-m", "bad")
        self.assertNotEqual(status, 0)
        self.assertIn(b"protos/shop/order.proto:2:23: error: unresolved name [401]\n", said)
        self.put("shop/order.proto", spelled(GOOD))
        git("add", "protos")
        self.assertEqual(git("commit", "-m", "mended")[1], 0)
        # (nothing of the folder is in this one)
        pathlib.Path(self.holder / "other.proto").write_text("#")
        git("add", "other.proto")
        self.assertEqual(git("commit", "-m", "other")[1], 0)


if __name__ == "__main__":
    unittest.main()
