"""End-to-end tests of several folders: `--root` and `--proto-path` of `protols serve` and `protols check`.

In a row `|` stands for a line feed, and `S|` at the front for the line `syntax = "proto3";`. A diagnostic is written
LINE:START-END CODE: its line and its first and last character, from 0.
"""
import json
import os
import unittest
import urllib.parse

import stream
from stream import frames, run, split_frames
from test_check import spelled
from test_files import shown
from test_folder import FOLDER, MOST_ENTRIES, MOST_FOLDERS, NOT_UTF8, SKIPPED, FolderTest, fixed, run_fixed
from test_serve import INITIALIZE, INITIALIZED, opening, notification, request

UNKNOWN = -32602

# Two folders that have a file of one path: the files of each by path. The first `c.proto` counts, so that nobody declares D.
FIRST = {"a.proto": 'S|import "c.proto";|message A { C c = 1; D d = 2; }|', "c.proto": "S|message C { }|"}
SECOND = {"c.proto": "S|message D { }|"}

# A good text and one with a bad token.
GOOD, BAD = "S|", "S|#|"


def uri_of(folder, path):
    """The URI of a file, as the server writes it for a file that was never opened."""
    return "file://" + urllib.parse.quote(f"{folder}/{path}")


def position(uri, line, character):
    """The params of a request at a place of a document."""
    return json.dumps({"textDocument": {"uri": uri}, "position": {"line": line, "character": character}})


def closing(uri):
    """The notification that closes a document."""
    return notification("textDocument/didClose", json.dumps({"textDocument": {"uri": uri}}))


class RootsTest(FolderTest):
    """Two folders, `first` and `second`, beside each other."""

    def setUp(self):
        super().setUp()
        self.first, self.second = self.holder / "first", self.holder / "second"
        self.first.mkdir()
        self.second.mkdir()

    def put_below(self, folder, files):
        """Writes files, given as rows or bytes by their paths below a folder."""
        for path, row in files.items():
            place = folder / path
            place.parent.mkdir(parents=True, exist_ok=True)
            place.write_bytes(row if isinstance(row, bytes) else spelled(row).encode())

    def both(self):
        """The options that name both folders."""
        return ("--root", self.first, "--proto-path", self.second)

    def expect_lines(self, words, lines, status, *, cwd=None):
        """`protols check` with these options writes these lines, whatever the number of workers is."""
        out, err, ended = stream.check_with_each(words, cwd)
        self.assertEqual((out.decode(), err, ended), ("".join(f"{line}\n" for line in lines), b"", status))

    def expect_unread(self, words, folder):
        """Neither command can read this folder, and standard error names it."""
        for command in ("serve", "check"):
            with self.subTest(command=command, words=words):
                out, err, status = run(b"", (command, *map(str, words)))
                self.assertEqual((out, fixed(err), status), (b"", FOLDER, 3))
                self.assertIn(f"protols: folder {folder}: ".encode(), err)

    def replies(self, words, bodies):
        """The replies of a session behind `initialize`, and the end of its input."""
        out, err, status = run(frames([INITIALIZE, *bodies]), ("serve", *map(str, words)))
        first, *others = split_frames(out)
        self.assertEqual((first.decode(), err, status), (INITIALIZED, b"", 1))
        return [json.loads(body) for body in others]

    def documents(self, words, *bodies):
        """The documents of the workspace behind these messages, by path: the URI, the version and the diagnostics of each."""
        reply = self.replies(words, [*bodies, request(2, "workspace/diagnostic", "{}")])[-1]
        return [(it["uri"], it["version"], list(map(shown, it["items"]))) for it in reply["result"]["items"]]


class CheckOfTwo(RootsTest):
    def test_the_first_file_of_a_path_counts(self):
        self.put_below(self.first, FIRST)
        self.put_below(self.second, SECOND)
        first, second = self.first, self.second
        line = "a.proto:3:22: 401 unresolved name"
        self.expect_lines(self.both(), [line], 1)
        self.expect_lines(("--proto-path", first, "--proto-path", second), [line], 1)
        # The folder of `--root` is the first wherever it stands.
        self.expect_lines(("--proto-path", second, "--root", first), [line], 1)
        self.expect_lines(("--root", second, "--proto-path", first), ["a.proto:3:13: 401 unresolved name"], 1)
        self.expect_lines(("--proto-path", second, "--proto-path", first), ["a.proto:3:13: 401 unresolved name"], 1)

    def test_files_of_every_folder_are_checked(self):
        self.put_below(self.first, {"b.proto": BAD, "sub/d.proto": BAD})
        self.put_below(self.second, {"a.proto": BAD, "sub/c.proto": BAD, "b.proto": "S|||#|"})
        lines = [f"{path}:2:1: 201 illegal character" for path in ("a.proto", "b.proto", "sub/c.proto", "sub/d.proto")]
        self.expect_lines(self.both(), lines, 1)

    def test_imports_reach_from_folder_to_folder(self):
        self.put_below(self.first, {"a.proto": 'S|import "b.proto";|message A { B b = 1; }|', "c.proto": "S|message C { }|"})
        self.put_below(self.second, {"b.proto": 'S|import "c.proto";|message B { C c = 1; }|'})
        self.expect_lines(self.both(), [], 0)
        self.expect_lines(("--root", self.first), ["a.proto:2:8: 403 import not found"], 1)
        self.expect_lines(("--root", self.second), ["b.proto:2:8: 403 import not found"], 1)

    def test_a_folder_of_imports_alone(self):
        """As a tree that imports the well-known types from where the system has them."""
        self.put_below(self.first, {"shop/order.proto": 'S|import "google/protobuf/any.proto";|message Order { google.protobuf.Any a = 1; google.protobuf.Ayn b = 2; }|'})
        self.put_below(self.second, {"google/protobuf/any.proto": "S|package google.protobuf;|message Any { }|"})
        self.expect_lines(("--root", self.first), ["shop/order.proto:2:8: 403 import not found"], 1)
        self.expect_lines(self.both(), ["shop/order.proto:3:44: 401 unresolved name"], 1)

    def test_without_a_root_the_current_folder_is_not_read(self):
        self.put_below(self.first, {"a.proto": BAD})
        self.put_below(self.second, {"b.proto": BAD})
        self.expect_lines((), ["a.proto:2:1: 201 illegal character"], 1, cwd=self.first)
        self.expect_lines(("--proto-path", self.second), ["b.proto:2:1: 201 illegal character"], 1, cwd=self.first)
        self.expect_lines(("--proto-path", "../second", "--root=."), ["a.proto:2:1: 201 illegal character", "b.proto:2:1: 201 illegal character"], 1, cwd=self.first)

    def test_many_folders(self):
        words, lines = [], []
        for number in range(100):
            folder = self.holder / f"f{number:02}"
            self.put_below(folder, {f"p{number:02}.proto": f'S|import "p{(number + 1) % 100:02}.proto";|', "same.proto": "S|" + "|" * number + "#|"})
            words += ["--proto-path", folder]
            lines.append(f"p{number:02}.proto:2:8: 404 import cycle")
        self.expect_lines(words, [*lines, "same.proto:2:1: 201 illegal character"], 1)


class Folders(RootsTest):
    """Folders that are given in ways that could go wrong."""

    def test_a_folder_that_is_missing(self):
        missing = self.holder / "missing"
        self.expect_unread(("--proto-path", missing), missing)
        self.expect_unread(("--root", self.first, "--proto-path", missing), missing)
        self.expect_unread(("--root", missing, "--proto-path", self.second), missing)
        self.expect_unread((*self.both(), "--proto-path", missing), missing)

    def test_a_file_in_place_of_a_folder(self):
        self.put_below(self.second, {"a.proto": GOOD})
        file = self.second / "a.proto"
        self.expect_unread(("--proto-path", file), file)
        self.expect_unread(("--root", self.first, "--proto-path", file), file)
        self.expect_unread((*self.both(), "--proto-path", f"{file}/"), f"{file}/")

    def test_an_empty_folder_name(self):
        for words in (("--proto-path", ""), ("--proto-path=",), ("--root", self.first, "--proto-path", ""), (*self.both(), "--proto-path=")):
            with self.subTest(words=words):
                out, err, status = run(b"", ("serve", *map(str, words)))
                self.assertEqual((out, status), (b"", 2))
                self.assertTrue(err.startswith(b"error: "), err)
                self.assertEqual(run_fixed(b"", ("check", *map(str, words))), (b"", FOLDER, 3))

    def test_a_folder_with_nothing_in_it(self):
        self.put_below(self.first, {"a.proto": BAD})
        self.expect_lines(self.both(), ["a.proto:2:1: 201 illegal character"], 1)
        self.expect_lines(("--root", self.second, "--proto-path", self.first), ["a.proto:2:1: 201 illegal character"], 1)

    def test_the_same_folder_twice(self):
        self.put_below(self.first, {"a.proto": BAD, "sub/b.proto": 'S|import "a.proto";|message B { B b = 1; }|'})
        for again in (self.first, f"{self.first}/", f"{self.first}/sub/.."):
            with self.subTest(again=again):
                self.expect_lines(("--root", self.first, "--proto-path", again), ["a.proto:2:1: 201 illegal character"], 1)
                words = ("--root", self.first, "--proto-path", again, "--proto-path", again)
                self.assertEqual(
                    self.documents(words),
                    [(uri_of(self.first, "a.proto"), None, ["1:0-1 201"]), (uri_of(self.first, "sub/b.proto"), None, [])],
                )

    def test_a_folder_inside_another(self):
        """The files of the inner one have two paths, and an import by either of them finds one."""
        self.put_below(self.first, {"in/a.proto": "S|message A { }|#|", "b.proto": 'S|import "a.proto";|import "in/a.proto";|message B { A a = 1; }|'})
        inner = self.first / "in"
        lines = ["a.proto:3:1: 201 illegal character", "in/a.proto:3:1: 201 illegal character"]
        self.expect_lines(("--root", self.first, "--proto-path", inner), lines, 1)
        self.expect_lines(("--root", inner, "--proto-path", self.first), lines, 1)

    def test_a_link_to_a_folder(self):
        self.put_below(self.second, {"a.proto": BAD})
        link = self.holder / "link"
        link.symlink_to(self.second)
        (self.first / "inner").symlink_to(self.second)
        for given in (link, f"{link}/", self.first / "inner"):
            with self.subTest(given=given):
                self.expect_lines(("--root", self.first, "--proto-path", given), ["a.proto:2:1: 201 illegal character"], 1)
        self.assertEqual(self.documents(("--root", self.first, "--proto-path", link)), [(uri_of(link, "a.proto"), None, ["1:0-1 201"])])
        (self.holder / "dangling").symlink_to("missing")
        self.expect_unread(("--root", self.first, "--proto-path", self.holder / "dangling"), self.holder / "dangling")

    def test_names_with_any_characters(self):
        self.put_below(self.first, {"a.proto": 'S|import "sub dir/b c.proto";|'})
        for name in ("a b", "100%", "%41", "é", "two\nlines", " é%\n~ #?", "-", "--root"):
            folder = self.holder / "names" / name
            self.put_below(folder, {"sub dir/b c.proto": BAD})
            with self.subTest(name=name):
                self.expect_lines(("--root", self.first, "--proto-path", folder), ["sub dir/b c.proto:2:1: 201 illegal character"], 1)
                words = ("--root", self.first, "--proto-path", folder)
                self.assertEqual(
                    self.documents(words),
                    [(uri_of(self.first, "a.proto"), None, []), (uri_of(folder, "sub dir/b c.proto"), None, ["1:0-1 201"])],
                )
                # An open by that URI is one of that file.
                opened = opening(uri_of(folder, "sub dir/b c.proto"), spelled(GOOD))
                self.assertEqual(
                    self.documents(words, opened),
                    [(uri_of(self.first, "a.proto"), None, []), (uri_of(folder, "sub dir/b c.proto"), 1, [])],
                )

    def test_what_is_skipped_in_every_folder(self):
        self.put_below(self.first, {"a.proto": NOT_UTF8, ".git/b.proto": NOT_UTF8, "c.proto": NOT_UTF8})
        self.put_below(self.second, {"a.proto": BAD, "d.proto": NOT_UTF8})
        # The file of the first folder isn't read, so that of the second counts. (in which order they are told depends on the threads)
        for number in stream.NUMBERS:
            with self.subTest(workers=number):
                out, err, status = stream.check(("--workers", number, *self.both()))
                self.assertEqual((out, fixed(err), status), (b"a.proto:2:1: 201 illegal character\n", SKIPPED * 3, 1))


class Words(RootsTest):
    """The command line."""

    def check_wrong(self, *words):
        out, err, status = run(b"", tuple(map(str, words)))
        self.assertEqual((out, status), (b"", 2))
        self.assertTrue(err.startswith(b"error: "), err)
        self.assertIn(b"[--proto-path DIR]...", err)
        return err

    def test_a_folder_of_serve_begins_with_a_slash(self):
        for given in (".", "w", "./w", "../w", "~/w", " /w", "file:///w"):
            for words in (("--proto-path", given), (f"--proto-path={given}",), ("--root", self.first, "--proto-path", given), ("--proto-path", self.second, "--proto-path", given)):
                with self.subTest(words=words):
                    self.assertIn(b"begin with '/'", self.check_wrong("serve", *words))

    def test_words_that_are_refused(self):
        self.check_wrong("serve", "--proto-path", self.first, "extra")
        for command in ("serve", "check"):
            with self.subTest(command=command):
                self.check_wrong(command, "--root", self.first, "--proto-path", self.second, "--root", self.first)
                self.check_wrong(command, "--proto", self.first)
                self.check_wrong(command, "--proto_path", self.first)
                self.check_wrong(command, "-I", self.first)
                self.check_wrong("--proto-path", self.first, command)
                out, err, status = run(b"", (command, "--proto-path"))
                self.assertEqual((out, status), (b"", 2))
                self.assertIn(b"a value is required for '--proto-path <DIR>'", err)
                out, err, status = run(b"", (command, "--proto-path", b"/\xff"))
                self.assertEqual((out, status), (b"", 2))

    def test_help(self):
        for words in (["--help"], ["serve", "--help"], ["check", "--help"]):
            with self.subTest(words=words):
                out, err, status = run(b"", words)
                self.assertEqual((err, status), (b"", 0))
                self.assertIn(b"--proto-path", out)
        for command in ("serve", "check"):
            self.assertIn(b"--proto-path <DIR>", run(b"", [command, "--help"])[0])

    def test_each_order_of_the_options(self):
        self.put_below(self.first, {"a.proto": GOOD})
        self.put_below(self.second, {"b.proto": BAD})
        for words in (
            ("--root", self.first, "--proto-path", self.second, "--stdio"),
            ("--stdio", f"--proto-path={self.second}", f"--root={self.first}", "--clientProcessId", "7"),
            ("--proto-path", f"{self.second}//", "--workers", "1", "--root", f"{self.first}/"),
        ):
            with self.subTest(words=words):
                self.assertEqual(
                    self.documents(words),
                    [(uri_of(self.first, "a.proto"), None, []), (uri_of(self.second, "b.proto"), None, ["1:0-1 201"])],
                )


class Limits(RootsTest):
    def fill(self, folder, count):
        """Puts so many empty files into a folder."""
        for number in range(count):
            os.mknod(folder / f"{number}.txt")

    def test_the_entries_of_all_folders_are_counted(self):
        self.fill(self.first, MOST_ENTRIES - 40_000)
        self.fill(self.second, 39_999)
        self.put_below(self.second, {"a.proto": BAD})
        self.expect_lines(self.both(), ["a.proto:2:1: 201 illegal character"], 1)
        self.assertEqual(self.documents(self.both()), [(uri_of(self.second, "a.proto"), None, ["1:0-1 201"])])
        # Entries that are skipped count too.
        os.mknod(self.second / ".hidden")
        for command in ("serve", "check"):
            for words in (self.both(), ("--proto-path", self.second, "--proto-path", self.first)):
                with self.subTest(command=command, words=words):
                    self.assertEqual(run_fixed(b"", (command, *words)), (b"", FOLDER, 3))
        # Each folder by itself may be read.
        self.expect_lines(("--root", self.first), [], 0)
        self.expect_lines(("--proto-path", self.second), ["a.proto:2:1: 201 illegal character"], 1)

    def test_the_same_entries_count_for_each_folder(self):
        self.fill(self.first, MOST_ENTRIES // 2)
        self.expect_lines(("--root", self.first, "--proto-path", self.first), [], 0)
        self.fill(self.second, 1)
        self.assertEqual(run_fixed(b"", ("check", "--root", self.first, "--proto-path", self.first, "--proto-path", self.second)), (b"", FOLDER, 3))

    def test_the_depth_is_that_below_each_folder(self):
        deepest = "/".join(["d"] * MOST_FOLDERS)
        for folder in (self.first, self.second):
            self.put_below(folder, {f"{deepest}/a.proto": BAD})
        self.expect_lines(self.both(), [f"{deepest}/a.proto:2:1: 201 illegal character"], 1)
        # One folder more is too deep below the second, and not below a folder of it.
        (self.second / deepest / "d").mkdir()
        self.expect_unread(self.both(), self.second)
        self.expect_lines(("--root", self.first, "--proto-path", self.second / "d"), [f"{deepest[2:]}/a.proto:2:1: 201 illegal character", f"{deepest}/a.proto:2:1: 201 illegal character"], 1)


class Sessions(RootsTest):
    def test_a_file_of_an_earlier_folder_keeps_its_path(self):
        """A document of the second folder is outside where the first has a file of its path."""
        self.put_below(self.first, FIRST)
        self.put_below(self.second, SECOND)
        unopened = [(uri_of(self.first, "a.proto"), None, ["2:21-22 401"]), (uri_of(self.first, "c.proto"), None, [])]
        self.assertEqual(self.documents(self.both()), unopened)
        outside = uri_of(self.second, "c.proto")
        self.assertEqual(self.documents(self.both(), opening(outside, spelled(BAD))), [(outside, 1, ["1:0-1 201"]), *unopened])
        # It declares D, and nobody sees it: an outside document is imported by no file.
        self.assertEqual(self.documents(self.both(), opening(outside, spelled("S|message D { }|"))), [(outside, 1, []), *unopened])
        # It leaves when it is closed.
        self.assertEqual(self.documents(self.both(), opening(outside, spelled(BAD)), closing(outside)), unopened)
        # In the other order it is the document of the first folder that is outside.
        swapped = ("--root", self.second, "--proto-path", self.first)
        first = uri_of(self.first, "c.proto")
        self.assertEqual(
            self.documents(swapped, opening(first, spelled(BAD))),
            [(first, 1, ["1:0-1 201"]), (uri_of(self.first, "a.proto"), None, ["2:12-13 401"]), (outside, None, [])],
        )

    def test_a_path_that_no_earlier_folder_has(self):
        """A document of the second folder has its path below it, whether the second folder has a file there or not."""
        self.put_below(self.first, {"a.proto": 'S|import "e.proto";|import "f.proto";|message A { E e = 1; F f = 2; }|'})
        self.put_below(self.second, {"f.proto": "S|message G { }|"})
        a, e, f = uri_of(self.first, "a.proto"), uri_of(self.second, "e.proto"), uri_of(self.second, "f.proto")
        self.assertEqual(self.documents(self.both()), [(a, None, ["1:7-16 403"]), (f, None, [])])
        self.assertEqual(
            self.documents(self.both(), opening(e, spelled("S|message E { }|"))), [(a, None, ["3:21-22 401"]), (e, 1, []), (f, None, [])]
        )
        opened = (opening(e, spelled("S|message E { }|")), opening(f, spelled("S|message F { }|"), 7))
        self.assertEqual(self.documents(self.both(), *opened), [(a, None, []), (e, 1, []), (f, 7, [])])
        # A file on disk has its path by its own URI again when its document is closed.
        self.assertEqual(self.documents(self.both(), *opened, closing(f)), [(a, None, ["3:21-22 401"]), (e, 1, []), (f, None, [])])

    def test_only_files_of_the_start_keep_documents_outside(self):
        """Where the first folder had no file of a path, documents of both have that path, and the last open counts."""
        self.put_below(self.first, {"a.proto": 'S|import "e.proto";|message A { E e = 1; }|'})
        a, first, second = uri_of(self.first, "a.proto"), uri_of(self.first, "e.proto"), uri_of(self.second, "e.proto")
        opened = (opening(first, spelled("S|message E { }|")), opening(second, spelled("S|message F { }|"), 2))
        self.assertEqual(self.documents(self.both(), *opened), [(a, None, ["2:12-13 401"]), (second, 2, [])])
        self.assertEqual(self.documents(self.both(), *reversed(opened)), [(a, None, []), (first, 1, [])])

    def test_folders_inside_each_other(self):
        """A document below both has its path below the first that is given."""
        inner = self.first / "in"
        self.put_below(self.first, {"in/a.proto": GOOD})
        uri = uri_of(inner, "a.proto")
        # Both files are at that place; each has its own path.
        self.assertEqual(self.documents(("--root", self.first, "--proto-path", inner)), [(uri, None, []), (uri, None, [])])
        # The paths are a.proto and in/a.proto, in this order.
        opened = opening(uri, spelled(BAD))
        self.assertEqual(self.documents(("--root", self.first, "--proto-path", inner), opened), [(uri, None, []), (uri, 1, ["1:0-1 201"])])
        self.assertEqual(self.documents(("--root", inner, "--proto-path", self.first), opened), [(uri, 1, ["1:0-1 201"]), (uri, None, [])])

    def test_answers_lead_into_every_folder(self):
        self.put_below(self.first, {"a.proto": 'S|import "b.proto";|message A { B b = 1; }|'})
        self.put_below(self.second, {"b.proto": 'S|import "c.proto";|message B { C c = 1; }|', "c.proto": "S|message C { }|"})
        a, b, c = uri_of(self.first, "a.proto"), uri_of(self.second, "b.proto"), uri_of(self.second, "c.proto")
        definition, references = "textDocument/definition", "textDocument/references"
        found, used, listed, renamed = self.replies(
            self.both(),
            [
                request(2, definition, position(a, 2, 12)),
                request(3, references, json.dumps({**json.loads(position(c, 1, 8)), "context": {"includeDeclaration": True}})),
                request(4, "workspace/symbol", '{"query":""}'),
                request(5, "textDocument/rename", json.dumps({**json.loads(position(a, 2, 12)), "newName": "Big"})),
            ],
        )
        place = lambda line, start: {"start": {"line": line, "character": start}, "end": {"line": line, "character": start + 1}}
        self.assertEqual(found["result"], [{"uri": b, "range": place(2, 8)}])
        self.assertEqual(used["result"], [{"uri": b, "range": place(2, 12)}, {"uri": c, "range": place(1, 8)}])
        self.assertEqual([it["location"]["uri"] for it in listed["result"]], [a, a, b, b, c])
        self.assertEqual({it for it in json.dumps(renamed["result"]).split('"') if it.startswith("file:")}, {a, b})

    def test_without_a_root_only_the_other_folders_have_paths(self):
        """`--root` adds no root: a document elsewhere is outside, where without any option it has a path below `/`."""
        importing, elsewhere = uri_of(self.second, "a.proto"), "file:///elsewhere/b.proto"
        bodies = (opening(importing, spelled('S|import "elsewhere/b.proto";|')), opening(elsewhere, spelled(GOOD)))
        self.assertEqual(self.documents(("--proto-path", self.second), *bodies), [(elsewhere, 1, []), (importing, 1, ["1:7-26 403"])])
        # (paths begin at the top of the file system; `elsewhere` and the folder's own path are in that order or not)
        self.assertEqual(sorted(self.documents((), *bodies)), sorted([(elsewhere, 1, []), (importing, 1, [])]))

    def test_documents_that_are_below_no_folder(self):
        self.put_below(self.first, FIRST)
        self.put_below(self.second, SECOND)
        for uri in ("untitled:One", uri_of(self.holder, "c.proto"), uri_of(self.holder, "second2/c.proto"), f"file://{self.second}/..%2Fc.proto", f"file://host{self.second}/e.proto"):
            with self.subTest(uri=uri):
                outside, *others = self.documents(self.both(), opening(uri, spelled(BAD)))
                self.assertEqual(outside, (uri, 1, ["1:0-1 201"]))
                self.assertEqual(others, [(uri_of(self.first, "a.proto"), None, ["2:21-22 401"]), (uri_of(self.first, "c.proto"), None, [])])

    def test_documents_that_are_not_open(self):
        """A question about a file of the second folder by its URI is one about that file, unless it is an earlier folder's."""
        self.put_below(self.first, {"c.proto": GOOD})
        self.put_below(self.second, {"c.proto": GOOD, "e.proto": BAD})
        asked = lambda number, uri: request(number, "textDocument/diagnostic", json.dumps({"textDocument": {"uri": uri}}))
        known, unknown, none = self.replies(
            self.both(),
            [asked(2, uri_of(self.second, "e.proto")), asked(3, uri_of(self.second, "c.proto")), asked(4, uri_of(self.first, "e.proto"))],
        )
        self.assertEqual(list(map(shown, known["result"]["items"])), ["1:0-1 201"])
        self.assertEqual(unknown["error"]["code"], UNKNOWN)
        # (the first folder has no such file, but its URI has the path of the second's)
        self.assertEqual(list(map(shown, none["result"]["items"])), ["1:0-1 201"])


if __name__ == "__main__":
    unittest.main()
