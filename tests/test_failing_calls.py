"""Allocations, threads, reads and writes of the program that fail, each in turn: what goes out is a part of the output, and the fault has the number of what
failed."""
import json
import pathlib
import tempfile
import unittest

import stream
from refusing import refused_runs, runs
from stream import frames
from test_serve import EXIT, FIRST_INPUT, FIRST_OUTPUT, INITIALIZE, PROTO3, SHUTDOWN, request

SERVE = ("serve", "--workers", "1")
INTERRUPTIONS = 1_000_000

# How a run ends.
EXITED, ENDED, OPTIONS = (b"", 0), (b"", 1), (b"error: out of memory\n", 2)


def fault(number):
    return b"protols: fault %d\n" % number, 3


# Of the first session: the bytes that go out if the input has this many, from the first of them on, and the end where nothing more comes.
PARTS = (
    (0, 0, 0, ENDED),
    (1, 129, 0, fault(106)),
    (130, 130, 395, ENDED),
    (131, 323, 395, fault(106)),
    (324, 324, 395, ENDED),
    (325, 459, 395, fault(106)),
    (460, 460, 626, ENDED),
    (461, 525, 626, fault(106)),
    (526, 526, 686, ENDED),
    (527, 580, 686, fault(106)),
    (581, 581, 686, EXITED),
)


def opening(path, text):
    document = {"uri": f"file:///w/{path}", "languageId": "proto", "version": 1, "text": text}
    return json.dumps({"jsonrpc": "2.0", "method": "textDocument/didOpen", "params": {"textDocument": document}})


def change(path, text):
    document = {"uri": f"file:///w/{path}", "version": 2}
    return json.dumps({"jsonrpc": "2.0", "method": "textDocument/didChange", "params": {"textDocument": document, "contentChanges": [{"text": text}]}})


def closing(path):
    return json.dumps({"jsonrpc": "2.0", "method": "textDocument/didClose", "params": {"textDocument": {"uri": f"file:///w/{path}"}}})


def questions(path):
    """All that is asked about a file, with a name in its third line."""
    document = {"textDocument": {"uri": f"file:///w/{path}"}}
    place = {**document, "position": {"line": 2, "character": 15}}
    asked = [
        ("workspace/diagnostic", {}),
        ("textDocument/diagnostic", document),
        ("workspace/symbol", {"query": "inner"}),
        ("textDocument/definition", place),
        ("textDocument/references", {**place, "context": {"includeDeclaration": True}}),
        ("textDocument/rename", {**place, "newName": "Big"}),
        ("textDocument/rename", {**place, "newName": "Other"}),
    ]
    return [request(number, method, json.dumps(params)) for number, (method, params) in enumerate(asked, 10)]


# Files whose names stand for declarations of one another.
NAMED = (
    ("p.proto", PROTO3 + "package p;\nmessage Outer { message Inner { } }\nmessage Other { Outer.Inner a = 1; }\n"),
    ("q.proto", PROTO3 + 'import "p.proto";\nmessage Q { .p.Outer.Inner b = 1; p.Outer c = 2; }\n'),
)

# Files that see one another.
SEEN = (
    ("a.proto", PROTO3 + 'import "b.proto";\nmessage A {\n  C c = 1;\n  D d = 2;\n}\n'),
    ("b.proto", PROTO3 + 'import public "c.proto";\n'),
    ("c.proto", PROTO3 + 'import "d.proto";\nmessage C { D d = 1; }\n'),
    ("d.proto", PROTO3 + "message D { }\n"),
)

# Texts with much that is wrong.
BAD = PROTO3 + "message M {\n  int32 a = 1;\n  int32 = 2;\n  int32 b = 3;\n  option (o) = { x: 1; y { z: 2 } };\n  int32 c\n}\nmessage N { }\n"
WORSE = """;syntax = "proto3";
import "m.proto";
import "m.proto";
package k;
package j;
message M {
  repeated optional int32 a = 1;
  map<float, string> b = 2;
  oneof o { repeated int32 c = 3; }
  reserved 5 to 7, 7;
}
enum N { Z = 0; BIG = 2147483648; }
service S { rpc Do(N) returns (M); }
"""

# Sessions: documents that are opened, the one that is asked about, and what is done and asked then.
SESSIONS = (
    (NAMED, "q.proto"),
    (SEEN, "a.proto", change("c.proto", PROTO3), *questions("a.proto"), change("c.proto", PROTO3), change("d.proto", PROTO3 + "#\n"), *questions("a.proto")),
    (SEEN, "c.proto", closing("b.proto"), *questions("a.proto"), opening("e.proto", PROTO3), *questions("e.proto"), opening("b.proto", PROTO3), *questions("b.proto")),
    ((("a.proto", BAD),), "a.proto"),
    ((("m.proto", PROTO3 + "package k.M;\nenum E { a = 0; }\n"), ("k.proto", WORSE)), "k.proto"),
    ((("a.proto", "a .5e3 0x1G 'q\n/* z"),), "a.proto"),
)


def in_ranges(answers):
    """The numbers from 0 on that have the same answer, with the first and the last of them."""
    ranges = []
    for number, answer in enumerate(answers):
        if not ranges or ranges[-1][2:] != answer:
            ranges.append((number, number, *answer))
        ranges[-1] = (ranges[-1][0], number, *answer)
    return tuple(ranges)


def serve(data, settings):
    """What comes of a session with one worker under each of these settings: how many bytes of the first session went out, and the end."""
    for run in runs(stream.command(SERVE), data, settings):
        assert FIRST_OUTPUT.startswith(run.out), run
        yield len(run.out), (run.err, run.status)


class Devices(unittest.TestCase):
    maxDiff = None

    def test_an_input_that_ends_behind_each_byte(self):
        parts = [next(serve(FIRST_INPUT[:most], [{}])) for most in range(len(FIRST_INPUT) + 1)]
        self.assertEqual(in_ranges(parts), PARTS)

    def test_an_input_that_fails_behind_each_byte(self):
        parts = serve(FIRST_INPUT, [{"READ_ROOM": most} for most in range(len(FIRST_INPUT) + 1)])
        wanted = [(0, 129, 0, fault(801)), (130, 459, 395, fault(801)), (460, 525, 626, fault(801)), (526, 580, 686, fault(801)), (581, 581, 686, EXITED)]
        self.assertEqual(in_ranges(parts), tuple(wanted))

    def test_an_output_of_single_bytes_that_fails_behind_each(self):
        for ends in ({}, {"WRITE_ENDS": 1}):
            answers = list(serve(FIRST_INPUT, [{"WRITE_ROOM": most, **ends} for most in range(len(FIRST_OUTPUT) + 1)]))
            wanted = [(most, fault(802)) for most in range(len(FIRST_OUTPUT))] + [(len(FIRST_OUTPUT), EXITED)]
            self.assertEqual(answers, wanted)

    def test_interruptions(self):
        for name, number in (("READ_INTERRUPTIONS", 801), ("WRITE_INTERRUPTIONS", 802)):
            answers = list(serve(FIRST_INPUT, [{name: INTERRUPTIONS - 1}, {name: INTERRUPTIONS}]))
            self.assertEqual(answers, [(len(FIRST_OUTPUT), EXITED), (0, fault(number))])

    def refused_parts(self, name):
        """The runs of the first session of which one call of this kind is another one, each with a part of the output."""
        for run in refused_runs(stream.command(SERVE), FIRST_INPUT, name):
            self.assertTrue(FIRST_OUTPUT.startswith(run.out), run)
            yield run

    def test_each_read_and_write_in_turn(self):
        for name, number in (("FAIL_READ", 801), ("FAIL_WRITE", 802)):
            ends = {(run.err, run.status) for run in self.refused_parts(name)}
            self.assertEqual(ends, {fault(number)})

    def test_each_read_and_write_of_a_single_byte(self):
        for name in ("SHORTEN_READ", "SHORTEN_WRITE"):
            ends = {(run.out, run.err, run.status) for run in self.refused_parts(name)}
            self.assertEqual(ends, {(FIRST_OUTPUT, *EXITED)})


class Allocations(unittest.TestCase):
    def check_each(self, args, data, status):
        """Each allocation that is refused leads to 803 or 804 behind a part of the output, or while the options are read, to an error of theirs. None is passed
        over."""
        [whole] = runs(stream.command(args), data, [{}])
        right = (whole.out, b"", status)
        self.assertEqual((whole.out, whole.err, whole.status), right)
        seen = set()
        for run in refused_runs(stream.command(args), data):
            with self.subTest(run):
                self.assertTrue(whole.out.startswith(run.out))
                self.assertIn((run.err, run.status), {fault(803), fault(804)} if run.out else {fault(803), fault(804), OPTIONS})
            seen.add((run.err, run.status))
        self.assertLessEqual({fault(803), fault(804), OPTIONS}, seen)

    def test_a_first_session(self):
        self.check_each(SERVE, FIRST_INPUT, 0)

    def test_other_sessions(self):
        for files, path, *others in SESSIONS:
            messages = [INITIALIZE, *(opening(*file) for file in files), *questions(path), *others, SHUTDOWN, EXIT]
            self.check_each(SERVE, frames(messages), 0)

    def test_a_check(self):
        with tempfile.TemporaryDirectory() as folder:
            for path, text in (*NAMED, ("bad.proto", BAD)):
                pathlib.Path(folder, path).write_text(text)
            self.check_each(("check", "--quiet", "--root", folder, "--workers", "1"), b"", 1)
            self.check_each(("check", "--quiet", "--root", folder, "--workers", "1", "--format", "sarif", f"{folder}/bad.proto"), b"", 1)


class Threads(unittest.TestCase):
    def check_each(self, args, data, status, threads):
        """Each of so many threads leads to 804 if it can't be started."""
        [whole] = runs(stream.command(args), data, [{}])
        self.assertEqual((whole.err, whole.status), (b"", status))
        refused = [*refused_runs(stream.command(args), data, "REFUSE_THREAD")]
        for run in refused:
            self.assertTrue(whole.out.startswith(run.out), run)
            self.assertEqual((run.err, run.status), fault(804), run)
        self.assertEqual(len(refused), threads)

    def test_a_first_session(self):
        self.check_each(SERVE, FIRST_INPUT, 0, 3)

    def test_a_session_of_many_files(self):
        opened = [opening(f"{n}.proto", f"{PROTO3}message M{n} {{}}\n") for n in range(64)]
        self.check_each(SERVE, frames([INITIALIZE, *opened, request(2, "workspace/diagnostic", "{}"), SHUTDOWN, EXIT]), 0, 5)


if __name__ == "__main__":
    unittest.main()
