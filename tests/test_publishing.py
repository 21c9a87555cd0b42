"""End-to-end tests of published diagnostics (Language Server Protocol 3.17, "PublishDiagnostics Notification"): who gets them, behind which messages,
their order and their bytes, and that they say what a request would.

The texts are those of test_serve.py, and in other tests rows as test_files.py writes them.
"""
import json
import pathlib
import random
import tempfile
import unittest

import stream
from stream import frame, frames, run, split_frames
from test_encodings import ENCODINGS, IMPORTED, IMPORTING, Marked, compact, diagnostic
from test_files import shown, spelled
from test_serve import (
    A, ASK, B, EXIT, INITIALIZE, INITIALIZED, OPEN, PROTO3, REPORT, SHUT, SHUTDOWN,
    ServeTest, asking, listed, notification, null, opening, refusal, report, request, sign,
)

# A client that says nothing of diagnostics.
PUBLISHED = request(1, "initialize", '{"capabilities":{}}')

C = "file:///w/c.proto"
# The same documents by other URIs.
OTHER_A, OTHER_B = "file:///w/%61.proto", "file:///w/%62.proto"

BAD = PROTO3 + "#\n"


def published_items(uri, version, items):
    """The notification with a document's diagnostics, which are JSON text."""
    return f'{{"jsonrpc":"2.0","method":"textDocument/publishDiagnostics","params":{{"diagnostics":{items},"uri":"{uri}","version":{version}}}}}'


def published(uri, version, *bad_tokens):
    """The same with those of bad tokens."""
    return published_items(uri, version, listed(*bad_tokens))


def cleared(uri):
    """The notification behind a close."""
    return f'{{"jsonrpc":"2.0","method":"textDocument/publishDiagnostics","params":{{"diagnostics":[],"uri":"{uri}"}}}}'


def changing(uri, version, *changes):
    """The notification that changes a document, each change a whole text or one with a range."""
    spread = [{"text": it} if isinstance(it, str) else it for it in changes]
    return notification("textDocument/didChange", json.dumps({"textDocument": {"uri": uri, "version": version}, "contentChanges": spread}))


def saving(uri):
    return notification("textDocument/didSave", json.dumps({"textDocument": {"uri": uri}}))


def closing(uri):
    return notification("textDocument/didClose", json.dumps({"textDocument": {"uri": uri}}))


class PublishingTest(ServeTest):
    def check_published(self, bodies, replies, status=1):
        """Messages of a client that doesn't ask are answered by exactly these replies; then the input ends."""
        self.check([PUBLISHED, *bodies], [INITIALIZED, *replies], status)


class Bytes(PublishingTest):
    def test_an_open_and_its_close_byte_for_byte(self):
        self.check_published(
            [OPEN, closing(A)],
            [
                '{"jsonrpc":"2.0","method":"textDocument/publishDiagnostics","params":{"diagnostics":[{"code":201,"message":"illegal character",'
                '"range":{"end":{"character":1,"line":1},"start":{"character":0,"line":1}},"severity":1,"source":"protols"}],'
                '"uri":"file:///w/a.proto","version":1}}',
                '{"jsonrpc":"2.0","method":"textDocument/publishDiagnostics","params":{"diagnostics":[],"uri":"file:///w/a.proto"}}',
            ],
        )

    def test_each_of_the_four_messages(self):
        behind = {"start": {"line": 1, "character": 1}, "end": {"line": 9, "character": 0}}
        self.check_published(
            [OPEN, changing(A, 2, PROTO3), changing(A, 3, PROTO3 + "##", {"range": behind, "text": ""}), saving(A), closing(A)],
            [published(A, 1, sign(1)), published(A, 2), published(A, 3, sign(1)), published(A, 3, sign(1)), cleared(A)],
        )

    def test_a_good_document_is_published_too(self):
        self.check_published([opening(A, PROTO3), saving(A)], [published(A, 1), published(A, 1)])

    def test_many_diagnostics(self):
        for count in (1, 10, 3_000):
            with self.subTest(count=count):
                self.check_published([opening(A, PROTO3 + "#" * count)], [published(A, 1, *(sign(1, n) for n in range(count)))])

    def test_the_text_that_a_save_may_have_does_not_count(self):
        body = notification("textDocument/didSave", json.dumps({"textDocument": {"uri": A}, "text": BAD}))
        self.check_published([opening(A, PROTO3), body, saving(A)], [published(A, 1)] * 3)

    def test_versions(self):
        versions = ("0", "-1", "9223372036854775807", "-9223372036854775808")
        self.check_published([opening(A, PROTO3, int(it)) for it in versions], [published(A, it) for it in versions])
        # A change is applied whatever its version is.
        self.check_published([opening(A, PROTO3, 9), *(changing(A, int(it), BAD) for it in versions)], [published(A, 9), *(published(A, it, sign(1)) for it in versions)])


class WhichDocuments(PublishingTest):
    def test_each_open_document_in_path_order_with_its_own_version(self):
        a, b, c = (A, sign(1)), (B, sign(2)), (C,)

        def at(its, version):
            return published(its[0], version, *its[1:])

        self.check_published(
            [opening(C, PROTO3, 5), opening(A, BAD, 7), opening(B, PROTO3 + "\n#", -1), changing(B, 8, PROTO3 + "\n#", PROTO3 + "\n# "), saving(C), closing(A), saving(B)],
            [
                at(c, 5),
                at(a, 7), at(c, 5),
                at(a, 7), at(b, -1), at(c, 5),
                at(a, 7), at(b, 8), at(c, 5),
                at(a, 7), at(b, 8), at(c, 5),
                cleared(A),
                at(b, 8), at(c, 5),
            ],
        )

    def test_a_change_of_one_shows_in_another(self):
        importing = opening(A, spelled('S|import "w/b.proto";|message A { B b = 1; }|'))
        of_a = published(A, 1)
        unresolved, missing = (
            published_items(A, 1, compact([diagnostic(code, words, {"start": {"line": line, "character": start}, "end": {"line": line, "character": end}})]))
            for code, words, line, start, end in ((401, "unresolved name", 2, 12, 13), (403, "import not found", 1, 7, 18))
        )
        self.check_published(
            [importing, opening(B, spelled("S|message B { }|")), changing(B, 2, PROTO3), changing(B, 3, spelled("S|message B { }|")), closing(B), saving(A)],
            [missing, of_a, published(B, 1), unresolved, published(B, 2), of_a, published(B, 3), cleared(B), missing],
        )

    def test_the_uri_is_that_of_the_last_open(self):
        self.check_published(
            [opening(OTHER_A, BAD), changing(A, 2, BAD), saving(A), opening(A, BAD, 3), changing(OTHER_A, 4, BAD), saving(OTHER_A), closing(OTHER_A)],
            [*(published(OTHER_A, it, sign(1)) for it in (1, 2, 2)), *(published(A, it, sign(1)) for it in (3, 4, 4)), cleared(A)],
        )
        # Each document has its own.
        self.check_published([opening(OTHER_B, PROTO3), opening(OTHER_A, BAD)], [published(OTHER_B, 1), published(OTHER_A, 1, sign(1)), published(OTHER_B, 1)])

    def test_a_second_open_replaces_the_first(self):
        self.check_published([OPEN, opening(A, PROTO3, 1), closing(A), closing(A)], [published(A, 1, sign(1)), published(A, 1), cleared(A)])

    def test_documents_that_are_below_no_root(self):
        with tempfile.TemporaryDirectory() as folder:
            inside = pathlib.Path(folder).as_uri() + "/a.proto"
            bodies = [PUBLISHED, opening(inside, BAD), opening("untitled:Two", BAD), opening("untitled:One", PROTO3), closing("untitled:Two"), saving(inside)]
            one, two, its = published("untitled:One", 1), published("untitled:Two", 1, sign(1)), published(inside, 1, sign(1))
            replies = [INITIALIZED, its, two, its, one, two, its, cleared("untitled:Two"), one, its]
            self.assertEqual(run(frames(bodies), ("serve", "--root", folder)), (frames(replies), b"", 1))

    def test_many_documents(self):
        numbers = range(100)
        bodies = [opening(f"file:///w/{n:02}.proto", PROTO3 + " " * n + "#", n) for n in numbers]
        self.check_published(bodies, [published(f"file:///w/{n:02}.proto", n, sign(1, n)) for last in numbers for n in range(last + 1)])

    def test_changes_that_come_in_one_write(self):
        numbers = range(2, 302)
        self.check_published([OPEN, *(changing(A, n, PROTO3 + " " * n + "#") for n in numbers)], [published(A, 1, sign(1)), *(published(A, n, sign(1, n)) for n in numbers)])


class WhatGivesNone(PublishingTest):
    def check_silent(self, bodies):
        """Behind an open these messages give nothing, by themselves and together, and the document stays as it is."""
        for body in bodies:
            with self.subTest(body=body):
                self.check_published([OPEN, body, saving(A)], [published(A, 1, sign(1))] * 2)
        self.check_published([OPEN, *bodies, saving(A)], [published(A, 1, sign(1))] * 2)

    def test_a_document_that_is_not_open(self):
        self.check_silent([changing(B, 2, PROTO3), saving(B), closing(B), changing("untitled:A", 2, PROTO3), saving("untitled:A"), closing("untitled:A")])
        self.check_published([changing(A, 2, PROTO3), saving(A), closing(A)], [])

    def test_a_file_that_is_not_open(self):
        with tempfile.TemporaryDirectory() as folder:
            pathlib.Path(folder, "a.proto").write_text(BAD)
            uri = pathlib.Path(folder).as_uri() + "/a.proto"
            bodies = [PUBLISHED, changing(uri, 2, PROTO3), saving(uri), closing(uri)]
            self.assertEqual(run(frames(bodies), ("serve", "--root", folder)), (frames([INITIALIZED]), b"", 1))

    def test_a_second_close(self):
        self.check_published([OPEN, closing(A), closing(A), saving(A), changing(A, 2, PROTO3)], [published(A, 1, sign(1)), cleared(A)])

    def test_bad_params(self):
        methods = ("didOpen", "didChange", "didSave", "didClose")
        given = (None, "null", "[]", "7", '"x"', "{}", '{"textDocument":null}', '{"textDocument":{}}', '{"textDocument":{"uri":7}}', '{"textDocument":{"uri":"not a url"}}', f'{{"uri":"{A}"}}')
        self.check_silent([notification(f"textDocument/{method}", params) for method in methods for params in given])
        document, whole = f'"textDocument":{{"uri":"{A}","version":2}}', '"contentChanges":[{"text":""}]'
        self.check_silent(
            [
                notification("textDocument/didOpen", params)
                for params in (f'{{"textDocument":{{"uri":"{A}","version":2}}}}', f'{{"textDocument":{{"uri":"{A}","text":""}}}}', f'{{"textDocument":{{"uri":"{A}","version":"2","text":""}}}}')
            ]
            + [
                notification("textDocument/didChange", params)
                for params in (f"{{{document}}}", f"{{{whole}}}", f'{{"textDocument":{{"uri":"{A}"}},{whole}}}', f'{{{document},"contentChanges":[{{"text":""}},{{"range":null,"text":""}}]}}')
            ]
        )

    def test_other_messages(self):
        self.check_silent(
            [
                notification("initialized", "{}"),
                notification("workspace/didChangeWatchedFiles", f'{{"changes":[{{"uri":"{A}","type":2}}]}}'),
                notification("workspace/didChangeConfiguration", "{}"),
                notification("textDocument/willSave", f'{{"textDocument":{{"uri":"{A}"}},"reason":1}}'),
                notification("textDocument/DidSave", f'{{"textDocument":{{"uri":"{A}"}}}}'),
                notification("textDocument/publishDiagnostics", f'{{"diagnostics":[],"uri":"{A}"}}'),
                notification("$/setTrace", '{"value":"off"}'),
                '{"jsonrpc":"2.0","id":8,"result":1}',
            ]
        )

    def test_a_notification_with_an_id(self):
        """It is a request that isn't known."""
        params = json.dumps({"textDocument": {"uri": A}})
        for method in ("textDocument/didSave", "textDocument/didClose", "textDocument/publishDiagnostics"):
            self.check_published([OPEN, request(4, method, params), saving(A)], [published(A, 1, sign(1)), refusal(-32601, 4), published(A, 1, sign(1))])

    def test_before_initialize(self):
        self.check([OPEN, changing(A, 2, PROTO3), saving(A), closing(A), PUBLISHED, saving(A), closing(A), OPEN], [INITIALIZED, published(A, 1, sign(1))])

    def test_after_shutdown(self):
        late = [saving(A), changing(A, 2, PROTO3), opening(B, PROTO3), closing(A)]
        self.check_published([OPEN, SHUTDOWN, *late, EXIT], [published(A, 1, sign(1)), SHUT], 0)
        self.check_published([OPEN, EXIT, *late], [published(A, 1, sign(1))], 1)

    def test_a_client_that_asks(self):
        bodies = [OPEN, changing(A, 2, BAD), saving(A), ASK, closing(A), OPEN, ASK]
        self.check_running(bodies, [REPORT, REPORT])


class WhoGetsThem(ServeTest):
    def check_client(self, params, is_published):
        given = "" if params is None else f',"params":{params}'
        with self.subTest(params=params):
            begin = f'{{"jsonrpc":"2.0","id":1,"method":"initialize"{given}}}'
            more = [published(A, 1, sign(1))] if is_published else []
            self.check([begin, OPEN, ASK, closing(A)], [INITIALIZED, *more, REPORT, *([cleared(A)] if more else [])])

    def test_without_the_member(self):
        capabilities = ("null", "7", "[]", '["textDocument"]', '"textDocument"', "{}", '{"textDocument":null}', '{"textDocument":7}', '{"textDocument":[]}', '{"textDocument":["diagnostic"]}')
        below = ("{}", '{"diagnostic":null}', '{"Diagnostic":{}}', '{"diagnostics":{}}', '{"publishDiagnostics":{}}', '{"diagnostic":{},"diagnostic":null}')
        for params in (None, "null", "[]", "{}", '{"textDocument":{"diagnostic":{}}}', '{"Capabilities":{"textDocument":{"diagnostic":{}}}}'):
            self.check_client(params, True)
        for given in (*capabilities, *(f'{{"textDocument":{it}}}' for it in below), '{"diagnostic":{}}', '{"workspace":{"diagnostic":{},"diagnostics":{}}}'):
            self.check_client(f'{{"capabilities":{given}}}', True)
        self.check_client('{"capabilities":{"textDocument":{"diagnostic":{}},"textDocument":{}}}', True)

    def test_with_the_member(self):
        for value in ("{}", '{"dynamicRegistration":false}', "false", "true", "0", "7.5", '""', "[]", "[null]"):
            self.check_client(f'{{"capabilities":{{"textDocument":{{"diagnostic":{value}}}}}}}', False)
        self.check_client('{"capabilities":{"textDocument":{"diagnostic":null,"diagnostic":false}}}', False)
        self.check_client('{"rootUri":null,"capabilities":{"textDocument":{"publishDiagnostics":{},"diagnostic":{}}}}', False)

    def test_only_the_initialize_that_is_answered_counts(self):
        asks, publishes = '{"capabilities":{"textDocument":{"diagnostic":{}}}}', '{"capabilities":{}}'
        for first, other, told in ((publishes, asks, [published(A, 1, sign(1))]), (asks, publishes, [])):
            with self.subTest(first=first):
                dropped, refused = notification("initialize", other), request(9, "initialize", other)
                self.check([dropped, request(1, "initialize", first), dropped, refused, OPEN], [INITIALIZED, refusal(-32600, 9), *told])


class Order(PublishingTest):
    def test_publications_stand_among_the_replies(self):
        bodies = [OPEN, request(4, "$/x"), changing(A, 2, PROTO3), ASK, "{", saving(A), request(5, "shutdown"), EXIT]
        replies = [published(A, 1, sign(1)), refusal(-32601, 4), published(A, 2), report(2), refusal(-32700), published(A, 2), null(5)]
        self.check_published(bodies, replies, 0)

    def test_questions_are_answered_as_before(self):
        with_member, without = (run(frames([first, OPEN, opening(B, PROTO3), *ASKED]))[0] for first in (INITIALIZE, PUBLISHED))
        replies = split_frames(with_member)
        self.assertEqual(len(replies), 1 + len(ASKED))
        self.assertEqual([it for it in split_frames(without) if b'"id":' in it], replies)

    def test_a_bad_frame_or_the_end_takes_nothing_back(self):
        out = frames([INITIALIZED, published(A, 1, sign(1))])
        self.check_bytes(frames([PUBLISHED, OPEN]) + b"none\r\n\r\n", out, 3, 101)
        self.check_bytes(frames([PUBLISHED, OPEN]) + frame(saving(A))[:-1], out, 3, 106)
        self.check_bytes(frames([PUBLISHED, OPEN, EXIT]) + b"none", out, 1)

    def test_they_come_before_the_next_message(self):
        for workers in (1, 4):
            with self.subTest(workers=workers), stream.Server(("serve", "--workers", str(workers))) as server:

                def hear(body, *replies):
                    server.send(body)
                    self.assertEqual([server.receive().decode() for _ in replies], list(replies))

                hear(PUBLISHED, INITIALIZED)
                for number in range(10):
                    hear(OPEN, published(A, 1, sign(1)))
                    hear(opening(B, PROTO3), published(A, 1, sign(1)), published(B, 1))
                    hear(changing(A, number, PROTO3), published(A, number), published(B, 1))
                    hear(closing(B), cleared(B))
                    hear(saving(A), published(A, number))
                    server.send(closing(B))
                    self.assertTrue(server.is_silent(0.02), "a second close gives something")
                hear(SHUTDOWN, SHUT)
                server.send(EXIT)
                self.assertEqual(server.close(), (b"", b"", 0))


ASKED = [
    asking(10, A),
    asking(11, B),
    asking(12, C),
    request(13, "workspace/diagnostic", "{}"),
    request(14, "workspace/symbol", '{"query":""}'),
    request(15, "textDocument/definition", json.dumps({"textDocument": {"uri": A}, "position": {"line": 0, "character": 0}})),
    request(16, "shutdown"),
]


class Places(unittest.TestCase):
    """Position encodings, folders and files on disk."""

    maxDiff = None

    def setUp(self):
        holder = tempfile.TemporaryDirectory()
        self.addCleanup(holder.cleanup)
        self.first, self.second = pathlib.Path(holder.name, "first"), pathlib.Path(holder.name, "second")

    def put(self, folder, files):
        folder.mkdir(exist_ok=True)
        for path, row in files.items():
            (folder / path).write_text(spelled(row))

    def published(self, bodies, words, capabilities="{}"):
        """What a session publishes, in order: the URI, the version, or None, and the diagnostics of each."""
        begin = request(1, "initialize", f'{{"capabilities":{capabilities}}}')
        out, err, status = run(frames([begin, *bodies]), ("serve", *map(str, words)))
        self.assertEqual((err, status), (b"", 1))
        told = [json.loads(it) for it in split_frames(out)[1:]]
        self.assertEqual({it["method"] for it in told}, {"textDocument/publishDiagnostics"})
        return [(it["params"]["uri"], it["params"].get("version"), it["params"]["diagnostics"]) for it in told]

    def test_each_encoding(self):
        importing, imported = Marked(IMPORTING), Marked(IMPORTED)
        self.first.mkdir()
        (self.first / "b.proto").write_bytes(imported.text.encode())
        a, b = ((self.first / it).as_uri() for it in ("a.proto", "b.proto"))
        for encoding in ENCODINGS:
            of_a = [
                diagnostic(code, words, importing.range(label, encoding))
                for label, code, words in (("gone", 401, "unresolved name"), ("sign", 201, "illegal character"), ("sign2", 201, "illegal character"))
            ]
            of_b = [diagnostic(201, "illegal character", imported.range("sign", encoding))]
            with self.subTest(encoding=encoding):
                told = self.published(
                    [opening(a, importing.text), opening(b, imported.text, 2)], ("--root", self.first), json.dumps({"general": {"positionEncodings": [encoding]}})
                )
                self.assertEqual(compact(told), compact([(a, 1, of_a), (a, 1, of_a), (b, 2, of_b)]))

    def rows(self, *args):
        return [(uri, version, list(map(shown, items))) for uri, version, items in self.published(*args)]

    def test_documents_of_several_folders(self):
        """By path, below whichever folder; a file of an earlier folder keeps a document outside, which comes first."""
        self.put(self.first, {"b.proto": 'S|import "c.proto";|message B { C c = 1; }|'})
        self.put(self.second, {"a.proto": "S|#|", "b.proto": "S|#|", "c.proto": "S|message D { }|"})
        a, c, outside = ((self.second / it).as_uri() for it in ("a.proto", "c.proto", "b.proto"))
        b = (self.first / "b.proto").as_uri()
        bodies = [opening(b, spelled('S|import "c.proto";|message B { C c = 1; }|')), opening(c, spelled("S|message C { }|"), 2), opening(a, BAD, 3), opening(outside, BAD, 4), closing(c), saving(b)]
        wrong = ["1:0-1 201"]
        self.assertEqual(
            self.rows(bodies, ("--root", self.first, "--proto-path", self.second)),
            [
                (b, 1, ["2:12-13 401"]),
                (b, 1, []), (c, 2, []),
                (a, 3, wrong), (b, 1, []), (c, 2, []),
                (outside, 4, wrong), (a, 3, wrong), (b, 1, []), (c, 2, []),
                (c, None, []),
                (outside, 4, wrong), (a, 3, wrong), (b, 1, ["2:12-13 401"]),
            ],
        )

    def test_behind_a_close_the_file_on_disk_counts(self):
        self.put(self.first, {"b.proto": "S|message B { }|"})
        a, b = ((self.first / it).as_uri() for it in ("a.proto", "b.proto"))
        importing = opening(a, spelled('S|import "b.proto";|message A { B b = 1; }|'))
        for workers in (1, 4):
            with self.subTest(workers=workers):
                self.assertEqual(
                    self.rows([importing, opening(b, BAD), closing(b), saving(a)], ("--root", self.first, "--workers", workers)),
                    [(a, 1, []), (a, 1, ["2:12-13 401"]), (b, 1, ["1:0-1 201"]), (b, None, []), (a, 1, [])],
                )
                # A saved text is the one on disk.
                self.assertEqual(
                    self.rows([importing, opening(b, BAD), saving(b), closing(b), changing(a, 2, spelled('S|import "b.proto";|message A { B b = 1; }|'))], ("--root", self.first, "--workers", workers)),
                    [(a, 1, []), *[(a, 1, ["2:12-13 401"]), (b, 1, ["1:0-1 201"])] * 2, (b, None, []), (a, 2, ["2:12-13 401"])],
                )


NAMES = ("a", "b", "c", "d", "e")


def random_text(dice):
    """A text that imports some of the files and uses their names, and is at times wrong by itself."""
    imports = "".join(f'import {dice.choice(["", "", "public "])}"{it}.proto";\n' for it in dice.sample(NAMES, dice.randrange(4)))
    declared = "".join(f"message {it.upper()} {{ }}\n" for it in dice.sample(NAMES, dice.choice((0, 1, 1, 2))))
    fields = "".join(f"  {it.upper()} f{n} = {dice.choice((n, n, n, 0))};\n" for n, it in enumerate(dice.choices(NAMES, k=dice.randrange(4)), 1))
    return f'{PROTO3}{imports}/* é😀 */ {declared}message Own{dice.randrange(3)} {{ {fields}}} {dice.choice(("", "", "#", "message"))}\n'


def random_change(dice):
    """A whole text, or one at a place that may be behind the text."""
    if dice.random() < 0.6:
        return {"text": random_text(dice)}
    start, end = ({"line": dice.randrange(8), "character": dice.randrange(20)} for _ in range(2))
    return {"range": {"start": start, "end": end}, "text": dice.choice(("", " ", "#", "\n", "é😀", "}", "message A { }"))}


class Sequence:
    """A random session over five files, some of them on disk, and what of it is open behind each message."""

    def __init__(self, seed, root):
        self.dice = random.Random(seed)
        self.root, self.open = root, {}
        for name in self.dice.sample(NAMES, self.dice.randrange(4)):
            pathlib.Path(root, f"{name}.proto").write_text(random_text(self.dice), encoding="utf-8")
        self.steps = [self.step(number) for number in range(2, self.dice.randrange(6, 24))]

    def uri(self, name):
        """A file's URI, at times with an escape that isn't needed."""
        return f"{pathlib.Path(self.root).as_uri()}/{name if self.dice.random() < 0.8 else f'%{ord(name):x}'}.proto"

    def step(self, version):
        """A notification, the documents that are published behind it, and the one that is closed by it, each as its URI and its version."""
        name = self.dice.choice(NAMES)
        uri, kind, was_open = self.uri(name), self.dice.choice(("open", "open", "change", "change", "change", "save", "close")), name in self.open
        if kind == "open":
            body = opening(uri, random_text(self.dice), version)
            self.open[name] = uri, version
        elif kind == "change":
            body = changing(uri, version, *(random_change(self.dice) for _ in range(self.dice.choice((0, 1, 1, 1, 3)))))
            if was_open:
                self.open[name] = self.open[name][0], version
        elif kind == "save":
            body = saving(uri)
        else:
            left = self.open.pop(name, None)
            return closing(uri), [], left and left[0]
        return body, [self.open[it] for it in sorted(self.open)] if kind == "open" or was_open else [], None

    def asked(self):
        """The bodies of a client that asks, which asks for the diagnostics of each document that would be published."""
        bodies = [INITIALIZE]
        for body, documents, _ in self.steps:
            bodies += [body, *(asking(7, uri) for uri, _ in documents)]
        return bodies

    def published(self, reports):
        """The publications of one that doesn't, by these reports."""
        told, reports = [], iter(reports)
        for _, documents, left in self.steps:
            for uri, version in documents:
                items = next(reports)["result"]["items"]
                told.append(published_items(uri, version, compact(items)))
            if left:
                told.append(cleared(left))
        if next(reports, None):
            raise AssertionError("more reports than were asked for")
        return told


class AsRequestsSay(unittest.TestCase):
    maxDiff = 4_000

    def replies(self, bodies, root, workers):
        out, err, status = run(frames(bodies), ("serve", "--root", root, "--workers", workers))
        first, *others = (it.decode() for it in split_frames(out))
        self.assertEqual((first, err, status), (INITIALIZED, b"", 1))
        return others

    def check_seed(self, seed):
        with tempfile.TemporaryDirectory() as root:
            sequence = Sequence(seed, root)
            for workers in ("1", "4"):
                with self.subTest(seed=seed, workers=workers):
                    reports = [json.loads(it) for it in self.replies(sequence.asked(), root, workers)]
                    told = sequence.published(reports)
                    bodies = [PUBLISHED, *(body for body, _, _ in sequence.steps)]
                    self.assertEqual(self.replies(bodies, root, workers), told)
                    # One that asks too is told both.
                    both = self.replies([PUBLISHED, *sequence.asked()[1:]], root, workers)
                    self.assertEqual([it for it in both if '"id"' not in it], told)
                    self.assertEqual([json.loads(it) for it in both if '"id"' in it], reports)
        return len(told)

    def test_random_sessions(self):
        count = sum(map(self.check_seed, range(200)))
        # (so that the sessions aren't empty)
        self.assertGreater(count, 2_000)


if __name__ == "__main__":
    unittest.main()
