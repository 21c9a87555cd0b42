"""End-to-end tests of position encodings (Language Server Protocol 3.17, "PositionEncodingKind"): what a client chooses, and each position that is
read or written in UTF-16 code units, in bytes and in characters.

In the texts below the three units differ before, between and behind the names of each line. Each expected position is counted here, from the
text itself and not from the program's output.
"""
import json
import pathlib
import re
import tempfile
import unittest

import stream
from stream import frames, run, split_frames

ENCODINGS = ("utf-16", "utf-8", "utf-32")
LAST = 18446744073709551615

# A span is marked as «label:text». Each text ends its lines in another way.
MARK = re.compile(r"«(\w+):([^»]*)»")
IMPORTING = (
    'syntax = "proto3";\r\n'
    '/* é😀 */ import /* 😀 */ "b.proto"; // é\r\n'
    "/* é😀 */ message /* ß */ «Alpha:Alpha» { /* 😀é */ «use:Beta» /* é */ «field:beta» = 1; «gone:Gone» /* 😀 */ «other:gone» = 2; } /* é */ «sign:#» /* 😀 */\r\n"
    "/* 😀 */ message «Last:Last» { /* é */ .«again:Beta» /* é */ «more:more» = 1; } «sign2:$»"
)
IMPORTED = 'syntax = "proto3";\n/* 😀😀 */ message /* é */ «Beta:Beta» { /* é */ } /* 😀 */ «sign:#» /* é */\n'
OUTSIDE = 'syntax = "proto3";\r/* é😀 */ message «Omega:Omega» { /* 😀 */ «use:Omega» «own:o» = 1; } /* é */ «sign:#»\r'


class Marked:
    """A text without its marks, and where each mark stands: a start and an end, in characters of the text."""

    def __init__(self, marked):
        self.spans, text, done = {}, "", 0
        for found in MARK.finditer(marked):
            text += marked[done : found.start()]
            self.spans[found[1]] = len(text), len(text) + len(found[2])
            text, done = text + found[2], found.end()
        self.text = text + marked[done:]

    def range(self, label, encoding):
        start, end = self.spans[label]
        return {"start": position(self.text, start, encoding), "end": position(self.text, end, encoding)}


def units(text, encoding):
    """How many units of an encoding a text has."""
    return {"utf-16": len(text.encode("utf-16-le")) // 2, "utf-8": len(text.encode()), "utf-32": len(text)}[encoding]


def position(text, at, encoding):
    """The position of a place in a text, which doesn't stand inside a line end. The place is in characters."""
    before = re.split(r"\r\n|\n|\r", text[:at])
    return {"line": len(before) - 1, "character": units(before[-1], encoding)}


def offset(text, place, encoding):
    """The place of a position in a text, in characters. It stands at a character, within its line."""
    starts = [0, *(it.end() for it in re.finditer(r"\r\n|\n|\r", text))]
    at = starts[place["line"]]
    while units(text[starts[place["line"]] : at], encoding) < place["character"]:
        at += 1
    return at


def replaced(text, change, encoding):
    """What an editor has after a change."""
    start, end = (offset(text, change["range"][it], encoding) for it in ("start", "end"))
    return text[:start] + change["text"] + text[end:]


def compact(value):
    """JSON as the server writes it."""
    return json.dumps(value, sort_keys=True, separators=(",", ":"), ensure_ascii=False)


def initialize(general="", number=1):
    """The request `initialize` of a client that asks for diagnostics; `general` is JSON text."""
    more = general and f'"general":{general},'
    return f'{{"jsonrpc":"2.0","id":{number},"method":"initialize","params":{{"capabilities":{{{more}"textDocument":{{"diagnostic":{{}}}}}}}}}}'


def choosing(*names):
    return initialize(json.dumps({"positionEncodings": list(names)}))


def request(number, method, params):
    return json.dumps({"jsonrpc": "2.0", "id": number, "method": method, "params": params})


def notification(method, params):
    return json.dumps({"jsonrpc": "2.0", "method": method, "params": params})


def opening(uri, text, version=1):
    return notification("textDocument/didOpen", {"textDocument": {"uri": uri, "languageId": "proto", "version": version, "text": text}})


def changing(uri, changes, version=2):
    return notification("textDocument/didChange", {"textDocument": {"uri": uri, "version": version}, "contentChanges": changes})


def at(uri, place, **more):
    return {"textDocument": {"uri": uri}, "position": place, **more}


def diagnostic(code, message, where):
    return {"code": code, "message": message, "range": where, "severity": 1, "source": "protols"}


SIGN, GONE = (201, "illegal character"), (401, "unresolved name")
ENDING = [notification("exit", None)]


class Encodings(unittest.TestCase):
    maxDiff = None

    def setUp(self):
        folder = tempfile.TemporaryDirectory()
        self.addCleanup(folder.cleanup)
        self.root = pathlib.Path(folder.name).resolve()
        self.importing, self.imported, self.outside = Marked(IMPORTING), Marked(IMPORTED), Marked(OUTSIDE)
        (self.root / "b.proto").write_bytes(self.imported.text.encode())
        self.a, self.b, self.c = (self.root / "a.proto").as_uri(), (self.root / "b.proto").as_uri(), "untitled:One"

    def serve(self, bodies):
        """The replies to messages, in order."""
        out, err, status = run(frames([*bodies, *ENDING]), ("serve", "--root", str(self.root)))
        self.assertEqual((err, status), (b"", 1))
        return [it.decode() for it in split_frames(out)]

    def begin(self, *names):
        return [choosing(*names), opening(self.a, self.importing.text), opening(self.c, self.outside.text)]

    def results(self, names, asked):
        """The results of requests, which are numbered from 2 on, behind the opens of both documents."""
        replies = self.serve([*self.begin(*names), *(request(number, *it) for number, it in enumerate(asked, 2))])
        found = [json.loads(it) for it in replies[1:]]
        self.assertEqual([it["id"] for it in found], [*range(2, len(asked) + 2)])
        for reply, text in zip(found, replies[1:]):
            self.assertEqual(text, compact(reply))
        return [it.get("result", it.get("error")) for it in found]

    def check_result(self, encoding, asked, result):
        self.assertEqual(compact(self.results([encoding], [asked])[0]), compact(result))

    # ---- what is chosen

    def announced(self, request_text):
        return json.loads(self.serve([request_text])[0])["result"]["capabilities"]["positionEncoding"]

    def test_the_first_known_name_counts(self):
        for names, chosen in (
            (["utf-8", "utf-16"], "utf-8"),
            (["utf-16", "utf-8"], "utf-16"),
            (["utf-32", "utf-8", "utf-16"], "utf-32"),
            (["utf-8", "utf-32"], "utf-8"),
            (["utf-7", "utf-32"], "utf-32"),
            (["utf-8", "utf-8"], "utf-8"),
            ([7, "utf-8"], "utf-8"),
            ([None, ["utf-8"], {"utf-8": 1}, True, "utf-32", "utf-8"], "utf-32"),
        ):
            with self.subTest(names=names):
                self.assertEqual(self.announced(choosing(*names)), chosen)

    def test_without_a_known_name_it_is_utf_16(self):
        for general in (
            "",
            "{}",
            "null",
            "7",
            '"utf-8"',
            '["utf-8"]',
            '{"positionEncodings":null}',
            '{"positionEncodings":[]}',
            '{"positionEncodings":"utf-8"}',
            '{"positionEncodings":{"0":"utf-8"}}',
            '{"positionEncodings":["UTF-8"]}',
            '{"positionEncodings":["utf8"," utf-8","utf-8 ",""]}',
            '{"positionEncodings":["utf-7","utf-64"]}',
            '{"positionEncoding":["utf-8"]}',
            '{"PositionEncodings":["utf-8"]}',
        ):
            with self.subTest(general=general):
                self.assertEqual(self.announced(initialize(general)), "utf-16")
        for params in ("null", "7", "[]", '{"capabilities":null}', '{"capabilities":["general"]}', '{"general":{"positionEncodings":["utf-8"]}}'):
            with self.subTest(params=params):
                self.assertEqual(self.announced(f'{{"jsonrpc":"2.0","id":1,"method":"initialize","params":{params}}}'), "utf-16")
        self.assertEqual(self.announced('{"jsonrpc":"2.0","id":1,"method":"initialize"}'), "utf-16")

    def test_only_the_initialize_that_is_answered_counts(self):
        ask = request(2, "textDocument/diagnostic", {"textDocument": {"uri": self.c}})
        dropped = '{"jsonrpc":"2.0","method":"initialize","params":{"capabilities":{"general":{"positionEncodings":["utf-32"]}}}}'
        refused = choosing("utf-32").replace('"id":1', '"id":9')
        for bodies in ([dropped, choosing("utf-8")], [choosing("utf-8"), dropped], [choosing("utf-8"), refused], [choosing("utf-8"), dropped, refused]):
            with self.subTest(bodies=bodies):
                replies = self.serve([*bodies, opening(self.c, self.outside.text), ask])
                report = next(it for it in map(json.loads, replies) if it["id"] == 2)
                self.assertEqual(report["result"]["items"][-1]["range"], self.outside.range("sign", "utf-8"))
                answers = [json.loads(it) for it in replies if json.loads(it)["id"] == 9]
                self.assertEqual([it["error"]["code"] for it in answers], [-32600] * bodies.count(refused))

    # ---- what is written

    def wrong_in_a(self, encoding):
        text = self.importing
        return [
            diagnostic(*GONE, text.range("gone", encoding)),
            diagnostic(*SIGN, text.range("sign", encoding)),
            diagnostic(*SIGN, text.range("sign2", encoding)),
        ]

    def test_diagnostics_of_a_document(self):
        for encoding in ENCODINGS:
            for uri, items in (
                (self.a, self.wrong_in_a(encoding)),
                (self.b, [diagnostic(*SIGN, self.imported.range("sign", encoding))]),
                (self.c, [diagnostic(*SIGN, self.outside.range("sign", encoding))]),
            ):
                with self.subTest(encoding=encoding, uri=uri):
                    self.check_result(encoding, ("textDocument/diagnostic", {"textDocument": {"uri": uri}}), {"items": items, "kind": "full"})

    def test_diagnostics_of_all(self):
        for encoding in ENCODINGS:
            with self.subTest(encoding=encoding):
                rows = [
                    (self.c, 1, [diagnostic(*SIGN, self.outside.range("sign", encoding))]),
                    (self.a, 1, self.wrong_in_a(encoding)),
                    (self.b, None, [diagnostic(*SIGN, self.imported.range("sign", encoding))]),
                ]
                items = [{"items": found, "kind": "full", "uri": uri, "version": version} for uri, version, found in rows]
                self.check_result(encoding, ("workspace/diagnostic", {}), {"items": items})

    def test_symbols(self):
        for encoding in ENCODINGS:
            with self.subTest(encoding=encoding):
                rows = [
                    ("Omega", "", 23, self.c, self.outside, "Omega"),
                    ("o", "Omega", 8, self.c, self.outside, "own"),
                    ("Alpha", "", 23, self.a, self.importing, "Alpha"),
                    ("beta", "Alpha", 8, self.a, self.importing, "field"),
                    ("gone", "Alpha", 8, self.a, self.importing, "other"),
                    ("Last", "", 23, self.a, self.importing, "Last"),
                    ("more", "Last", 8, self.a, self.importing, "more"),
                    ("Beta", "", 23, self.b, self.imported, "Beta"),
                ]
                symbols = [
                    {**({"containerName": scope} if scope else {}), "kind": kind, "location": {"range": text.range(label, encoding), "uri": uri}, "name": name}
                    for name, scope, kind, uri, text, label in rows
                ]
                self.check_result(encoding, ("workspace/symbol", {"query": ""}), symbols)

    # ---- what is read and written

    def test_definitions_at_each_unit_of_a_name(self):
        for encoding in ENCODINGS:
            found = [{"range": self.imported.range("Beta", encoding), "uri": self.b}]
            for label in ("use", "again"):
                start = self.importing.range(label, encoding)["start"]
                places = [{**start, "character": start["character"] + more} for more in range(-1, 6)]
                with self.subTest(encoding=encoding, label=label):
                    results = self.results([encoding], [("textDocument/definition", at(self.a, it)) for it in places])
                    self.assertEqual(results, [None, *[found] * 5, None])

    def locations(self, encoding, *labels):
        texts = {self.a: self.importing, self.b: self.imported}
        return [{"range": texts[uri].range(label, encoding), "uri": uri} for uri, label in labels]

    def test_references(self):
        for encoding in ENCODINGS:
            place = self.imported.range("Beta", encoding)["end"]
            uses = self.locations(encoding, (self.a, "use"), (self.a, "again"))
            own = self.locations(encoding, (self.b, "Beta"))
            for include, found in ((False, uses), (True, uses + own)):
                with self.subTest(encoding=encoding, include=include):
                    self.check_result(encoding, ("textDocument/references", at(self.b, place, context={"includeDeclaration": include})), found)

    def edits(self, encoding, name):
        return {
            self.a: [{"newText": name, "range": self.importing.range(label, encoding)} for label in ("use", "again")],
            self.b: [{"newText": name, "range": self.imported.range("Beta", encoding)}],
        }

    def test_renames(self):
        for encoding in ENCODINGS:
            place = self.importing.range("again", encoding)["start"]
            with self.subTest(encoding=encoding):
                self.check_result(encoding, ("textDocument/rename", at(self.a, place, newName="Gamma")), {"changes": self.edits(encoding, "Gamma")})

    def test_the_edits_of_a_rename_give_what_a_new_session_sees(self):
        for encoding in ENCODINGS:
            edits = self.edits(encoding, "LongerName")
            texts = {self.a: self.importing.text, self.b: self.imported.text}
            for uri, some in edits.items():
                for edit in reversed(some):
                    texts[uri] = replaced(texts[uri], {"range": edit["range"], "text": edit["newText"]}, encoding)
            changes = {uri: [{"range": it["range"], "text": it["newText"]} for it in reversed(some)] for uri, some in edits.items()}
            asked = [request(2, "workspace/diagnostic", {}), request(3, "workspace/symbol", {"query": ""})]
            kept = self.serve([*self.begin(encoding), opening(self.b, self.imported.text), *(changing(uri, some) for uri, some in changes.items()), *asked])
            new = self.serve([choosing(encoding), opening(self.a, texts[self.a], 2), opening(self.c, self.outside.text), opening(self.b, texts[self.b], 2), *asked])
            with self.subTest(encoding=encoding):
                self.assertEqual(kept, new)
                self.assertIn("LongerName", kept[2])

    def test_changes(self):
        for encoding in ENCODINGS:
            text, changes = self.importing.text, []
            for before, after in (("/* ß */", "/* 😀é\r\n */"), ("Gone", "Beta"), ("# ", "😀"), ("😀 */ import", "é */ import"), ("$", "é")):
                begin = text.index(before)
                where = {"start": position(text, begin, encoding), "end": position(text, begin + len(before), encoding)}
                changes.append({"range": where, "text": after})
                text = text[:begin] + after + text[begin + len(before) :]
            ask = request(2, "textDocument/diagnostic", {"textDocument": {"uri": self.a}})
            kept = self.serve([choosing(encoding), opening(self.a, self.importing.text), changing(self.a, changes), ask])
            new = self.serve([choosing(encoding), opening(self.a, text), ask])
            with self.subTest(encoding=encoding):
                self.assertEqual(kept, new)
                self.assertEqual([it["code"] for it in json.loads(kept[1])["result"]["items"]], [201, 201])

    def test_places_inside_a_character_and_past_a_line(self):
        # In the line `// é😀x` the two characters are 1 and 2 UTF-16 units long, 2 and 4 bytes. A place inside one is its start.
        text = 'syntax = "proto3";\n// é😀x\r\nmessage'
        line, whole = text.index("//"), len("// é😀x")
        inside = {"utf-16": {4: 4, 5: 4, 6: 5}, "utf-8": {4: 3, 5: 4, 6: 4, 7: 4, 8: 4, 9: 5}, "utf-32": {4: 4, 5: 5}}
        for encoding in ENCODINGS:
            for character, index in {**inside[encoding], 99: whole, LAST: whole}.items():
                with self.subTest(encoding=encoding, character=character):
                    self.check_insert(encoding, text, (1, character), line + index)
            for number, index in ((2, len(text)), (3, len(text)), (LAST, len(text))):
                with self.subTest(encoding=encoding, line=number):
                    self.check_insert(encoding, text, (number, LAST), index)

    def check_insert(self, encoding, text, place, index):
        """What is put at a place of a text stands in front of its character with this number."""
        where = {"line": place[0], "character": place[1]}
        ask = request(2, "textDocument/diagnostic", {"textDocument": {"uri": self.a}})
        changed = text[:index] + "\n#" + text[index:]
        kept = self.serve([choosing(encoding), opening(self.a, text), changing(self.a, [{"range": {"start": where, "end": where}, "text": "\n#"}]), ask])
        self.assertEqual(kept, self.serve([choosing(encoding), opening(self.a, changed), ask]))

    def test_a_check_counts_in_utf_16_units(self):
        (self.root / "a.proto").write_bytes(self.importing.text.encode())
        lines = []
        for name, text, labels in (("a.proto", self.importing, (("gone", *GONE), ("sign", *SIGN), ("sign2", *SIGN))), ("b.proto", self.imported, (("sign", *SIGN),))):
            for label, code, message in labels:
                start = text.range(label, "utf-16")["start"]
                lines.append(f"{name}:{start['line'] + 1}:{start['character'] + 1}: {code} {message}\n")
        self.assertEqual(stream.check(["--root", self.root]), ("".join(lines).encode(), b"", 1))


if __name__ == "__main__":
    unittest.main()
