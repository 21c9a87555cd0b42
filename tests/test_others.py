"""End-to-end tests of `--read-others`: files that aren't proto3 are read for what they declare, and without the option they aren't.

Statements of proto2 are those of its language guide, those of an edition of its specification. Rows are written as in test_roots.py.
"""
import json
import unittest

import stream
from stream import frames, run, split_frames
from test_check import spelled
from test_folder import FolderTest
from test_roots import position, uri_of
from test_serve import INITIALIZE, INITIALIZED, request

# What a proto3 file says that imports another one, has fields of these types, and a last one of a type that nobody declares.
def user(*types):
    fields = "".join(f"  {it} f{n} = {n};|" for n, it in enumerate((*types, "Nobody"), 1))
    return f'S|import "other.proto";|message User {{|{fields}}}|'


# Statements of other languages, and the types that they declare.
STATEMENTS = [
    ("message M { required int32 a = 1; optional M b = 2 [default = 3]; }", ["M"]),
    ("message M { repeated group Result = 1 { required string url = 2; } }", ["M", "M.Result"]),
    ("message M { extensions 100 to 199; extensions 4, 20 to max; } message N { }", ["M", "N"]),
    ("message M { extensions 100 to 199 [verification = UNVERIFIED]; } message N { }", ["M", "N"]),
    ("message M { extensions 100 to 199; } extend M { optional group Part = 126 { enum E { A = 1; } } }", ["M", "Part", "Part.E"]),
    ("message M { oneof kind { group Inner = 1 { } int32 b = 2; } }", ["M", "M.Inner"]),
    ("message M { optional string group = 1; optional int32 required = 2; } enum required { A = 1; }", ["M", "required"]),
    ("enum E { option allow_alias = true; A = 1; B = 1; reserved 2, 15, 9 to 11; reserved 'C'; }", ["E"]),
    ("message M { reserved 2, 15; reserved 'a', 'b'; map<string, M> all = 3; } service S { rpc R(M) returns (stream M); }", ["M"]),
    ("message M { optional int32 a = 1 [features.field_presence = LEGACY_REQUIRED]; reserved foo, bar; } option features.x = Y;", ["M"]),
    ("export message M { local enum E { A = 0; } } local message N { }", ["M", "M.E", "N"]),
]

OTHER_LANGUAGES = ["", 'syntax = "proto2";', 'edition = "2023";', 'edition = "2024";']

PROTO2 = 'syntax = "proto2";|package far;|message Far {|  optional group Near = 1 { optional Missing no = 2; }|  extensions 4 to 8;|}|'
USER = 'S|import "other.proto";|message Own { far.Far.Near near = 1; far.Far far = 2; Nobody no = 3; }|'


class Others(FolderTest):
    def check_files(self, files, *words):
        for path, row in files.items():
            self.put(path, spelled(row))
        return stream.check_with_each(("--root", self.root, *words))

    def test_a_file_of_another_language_keeps_its_one_diagnostic(self):
        files = {"other.proto": PROTO2, "user.proto": USER}
        self.assertEqual(self.check_files(files), (b"other.proto:1:1: 317 not a proto3 file\n", b"", 0))
        lines = b"other.proto:1:1: 317 not a proto3 file\nuser.proto:3:55: 401 unresolved name\n"
        self.assertEqual(self.check_files(files, "--read-others"), (lines, b"", 1))

    def test_what_statements_declare(self):
        for language in OTHER_LANGUAGES:
            for statements, types in STATEMENTS:
                with self.subTest(language=language, statements=statements):
                    self.setUp()
                    files = {"other.proto": f"{language}|{statements}|", "user.proto": user(*types)}
                    out, err, status = self.check_files(files, "--read-others")
                    where = f"user.proto:{4 + len(types)}:3: 401 unresolved name\n".encode()
                    self.assertEqual((b"".join(it for it in out.splitlines(True) if it.startswith(b"user")), err, status), (where, b"", 1))
                    self.assertEqual(out.count(b"other.proto:"), 1)
                    self.assertEqual(self.check_files(files)[0].count(b"401"), 0)

    def test_public_imports_and_missing_files(self):
        files = {
            "far.proto": "message Far { }|",
            "other.proto": 'import public "far.proto";|',
            "user.proto": user("Far"),
        }
        self.assertIn(b"user.proto:5:3: 401 unresolved name\n", self.check_files(files, "--read-others")[0])
        files["other.proto"] = 'import public "none.proto";|import "far.proto";|'
        self.assertNotIn(b"401", self.check_files(files, "--read-others")[0])

    def test_proto3_files_are_what_they_were(self):
        files = {"a.proto": "S|message A { A a = 1; B b = 19000; #; }|message A { }|"}
        self.assertEqual(self.check_files(files, "--read-others"), self.check_files(files))

    def session(self, *requests):
        words = ("serve", "--root", str(self.root), "--read-others")
        asked = [INITIALIZE, INITIALIZED, *(request(n, method, params) for n, (method, params) in enumerate(requests, 2))]
        out, err, _ = run(frames(asked), words)
        self.assertEqual(err, b"")
        return [json.loads(it) for it in split_frames(out)][1:]

    def test_names_of_another_file_in_a_session(self):
        for path, row in {"other.proto": PROTO2, "user.proto": USER}.items():
            self.put(path, spelled(row))
        user_uri, other_uri = uri_of(self.root, "user.proto"), uri_of(self.root, "other.proto")
        replies = self.session(
            ("textDocument/definition", position(user_uri, 2, 23)),
            ("textDocument/references", json.dumps({**json.loads(position(other_uri, 3, 18)), "context": {"includeDeclaration": True}})),
            ("workspace/symbol", '{"query":"near"}'),
            ("textDocument/rename", json.dumps({**json.loads(position(user_uri, 2, 23)), "newName": "Close"})),
            ("textDocument/rename", json.dumps({**json.loads(position(user_uri, 2, 9)), "newName": "Mine"})),
        )
        near = {"start": {"line": 3, "character": 17}, "end": {"line": 3, "character": 21}}
        used = {"start": {"line": 2, "character": 22}, "end": {"line": 2, "character": 26}}
        self.assertEqual(replies[0]["result"], [{"range": near, "uri": other_uri}])
        self.assertEqual(replies[1]["result"], [{"range": near, "uri": other_uri}, {"range": used, "uri": user_uri}])
        self.assertEqual([it["name"] for it in replies[2]["result"]], ["Near", "no", "near"])
        self.assertEqual(replies[3]["error"]["message"], "rename refused: 702")
        self.assertIn("changes", replies[4]["result"])

    def test_a_name_that_another_file_may_use_stays(self):
        for path, row in {"own.proto": "S|message Own { }|", "other.proto": 'import "own.proto";|message M { optional Own own = 1; }|'}.items():
            self.put(path, spelled(row))
        rename = ("textDocument/rename", json.dumps({**json.loads(position(uri_of(self.root, "own.proto"), 1, 9)), "newName": "Mine"}))
        self.assertEqual(self.session(rename)[0]["error"]["message"], "rename refused: 702")


if __name__ == "__main__":
    unittest.main()
