"""Diagnostics of whole files from end to end: what is wrong in the syntax of a file, and what its checks find.

In a row `|` stands for a line feed, and a text that begins with `S` has `syntax = "proto3";` in its place. A diagnostic is
written LINE:START-END CODE: its line and its first and last character, from 0, in UTF-16 units; one over several lines has
LINE:START-LINE:END."""
import json
import unittest

import stream

# The severities of the diagnostics that are no errors.
INFORMATION = {317: 3}

MESSAGES = {
    201: {"illegal character", "malformed number", "unfinished string", "unfinished comment"},
    202: {"statement not understood"},
    203: {"blocks nested too deep"},
    204: {"unfinished statement"},
    301: {"number out of range"},
    302: {"number in 19000 to 19999"},
    303: {"number used twice"},
    304: {"number is reserved"},
    305: {"name is reserved"},
    306: {"reserved twice"},
    307: {"range runs backwards"},
    308: {"first enum value must be zero"},
    309: {"enum number out of range"},
    310: {"number used twice without allow_alias"},
    311: {"map key type not allowed"},
    312: {"name declared twice"},
    313: {"import listed twice"},
    314: {"package stated twice"},
    315: {"syntax must come first"},
    316: {"text too long"},
    317: {"not a proto3 file"},
    318: {"label not allowed here"},
    401: {"unresolved name"},
    402: {"wrong kind of name"},
    403: {"import not found"},
    404: {"import cycle"},
    405: {"name declared in a visible file"},
    406: {"name is a package"},
}


def spelled(text):
    """The text that a row stands for."""
    text = text.replace("|", "\n")
    return 'syntax = "proto3";' + text[1:] if text.startswith("S") else text


def shown(item):
    """A diagnostic as a row writes it."""
    start, end = item["range"]["start"], item["range"]["end"]
    line = "" if end["line"] == start["line"] else f"{end['line']}:"
    return f"{start['line']}:{start['character']}-{line}{end['character']} {item['code']}"


class Files(unittest.TestCase):
    def diagnostics(self, text):
        """The diagnostics of a text, as rows write them. Each has to have the words and the severity of its number."""
        output, _, status = stream.run(stream.frames(stream.document_bodies(text)))
        self.assertEqual(status, 0)
        items = json.loads(stream.split_frames(output)[1])["result"]["items"]
        for item in items:
            self.assertIn(item["message"], MESSAGES[item["code"]])
            self.assertEqual(item["severity"], INFORMATION.get(item["code"], 1))
            self.assertEqual(item["source"], "protols")
        return [shown(item) for item in items]

    def expect(self, rows):
        """Each text has its diagnostics, and no others."""
        for text, wanted in rows:
            with self.subTest(text=text[:120]):
                self.assertEqual(self.diagnostics(spelled(text)), wanted)

    def test_bad_tokens(self):
        self.expect(
            [
                ("S|// a .5e3|", []),
                ("S|0x1G|", ["1:0-4 201"]),
                ("S|'q|", ["1:0-2 201"]),
                ("S|/* z", ["1:0-4 201"]),
                ("S|/* é😀 */ #|", ["1:10-11 201"]),
                ("syntax = 'pro' # \"to3\";|message M { }|", ["0:15-16 201"]),
            ]
        )

    def test_a_bad_statement_costs_itself_alone(self):
        text = "S|message M {|  int32 a = 1;|  int32 = 2;|  int32 b = 3;|  option (o) = { x: 1; y { z: 2 } };|  int32 c|}|message N { }|"
        self.expect(
            [
                (text, ["3:2-12 202", "6:2-9 204"]),
                # What stands round it is there: its names and numbers are met again.
                ("S|message M { int32 a = 1; int32 = 2; int32 a = 1; }|", ["1:25-35 202", "1:42-43 312", "1:46-47 303"]),
                ("S|}|foo } message B { }|", ["1:0-1 202", "2:0-3 204", "2:4-5 202"]),
                ("S|message A { int32 a = 1;|", ["1:0-24 204"]),
                ("S|message A { };|", []),
                ("S|foo { bar } message A { }|", ["1:0-25 204"]),
                ("S|enum E { A = 0; message B { }; }|", ["1:16-30 202"]),
                ("S|message M { oneof o { message m = 1 [(x) = { a: 1 }]; } }|", ["1:22-51 202", "1:51-53 202"]),
                ("S|message M { oneof x = 1; rpc y = 2; }|", ["1:12-24 202", "1:25-28 401"]),
            ]
        )

    def test_forms(self):
        self.expect(
            [
                ("S|message M { optional x = 1; repeated optional optional y = 2; }|", ["1:12-27 202", "1:37-45 318", "1:46-54 401"]),
                ("S|message M { map x = 1; map<int32, map> y = 2; map<int32, map<int32, int32>> z = 3; }|", ["1:12-15 401", "1:34-37 401", "1:46-82 202"]),
                ("S|message M { oneof o { map<int32, int32> y = 2; } }|", ["1:22-46 202"]),
                (
                    "S|message M { int32 a = 1 []; int32 b = 2 [a] [b]; int32 c = 3 [a = { x: [1] }, b]; int32 d = 4 [ ( ]; }|",
                    ["1:12-27 202", "1:28-48 202", "1:82-100 202"],
                ),
                (
                    "S|option a.(b.c).d = -1.5;|option (.a) = x;|option a = ;|option (a = 1;|option a.5 = 1;|option a = ( [ ) ];|",
                    ["3:0-12 202", "4:0-14 202", "5:0-15 202", "6:0-19 202"],
                ),
                ("S|import 'a\\x';|import;|import public weak 'b';|", ["1:0-13 202", "2:0-7 202", "3:0-23 202"]),
                (
                    "S|message B { }|service S { rpc A (stream) returns (B); rpc C (stream.B) returns (stream B) { option a = 1; ; } }|",
                    ["2:12-39 202"],
                ),
                (
                    "S|message M { reserved 'a\\n'; reserved 1, 'a'; reserved -1; reserved max; reserved 1 to 2 to 3; reserved; }|",
                    ["1:12-27 202", "1:28-44 202", "1:45-57 202", "1:58-71 202", "1:72-93 202", "1:94-103 202"],
                ),
            ]
        )

    def test_blocks_stand_64_deep(self):
        self.expect(
            [
                ("S|" + "message A{" * 64 + "}" * 64, []),
                ("S|" + "message A{" * 65 + "}" * 65, ["1:640-651 203"]),
                (
                    "S|" + "message A{" * 63 + "enum E { Z = 0; message B { }; } oneof o { } extend X { extend Y { } } " + "}" * 63,
                    ["1:646-660 203", "1:682-683 401", "1:686-698 203"],
                ),
            ]
        )

    def test_deep_and_hostile_texts(self):
        self.expect(
            [
                ("S|option o = " + "{" * 100_000 + "}" * 100_000 + ";", []),
                ("S|" + "message A{" * 100_000 + "}" * 100_000, ["1:640-1099936 203"]),
                ("S|" + "{" * 100_000, ["1:0-100000 204"]),
                ("S|" + "[" * 100_000 + ";", ["1:0-100001 202"]),
            ]
        )
        self.assertEqual(len(self.diagnostics(spelled("S|" + "}" * 10_000))), 10_000)

    def test_field_numbers(self):
        text = (
            "S|message M {|  int32 a = 0;|  int32 b = 1;|  int32 c = 18999;|  int32 d = 19000;|  int32 e = 19999;|  int32 f = 20000;|"
            "  int32 g = 536870911;|  int32 h = 536870912;|  int32 i = 0x1;|  int32 j = 100000000000000000000000000000;|}|"
        )
        self.expect(
            [
                (
                    text,
                    ["2:12-13 301", "5:12-17 302", "6:12-17 302", "9:12-21 301", "10:12-15 303", "11:12-42 301"],
                ),
                ("S|message M { int32 a = 1; oneof o { int32 b = 01; } map<bool, bool> c = 0x1; }|", ["1:45-47 303", "1:71-74 303"]),
                ("S|extend M { int32 a = 1; int32 b = 1; int32 c = 0; int32 d = 19000; }|", ["1:7-8 401", "1:47-48 301", "1:60-65 302"]),
            ]
        )
        digits = "9" * 100_000
        self.expect([(f"S|message M {{ int32 a = {digits}; int32 b = {digits}; }}|", [f"1:22-{22 + 100_000} 301", f"1:{34 + 100_000}-{34 + 200_000} 301"])])

    def test_reservations(self):
        text = (
            'S|message R {|  reserved 2, 15, 9 to 11, 40 to max;|  reserved "foo";|  reserved 5 to 4;|  int32 a = 11;|  int32 b = 12;|'
            "  int32 c = 40;|  int32 foo = 1;|}|"
        )
        self.expect(
            [
                (text, ["4:11-17 307", "5:12-14 304", "7:12-14 304", "8:8-11 305"]),
                (
                    "S|message M { reserved 0, 1 to 536870912; reserved 1; reserved 19000; int32 a = 1; int32 b = 2; }|",
                    ["1:21-22 301", "1:29-38 301", "1:78-79 304"],
                ),
                ("S|message M { reserved 5 to 4, 5; int32 a = 4; }|", ["1:21-27 307"]),
                (
                    "S|message M { oneof o { int32 a = 5; } map<string, int32> b = 6; reserved 'a', 'b', 'a'; reserved 5 to 6; }|",
                    ["1:28-29 305", "1:32-33 304", "1:56-57 305", "1:60-61 304", "1:82-85 306"],
                ),
                ("S|message M { reserved 1; reserved 'x'; int32 y = 2; message N { int32 x = 1; int32 z = 2; } }|", []),
            ]
        )

    def test_enums(self):
        text = (
            "S|enum A { ONE = 1; }|enum B { }|enum C { X = 0; Y = 0; }|enum D { option allow_alias = true; P = 0; Q = 0; }|"
            "enum E { UNKNOWN = 0; }|enum F { UNKNOWN = 0; }|"
        )
        self.expect(
            [
                (text, ["1:15-16 308", "2:5-6 308", "3:20-21 310", "6:9-16 312"]),
                ("S|enum E { A = -0; B = 0x0; }|", ["1:21-24 310"]),
                (
                    "S|enum E { A = 99999999999; B = - 2147483649; C = -2147483648; }|",
                    ["1:13-24 308", "1:13-24 309", "1:30-42 309"],
                ),
                (
                    "S|enum E { A = 0; reserved -5 to -1, -3, 2147483647 to max, 5 to 4, 2147483648; B = -2; }|",
                    ["1:35-37 306", "1:58-64 307", "1:66-76 309", "1:82-84 304"],
                ),
            ]
        )

    def test_statements_of_the_file(self):
        text = (
            ';syntax = "proto3";|import "m.proto";|import "m.proto";|package k;|package j;|message M {|  repeated optional int32 a = 1;|'
            "  map<float, string> b = 2;|  oneof o { repeated int32 c = 3; }|  reserved 5 to 7, 7;|}|enum N { Z = 0; BIG = 2147483648; }|"
        )
        self.expect(
            [
                (
                    text,
                    ["0:1-19 315", "1:7-16 403", "2:7-16 313", "2:7-16 403", "4:8-9 314", "6:11-19 318", "7:6-11 311", "8:12-20 318", "9:19-20 306", "11:22-32 309"],
                ),
            ]
        )

    def test_files_of_other_languages(self):
        self.expect(
            [
                ("", ["0:0-0 317"]),
                ("message M { int32 = 1; #|", ["0:0-0 317"]),
                ('syntax = "proto2";|message Old { required int32 a = 1; }|', ["0:0-18 317"]),
                ("  syntax|= 'proto2'; # |", ["0:2-1:11 317"]),
                ("syntax = proto3;|", ["0:0-0 317"]),
                ("syntax = 'proto2';|syntax = 'proto3';|", ["0:0-18 317"]),
            ]
        )

    def test_texts_that_are_too_long(self):
        head = 'syntax = "proto3";\n'
        for size, wanted in [(16_777_216, []), (16_777_217, ["0:0-0 316"])]:
            with self.subTest(size=size):
                self.assertEqual(self.diagnostics(head + " " * (size - len(head))), wanted)
        self.assertEqual(self.diagnostics("#" * 16_777_217), ["0:0-0 316"])


if __name__ == "__main__":
    unittest.main()
