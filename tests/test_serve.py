"""End-to-end tests of `protols serve`: the bytes that come in, the bytes that go out, and the exit status.

Each expected byte is reasoned from the Language Server Protocol 3.17, JSON-RPC 2.0 and the rules in docs/. The texts
of the documents are good proto3 but for bad tokens, so that 201 is all that there is to report.
"""
import contextlib
import json
import os
import random
import subprocess
import tempfile
import unittest

import stream
from stream import Server, frame, frames, run, split_frames

# ---- the messages of a first session, and its replies

INITIALIZE = '{"jsonrpc":"2.0","id":1,"method":"initialize","params":{"capabilities":{"textDocument":{"diagnostic":{}}}}}'
OPEN = (
    '{"jsonrpc":"2.0","method":"textDocument/didOpen","params":{"textDocument":{"uri":"file:///w/a.proto",'
    '"languageId":"proto","version":1,"text":"syntax = \\"proto3\\";\\n#\\n"}}}'
)
ASK = '{"jsonrpc":"2.0","id":2,"method":"textDocument/diagnostic","params":{"textDocument":{"uri":"file:///w/a.proto"}}}'
SHUTDOWN = '{"jsonrpc":"2.0","id":3,"method":"shutdown"}'
EXIT = '{"jsonrpc":"2.0","method":"exit"}'

INITIALIZED = (
    '{"id":1,"jsonrpc":"2.0","result":{"capabilities":{"definitionProvider":true,"diagnosticProvider":'
    '{"interFileDependencies":true,"workspaceDiagnostics":true},"positionEncoding":"utf-16","referencesProvider":true,'
    '"renameProvider":true,"textDocumentSync":{"change":2,"openClose":true,"save":true},"workspaceSymbolProvider":true},'
    '"serverInfo":{"name":"protols","version":"1"}}}'
)
REPORT = (
    '{"id":2,"jsonrpc":"2.0","result":{"items":[{"code":201,"message":"illegal character","range":{"end":'
    '{"character":1,"line":1},"start":{"character":0,"line":1}},"severity":1,"source":"protols"}],"kind":"full"}}'
)
SHUT = '{"id":3,"jsonrpc":"2.0","result":null}'

FIRST_MESSAGES = [INITIALIZE, OPEN, ASK, SHUTDOWN, EXIT]
FIRST_REPLIES = [INITIALIZED, REPORT, SHUT]
FIRST_INPUT = frames(FIRST_MESSAGES)
FIRST_OUTPUT = frames(FIRST_REPLIES)

# ---- messages and replies by their parts; an id is given as its JSON text

A, B = "file:///w/a.proto", "file:///w/b.proto"
PROTO3 = 'syntax = "proto3";\n'

ERRORS = {
    -32700: "parse error",
    -32600: "invalid request",
    -32601: "method not found",
    -32602: "invalid params",
    -32002: "server not initialized",
}


def request(id_text, method, params=None):
    """A request whose params are JSON text, or left out."""
    given = "" if params is None else f',"params":{params}'
    return f'{{"jsonrpc":"2.0","id":{id_text},"method":"{method}"{given}}}'


def notification(method, params=None):
    """A notification whose params are JSON text, or left out."""
    given = "" if params is None else f',"params":{params}'
    return f'{{"jsonrpc":"2.0","method":"{method}"{given}}}'


def opening(uri, text, version=1):
    """The notification that opens a document."""
    document = {"uri": uri, "languageId": "proto", "version": version, "text": text}
    return notification("textDocument/didOpen", json.dumps({"textDocument": document}))


def asking(id_text, uri):
    """The request for a document's diagnostics."""
    return request(id_text, "textDocument/diagnostic", json.dumps({"textDocument": {"uri": uri}}))


def refusal(code, id_text="null"):
    """The reply that is an error."""
    return f'{{"error":{{"code":{code},"message":"{ERRORS[code]}"}},"id":{id_text},"jsonrpc":"2.0"}}'


def place(line, character):
    return f'{{"character":{character},"line":{line}}}'


def listed(*bad_tokens):
    """The diagnostics of bad tokens: for each its message, its start and its end."""
    return "[%s]" % ",".join(
        f'{{"code":201,"message":"{message}","range":{{"end":{place(*end)},"start":{place(*start)}}},"severity":1,"source":"protols"}}'
        for message, start, end in bad_tokens
    )


def report(id_text, *bad_tokens):
    """The reply to a request for diagnostics."""
    return f'{{"id":{id_text},"jsonrpc":"2.0","result":{{"items":{listed(*bad_tokens)},"kind":"full"}}}}'


CHARACTER, NUMBER, STRING, COMMENT = "illegal character", "malformed number", "unfinished string", "unfinished comment"


def sign(line, character=0):
    """A bad token of one UTF-16 unit, as `#` is."""
    return CHARACTER, (line, character), (line, character + 1)


@contextlib.contextmanager
def nobody_reads():
    """A pipe's end for writing whose other end is closed."""
    reader, writer = os.pipe()
    os.close(reader)
    try:
        yield writer
    finally:
        os.close(writer)


class ServeTest(unittest.TestCase):
    maxDiff = None

    def check_bytes(self, input_bytes, output, status, fault=None):
        """The program writes exactly these bytes, ends with this status, and names its fault if it has one."""
        told = b"" if fault is None else b"protols: fault %d\n" % fault
        self.assertEqual(run(input_bytes), (output, told, status))

    def check(self, bodies, replies, status=1):
        """Messages, a frame each, are answered by exactly these replies; then the input ends."""
        out, err, ended = run(frames(bodies))
        self.assertEqual([body.decode() for body in split_frames(out)], replies)
        self.assertEqual((out, err, ended), (frames(replies), b"", status))

    def check_running(self, bodies, replies, status=1):
        """The same behind `initialize`."""
        self.check([INITIALIZE, *bodies], [INITIALIZED, *replies], status)


class Sessions(ServeTest):
    def test_the_first_session_byte_for_byte(self):
        # A header is 16 bytes, the digits and 4 bytes.
        self.assertEqual(list(map(len, FIRST_MESSAGES)), [107, 171, 113, 44, 33])
        self.assertEqual(list(map(len, FIRST_REPLIES)), [372, 208, 38])
        self.assertEqual((len(FIRST_INPUT), len(FIRST_OUTPUT)), (581, 686))
        self.check_bytes(FIRST_INPUT, FIRST_OUTPUT, 0)

    def test_no_input_ends_without_shutdown(self):
        self.check_bytes(b"", b"", 1)

    def test_an_exit_at_any_moment(self):
        for count in range(len(FIRST_MESSAGES)):
            with self.subTest(messages=count):
                replies = FIRST_REPLIES[: [0, 1, 1, 2, 3][count]]
                self.check([*FIRST_MESSAGES[:count], EXIT], replies, 0 if count == 4 else 1)

    def test_an_exit_takes_any_params(self):
        for params in ("null", "[1]", '"x"', "{}"):
            with self.subTest(params=params):
                self.check([INITIALIZE, SHUTDOWN, notification("exit", params)], [INITIALIZED, SHUT], 0)

    def test_nothing_behind_an_exit_is_answered(self):
        self.check([EXIT, INITIALIZE], [], 1)
        self.check_running([EXIT, SHUTDOWN, EXIT], [], 1)
        self.check_running([SHUTDOWN, EXIT, SHUTDOWN, ""], [SHUT], 0)
        self.check_bytes(FIRST_INPUT + b"no frame", FIRST_OUTPUT, 0)

    def test_the_input_may_be_a_file(self):
        with tempfile.TemporaryFile() as file:
            file.write(FIRST_INPUT + b"no frame")
            file.seek(0)
            done = subprocess.run(stream.command(), stdin=file, capture_output=True, timeout=stream.LIMIT)
            self.assertEqual((done.stdout, done.stderr, done.returncode), (FIRST_OUTPUT, b"", 0))

    def test_before_initialize(self):
        symbols = request('"q"', "workspace/symbol", '{"query":""}')
        refused = [symbols, asking(4, A), request(5, "shutdown"), request(6, "exit"), request(7, "$/x")]
        replies = [refusal(-32002, id_text) for id_text in ('"q"', "4", "5", "6", "7")]
        self.check([*refused, EXIT], replies, 1)
        # Notifications are dropped: no document is open, and `shutdown` and `initialize` without an id do nothing.
        dropped = [OPEN, notification("initialize", "{}"), notification("shutdown"), notification("$/x")]
        self.check([*dropped, INITIALIZE, ASK, EXIT], [INITIALIZED, refusal(-32602, "2")], 1)

    def test_initialize_takes_any_params(self):
        for params in (None, "null", "[]", "7", '"x"', "{}", '{"capabilities":7}'):
            with self.subTest(params=params):
                self.check([request(1, "initialize", params)], [INITIALIZED])

    def test_initialize_twice(self):
        self.check_running([OPEN, request(7, "initialize", "{}"), ASK], [refusal(-32600, "7"), REPORT])

    def test_after_shutdown(self):
        refused = [request(4, "shutdown"), request(5, "initialize", "{}"), asking(6, A), request(7, "$/x"), request(8, "exit")]
        replies = [refusal(-32600, id_text) for id_text in "45678"]
        self.check_running([OPEN, SHUTDOWN, *refused, OPEN, "[]", "{", EXIT], [SHUT, *replies, refusal(-32600), refusal(-32700)], 0)
        self.check_running([SHUTDOWN, *refused], [SHUT, *replies], 1)

    def test_replies_come_in_order_of_arrival(self):
        numbers = range(10, 2010)
        bodies = [asking(n, A) if n % 2 else request(n, "$/x") for n in numbers]
        replies = [report(n, sign(1)) if n % 2 else refusal(-32601, n) for n in numbers]
        self.check_running([OPEN, *bodies, SHUTDOWN, EXIT], [*replies, SHUT], 0)


class Frames(ServeTest):
    def check_fault(self, bad, fault):
        """The bad frame ends the program, at once or behind a good one, whose reply stays written."""
        self.check_bytes(bad, b"", 3, fault)
        self.check_bytes(frame(INITIALIZE) + bad, frame(INITIALIZED), 3, fault)

    def test_faults(self):
        cases = [
            (101, b"Content-Length 2\r\n\r\n{}"),
            (101, b": 2\r\n\r\n{}"),
            (101, b"Content-Length: 2\r\n\r\r\n\r\n{}"),
            (101, b"{}\r\n\r\n"),
            (102, b"\r\n{}"),
            (102, b"\r\nContent-Length: 2\r\n\r\n{}"),
            (102, b"Content-Type: application/vscode-jsonrpc; charset=utf-8\r\n\r\n{}"),
            (102, b"Content-Length : 2\r\n\r\n{}"),
            (102, b" Content-Length: 2\r\n\r\n{}"),
            (103, b"Content-Length:\r\n\r\n{}"),
            (103, b"Content-Length:   \r\n\r\n{}"),
            (103, b"Content-Length: two\r\n\r\n{}"),
            (103, b"Content-Length: +2\r\n\r\n{}"),
            (103, b"Content-Length: -2\r\n\r\n{}"),
            (103, b"Content-Length: 0x2\r\n\r\n{}"),
            (103, b"Content-Length: 2 2\r\n\r\n{}"),
            (103, b"Content-Length: 2:\r\n\r\n{}"),
            (103, b"Content-Length:\t2\r\n\r\n{}"),
            (103, b"Content-Length: 2\n\r\n\r\n{}"),
            (103, "Content-Length: \uff12\r\n\r\n{}".encode()),
            (103, b"Content-Length: 00000000002\r\n\r\n{}"),
            (103, b"Content-Length: two\r\nContent-Length: 2\r\n\r\n{}"),
            (104, b"Content-Length: 67108865\r\n\r\n{}"),
            (104, b"Content-Length: 9999999999\r\n\r\n{}"),
            (104, b"Content-Length: 2\r\nContent-Length: 67108865\r\n\r\n{}"),
            (106, b"C"),
            (106, b"\r"),
            (106, b"Content-Length: 2\r\n"),
            (106, b"Content-Length: 2\r\n\r"),
            (106, b"Content-Length: 2\n\n{}"),
            (106, b"Content-Length: 2\r\n\r\n"),
            (106, b"Content-Length: 2\r\n\r\n{"),
            (106, b"Content-Length: 10\r\n\r\nabc"),
            (106, b"Content-Length: 67108864\r\n\r\n{}"),
        ]
        for fault, bad in cases:
            with self.subTest(fault=fault, bad=bad):
                self.check_fault(bad, fault)

    def test_a_header_part_has_at_most_8192_bytes(self):
        # `X: ` and the empty line behind it are 7 bytes.
        self.check_fault(b"X: " + b"a" * 8186 + b"\r\n\r\n", 105)
        self.check_fault(b"X: " + b"a" * 8185 + b"\r\n\r\n", 102)
        self.check_fault(b"a" * 8192, 105)
        self.check_fault(b"a" * 8191, 106)
        self.check_fault(b"a" * 1_000_000, 105)
        # `Content-Length: 2`, `X: ` and the two ends of lines are 26 bytes.
        longest = b"Content-Length: 2\r\nX: " + b"a" * 8166 + b"\r\n\r\n"
        self.assertEqual(len(longest), 8192)
        self.check_bytes(longest + b"{}" + frame(EXIT), frame(refusal(-32600)), 1)

    def test_which_fault_counts(self):
        cases = [
            ("the first line", 101, b"none\r\nContent-Length: two\r\n\r\n"),
            ("the first line", 103, b"Content-Length: two\r\nnone\r\n\r\n"),
            ("a line before a length that isn't there", 101, b"X: 1\r\nnone\r\n\r\n"),
            ("a line before a length that is too long", 101, b"Content-Length: 67108865\r\nnone\r\n\r\n"),
            ("a bad length before one that is too long", 103, b"Content-Length: 67108865\r\nContent-Length: two\r\n\r\n"),
            ("the end of the input before a line", 106, b"none\r\nContent-Length: two\r\n"),
            ("the header's length before a line", 105, b"none\r\n" + b"a" * 8186),
            ("a line before the end of the input in the body", 103, b"Content-Length: two\r\nContent-Length: 2\r\n\r\n"),
        ]
        for name, fault, bad in cases:
            with self.subTest(name):
                self.check_fault(bad, fault)

    def test_headers_that_are_read(self):
        headers = [
            b"content-length:2",
            b"CONTENT-LENGTH:   2  ",
            b"Content-Length: 0000000002",
            b"Content-Length: 9\r\nContent-Length: 2",
            b"Content-Length: 67108865\r\ncontent-length: 2",
            b"Content-Type: application/vscode-jsonrpc; charset=utf-8\r\nContent-Length: 2",
            b"Content-Length: 2\r\nX:",
            b"Content-Length: 2\r\n : :",
            b"a\rb\nc: \n\r\nContent-Length: 2",
            b"\n: \r\r\nContent-Length: 2",
            b"\xff\x00: \xfe\r\nContent-Length: 2",
        ]
        for header in headers:
            with self.subTest(header=header):
                out = frames([refusal(-32600), INITIALIZED])
                self.check_bytes(header + b"\r\n\r\n{}" + frame(INITIALIZE), out, 1)

    def test_an_empty_body_is_no_json(self):
        self.check_bytes(b"Content-Length: 0\r\n\r\n" + frame(EXIT), frame(refusal(-32700)), 1)
        self.assertEqual(len(refusal(-32700)), 75)

    def test_a_length_counts_bytes(self):
        # With the id `null` this reply has 80 bytes: `é` has two, the other character four, and the quotes one each.
        reply = refusal(-32601, '"é😀"').encode()
        self.check_bytes(frame(request('"é😀"', "$/é")), frame(refusal(-32002, '"é😀"')), 1)
        self.check_bytes(frames([INITIALIZE, request('"é😀"', "$/é")]), frame(INITIALIZED) + b"Content-Length: 84\r\n\r\n" + reply, 1)

    def test_the_longest_body(self):
        spaces = b" " * 67_108_864
        self.check_bytes(frame(spaces) + frame(EXIT), frame(refusal(-32700)), 1)
        # A body of one byte more is refused by its header alone.
        self.check_fault(b"Content-Length: 67108865\r\n\r\n", 104)


class Messages(ServeTest):
    def check_each(self, cases):
        """Each body by itself behind `initialize`, then all in one session. The reply is None where none comes."""
        for body, reply in cases:
            with self.subTest(body=body):
                self.check_running([body, EXIT], [reply] if reply else [])
        self.check_running([body for body, _ in cases], [reply for _, reply in cases if reply])

    def test_what_is_no_json(self):
        no_json = [
            "", " ", "{", "}", "[1,]", '{"a":1,}', "{} {}", "nul", "NaN", "'a'", "{a:1}", "01", "+1", "1.", ".5", "1e999",
            "\ufeff{}", "\f{}", '"\t"', '"\\x"', '"\\u12"', '"\\ud800"', '"\\udc00"', '"\\ud83d\\u0041"', "// {}",
            '{"jsonrpc":"2.0","id":1,"method":"$/x","params":"\\ud800"}',
            b'{"jsonrpc":"2.0","id":1,"method":"\xff"}',
            b'{"jsonrpc":"2.0","id":1,"method":"$/x","\xc0\xaf":0}',
            b'{"jsonrpc":"2.0","id":"\xed\xa0\x80","method":"$/x"}',
            b'{"jsonrpc":"2.0","id":1,"method":"\xf4\x90\x80\x80"}',
            b'{"jsonrpc":"2.0","id":1,"method":"\x00"}',
            b"{}\x00",
        ]
        self.check_each([(body, refusal(-32700)) for body in no_json])

    def test_what_is_no_object(self):
        batch = f"[{SHUTDOWN},{EXIT}]"
        self.check_each([(body, refusal(-32600)) for body in ("[]", batch, "null", "true", "1", "-0", '"exit"', " [ ] \r\n")])

    def test_nesting(self):
        def nested(depth):
            return "[" * depth + "]" * depth

        # The message is one level itself.
        self.check_each(
            [
                (nested(127), refusal(-32600)),
                (nested(128), refusal(-32700)),
                ('{"a":' * 126 + "{}" + "}" * 126, refusal(-32600)),
                ('{"a":' * 127 + "{}" + "}" * 127, refusal(-32700)),
                (request(4, "$/x", nested(126)), refusal(-32601, "4")),
                (request(4, "$/x", nested(127)), refusal(-32700)),
                ("[" * 1_000_000, refusal(-32700)),
            ]
        )

    def test_ids(self):
        good = [
            ("0", "0"), ("7", "7"), ("-7", "-7"),
            ("9223372036854775807", "9223372036854775807"),
            ("-9223372036854775808", "-9223372036854775808"),
            ('"q"', '"q"'), ('""', '""'), ('"1"', '"1"'),
            ('"\\u0041\\/\\u00e9\\ud83d\\ude00"', '"A/é😀"'),
            ('"\\"\\\\\\b\\f\\n\\r\\t\\u0001\\u001F"', '"\\"\\\\\\b\\f\\n\\r\\t\\u0001\\u001f"'),
            ('"\x7f"', '"\x7f"'),
        ]
        bad = ["1.5", "1.0", "1e2", "-0", "null", "true", "false", "[]", "[1]", "{}",
               "9223372036854775808", "-9223372036854775809", "18446744073709551615", "18446744073709551616"]
        self.check_each(
            [(request(sent, "$/x"), refusal(-32601, echoed)) for sent, echoed in good]
            + [(request(sent, "shutdown"), refusal(-32600)) for sent in bad]
        )

    def test_a_long_id_comes_back_whole(self):
        long = '"' + "é" * 1_000_000 + '"'
        self.check_running([request(long, "$/x")], [refusal(-32601, long)])

    def test_versions_and_methods(self):
        self.check_each(
            [
                ("{}", refusal(-32600)),
                ('{"jsonrpc":"2.0"}', refusal(-32600)),
                ('{"jsonrpc":"2.0","id":4}', refusal(-32600, "4")),
                ('{"id":4,"method":"shutdown"}', refusal(-32600, "4")),
                ('{"jsonrpc":"1.0","id":4,"method":"shutdown"}', refusal(-32600, "4")),
                ('{"jsonrpc":"2.0 ","id":4,"method":"shutdown"}', refusal(-32600, "4")),
                ('{"jsonrpc":2.0,"id":4,"method":"shutdown"}', refusal(-32600, "4")),
                ('{"jsonrpc":null,"id":"a","method":"shutdown"}', refusal(-32600, '"a"')),
                ('{"JSONRPC":"2.0","id":4,"method":"shutdown"}', refusal(-32600, "4")),
                ('{"method":"exit"}', refusal(-32600)),
                ('{"jsonrpc":"1.0","method":"exit"}', refusal(-32600)),
                ('{"jsonrpc":"2.0","id":4,"method":5}', refusal(-32600, "4")),
                ('{"jsonrpc":"2.0","id":4,"method":null}', refusal(-32600, "4")),
                ('{"jsonrpc":"2.0","id":4,"method":["shutdown"]}', refusal(-32600, "4")),
                ('{"jsonrpc":"2.0","method":5}', refusal(-32600)),
                ('{"jsonrpc":"2.0","method":null}', refusal(-32600)),
                ('{"jsonrpc":"2.0","id":1.5,"method":5}', refusal(-32600)),
            ]
        )

    def test_responses_are_dropped(self):
        self.check_each(
            [
                ('{"jsonrpc":"2.0","id":8,"result":1}', None),
                ('{"jsonrpc":"2.0","id":8,"error":{"code":1,"message":"x"}}', None),
                ('{"jsonrpc":"2.0","id":1.5,"result":null}', None),
                ('{"jsonrpc":"1.0","id":null,"error":null}', None),
                ('{"result":1}', None),
                # With a method it is no response.
                ('{"jsonrpc":"2.0","id":8,"method":"$/x","result":1}', refusal(-32601, "8")),
                ('{"jsonrpc":"2.0","id":8,"method":null,"result":1}', refusal(-32600, "8")),
                ('{"jsonrpc":"2.0","id":8,"Result":1}', refusal(-32600, "8")),
            ]
        )
        self.check(['{"result":1}', INITIALIZE, SHUTDOWN, '{"error":1}', EXIT], [INITIALIZED, SHUT], 0)

    def test_unknown_methods(self):
        self.check_each(
            [(request(5, method), refusal(-32601, "5")) for method in ("$/x", "", "Shutdown", "shutdown ", "exit", "textDocument/didOpen")]
            + [(notification(method, "{}"), None) for method in ("$/x", "", "initialized", "Exit", "shutdown", "textDocument/diagnostic")]
            + [(notification("$/cancelRequest", params), None) for params in ('{"id":2}', "7", "null")]
        )

    def test_a_cancelled_request_is_answered(self):
        self.check_running([notification("$/cancelRequest", '{"id":2}'), OPEN, ASK, notification("$/cancelRequest", '{"id":2}')], [REPORT])

    def test_of_equal_keys_the_last_counts(self):
        self.check_each(
            [
                ('{"jsonrpc":"2.0","id":4,"id":"b","method":"$/x"}', refusal(-32601, '"b"')),
                ('{"jsonrpc":"2.0","id":4,"id":null,"method":"$/x"}', refusal(-32600)),
                ('{"jsonrpc":"2.0","id":4,"\\u0069d":5,"method":"$/x"}', refusal(-32601, "5")),
                ('{"jsonrpc":"1.0","jsonrpc":"2.0","id":4,"method":"$/x"}', refusal(-32601, "4")),
                ('{"jsonrpc":"2.0","id":4,"method":"initialize","method":"$/x"}', refusal(-32601, "4")),
                ('{"jsonrpc":"2.0","method":"exit","method":"$/x"}', None),
            ]
        )
        both = '{"textDocument":{"uri":7},"textDocument":{"uri":"file:///w/none.proto","uri":"file:///w/a.proto"}}'
        self.check_running([OPEN, request(2, "textDocument/diagnostic", both)], [REPORT])

    def test_space_and_order_of_keys_do_not_count(self):
        ask = (
            ' \t\r\n{ "params" : {"textDocument":{"x":[1.5,{}],"uri":"file:\\u002f\\/\\/w\\/a.proto"}},\n'
            '"method":"textDocument\\/diagnostic","id":2,"jsonrpc":"2.0" } '
        )
        self.check_running([OPEN, ask], [REPORT])



def opened_files(files):
    """Opens files, each given by its path below a folder `w` of the root and its text."""
    return [opening(f"file:///w/{path}", text.replace('import "', 'import "w/')) for path, text in files]


def asking_at(id_text, method, uri, line, character, more=""):
    """A request about the name at a position."""
    return request(id_text, method, '{"textDocument":{"uri":"%s"},"position":{"line":%s,"character":%s}%s}' % (uri, line, character, more))


def range_of(start_line, start, end):
    return '{"end":{"character":%d,"line":%d},"start":{"character":%d,"line":%d}}' % (end, start_line, start, start_line)


def places(id_text, *sites):
    """The reply that gives places: a URI, a line, and where the name begins and ends there."""
    listed = ",".join('{"range":%s,"uri":"%s"}' % (range_of(*site[1:]), site[0]) for site in sites)
    return '{"id":%s,"jsonrpc":"2.0","result":[%s]}' % (id_text, listed)


def null(id_text):
    return '{"id":%s,"jsonrpc":"2.0","result":null}' % id_text


def symbol(name, container, kind, site):
    scope = '"containerName":"%s",' % container if container else ""
    return '{%s"kind":%d,"location":{"range":%s,"uri":"%s"},"name":"%s"}' % (scope, kind, range_of(*site[1:]), site[0], name)


def symbols(id_text, *found):
    return '{"id":%s,"jsonrpc":"2.0","result":[%s]}' % (id_text, ",".join(found))


P, Q = "file:///w/p.proto", "file:///w/q.proto"
OUTER = [
    ("p.proto", PROTO3 + "package p;\nmessage Outer { message Inner { } }\nmessage Other { Outer.Inner a = 1; }\n"),
    ("q.proto", PROTO3 + 'import "p.proto";\nmessage Q { .p.Outer.Inner b = 1; p.Outer c = 2; }\n'),
]
WITH_DECLARATION = ',"context":{"includeDeclaration":true}'


class Names(ServeTest):
    DEFINITION, REFERENCES = "textDocument/definition", "textDocument/references"

    def test_references_with_the_declaration_and_without(self):
        uses = [(P, 3, 16, 21), (Q, 2, 15, 20), (Q, 2, 36, 41)]
        self.check_running(
            [
                *opened_files(OUTER),
                asking_at(2, self.REFERENCES, P, 2, 8, WITH_DECLARATION),
                asking_at(3, self.REFERENCES, P, 2, 8, ',"context":{"includeDeclaration":false}'),
                asking_at(4, self.REFERENCES, P, 2, 8, ',"context":{}'),
                asking_at(5, self.REFERENCES, P, 2, 8),
                asking_at(6, self.REFERENCES, P, 2, 24),
                asking_at(7, self.REFERENCES, P, 3, 10),
            ],
            [
                places(2, (P, 2, 8, 13), *uses),
                *(places(it, *uses) for it in (3, 4, 5)),
                places(6, (P, 3, 22, 27), (Q, 2, 21, 26)),
                places(7),
            ],
        )

    def test_definitions(self):
        self.check_running(
            [
                *opened_files(OUTER),
                asking_at(2, self.DEFINITION, P, 3, 24),
                asking_at(3, self.DEFINITION, Q, 2, 13),
                asking_at(4, self.DEFINITION, Q, 2, 16),
                asking_at(5, self.DEFINITION, P, 1, 8),
                asking_at(6, self.DEFINITION, P, 2, 15),
            ],
            [places(2, (P, 2, 24, 29)), null(3), places(4, (P, 2, 8, 13)), null(5), null(6)],
        )

    def test_symbols(self):
        outer, inner = (P, 2, 8, 13), (P, 2, 24, 29)
        self.check_running(
            [
                request(2, "workspace/symbol", '{"query":""}'),
                *opened_files(OUTER),
                request(3, "workspace/symbol", '{"query":"OUTER"}'),
                request(4, "workspace/symbol", '{"query":"outer.i","limit":1}'),
                request(5, "workspace/symbol", '{"query":"\\u0000"}'),
                request(6, "workspace/symbol", '{"query":"é"}'),
                request(7, "workspace/symbol", '{"query":"q"}'),
            ],
            [
                symbols(2),
                symbols(3, symbol("Outer", "p", 23, outer), symbol("Inner", "p.Outer", 23, inner)),
                symbols(4, symbol("Inner", "p.Outer", 23, inner)),
                symbols(5),
                symbols(6),
                symbols(7, symbol("Q", "", 23, (Q, 2, 8, 9)), symbol("b", "Q", 8, (Q, 2, 27, 28)), symbol("c", "Q", 8, (Q, 2, 42, 43))),
            ],
        )

    def test_each_kind_of_symbol(self):
        text = PROTO3 + "message M { oneof o { M m = 1; } }\nenum E { Z = 0; }\nservice S { rpc Do(M) returns (M); }\nextend M { E x = 3; }\n"
        self.check_running(
            [opening(A, text), request(2, "workspace/symbol", '{"query":""}')],
            [
                symbols(
                    2,
                    symbol("M", "", 23, (A, 1, 8, 9)),
                    symbol("o", "M", 7, (A, 1, 18, 19)),
                    symbol("m", "M", 8, (A, 1, 24, 25)),
                    symbol("E", "", 10, (A, 2, 5, 6)),
                    symbol("Z", "", 22, (A, 2, 9, 10)),
                    symbol("S", "", 11, (A, 3, 8, 9)),
                    symbol("Do", "S", 6, (A, 3, 16, 18)),
                    symbol("x", "", 8, (A, 4, 13, 14)),
                )
            ],
        )

    def test_bad_params(self):
        good = '{"textDocument":{"uri":"%s"},"position":{"line":2,"character":8}%s}'
        each = [
            ("workspace/symbol", None), ("workspace/symbol", "{}"), ("workspace/symbol", '{"query":null}'), ("workspace/symbol", '{"query":1}'), ("workspace/symbol", "[]"),
            (self.DEFINITION, None), (self.DEFINITION, "{}"), (self.DEFINITION, '{"textDocument":{"uri":"%s"}}' % P),
            (self.DEFINITION, '{"position":{"line":2,"character":8}}'), (self.DEFINITION, good % ("not a url", "")), (self.DEFINITION, good % ("file:///w/none.proto", "")),
            (self.DEFINITION, '{"textDocument":{"uri":"%s"},"position":{"line":-1,"character":8}}' % P),
            (self.DEFINITION, '{"textDocument":{"uri":"%s"},"position":{"line":2,"character":8.0}}' % P),
            (self.DEFINITION, '{"textDocument":{"uri":"%s"},"position":{"line":2}}' % P),
            (self.DEFINITION, '{"textDocument":{"uri":"%s"},"position":[2,8]}' % P),
            (self.REFERENCES, "{}"), (self.REFERENCES, good % ("file:///w/none.proto", "")), (self.REFERENCES, good % (P, ',"context":null')),
            (self.REFERENCES, good % (P, ',"context":[]')), (self.REFERENCES, good % (P, ',"context":{"includeDeclaration":null}')),
            (self.REFERENCES, good % (P, ',"context":{"includeDeclaration":1}')),
        ]
        self.check_running(
            [*opened_files(OUTER), *(request(it + 2, method, params) for it, (method, params) in enumerate(each))],
            [refusal(-32602, it + 2) for it in range(len(each))],
        )

    def test_positions_that_are_no_names(self):
        # The last line has a name at its end; a place behind the end of a line is its end, and one inside a character its start.
        text = PROTO3 + "/* \U0001F600 */ message M { }\nmessage N { .M"
        most = 2**64 - 1
        self.check_running(
            [
                opening(A, text),
                asking_at(2, self.DEFINITION, A, 1, 16), asking_at(3, self.DEFINITION, A, 1, 17), asking_at(4, self.DEFINITION, A, 1, 18), asking_at(5, self.DEFINITION, A, 1, 19),
                asking_at(6, self.DEFINITION, A, 1, 4), asking_at(7, self.DEFINITION, A, most, most), asking_at(8, self.DEFINITION, A, 2, most), asking_at(9, self.REFERENCES, A, most, 0),
            ],
            [null(2), places(3, (A, 1, 17, 18)), places(4, (A, 1, 17, 18)), *(null(it) for it in range(5, 10))],
        )

    def test_answers_follow_changes_and_closes(self):
        closing = notification("textDocument/didClose", '{"textDocument":{"uri":"%s"}}' % P)
        change = notification(
            "textDocument/didChange",
            '{"textDocument":{"uri":"%s","version":2},"contentChanges":[{"range":{"start":{"line":2,"character":0},"end":{"line":2,"character":0}},"text":"\\n"}]}' % P,
        )
        ask = asking_at(2, self.DEFINITION, Q, 2, 16)
        self.check_running(
            [*opened_files(OUTER), ask, change, ask, closing, ask, asking_at(3, self.DEFINITION, P, 2, 8)],
            [places(2, (P, 2, 8, 13)), places(2, (P, 3, 8, 13)), null(2), refusal(-32602, 3)],
        )

    def test_documents_outside_the_root(self):
        text = PROTO3 + "message M { M m = 1; }\n"
        uri = "untitled:One"
        self.check_running(
            [opening(uri, text), asking_at(2, self.REFERENCES, uri, 1, 8, WITH_DECLARATION), request(3, "workspace/symbol", '{"query":"m.M"}')],
            [places(2, (uri, 1, 8, 9), (uri, 1, 12, 13)), symbols(3, symbol("m", "M", 8, (uri, 1, 14, 15)))],
        )

    def test_phases(self):
        asks = [asking_at(2, self.DEFINITION, P, 2, 8), asking_at(3, self.REFERENCES, P, 2, 8), request(4, "workspace/symbol", '{"query":""}')]
        self.check([*asks], [refusal(-32002, it) for it in (2, 3, 4)])
        self.check_running([SHUTDOWN, *asks], [SHUT, *(refusal(-32600, it) for it in (2, 3, 4))])

    def test_files_on_disk_count_too(self):
        with tempfile.TemporaryDirectory() as folder:
            for path, text in OUTER:
                with open(os.path.join(folder, path), "w", encoding="utf-8") as it:
                    it.write(text)
            root = "file://" + folder + "/"
            q = root + "q.proto"
            asked = [INITIALIZE, asking_at(2, self.REFERENCES, root + "p.proto", 2, 24), opening(q, OUTER[1][1]), asking_at(3, self.REFERENCES, q, 2, 16, WITH_DECLARATION)]
            out, err, ended = run(frames(asked), ("serve", "--root", folder))
            p = root + "p.proto"
            replies = [INITIALIZED, places(2, (p, 3, 22, 27), (q, 2, 21, 26)), places(3, (p, 2, 8, 13), (p, 3, 16, 21), (q, 2, 15, 20), (q, 2, 36, 41))]
            self.assertEqual(([body.decode() for body in split_frames(out)], err, ended), (replies, b"", 1))


def edits(id_text, new_name, *documents):
    """The reply that gives a name to places: for each URI a line, and where the name begins and ends there, for each of them."""
    listed = ",".join(
        '"%s":[%s]' % (uri, ",".join('{"newText":"%s","range":%s}' % (new_name, range_of(*site)) for site in sites)) for uri, sites in documents
    )
    return '{"id":%s,"jsonrpc":"2.0","result":{"changes":{%s}}}' % (id_text, listed)


def refused(id_text, number):
    """The reply that refuses a rename."""
    return '{"error":{"code":-32803,"message":"rename refused: %s"},"id":%s,"jsonrpc":"2.0"}' % (number, id_text)


def edited(text, changes):
    """A text of single-byte characters with the edits of a document made in it, the last one first."""
    lines = text.split("\n")
    for edit in reversed(changes):
        start, end = edit["range"]["start"], edit["range"]["end"]
        assert start["line"] == end["line"]
        line = lines[start["line"]]
        lines[start["line"]] = line[: start["character"]] + edit["newText"] + line[end["character"] :]
    return "\n".join(lines)


class Renames(ServeTest):
    RENAME = "textDocument/rename"
    SITES = [(2, 8, 13), (3, 16, 21)], [(2, 15, 20), (2, 36, 41)]

    def renaming(self, id_text, uri, line, character, new_name):
        return asking_at(id_text, self.RENAME, uri, line, character, ',"newName":"%s"' % new_name)

    def test_edits_and_refusals(self):
        p, q = self.SITES
        self.check_running(
            [
                *opened_files([*OUTER, ("r.proto", PROTO3 + "package p.Zed;\n")]),
                self.renaming(2, P, 2, 8, "Big"),
                self.renaming(3, Q, 2, 38, "Outer"),
                self.renaming(4, P, 2, 8, "message"),
                self.renaming(5, P, 2, 24, "Other"),
                self.renaming(6, P, 2, 8, "Other"),
                self.renaming(7, P, 2, 8, "Zed"),
                self.renaming(8, P, 2, 8, "9x"),
                self.renaming(9, P, 2, 8, ""),
                self.renaming(10, P, 2, 8, "a.b"),
                self.renaming(11, P, 2, 8, "é"),
                self.renaming(12, P, 1, 8, "Big"),
                self.renaming(13, P, 1, 8, "9x"),
                self.renaming(14, P, 2, 15, "Big"),
                self.renaming(15, P, 2, 15, "9x"),
            ],
            [
                edits(2, "Big", (P, p), (Q, q)),
                edits(3, "Outer", (P, p), (Q, q)),
                refused(4, 705),
                edits(5, "Other", (P, [(2, 24, 29), (3, 22, 27)]), (Q, [(2, 21, 26)])),
                refused(6, 704),
                refused(7, 704),
                *(refused(it, 703) for it in range(8, 12)),
                refused(12, 702),
                refused(13, 702),
                refused(14, 701),
                refused(15, 701),
            ],
        )

    def test_bad_params(self):
        good = '{"textDocument":{"uri":"%s"},"position":{"line":2,"character":8}%s}'
        each = ["{}", "[]", good % (P, ""), good % (P, ',"newName":null'), good % (P, ',"newName":1'), good % ("file:///w/none.proto", ',"newName":"Big"'), good % ("not a url", ',"newName":"Big"'), '{"newName":"Big"}']
        self.check_running(
            [*opened_files(OUTER), *(request(it + 2, self.RENAME, params) for it, params in enumerate(each))],
            [refusal(-32602, it + 2) for it in range(len(each))],
        )

    def test_phases(self):
        ask = self.renaming(2, P, 2, 8, "Big")
        self.check([ask], [refusal(-32002, 2)])
        self.check_running([SHUTDOWN, ask], [SHUT, refusal(-32600, 2)])

    def test_files_that_are_not_open_are_edited_too(self):
        with tempfile.TemporaryDirectory() as folder:
            files = [*OUTER, ("r.proto", PROTO3 + "package p.Zed;\n")]
            for path, text in files:
                with open(os.path.join(folder, path), "w", encoding="utf-8") as it:
                    it.write(text)
            root = "file://" + folder + "/"
            p, q = root + "p.proto", root + "q.proto"
            asked = [INITIALIZE, opening(p, OUTER[0][1]), self.renaming(2, p, 2, 8, "Outer"), self.renaming(3, p, 2, 8, "Zed"), self.renaming(4, p, 2, 8, "Big")]
            out, err, ended = run(frames(asked), ("serve", "--root", folder))
            replies = [INITIALIZED, edits(2, "Outer", (p, self.SITES[0]), (q, self.SITES[1])), refused(3, 704), edits(4, "Big", (p, self.SITES[0]), (q, self.SITES[1]))]
            self.assertEqual(([body.decode() for body in split_frames(out)], err, ended), (replies, b"", 1))
            # With the edits made, the tree is as good as before, and the name is found where it was.
            changes = json.loads(replies[3])["result"]["changes"]
            for path, text in OUTER:
                with open(os.path.join(folder, path), "w", encoding="utf-8") as it:
                    it.write(edited(text, changes[root + path]))
            listed = subprocess.run([stream.PROGRAM, "check", "--quiet", "--root", folder], stdout=subprocess.PIPE, stderr=subprocess.PIPE, check=False)
            self.assertEqual((listed.stdout, listed.stderr, listed.returncode), (b"", b"", 0))
            out, err, ended = run(frames([INITIALIZE, request(2, "workspace/symbol", '{"query":"p.big"}'), asking_at(3, "textDocument/references", q, 2, 15)]), ("serve", "--root", folder))
            found = [symbol("Big", "p", 23, (p, 2, 8, 11)), symbol("Inner", "p.Big", 23, (p, 2, 22, 27))]
            uses = [(p, 3, 16, 19), (q, 2, 15, 18), (q, 2, 34, 37)]
            self.assertEqual(([body.decode() for body in split_frames(out)], err, ended), ([INITIALIZED, symbols(2, *found), places(3, *uses)], b"", 1))


class Documents(ServeTest):
    def check_text(self, text, *bad_tokens):
        """The diagnostics of a document with this text."""
        with self.subTest(text=text):
            self.check_running([opening(A, text), asking(2, A)], [report(2, *bad_tokens)])

    def test_a_good_text_has_no_diagnostics(self):
        self.check_text(PROTO3)
        self.check_text(PROTO3 + "// # 08 ' \u00e9\n/* \" /* */ ;\t\v\f\r\n;")
        self.check_text(PROTO3 + "option o = 0 07 0X1f 12 1. .5 1.5e-3 1E+5 08. 0x1e+5 -1;")
        self.check_text(PROTO3 + "option o = 'a\\'\"é#' \"\\\"'\r/*\" {[(<>)]} , . : ;")

    def test_each_kind_of_bad_token(self):
        self.check_text(
            PROTO3 + "# 0x1G 08\n'q\n/* z",
            sign(1), (NUMBER, (1, 2), (1, 6)), (NUMBER, (1, 7), (1, 9)), (STRING, (2, 0), (2, 2)), (COMMENT, (3, 0), (3, 4)),
        )
        self.check_text(PROTO3 + "$\\\x00\x7f@", *(sign(1, n) for n in range(5)))
        self.check_text(PROTO3 + "1.2.3 5a 0x 1e+ 0_1", *((NUMBER, (1, a), (1, b)) for a, b in ((0, 5), (6, 8), (9, 11), (12, 15), (16, 19))))

    def test_a_number_takes_a_sign_behind_its_exponent_alone(self):
        self.check_text(PROTO3 + "1.e+;1e+5x", (NUMBER, (1, 0), (1, 4)), (NUMBER, (1, 5), (1, 10)))
        self.check_text(PROTO3 + "option o = 0xGe+;\noption p = 1a+;", (NUMBER, (1, 11), (1, 15)), (NUMBER, (2, 11), (2, 13)))

    def test_unfinished_strings(self):
        self.check_text(PROTO3 + "\"a\\\"b\n'c\\", (STRING, (1, 0), (1, 5)), (STRING, (2, 0), (2, 3)))
        # A backslash takes no line feed with it.
        self.check_text(PROTO3 + '"a\\\n#', (STRING, (1, 0), (1, 3)), sign(2))

    def test_an_unfinished_comment_reaches_to_the_end(self):
        self.check_text(PROTO3 + "/* a\r\nb\n", (COMMENT, (1, 0), (3, 0)))
        self.check_text(PROTO3 + "/*/", (COMMENT, (1, 0), (1, 3)))

    def test_characters_are_utf_16_units(self):
        self.check_text(PROTO3 + "/* é😀 */ #\n", sign(1, 10))
        self.check_text(PROTO3 + "é😀;\u2028#", sign(1, 0), (CHARACTER, (1, 1), (1, 3)), sign(1, 4), sign(1, 5))
        self.check_text(PROTO3 + "'é😀\n", (STRING, (1, 0), (1, 4)))
        self.check_text(PROTO3 + "/*😀\n😀", (COMMENT, (1, 0), (2, 2)))

    def test_lines_end_at_lf_cr_lf_and_cr(self):
        self.check_text('syntax = "proto3";\r\n#\r\n#\r#\n\r#\n\n#', sign(1), sign(2), sign(3), sign(5), sign(7))
        # A line comment goes on behind a lone CR, and so does a string.
        self.check_text(PROTO3 + "// a\r#\n#", sign(3))
        self.check_text(PROTO3 + "'a\rb\n", (STRING, (1, 0), (2, 1)))
        # The place between CR and LF is the end of the line.
        self.check_text(PROTO3 + "'a\r\n#", (STRING, (1, 0), (1, 2)), sign(2))

    def test_a_byte_order_mark_is_skipped_at_the_start_alone(self):
        self.check_text("\ufeff" + PROTO3 + "#", sign(1))
        self.check_text("\ufeff# " + PROTO3, sign(0, 1))
        self.check_text("\ufeff\ufeff" + PROTO3, sign(0, 1))

    def test_many_diagnostics(self):
        for count in (1, 9, 10, 300):
            self.check_text(PROTO3 + "#" * count, *(sign(1, n) for n in range(count)))

    def test_a_text_as_raw_utf_8_and_as_escapes(self):
        for text in ('"syntax = \\"proto3\\";\\n/* \\u00e9\\uD83D\\uDE00 */ \\u0023"', '"syntax = \\u0022proto3\\u0022;\\u000a/* é😀 */ #"'):
            body = notification("textDocument/didOpen", f'{{"textDocument":{{"uri":"{A}","version":1,"text":{text}}}}}')
            with self.subTest(text=text):
                self.check_running([body, asking(2, A)], [report(2, sign(1, 10))])

    def test_a_second_open_replaces_the_first(self):
        self.check_running([OPEN, asking(4, A), opening(A, PROTO3 + "\n#", 1), asking(5, A)], [report(4, sign(1)), report(5, sign(2))])

    def test_two_documents_stand_side_by_side(self):
        bodies = [OPEN, opening(B, PROTO3 + " #"), asking(4, A), asking(5, B), opening(A, PROTO3), asking(6, B), asking(7, A)]
        self.check_running(bodies, [report(4, sign(1)), report(5, sign(1, 1)), report(6, sign(1, 1)), report(7)])

    def test_many_documents(self):
        numbers = range(500)
        bodies = [opening(f"file:///w/{n}.proto", PROTO3 + " " * n + "#") for n in numbers]
        bodies += [asking(n, f"file:///w/{n}.proto") for n in reversed(numbers)]
        self.check_running(bodies, [report(n, sign(1, n)) for n in reversed(numbers)])

    def test_a_document_that_is_not_open(self):
        others = {"4": B, "5": A + "x", "6": "file:///w/A.proto", '"s"': "file:///w/"}
        bodies = [ASK, OPEN, *(asking(id_text, uri) for id_text, uri in others.items())]
        self.check_running(bodies, [refusal(-32602, "2"), *(refusal(-32602, id_text) for id_text in others)])

    def test_bad_params_of_a_request(self):
        bad = [None, "null", "[]", "7", '"x"', "{}", '{"textDocument":null}', '{"textDocument":[]}', '{"textDocument":"file:///w/a.proto"}',
               '{"textDocument":{}}', '{"textDocument":{"uri":7}}', '{"textDocument":{"uri":null}}', '{"uri":"file:///w/a.proto"}']
        for params in bad:
            with self.subTest(params=params):
                self.check_running([OPEN, request(4, "textDocument/diagnostic", params), ASK], [refusal(-32602, "4"), REPORT])

    def test_versions_of_an_open(self):
        def opened(version):
            document = f'{{"uri":"{A}","version":{version},"text":"syntax = \\"proto3\\";"}}'
            return notification("textDocument/didOpen", f'{{"textDocument":{document}}}')

        for version in ("0", "-1", "9223372036854775807", "-9223372036854775808"):
            with self.subTest(version=version):
                self.check_running([OPEN, opened(version), ASK], [report(2)])
        for version in ("9223372036854775808", "-9223372036854775809", "1.0", "1e2", "-0", "null", '"1"', "true", "[1]"):
            with self.subTest(version=version):
                self.check_running([OPEN, opened(version), ASK], [REPORT])
                self.check_running([opened(version), ASK], [refusal(-32602, "2")])

    def test_an_open_with_bad_params_is_dropped_whole(self):
        bad = [None, "null", "[]", "{}", '{"textDocument":null}', f'{{"uri":"{A}","version":2,"text":""}}']
        members = {"uri": f'"{A}"', "version": "2", "text": '""'}
        for name in members:
            for value in (None, "null", "7.5", "{}", '["x"]'):
                changed = {**members, name: value}
                given = ",".join(f'"{key}":{text}' for key, text in changed.items() if text is not None)
                bad.append(f'{{"textDocument":{{{given}}}}}')
        for params in bad:
            with self.subTest(params=params):
                self.check_running([OPEN, notification("textDocument/didOpen", params), ASK], [REPORT])

    def test_other_members_do_not_count(self):
        params = f'{{"x":1,"textDocument":{{"text":"syntax = \\"proto3\\";\\n#\\n","languageId":7,"version":1,"y":null,"uri":"{A}"}}}}'
        self.check_running([notification("textDocument/didOpen", params), ASK], [REPORT])

    def test_an_open_as_a_request_opens_nothing(self):
        params = json.loads(OPEN)["params"]
        self.check_running([request(4, "textDocument/didOpen", json.dumps(params)), ASK], [refusal(-32601, "4"), refusal(-32602, "2")])


class LiveDialogues(ServeTest):
    def check_reply(self, server, reply):
        self.assertEqual(server.receive().decode(), reply)

    def test_each_reply_comes_before_the_next_message(self):
        with Server() as server:
            server.send(INITIALIZE)
            self.check_reply(server, INITIALIZED)
            for number in range(10, 30):
                server.send(OPEN)
                server.send(asking(number, A))
                self.check_reply(server, report(number, sign(1)))
                server.send(asking(number, B))
                self.check_reply(server, refusal(-32602, number))
                server.send("{")
                self.check_reply(server, refusal(-32700))
            server.send(SHUTDOWN)
            self.check_reply(server, SHUT)
            server.send(EXIT)
            self.assertEqual(server.wait(), 0)
            self.assertEqual(server.close(), (b"", b"", 0))

    def test_frames_that_come_byte_by_byte(self):
        with Server() as server:
            for body, reply in [(INITIALIZE, INITIALIZED), (OPEN, None), (ASK, REPORT), (SHUTDOWN, SHUT), (EXIT, None)]:
                data = frame(body)
                for sent in range(len(data) - 1):
                    server.send_bytes(data[sent : sent + 1])
                self.assertTrue(server.is_silent(0.05), "a reply to a frame that isn't whole")
                server.send_bytes(data[-1:])
                if reply:
                    self.check_reply(server, reply)
            self.assertEqual(server.wait(), 0)
            self.assertEqual(server.close(), (b"", b"", 0))

    def test_frames_that_come_in_one_write(self):
        with Server() as server:
            server.send_bytes(frames([INITIALIZE, OPEN, ASK]) + frame(SHUTDOWN)[:30])
            self.check_reply(server, INITIALIZED)
            self.check_reply(server, REPORT)
            server.send_bytes(frame(SHUTDOWN)[30:])
            self.check_reply(server, SHUT)
            self.assertEqual(server.close(), (b"", b"", 1))

    def test_an_exit_or_a_fault_ends_it_while_the_input_is_open(self):
        ends = [
            (frame(EXIT), b"", 1),
            (b"none\r\n\r\n", b"protols: fault 101\n", 3),
            (b"Content-Length: 67108865\r\n\r\n", b"protols: fault 104\n", 3),
            (b"a" * 8192, b"protols: fault 105\n", 3),
        ]
        for data, told, status in ends:
            with self.subTest(told=told), Server() as server:
                server.send(INITIALIZE)
                self.check_reply(server, INITIALIZED)
                server.send_bytes(data)
                self.assertEqual(server.wait(), status)
                self.assertEqual(server.close(), (b"", told, status))


class HostileStreams(ServeTest):
    def test_every_front_of_the_first_session(self):
        # The ends of the frames that come in, and what is written by then.
        ends = {0: 0, 130: 395, 324: 395, 460: 626, 526: 686, 581: 686}
        near = {end + step for end in ends for step in (-3, -2, -1, 0, 1, 2, 3) if 0 <= end + step <= 581}
        for length in sorted(near | set(range(0, 581, 17))):
            written = ends[max(end for end in ends if end <= length)]
            status = 0 if length == 581 else 1 if length in ends else 3
            with self.subTest(length=length):
                self.check_bytes(FIRST_INPUT[:length], FIRST_OUTPUT[:written], status, 106 if status == 3 else None)

    def check_survives(self, data, statuses):
        """The program ends by itself: only whole frames are written, and a fault is named where there is one."""
        with self.subTest(data=data):
            out, err, status = run(data)
            self.assertIn(status, statuses)
            self.assertRegex(err, rb"\Aprotols: fault 10[1-6]\n\Z" if status == 3 else rb"\A\Z")
            for body in split_frames(out):
                self.assertEqual(json.loads(body)["jsonrpc"], "2.0")

    def test_random_bytes(self):
        dice = random.Random(20261122)
        for _ in range(200):
            data = dice.randbytes(dice.randrange(2001))
            # A third of the streams are such bytes as bodies.
            self.check_survives(frame(data) if dice.randrange(3) == 0 else data, (1, 3))

    def test_the_first_session_with_a_few_bytes_changed(self):
        dice = random.Random(581)
        for _ in range(200):
            data = bytearray(FIRST_INPUT)
            for _ in range(dice.randint(1, 4)):
                data[dice.randrange(len(data))] = dice.choice(b'\r\n\x00\xff{}[]":,01a ')
            self.check_survives(bytes(data), (0, 1, 3))


class Devices(ServeTest):
    def check_devices(self, given, told, status, **devices):
        """The program runs with these bytes or this descriptor as its input, and with these descriptors."""
        source = {"input": given} if isinstance(given, bytes) else {"stdin": given}
        pipes = {"stdout": subprocess.PIPE, "stderr": subprocess.PIPE, **devices}
        done = subprocess.run(stream.command(), timeout=stream.LIMIT, **source, **pipes)
        self.assertEqual((done.stderr, done.returncode), (told, status))

    def test_an_output_that_nobody_reads_is_802(self):
        with nobody_reads() as output:
            self.check_devices(FIRST_INPUT, b"protols: fault 802\n", 3, stdout=output)

    def test_an_output_that_is_full_is_802(self):
        with open("/dev/full", "wb") as full:
            self.check_devices(FIRST_INPUT, b"protols: fault 802\n", 3, stdout=full)

    def test_an_output_that_closes_between_replies_is_802(self):
        with Server() as server:
            server.send(INITIALIZE)
            self.assertEqual(server.receive().decode(), INITIALIZED)
            server.process.stdout.close()
            server.send(SHUTDOWN)
            self.assertEqual(server.wait(), 3)
            self.assertEqual(server.process.stderr.read(), b"protols: fault 802\n")

    def test_without_a_reply_an_unwritable_output_is_no_fault(self):
        with nobody_reads() as output:
            self.check_devices(frame(EXIT), b"", 1, stdout=output)

    def test_a_standard_error_that_nobody_reads_changes_no_status(self):
        with nobody_reads() as output:
            self.check_devices(b"none\r\n\r\n", None, 3, stderr=output)
            self.check_devices(FIRST_INPUT, None, 0, stderr=output)

    def test_an_input_that_cannot_be_read_is_801(self):
        with tempfile.TemporaryDirectory() as folder:
            descriptor = os.open(folder, os.O_RDONLY)
            try:
                self.check_devices(descriptor, b"protols: fault 801\n", 3)
            finally:
                os.close(descriptor)


class CommandLine(ServeTest):
    def test_words_that_are_refused(self):
        for words in ([], [""], ["unknown"], ["Serve"], ["serve", "extra"], ["serve", "--unknown"], [b"\xff"], ["serve", b"\xff"]):
            with self.subTest(words=words):
                out, err, status = run(FIRST_INPUT, words)
                self.assertEqual((out, status), (b"", 2))
                self.assertIn(b"protols serve", err)

    def test_words_are_refused_where_nobody_reads_why(self):
        with nobody_reads() as output:
            done = subprocess.run(stream.command([]), stdin=subprocess.DEVNULL, stderr=output, timeout=stream.LIMIT)
            self.assertEqual(done.returncode, 2)

    def test_help_goes_to_standard_output(self):
        out, err, status = run(b"", ["--help"])
        self.assertEqual((err, status), (b"", 0))
        self.assertIn(b"serve", out)


if __name__ == "__main__":
    unittest.main()
