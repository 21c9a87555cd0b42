"""End-to-end tests of `protols check` and `protols serve` on what somebody made to be slow, deep or long: of what is reported, not of the time."""
import concurrent.futures
import json
import os
import unittest

import hostile
import stream
from test_folder import FolderTest, fixed
from test_serve import A, ASK, EXIT, INITIALIZE, INITIALIZED, PROTO3, SHUT, SHUTDOWN, notification, opening, place, report, request, sign

N = 12

# The numbers of workers that the sessions and checks of every length are run with.
FEW_OR_MORE = (1, 4)


def of_lines(first, count, column, said, path="a.proto"):
    """The same diagnostic at one column of so many lines."""
    return [f"{path}:{line}:{column}: {said}" for line in range(first, first + count)]


UNRESOLVED = "401 unresolved name"
CYCLE = "404 import cycle"

# Trees, and the lines of a check of each.
CASES = {
    "undeclared names": (hostile.undeclared(N), of_lines(4, N, 1, UNRESOLVED)),
    # Those inside Q are declared in lines 4 on, and M's fields follow two lines after them.
    "names declared elsewhere": (hostile.declared_elsewhere(N), of_lines(N + 6, N, 1, UNRESOLVED)),
    "names of components": (hostile.of_components(N), of_lines(4, N, 1, UNRESOLVED)),
    "one component": (hostile.one_component(N), of_lines(4, 200, 1, UNRESOLVED)),
    "all import all": (hostile.all_of_all(N), [line for k in range(N) for line in of_lines(3, N, 15, CYCLE, f"f{k:05}.proto")]),
    "a ring": (hostile.ring(N), [line for k in range(N) for line in of_lines(3, 1, 15, CYCLE, f"f{k:05}.proto")]),
    "a chain": (hostile.chain(N), []),
    "a hub": (hostile.hub(N), of_lines(3, N, 15, CYCLE, "f00000.proto") + [line for k in range(1, N + 1) for line in of_lines(3, 1, 15, CYCLE, f"f{k:05}.proto")]),
    "long names": (hostile.long_names(N), []),
    "equal names": (hostile.equal_names(N), of_lines(3, N - 1, 9, "312 name declared twice")),
    "overlaps": (hostile.overlaps(N), of_lines(4, N - 1, 10, "306 reserved twice")),
    "semicolons": (hostile.repeated(";", 100), []),
    "closing braces": (hostile.repeated("}", len(hostile.HEAD) + N), [f"a.proto:2:{column}: 202 statement not understood" for column in range(1, N + 1)]),
    "messages": (hostile.repeated("message A{}", len(hostile.HEAD) + 11 * N), [f"a.proto:2:{11 * k + 9}: 312 name declared twice" for k in range(1, N)]),
    "small files": (hostile.small_files(N), []),
    "files that import many": (hostile.importing(N, 5), []),
    "files that import all before them": (hostile.all_before(N), []),
    "messages in messages": (hostile.nested_in_long_package(N), []),
    "names in many scopes": (hostile.in_many_scopes(N), of_lines(4, N, 1, UNRESOLVED)),
    "uses": (hostile.uses(2, N), []),
}


def in_parallel(expect, cases):
    """Calls it for each case, several at a time, and fails where one of the calls does."""
    with concurrent.futures.ThreadPoolExecutor(os.cpu_count()) as pool:
        for _ in pool.map(expect, cases):
            pass


class Hostile(FolderTest):
    def test_lines(self):
        for name, (files, lines) in CASES.items():
            with self.subTest(name):
                self.setUp()
                for path, text in files.items():
                    self.put(path, text)
                out, err, status = stream.check_with_each(("--root", self.root))
                self.assertEqual(out.decode().splitlines(), lines)
                self.assertEqual((fixed(err), status), (b"", 1 if lines else 0))

    def test_many_documents_opened_one_after_the_other(self):
        with stream.Server(["serve", "--root", str(self.root)]) as server:

            def ask(**body):
                server.send(json.dumps({"jsonrpc": "2.0", **body}))
                return json.loads(server.receive())

            ask(id=1, method="initialize", params={**stream.PULLING, "rootUri": f"file://{self.root}"})
            for n in range(N):
                uri = f"file://{self.root}/f{n}.proto"
                text = f'{hostile.HEAD}import "f{n - 1}.proto";\nmessage M{n} {{ M{n - 1} m = 1; }}\n' if n else f"{hostile.HEAD}message M0 {{ }}\n"
                opened = {"textDocument": {"uri": uri, "languageId": "proto", "version": 1, "text": text}}
                server.send(json.dumps({"jsonrpc": "2.0", "method": "textDocument/didOpen", "params": opened}))
                reply = ask(id=n + 2, method="textDocument/diagnostic", params={"textDocument": {"uri": uri}})
                self.assertEqual(reply["result"]["items"], [])


class EveryLength(FolderTest):
    def expect_session(self, case):
        """A session about a document of so many bad signs tells of each of them."""
        workers, signs = case
        sent = stream.frames([INITIALIZE, opening(A, PROTO3 + "#" * signs + "\n"), ASK, SHUTDOWN, EXIT])
        replies = stream.frames([INITIALIZED, report("2", *(sign(1, number) for number in range(signs))), SHUT])
        self.assertEqual(stream.run(sent, ("serve", "--workers", str(workers))), (replies, b"", 0), f"{signs} signs, {workers} workers")

    def expect_check(self, case):
        """A check of a chain of so many files tells of each name that a file doesn't see: that of the last one, where it isn't imported."""
        workers, files = case
        folder = self.root / f"{workers} {files}"
        folder.mkdir()
        for number in range(1, files + 1):
            text = f"message M{files} {{ M{files} a = 1; }}\n"
            if number < files:
                text = f'import "f{number + 1}.proto";\nmessage M{number} {{ M{number + 1} a = 1; M{files} b = 2; }}\n'
            (folder / f"f{number}.proto").write_text(PROTO3 + text)
        names = sorted((f"f{number}.proto", number) for number in range(1, files - 1))
        lines = "".join(f"{name}:3:{22 + len(str(number)) + len(str(number + 1))}: {UNRESOLVED}\n" for name, number in names)
        self.assertEqual(stream.check(("--workers", workers, "--root", folder)), (lines.encode(), b"", 1 if lines else 0), f"{files} files, {workers} workers")

    def test_sessions_about_0_to_300_signs(self):
        in_parallel(self.expect_session, [(workers, signs) for workers in FEW_OR_MORE for signs in range(301)])

    def test_checks_of_1_to_200_files(self):
        in_parallel(self.expect_check, [(workers, files) for workers in FEW_OR_MORE for files in range(1, 201)])


class Deep(unittest.TestCase):
    def expect(self, replies, *bodies):
        sent = stream.frames([INITIALIZE, *bodies, SHUTDOWN, EXIT])
        for workers in FEW_OR_MORE:
            with self.subTest(workers=workers):
                self.assertEqual(stream.run(sent, ("serve", "--workers", str(workers))), (stream.frames([INITIALIZED, *replies, SHUT]), b"", 0))

    def test_a_hundred_thousand_braces(self):
        self.expect([report("2")], opening(A, hostile.deep_option(100_000)), ASK)

    def test_a_hundred_thousand_messages_in_one_another(self):
        too_deep = f'{{"code":203,"message":"blocks nested too deep","range":{{"end":{place(1, 1_099_936)},"start":{place(1, 640)}}},"severity":1,"source":"protols"}}'
        reply = f'{{"id":2,"jsonrpc":"2.0","result":{{"items":[{too_deep}],"kind":"full"}}}}'
        self.expect([reply], opening(A, hostile.deep_messages(100_000)), ASK)

    def test_a_definition_at_the_last_position(self):
        last = '{"line":18446744073709551615,"character":18446744073709551615}'
        asked = request("2", "textDocument/definition", f'{{"textDocument":{{"uri":"{A}"}},"position":{last}}}')
        self.expect(['{"id":2,"jsonrpc":"2.0","result":null}'], opening(A, PROTO3), asked)

    def test_json_of_127_and_of_128_brackets(self):
        errors = [f'{{"error":{{"code":{code},"message":"{said}"}},"id":null,"jsonrpc":"2.0"}}' for code, said in ((-32600, "invalid request"), (-32700, "parse error"))]
        self.expect(errors, "[" * 127 + "]" * 127, "[" * 128 + "]" * 128)


if __name__ == "__main__":
    unittest.main()
