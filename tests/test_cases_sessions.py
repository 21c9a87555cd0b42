"""Cases of messages, sessions, streams and checks, as data in tests/cases/, on the built program: its replies byte for byte, how it ends, and what goes out
where a device fails."""
import json
import pathlib
import re
import resource
import signal
import socket
import subprocess
import tempfile
import threading
import unittest

import stream
from case_editor import Editor
from case_lines import SYNTAX, cases_of, plain, shown
from stream import frames, split_frames

# The root of the cases, for which each has a folder of its own.
ROOT = "file:///w/"
FIRST = '{"jsonrpc":"2.0","id":"first","method":"initialize","params":{"capabilities":{"textDocument":{"diagnostic":{}}}}}'
LAST = '{"jsonrpc":"2.0","id":"last","method":"$/last"}'
CODES = {"parse error": -32700, "invalid request": -32600, "method not found": -32601, "invalid params": -32602, "server not initialized": -32002}
# A request with an id that is refused for this reason, in a session that isn't begun or that runs.
REFUSED = {
    "parse error": [FIRST, "{"],
    "server not initialized": ['{"jsonrpc":"2.0","id":ID,"method":"$/x"}'],
    "invalid request": [FIRST, '{"id":ID,"method":"$/x"}'],
    "method not found": [FIRST, '{"jsonrpc":"2.0","id":ID,"method":"$/x"}'],
    "invalid params": [FIRST, '{"jsonrpc":"2.0","id":ID,"method":"textDocument/diagnostic"}'],
}
# What a request without params gets in a session that runs.
ANSWERED = {"None": -32601, "Some(Exit)": -32601, "Some(Initialize)": -32600, "Some(DocumentDiagnostic)": -32602, "Some(Shutdown)": None}
# How a run ends, with its status and what it says.
ENDS = {"Exit { after_shutdown: true }": (0, b""), "Exit { after_shutdown: false }": (1, b""), "InputEnd": (1, b""), "true": (1, b""), "false": (0, b"")}
END = re.compile(r"(Exit {.*?}|InputEnd|true|false|BadFrame\((\d+)\)|fault (\d+): [\w ]*):(?: (.*))?$")


def opening(uri, text):
    document = {"uri": uri, "languageId": "proto", "version": 1, "text": text}
    return json.dumps({"jsonrpc": "2.0", "method": "textDocument/didOpen", "params": {"textDocument": document}})


def refusal(reply):
    """The number of a reply's error, or None, and its id as JSON."""
    return reply["error"]["code"] if "error" in reply else None, json.dumps(reply["id"])


def id_of(words):
    """The JSON of an id by its words: `null`, `text` and a text, or a number."""
    return json.dumps(plain(words.removeprefix("text "))) if words.startswith("text ") else words


class CasesTest(unittest.TestCase):
    maxDiff = None

    def check_all(self, name):
        for case in cases_of(name):
            with self.subTest(case.place, call=case.call):
                self.assertEqual(getattr(self, f"say_{case.call.replace(' ', '_')}")(case).rstrip(), case.answer)

    def replies(self, bodies, args=("serve",)):
        """The replies to messages, of which the input ends behind the last."""
        out, err, _ = stream.run(frames(bodies), args)
        self.assertEqual(err, b"")
        return split_frames(out)

    def folder_of(self, files):
        """A folder with these files."""
        folder = tempfile.TemporaryDirectory()
        self.addCleanup(folder.cleanup)
        for path, text in files:
            file = pathlib.Path(folder.name, path)
            file.parent.mkdir(parents=True, exist_ok=True)
            file.write_text(text, encoding="utf-8", newline="")
        return folder.name


class Messages(CasesTest):
    def setUp(self):
        folder = tempfile.TemporaryDirectory()
        self.addCleanup(folder.cleanup)
        self.editor = Editor(folder.name)
        self.addCleanup(self.editor.server.__exit__)

    def test_messages(self):
        self.check_all("messages.txt")
        self.editor.close()

    # ---- what a message is

    def check_replies(self, body, answer):
        """What a session that runs replies to a message that is this, and whether it goes on."""
        replies = [refusal(json.loads(it)) for it in self.replies([FIRST, body, LAST])][1:]
        kind, _, rest = answer.partition(" ")
        found = re.fullmatch(r"(?:Some\()?(?:Number\((-?\d+)\)|Text\((\".*?\")\)|None)\)?( .*)?", rest)
        own = found and (found[1] or found[2] or "null")
        last = [(-32600 if "Shutdown" in answer else -32601, '"last"')]
        if answer == "notification Some(Exit)":
            wanted = []
        elif kind in ("notification", "response"):
            wanted = last
        elif answer == "parse error":
            wanted = [(-32700, "null"), *last]
        else:
            wanted = [(-32600 if kind == "invalid" else ANSWERED[found[3].strip()], own), *last]
        self.assertEqual(replies, wanted)
        if "Some(Initialize)" in answer:
            self.assertEqual([refusal(json.loads(it)) for it in self.replies([body])], [(None, own)])

    def say_message(self, case):
        self.check_replies(case.text().encode(), case.answer)
        return case.answer

    def say_message_of_bytes(self, case):
        self.check_replies(bytes(map(int, case.fields[0].split(" "))), case.answer)
        return case.answer

    # ---- documents

    def tell(self, method, params):
        self.editor.server.send(f'{{"jsonrpc":"2.0","method":"textDocument/{method}","params":{params}}}')

    def reports(self):
        """The reports of all documents."""
        return self.editor.ask("workspace/diagnostic", {"previousResultIds": []})["items"]

    def report_of(self, text):
        """What is wrong in a text, which is opened at the path a.proto and closed again."""
        self.editor.put("a.proto", text)
        [report] = self.reports()
        self.editor.drop_all()
        return report["items"]

    def leave(self):
        self.tell("didClose", json.dumps({"textDocument": {"uri": f"{self.editor.root}a.proto"}}))

    def say_opened(self, case):
        """The length of the body, the URI twice, the version and the text, where what is wrong in the document is what is wrong in that text."""
        body = case.text()
        self.editor.server.send(body.replace(ROOT, self.editor.root))
        [report] = self.reports()
        self.leave()
        uri, text = report["uri"].replace(self.editor.root, ROOT), case.answer.split(" ", 4)[4]
        same = report["items"] == self.report_of(plain(text)) != []
        return f"{len(body.encode())} {uri} {uri} {report['version']} {text if same else 'another text'}"

    def placed(self, params, uri):
        """Params whose document is at the path a.proto."""
        return params.replace(f'"uri":"{uri}"', f'"uri":"{self.editor.root}a.proto"')

    def say_version(self, case):
        self.tell("didOpen", self.placed(case.text(), "a"))
        reports = self.reports()
        self.leave()
        return str(reports[0]["version"]) if reports else "none"

    def say_document(self, case):
        return "none" if self.editor.ask("textDocument/diagnostic", json.loads(case.text())).get("code") == -32602 else "some"

    def say_changes(self, case):
        """Whether an open document is changed: it has another version then, and what is wrong in it is what is wrong in the changed text."""
        text = f"{SYNTAX}# @"
        before = self.report_of(text)
        self.tell("didOpen", json.dumps({"textDocument": {"uri": f"{self.editor.root}a.proto", "version": 1, "text": text}}))
        self.tell("didChange", self.placed(case.text(), "u"))
        [report] = self.reports()
        self.leave()
        if report["version"] == 1:
            self.assertEqual(report["items"], before)
            return "none"
        for change in json.loads(case.text())["contentChanges"]:
            # (the only range of a case is behind the text)
            text = text + change["text"] if "range" in change else change["text"]
        self.assertEqual(report["items"], self.report_of(text))
        return case.answer if str(report["version"]) == case.answer.split(" ")[1] else "another version"

    # ---- replies

    def last_reply(self, bodies):
        body = self.replies(bodies)[-1].decode()
        return f"{len(body.encode())} {shown(body)}"

    def say_error_reply(self, case):
        return self.last_reply([it.replace("ID", id_of(case.fields[0])) for it in REFUSED[case.fields[1]]])

    def say_initialize_reply(self, case):
        return self.last_reply([FIRST.replace('"first"', id_of(case.fields[0]))])

    def say_null_reply(self, case):
        return self.last_reply([FIRST, f'{{"jsonrpc":"2.0","id":{id_of(case.fields[0])},"method":"shutdown"}}'])

    def say_report_reply(self, case):
        """The report of a document with a bad character in its second line for each diagnostic."""
        uri = f"{ROOT}a.proto"
        ask = f'{{"jsonrpc":"2.0","id":{id_of(case.fields[0])},"method":"textDocument/diagnostic","params":{{"textDocument":{{"uri":"{uri}"}}}}}}'
        return self.last_reply([FIRST, opening(uri, SYNTAX + "#" * (len(case.fields) - 1)), ask])


class Sessions(CasesTest):
    def test_sessions(self):
        self.check_all("sessions.txt")

    def say_session(self, case):
        """The replies to messages, over files in the root."""
        folder = self.folder_of(case.files())
        url = f"file://{folder}/"
        replies = self.replies([plain(it).replace(ROOT, url) for it in case.marked("> ")], ("serve", "--root", folder))
        return " ".join(shown(it.decode()).replace(url, ROOT) for it in replies)


class Streams(CasesTest):
    def test_streams(self):
        self.check_all("streams.txt")

    def source(self, data, size, fails):
        """What is read in pieces of this size and then ends or fails, and a thread that sends the pieces, or None if they are sent."""
        if fails:
            # A socket whose other end is closed with bytes that nobody read fails behind its own bytes.
            own, other = socket.socketpair()
            own.send(b"unread")
            other.sendall(data)
            other.close()
            return own, None

        def send():
            with other:
                try:
                    for at in range(0, len(data), size):
                        other.send(data[at : at + size])
                except OSError:
                    # (nobody reads on behind an exit)
                    pass

        own, other = socket.socketpair(socket.AF_UNIX, socket.SOCK_SEQPACKET)
        return own, threading.Thread(target=send)

    def run_within(self, words, room, source, sender=None):
        """A run whose output takes so many bytes and then fails: how it ends, and the bytes. The sender starts once the program runs."""

        def limit():
            signal.signal(signal.SIGXFSZ, signal.SIG_IGN)
            resource.setrlimit(resource.RLIMIT_FSIZE, (room, room))

        with tempfile.TemporaryFile() as output:
            process = subprocess.Popen(stream.command(words), stdin=source, stdout=output, stderr=subprocess.PIPE, preexec_fn=limit)
            if sender:
                sender.start()
            try:
                _, err = process.communicate(timeout=stream.LIMIT)
            finally:
                process.kill()
                process.wait()
            output.seek(0)
            return (process.returncode, err), output.read()

    def check_end(self, told, answer):
        """How a run ended and the bytes that went out are what the answer says."""
        how, bad, fault, sent = END.match(answer).groups()
        number = bad or fault
        self.assertEqual(told, ((3, f"protols: fault {number}\n".encode()) if number else ENDS[how], plain(sent or "").encode()))

    def say_serve(self, case):
        """A session over a stream in pieces of these sizes with each number of workers."""
        _, behind, *sizes = case.fields[0].split(" ")
        for size in sizes:
            for workers in stream.NUMBERS:
                source, sender = self.source(plain(case.fields[2]).encode(), int(size), behind == "fails")
                with source:
                    told = self.run_within(("serve", "--workers", str(workers)), int(case.fields[1]), source, sender)
                if sender:
                    sender.join()
                with self.subTest(case.place, size=size, workers=workers):
                    self.check_end(told, case.answer)
        return case.answer

    def say_check(self, case):
        """A check of files with each number of workers."""
        folder = self.folder_of(case.files()[2:])
        for words in ((), *(("--workers", str(workers)) for workers in stream.NUMBERS)):
            with self.subTest(case.place, words=words):
                self.check_end(self.run_within(("check", "--quiet", "--root", folder, *words), int(case.fields[1]), subprocess.DEVNULL), case.answer)
        return case.answer


if __name__ == "__main__":
    unittest.main()
