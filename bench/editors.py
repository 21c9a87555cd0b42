"""Editors over folders of many files, which the benchmarks time."""
import json
import os
import pathlib
import subprocess
import time

import stream
from trees import ordinary, path

# A line behind the last one of each text.
LAST_LINE = 1_000_000

# A file that all others import and use.
HUB = "hub.proto"
HUB_TEXT = 'syntax = "proto3";\npackage shop;\nmessage Hub { }\n'


def put_tree(folder, size, hub=False):
    """Writes the files of a workspace, on request with one that all others import and use, and gives their paths."""
    paths = [path(n) for n in range(size)]
    for n, place in enumerate(paths):
        file = folder / place
        file.parent.mkdir(parents=True, exist_ok=True)
        file.write_text(ordinary(n) + (f'import "{HUB}";\nmessage UsesHub{n} {{ .shop.Hub hub = 1; }}\n' if hub else ""))
    if hub:
        (folder / HUB).write_text(HUB_TEXT)
    return paths


def cost(command, cwd):
    """The seconds of a run, and the most memory that it took, in megabytes."""
    start = time.perf_counter()
    run = subprocess.Popen(command, cwd=cwd, stdin=subprocess.DEVNULL, stdout=subprocess.DEVNULL, stderr=subprocess.PIPE)
    told = run.stderr.read()
    _, status, usage = os.wait4(run.pid, 0)
    taken = time.perf_counter() - start
    if status != 0:
        raise SystemExit(f"{command[0]} ended with status {os.waitstatus_to_exitcode(status)}: {told[-500:]!r}")
    return taken, usage.ru_maxrss / 1024


class Editor:
    """An editor over a folder: it opens one document, changes it, and asks for its diagnostics, or lets them be published."""

    def __init__(self, holder, place, text, options=(), program=None, client=stream.PULLING):
        self.uri = f"file://{holder}/{place}"
        self.text = text
        self.server = stream.Server(("serve", *options, "--root", str(holder)), program)
        self.ask(json.dumps({"jsonrpc": "2.0", "id": 1, "method": "initialize", "params": client}))

    def __enter__(self):
        return self

    def __exit__(self, *_):
        self.server.close()

    def memory(self):
        """The most memory that the server has taken so far, in megabytes."""
        lines = pathlib.Path(f"/proc/{self.server.process.pid}/status").read_text().splitlines()
        return next(int(line.split()[1]) for line in lines if line.startswith("VmHWM:")) / 1024

    def ask(self, *bodies):
        """The seconds from some messages to the reply to the last one, which tells no fault."""
        start = time.perf_counter()
        self.server.send_bytes(stream.frames(bodies))
        reply = self.server.receive()
        taken = time.perf_counter() - start
        if b'"items":[]' not in reply and b'"capabilities"' not in reply:
            raise SystemExit(f"the reply is {reply[:300]!r}")
        return taken

    def publish(self, documents, *notifications):
        """The seconds from some notifications to the last of these publications, each a URI and a version, which tell no fault."""
        expected = b"".join(
            stream.frame(f'{{"jsonrpc":"2.0","method":"textDocument/publishDiagnostics","params":{{"diagnostics":[],"uri":"{uri}","version":{version}}}}}')
            for uri, version in documents
        )
        start = time.perf_counter()
        self.server.send_bytes(stream.frames(notifications))
        told = self.server.receive_bytes(len(expected))
        taken = time.perf_counter() - start
        if told != expected:
            raise SystemExit(f"it publishes {told[:300]!r}")
        return taken

    def question(self):
        """The request for the diagnostics of the document."""
        return f'{{"jsonrpc":"2.0","id":2,"method":"textDocument/diagnostic","params":{{"textDocument":{{"uri":"{self.uri}"}}}}}}'

    def after(self, *notifications):
        return self.ask(*notifications, self.question())

    def opening(self, uri, text):
        """The notification that a document is opened."""
        text = text.replace('"', '\\"').replace("\n", "\\n")
        return f'{{"jsonrpc":"2.0","method":"textDocument/didOpen","params":{{"textDocument":{{"uri":"{uri}","version":1,"text":"{text}"}}}}}}'

    def closing(self, uri):
        """The notification that a document is closed."""
        return f'{{"jsonrpc":"2.0","method":"textDocument/didClose","params":{{"textDocument":{{"uri":"{uri}"}}}}}}'

    def changing(self, uri, line, text, version=2):
        """The notification that a text is put in front of a line of a document."""
        place = f'{{"line":{line},"character":0}}'
        return f'{{"jsonrpc":"2.0","method":"textDocument/didChange","params":{{"textDocument":{{"uri":"{uri}","version":{version}}},"contentChanges":[{{"range":{{"start":{place},"end":{place}}},"text":"{text}"}}]}}}}'

    def open(self):
        return self.after(self.opening(self.uri, self.text))

    def change(self, line, text):
        return self.after(self.changing(self.uri, line, text))
