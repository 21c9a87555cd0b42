#!/usr/bin/env python3
"""A long session from a seed: opens, changes, saves, closes and requests over the files of a folder, the same with 1 and with 4 workers.

The replies have to be the same bytes for both numbers of workers, and at the end those of a new session on the texts that the files have by then. After
the last tenth of the messages the program may have at most 1.1 times the memory that it had after the first, and as many threads and descriptors.
It prints the memory after each tenth; the status is 1 if something isn't so.

usage: soak.py [--seed N] [--messages N] [--files N]"""
import argparse
import hashlib
import json
import os
import pathlib
import random
import sys
import tempfile
import threading
import time

import stream

WORKERS = (1, 4)
TENTHS = 10

# How much more memory there may be after the last tenth than after the first.
GROWTH = 1.1

# The seconds after which a session that hasn't ended is a failure.
SECONDS = 3_600

# A text that is longer is replaced as a whole by its next change.
LONGEST = 1_500

# What a change may put into a text.
FRAGMENTS = ["", "", "\n", " ", "x", "}", "{", "#", ";", "int32 q = 9;\n", "message Z { }\n", "M1 m = 4;", "/*", "*/", "\"", "é", "package q;\n", "reserved 5;"]

# What a request asks for, and how often among so many.
METHODS = ["textDocument/diagnostic"] * 12 + ["textDocument/definition"] * 4 + ["textDocument/references"] * 2 + ["textDocument/rename", "workspace/symbol"]


def position_of(text, offset):
    """The position of an offset in a text whose characters all are one UTF-16 unit."""
    return {"line": text.count("\n", 0, offset), "character": offset - text.rfind("\n", 0, offset) - 1}


class Client:
    """What an editor does that a seed leads, and the texts that the files have by then: those of open documents, and those on disk."""

    def __init__(self, seed, files, root):
        self.random = random.Random(seed)
        self.paths = [f"d{number % 10}/f{number}.proto" for number in range(files)]
        self.root = root
        # (each fifth file isn't on disk at the start)
        self.kept = {path: self.text(number) for number, path in enumerate(self.paths) if number % 5}
        self.open = {}
        self.requests = 0

    def uri(self, path):
        return f"file://{self.root}/{path}"

    def text(self, number):
        """A file that imports two others, names what they declare, and in one of ten cases has a fault."""
        others = [self.random.randrange(len(self.paths)) for _ in range(2)]
        imports = "".join(f'import "{self.paths[other]}";\n' for other in others)
        fields = "".join(f"  p{other % 7}.M{other} f{place} = {place + 1};\n" for place, other in enumerate(others))
        more = "".join(f"  int32 g{place} = {place + 5};\n" for place in range(self.random.randrange(20)))
        fault = "#\n" if self.random.randrange(10) == 0 else ""
        return f'syntax = "proto3";\npackage p{number % 7};\n{imports}{fault}message M{number} {{\n{fields}{more}}}\n'

    def message(self):
        """The next message."""
        number = self.random.randrange(len(self.paths))
        path = self.paths[number]
        step = self.random.random()
        if step < 0.15:
            return self.request(path)
        if path not in self.open:
            return self.opened(path, self.text(number))
        if step < 0.70:
            return self.changed(path, number)
        if step < 0.80:
            self.kept[path] = self.open[path][0]
            return self.told("didSave", {"textDocument": {"uri": self.uri(path)}})
        if step < 0.82:
            return self.opened(path, self.text(number))
        del self.open[path]
        return self.told("didClose", {"textDocument": {"uri": self.uri(path)}})

    def told(self, method, params):
        return {"jsonrpc": "2.0", "method": f"textDocument/{method}", "params": params}

    def opened(self, path, text):
        self.open[path] = (text, 1)
        return self.told("didOpen", {"textDocument": {"uri": self.uri(path), "languageId": "proto", "version": 1, "text": text}})

    def changed(self, path, number):
        """A change of one or two parts, or of the whole text if that is long."""
        text, version = self.open[path]
        changes = []
        for _ in range(1 + (self.random.randrange(4) == 0)):
            if len(text) > LONGEST:
                text = self.text(number)
                changes.append({"text": text})
                continue
            start = self.random.randrange(len(text) + 1)
            end = min(len(text), start + self.random.choice([0, 0, 1, 1, 2, 30]))
            put = self.random.choice(FRAGMENTS)
            changes.append({"range": {"start": position_of(text, start), "end": position_of(text, end)}, "text": put})
            text = text[:start] + put + text[end:]
        self.open[path] = (text, version + 1)
        return self.told("didChange", {"textDocument": {"uri": self.uri(path), "version": version + 1}, "contentChanges": changes})

    def request(self, path):
        method = self.random.choice(METHODS)
        text = self.open[path][0] if path in self.open else self.kept.get(path, "")
        at = position_of(text, self.random.randrange(len(text) + 1))
        document = {"textDocument": {"uri": self.uri(path)}}
        params = {
            "textDocument/diagnostic": document,
            "textDocument/definition": {**document, "position": at},
            "textDocument/references": {**document, "position": at, "context": {"includeDeclaration": True}},
            "textDocument/rename": {**document, "position": at, "newName": f"New{self.random.randrange(100)}"},
            "workspace/symbol": {"query": f"M{self.random.randrange(len(self.paths))}"},
        }
        return self.asked(method, params[method])

    def asked(self, method, params):
        self.requests += 1
        return {"jsonrpc": "2.0", "id": self.requests, "method": method, "params": params}

    def initialize(self):
        return self.asked("initialize", {"capabilities": {"textDocument": {"diagnostic": {}}}})

    def everything(self):
        """Requests for all that can be known of all files."""
        return [self.asked("workspace/diagnostic", {}), self.asked("workspace/symbol", {"query": ""})]

    def write_kept(self):
        """Makes the folder hold the kept texts, and nothing else."""
        for path in self.paths:
            place = pathlib.Path(self.root, path)
            place.parent.mkdir(exist_ok=True)
            place.unlink(missing_ok=True)
            if path in self.kept:
                place.write_text(self.kept[path])

    def opens(self):
        """Opens of all open documents as they are."""
        return [
            self.told("didOpen", {"textDocument": {"uri": self.uri(path), "languageId": "proto", "version": version, "text": text}})
            for path, (text, version) in self.open.items()
        ]


def framed(messages):
    return stream.frames(json.dumps(it, ensure_ascii=False) for it in messages)


class Session(stream.Server):
    """A running server that is sent many messages at once, and what it has of memory, threads and descriptors."""

    def __enter__(self):
        self.alarm = threading.Timer(SECONDS, self.process.kill)
        self.alarm.daemon = True
        self.alarm.start()
        return super().__enter__()

    def exchange(self, data, replies):
        """Sends these bytes, and gives so many replies."""
        self.send_bytes(data)
        return [self.receive() for _ in range(replies)]

    def __exit__(self, *how):
        self.alarm.cancel()
        super().__exit__(*how)

    def memory(self):
        """The bytes that are resident."""
        status = pathlib.Path(f"/proc/{self.process.pid}/status").read_text()
        return next(int(line.split()[1]) for line in status.splitlines() if line.startswith("VmRSS:")) << 10

    def held(self):
        """How many threads and how many descriptors it has."""
        return len(os.listdir(f"/proc/{self.process.pid}/task")), len(os.listdir(f"/proc/{self.process.pid}/fd"))

    def end(self, number):
        """Ends the session, which has to end well."""
        self.exchange(framed([{"jsonrpc": "2.0", "id": number, "method": "shutdown"}]), 1)
        self.send('{"jsonrpc":"2.0","method":"exit"}')
        if self.wait() != 0:
            raise AssertionError("the session didn't end well")


def digest(bodies):
    total = hashlib.sha256()
    for body in bodies:
        total.update(b"%d " % len(body))
        total.update(body)
    return total.hexdigest()


def exchange_all(sessions, messages):
    """Sends each session these messages: the replies, which have to be the same."""
    data, replies = framed(messages), sum("id" in it for it in messages)
    answers = [None] * len(sessions)

    def one(place):
        answers[place] = sessions[place].exchange(data, replies)

    threads = [threading.Thread(target=one, args=(place,)) for place in range(len(sessions))]
    for it in threads:
        it.start()
    for it in threads:
        it.join()
    if None in answers:
        raise AssertionError("a session ended before its replies came")
    if len({digest(it) for it in answers}) != 1:
        first = next(place for place, bodies in enumerate(zip(*answers)) if len(set(bodies)) > 1)
        raise AssertionError(f"reply {first} of these isn't the same with {WORKERS} workers: {[it[first][:500] for it in answers]}")
    return answers[0]


def soak(seed, count, files, slack=0, show=lambda line: None):
    """Runs the session, and says what was wrong: a list of sentences. The memory may also grow by `slack` bytes, whatever part that is."""
    with tempfile.TemporaryDirectory() as root:
        client = Client(seed, files, root)
        client.write_kept()
        kept_requests = client.requests
        with Session(stream_words(root, WORKERS[0])) as one, Session(stream_words(root, WORKERS[1])) as four:
            sessions = [one, four]
            exchange_all(sessions, [client.initialize(), *client.everything()])
            held, memory = None, []
            for tenth in range(TENTHS):
                began = time.perf_counter()
                messages = [client.message() for _ in range(count // TENTHS)]
                exchange_all(sessions, [*messages, *client.everything()])
                memory.append([it.memory() for it in sessions])
                held = held or [it.held() for it in sessions]
                show(f"tenth {tenth + 1}: {time.perf_counter() - began:6.1f} s, " + ", ".join(f"{it / 1e6:.1f} MB with {number} workers" for it, number in zip(memory[-1], WORKERS)))
            last = exchange_all(sessions, client.everything())
            wrong = [f"{held[place]} threads and descriptors after the first tenth, {it.held()} at the end" for place, it in enumerate(sessions) if it.held() != held[place]]
            for it in sessions:
                it.end(client.requests + 1)
        wrong += [f"{end / first:.2f} times the memory after the last tenth" for first, end in zip(memory[0], memory[-1]) if end > max(GROWTH * first, first + slack)]
        wrong += as_new(client, root, last, kept_requests)
    return wrong


def as_new(client, root, last, requests):
    """What is wrong if the last replies aren't those of a new session."""
    client.write_kept()
    asked = client.requests - 2
    with Session(stream_words(root, WORKERS[1])) as new:
        client.requests = requests
        exchange_all([new], [client.initialize(), *client.opens()])
        client.requests = asked
        same = exchange_all([new], client.everything()) == last
        new.end(client.requests + 1)
    return [] if same else ["the last replies aren't those of a new session"]


def stream_words(root, workers):
    return ["serve", "--root", root, "--workers", str(workers)]


def main(words):
    parser = argparse.ArgumentParser()
    parser.add_argument("--seed", type=int, default=1)
    parser.add_argument("--messages", type=int, default=200_000)
    parser.add_argument("--files", type=int, default=500)
    given = parser.parse_args(words)
    wrong = soak(given.seed, given.messages, given.files, show=lambda line: print(line, flush=True))
    print(*wrong or ["the replies are the same, at the end those of a new session; memory, threads and descriptors stay"], sep="\n")
    return 1 if wrong else 0


if __name__ == "__main__":
    sys.exit(main(sys.argv[1:]))
