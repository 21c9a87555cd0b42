"""A thousand random lists of messages and of results, which are forged, doubled, late, failed or never brought.

What a core replies to a list is a prefix of what the built program writes for the messages alone, and all of it if all work is done in the end, or if the right
result of each text is brought once in the order of the stamps. The stamps and the current texts are worked out here, from the messages.
"""
import collections
import concurrent.futures
import contextlib
import itertools
import json
import os
import pathlib
import random
import subprocess
import tempfile
import unittest

import stream
from case_lines import SYNTAX, case_program, plain
from test_encodings import at, changing, choosing, notification, opening, request

SEED, LISTS, ENOUGH = 7, 1000, 100
ROOT = "file:///w/"
PATHS = ("a.proto", "b.proto", "c.proto")
# The files on disk, of each list one of these.
DISKS = ({}, {"b.proto": "S|message B { }|"}, {"a.proto": "S|#|", "c.proto": 'S|import "b.proto";|message C { B b = 1; }|'})
# The texts of documents. Each has other names or diagnostics than the others.
TEXTS = (
    "S|",
    "S|#|",
    "S|message A { }|",
    "S|message B { }|message A { B b = 1; }|",
    'S|import "b.proto";|message C { B b = 1; A a = 2; }|',
    'S|import public "a.proto";|message B { .A a = 1; }|#|',
)
# Replies to the request `initialize` come first, and to clients of the second kind diagnostics are published.
CLIENTS = (choosing("utf-8"), request(1, "initialize", {"capabilities": {}}))
NAMES = ("A", "B", "New")
KINDS = ("forged", "doubled", "stale", "failed", "never brought")

Version = collections.namedtuple("Version", "stamp path text")


class Session:
    """Messages as an editor sends them, and what they make of the texts: each text that is set, with its stamp, and those that a path has now."""

    def __init__(self, rng, disk):
        self.rng, self.kept, self.open, self.messages = rng, dict(disk), {}, [rng.choice(CLIENTS)]
        self.versions, self.now = [], {}
        for path in sorted(disk):
            self.set(path, disk[path])

    def set(self, path, text):
        self.now[path] = Version(len(self.versions) + 1, path, text)
        self.versions.append(self.now[path])

    def say(self):
        """Adds a message."""
        acts = {self.open_one: 5, self.change_one: 4, self.save_one: 1, self.close_one: 1, self.ask: 6}
        self.messages.append(self.rng.choices(list(acts), acts.values())[0](self.rng.choice(PATHS)))

    def open_one(self, path):
        text = self.rng.choice(TEXTS)
        self.open[path] = text
        self.set(path, text)
        return opening(ROOT + path, plain(text))

    def change_one(self, path):
        """A change of the whole text, or one that adds a line at the end."""
        text, range_of = self.rng.choice(TEXTS), {}
        new = text
        if path in self.open and self.rng.random() < 0.5:
            end = {"line": 1_000, "character": 0}
            range_of, text = {"range": {"start": end, "end": end}}, f"message M{len(self.messages)} {{ }}|"
            new = self.open[path] + text
        if path in self.open:
            self.open[path] = new
            self.set(path, new)
        return changing(ROOT + path, [{**range_of, "text": plain(text)}], len(self.messages))

    def save_one(self, path):
        if path in self.open:
            self.kept[path] = self.open[path]
        return notification("textDocument/didSave", {"textDocument": {"uri": ROOT + path}})

    def close_one(self, path):
        if self.open.pop(path, None) is not None:
            if path in self.kept:
                self.set(path, self.kept[path])
            else:
                del self.now[path]
        return notification("textDocument/didClose", {"textDocument": {"uri": ROOT + path}})

    def ask(self, path):
        number, document = len(self.messages), {"textDocument": {"uri": ROOT + path}}
        place = at(ROOT + path, {"line": self.rng.randrange(4), "character": self.rng.randrange(12)})
        questions = (
            ("textDocument/diagnostic", document),
            ("workspace/diagnostic", {}),
            ("workspace/symbol", {"query": ""}),
            ("textDocument/definition", place),
            ("textDocument/references", {**place, "context": {"includeDeclaration": True}}),
            ("textDocument/rename", {**place, "newName": self.rng.choice(NAMES)}),
        )
        return request(number, *self.rng.choice(questions))


class List:
    """A random list: the fields of its events, its messages, and how it ends: with all work, with each right result once, or with nothing more."""

    def __init__(self, rng):
        self.rng, self.disk = rng, rng.choice(DISKS)
        self.session, self.brought = Session(rng, self.disk), set()
        self.kinds, self.events = [], [self.session.messages[0]]
        for _step in range(rng.randint(4, 24)):
            if rng.random() < 0.5:
                self.session.say()
                self.events.append(self.session.messages[-1])
            elif self.session.versions:
                self.bring()
        self.end = rng.choice(("work", "results", "nothing"))
        if self.end == "work":
            # (what a request waits for comes with one of them, and behind each request other texts may be set)
            self.events += ["work"] * len(self.session.messages)
        if self.end == "results":
            for version in self.session.versions:
                self.made(version, "right")

    def made(self, version, kind):
        self.kinds.append(kind)
        self.events.append(f"made {version.stamp} {version.path} {version.text}")
        if kind == "right":
            self.brought.add(version)

    def bring(self):
        """Adds a result: the right one of a text that was set at some time, mostly of one that its path has now, or another one."""
        session, rng = self.session, self.rng
        current = sorted(session.now.values()) or session.versions
        version = rng.choice(current if rng.random() < 0.8 else session.versions)
        kind = rng.choice(("right", "right", "right", "again", "forged", "failed"))
        if kind == "failed":
            self.kinds.append(kind)
            self.events.append(f"failed {version.stamp} {version.path}")
        elif kind == "forged":
            other = rng.choice([it for it in TEXTS if it != version.text])
            forged = rng.choice((version._replace(text=other), version._replace(path="z.proto"), version._replace(stamp=len(session.versions) + 1)))
            self.made(forged, kind)
        else:
            self.made(rng.choice(sorted(self.brought)) if kind == "again" and self.brought else version, "right")

    def line(self):
        """The list as a line of session_cases."""
        files = [f"{path} {text}" for path, text in sorted(self.disk.items())]
        return " :: ".join(["run", *files, *(f"> {event}" for event in self.events)])

    def seen(self, verdicts):
        """The kinds of results that occur in the list, by what the core said of each, and whether a text of the end never got its own."""
        pairs = list(zip(self.kinds, verdicts, strict=True))
        found = {
            "forged": any(kind == "forged" and verdict == "Foreign" for kind, verdict in pairs),
            "doubled": any(kind == "right" and verdict == "Doubled" for kind, verdict in pairs),
            "stale": any(kind == "right" and verdict == "Stale" for kind, verdict in pairs),
            "failed": ("failed", "Taken") in pairs,
            "never brought": self.end == "nothing" and not set(self.session.now.values()) <= self.brought,
        }
        return [kind for kind, is_there in found.items() if is_there]


class RandomLists(unittest.TestCase):
    maxDiff = None

    def served(self, folders, some):
        """What the program writes for the messages of a list: the bodies of its replies."""
        folder = folders[DISKS.index(some.disk)]
        bodies = [body.replace(ROOT, f"file://{folder}/") for body in some.session.messages]
        out, err, status = stream.run(stream.frames(bodies), ("serve", "--root", folder, "--workers", str(1 + len(bodies) % 3)))
        assert (err, status) == (b"", 1), (err, status, bodies)
        return [body.decode().replace(f"file://{folder}/", ROOT) for body in stream.split_frames(out)]

    def core_answers(self, lists):
        """What session_cases says to the lists: how many messages were processed, the verdicts, and the replies, each behind a space."""
        lines = "".join(f"{some.line()}\n" for some in lists)
        done = subprocess.run([case_program()], input=lines.encode(), capture_output=True, timeout=10 * stream.LIMIT)
        self.assertEqual((done.stderr, done.returncode), (b"", 0))
        for answer in done.stdout.decode().splitlines():
            front, _, replies = answer.partition(":")
            processed, word, *verdicts = front.split(" ")
            self.assertEqual(word, "processed", answer[:200])
            yield int(processed), verdicts, replies

    def check_list(self, some, wanted, found, counts):
        processed, verdicts, replies = found
        whole = "".join(f" {body}" for body in wanted)
        ends = list(itertools.accumulate((len(body) + 1 for body in wanted), initial=0))
        self.assertTrue(whole.startswith(replies))
        self.assertIn(len(replies), ends)
        counts.update(some.seen(verdicts))
        if some.end != "nothing":
            self.assertEqual((replies, processed), (whole, len(some.session.messages)))
        counts["all" if replies == whole else "less"] += 1
        counts[f"answered by {some.end}"] += len(replies) > ends[1]

    def test_a_core_replies_what_the_session_says_or_less(self):
        rng = random.Random(SEED)
        lists = [List(rng) for _number in range(LISTS)]
        counts = collections.Counter()
        with contextlib.ExitStack() as rooms, concurrent.futures.ThreadPoolExecutor(os.cpu_count()) as pool:
            folders = [rooms.enter_context(tempfile.TemporaryDirectory()) for _disk in DISKS]
            for folder, disk in zip(folders, DISKS):
                for path, text in disk.items():
                    pathlib.Path(folder, path).write_text(plain(text))
            served = pool.map(lambda some: self.served(folders, some), lists)
            for number, (some, wanted, found) in enumerate(zip(lists, served, self.core_answers(lists), strict=True)):
                with self.subTest(number=number, line=some.line()):
                    self.check_list(some, wanted, found, counts)
        for kind in (*KINDS, "all", "less", "answered by work", "answered by results", "answered by nothing"):
            self.assertGreaterEqual(counts[kind], ENOUGH, counts)


if __name__ == "__main__":
    unittest.main()
