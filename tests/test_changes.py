"""What an editor is told after changes of files that others see, and after some come and leave, is what a new session on the same texts tells.

The files are made at random, by a seed that a failure names. The changed files declare, in any order, some of the names for which the others ask,
each as one kind of thing or another, in one package or another; so names come, go, move and change their kinds.
"""
import json
import pathlib
import random
import tempfile
import unittest

import stream

HUB = "hub.proto"
NAMES = ["Order", "Item", "Kind", "Money", "name"]
PACKAGES = ["shop", "shop", "shop", "shop.v1"]
SCOPES = ["", "", "", ".shop.", "shop.", ".shop.v1.", "v1."]
CHANGES = 40

# Documents that come and leave: their places among the files of the folder are the first, the last and others.
GUESTS = [HUB, "apple.proto", "user03a.proto", "zebra.proto"]

# The kinds of declarations of a name.
FORMS = [
    "message {0} {{ }}",
    "message {0} {{ message Item {{ }} int32 name = 1; }}",
    "message {0} {{ enum Kind {{ KIND_OF_{0} = 0; }} Kind kind = 1; }}",
    "enum {0} {{ VALUE_OF_{0} = 0; }}",
    "service {0} {{ }}",
]


def hub_text(rng):
    """A text of the changed file: mostly with few names, at times with more than are told apart."""
    names = [*NAMES, *(f"Far{n}" for n in range(rng.choice([0, 1, 2, 300])))]
    some = rng.sample(names, rng.randint(len(names) // 2, len(names)))
    package = f"package {rng.choice(PACKAGES)};\n" if rng.random() < 0.9 else ""
    return f'syntax = "proto3";\n{package}' + "".join(f"{rng.choice(FORMS).format(name)}\n" for name in some)


def changed_text(rng, text):
    """Another text of the changed file: a new one, or the old one with a line less, twice, moved or renamed."""
    lines = text.splitlines()
    if rng.random() < 0.3 or len(lines) < 4:
        return hub_text(rng)
    at = rng.randrange(2, len(lines))
    line = lines.pop(at)
    what = rng.choice(["gone", "twice", "moved", "renamed", "new"])
    if what == "twice":
        lines[at:at] = [line, line]
    elif what == "moved":
        lines.insert(rng.randrange(2, len(lines) + 1), line)
    elif what == "renamed":
        lines.insert(at, line.replace(rng.choice(NAMES), rng.choice(NAMES)))
    elif what == "new":
        lines[at:at] = [rng.choice(FORMS).format(rng.choice(NAMES)), line]
    return "\n".join(lines) + "\n"


def user_text(rng, number):
    """A file that sees the changed one, by an import or by a public import of another, and uses its names in every way."""
    imports = [HUB] if number % 3 else [HUB, "user00.proto"] if number else [HUB]
    stated = "".join(f'import {"public " if number == 0 else ""}"{it}";\n' for it in rng.sample(imports, rng.randint(1, len(imports))))
    fields = []
    for at in range(8):
        inside = rng.choice(["", "", "", ".Item", ".Kind", ".name"])
        fields.append(f"  {rng.choice(SCOPES)}{rng.choice(NAMES)}{inside} f{at} = {at + 1};\n")
    own = "".join(f"{rng.choice(FORMS).format(it)}\n" for it in rng.sample(NAMES, rng.choice([0, 0, 1])))
    return f'syntax = "proto3";\npackage {rng.choice(PACKAGES)};\n{stated}message User{number} {{\n{"".join(fields)}}}\n{own}'


def guest_text(rng):
    """A text of a document that comes, changes and leaves, which may import another one."""
    lines = hub_text(rng).splitlines()
    if rng.random() < 0.6:
        lines.insert(1, f'import {rng.choice(["", "public "])}"{rng.choice(GUESTS)}";')
    return "\n".join(lines) + "\n"


def host_text(rng, number):
    """A file that may import documents that come and leave, and uses their names."""
    lines = user_text(rng, number).splitlines()
    lines[1:1] = [f'import "{it}";' for it in rng.sample(GUESTS, rng.randint(0, 2))]
    return "\n".join(lines) + "\n"


class Asker:
    """A session that is asked about all files: their diagnostics, all declarations, and what each name in a field means."""

    def __init__(self, server, folder, texts):
        self.server, self.folder, self.texts = server, folder, texts
        self.say(id=0, method="initialize", params=stream.PULLING)
        server.receive()

    def say(self, **body):
        self.server.send(json.dumps({"jsonrpc": "2.0", **body}))

    def open(self, name, version, text):
        document = {"uri": self.uri(name), "languageId": "proto", "version": version, "text": text}
        self.say(method="textDocument/didOpen", params={"textDocument": document})

    def change(self, name, version, text):
        self.say(method="textDocument/didChange", params={"textDocument": {"uri": self.uri(name), "version": version}, "contentChanges": [{"text": text}]})

    def close(self, name):
        self.say(method="textDocument/didClose", params={"textDocument": {"uri": self.uri(name)}})

    def uri(self, name):
        return f"file://{self.folder}/{name}"

    def replies(self):
        questions = [("workspace/diagnostic", {"previousResultIds": []}), ("workspace/symbol", {"query": ""})]
        for name, text in self.texts.items():
            for row, line in enumerate(text.splitlines()):
                if line.startswith("  "):
                    end = line.rindex(" f")
                    place = {"textDocument": {"uri": self.uri(name)}, "position": {"line": row, "character": end - 1}}
                    questions.append(("textDocument/definition", place))
                    questions.append(("textDocument/references", {**place, "context": {"includeDeclaration": True}}))
        for number, (method, params) in enumerate(questions):
            self.say(id=number + 1, method=method, params=params)
        return [self.server.receive() for _ in questions]


class Changes(unittest.TestCase):
    maxDiff = 4_000

    def check_seed(self, seed, workers):
        rng = random.Random(seed)
        texts = {f"user{number:02}.proto": user_text(rng, number) for number in range(6)}
        hub = hub_text(rng)
        words = ["serve", "--workers", str(workers)]
        with tempfile.TemporaryDirectory() as room:
            folder = pathlib.Path(room)
            for name, text in {**texts, HUB: hub}.items():
                (folder / name).write_text(text)
            with stream.Server([*words, "--root", room]) as server:
                asker = Asker(server, room, texts)
                asker.open(HUB, 1, hub)
                for number in range(CHANGES):
                    hub = changed_text(rng, hub)
                    asker.change(HUB, number + 2, hub)
                    told = asker.replies()
                    (folder / HUB).write_text(hub)
                    with stream.Server([*words, "--root", room]) as other:
                        again = Asker(other, room, texts)
                        again.open(HUB, number + 2, hub)
                        self.assertEqual(again.replies(), told, f"seed {seed}, change {number}, the text is\n{hub[:2_000]}")

    def check_guests(self, seed, workers):
        rng = random.Random(seed)
        texts = {f"user{number:02}.proto": host_text(rng, number) for number in range(6)}
        words = ["serve", "--workers", str(workers)]
        guests, version = {}, 0
        with tempfile.TemporaryDirectory() as room:
            folder = pathlib.Path(room)
            for name, text in texts.items():
                (folder / name).write_text(text)
            with stream.Server([*words, "--root", room]) as server:
                asker = Asker(server, room, texts)
                asker.replies()
                for number in range(CHANGES):
                    for name in rng.sample(GUESTS, rng.choice([1, 1, 1, 2, 3])):
                        version += 1
                        if name not in guests:
                            guests[name] = version, guest_text(rng)
                            asker.open(name, *guests[name])
                        elif rng.random() < 0.5:
                            guests[name] = version, changed_text(rng, guests[name][1])
                            asker.change(name, *guests[name])
                        else:
                            del guests[name]
                            asker.close(name)
                    told = asker.replies()
                    with stream.Server([*words, "--root", room]) as other:
                        again = Asker(other, room, texts)
                        for name, (its_version, text) in guests.items():
                            again.open(name, its_version, text)
                        self.assertEqual(again.replies(), told, f"seed {seed}, step {number}, with {sorted(guests)}")

    def test_documents_come_change_and_leave(self):
        for seed in range(4):
            self.check_guests(seed, 1)

    def test_so_they_do_with_workers(self):
        self.check_guests(4, 4)

    def test_the_session_goes_on_as_a_new_one_begins(self):
        for seed in range(4):
            self.check_seed(seed, 1)

    def test_so_it_does_with_workers(self):
        self.check_seed(4, 4)
