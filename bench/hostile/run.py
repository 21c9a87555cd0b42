#!/usr/bin/env python3
"""Times `protols check` on trees and texts that somebody made to be slow, and `protols serve` on streams that somebody made to be slow, on edits of such
texts and on many documents opened in turn.

Each input comes in two sizes. Twice the input may take at most 2.4 times the time, from 50 ms on, and 2.4 times the memory, from 50 MB on, and the larger
one may take no more time and memory than its line below says. The status is 1 where a limit isn't kept. What is known not to keep the 2.4, as README's limits say,
has a line with what it may take instead, and what it took is shown. Documents that are opened one after the other in no order of their paths have a limit for
4,000, and none for their growth: each one gives the files behind its place other numbers.

A time is the best of 3 for what takes less than 3 seconds, and memory is what was resident at most. The program is crates/protols/out/protols, or
the one that PROTOLS names.

usage: run.py [WORD..]   only the lines that have one of the words"""
import json
import os
import pathlib
import random
import subprocess
import sys
import tempfile
import time
import typing

HERE = pathlib.Path(__file__).resolve().parent
sys.path[:0] = [str(HERE.parent), str(HERE.parent.parent / "tests")]
import hostile
import stream

# The most that twice the size may take, as a multiple of the time and of the memory; what takes less than so many seconds, or MB, isn't judged.
GROWTH, LEAST, LEAST_MEGABYTES = 2.4, 0.05, 50
MEBIBYTES = 1_048_576
# What takes less than so many seconds is run three times.
BEST_BELOW = 3
REPEATED = [";", "}", "{", "#", "a", "A=1;", "message A{}", "message A{A a=1;}"]
stream.LIMIT = 600


class Line(typing.NamedTuple):
    """An input: what it is, the smaller of its two sizes, and what the larger one may take of seconds and of MB, if that is said. The larger
    one is twice the smaller, or another one that makes the input twice as long. `growth` is what that may take, as a multiple of the time and the memory."""

    name: str
    tree: typing.Callable
    size: int
    seconds: float = 0
    megabytes: float = 0
    larger: int = 0
    growth: float = GROWTH


LINES = [
    Line("undeclared names in a package of n components", hostile.undeclared, 2_000, 0.3, 100),
    Line("names declared elsewhere, in a package of n components", hostile.declared_elsewhere, 2_000),
    Line("names of the components of a package of n", hostile.of_components, 2_000),
    Line("200 undeclared names in the package a.a.a..", hostile.one_component, 8_000),
    Line("n files that import all n publicly", hostile.all_of_all, 566, 0.6, larger=800),
    Line("a ring of n public imports", hostile.ring, 10_000),
    Line("a chain of n public imports", hostile.chain, 2_000),
    Line("a hub of n public imports", hostile.hub, 2_000),
    Line("n messages in a package with a long name", hostile.long_names, 2_000, 0, 30),
    Line("n messages of one name", hostile.equal_names, 50_000),
    Line("n reserved ranges that overlap", hostile.overlaps, 25_000),
    Line("n files of 100 bytes", hostile.small_files, 49_999),
    Line("n files that import 500 each", lambda n: hostile.importing(n, 500), 2_500),
    Line("n names in 100 scopes", hostile.in_many_scopes, 100_000),
    # The four that are known to take more, as README's limits say: each full name is written out, what packages share with a scope is read for
    # each name, and each file's view is made for itself.
    Line("a package with a long name and n messages in messages", hostile.nested_in_long_package, 2_000, growth=5),
    Line("n names of two components in a package of n", hostile.of_two_components, 8_000, growth=5),
    Line("a chain of n public imports that each name a type", hostile.named_chain, 8_000, growth=5),
    Line("n files that publicly import all before them", hostile.all_before, 1_131, larger=1_600, growth=4),
    *[Line(f"n MiB of {words!r}", lambda n, words=words: hostile.repeated(words, n * MEBIBYTES), 8, 3, 1_300) for words in REPEATED],
]


def messages(count):
    return "".join(f"message M{n} {{}}\n" for n in range(count))


def twice_equal(count):
    text = hostile.HEAD + "message M {}\n" * count
    return {"a.proto": text, "b.proto": text}


# The first message of each session.
INITIALIZE = {"id": 1, "method": "initialize", "params": {"capabilities": {"textDocument": {"diagnostic": {}}}}}
URI = "file:///w/a.proto"


def open_of(uri, text):
    return {"method": "textDocument/didOpen", "params": {"textDocument": {"uri": uri, "languageId": "proto", "version": 1, "text": text}}}


def change_of(uri, version, line, character, text, replaced=0):
    """The message that puts a text in at a position, in place of so many characters."""
    changes = [{"range": {"start": {"line": line, "character": character}, "end": {"line": line, "character": character + replaced}}, "text": text}]
    return {"method": "textDocument/didChange", "params": {"textDocument": {"uri": uri, "version": version}, "contentChanges": changes}}


def ordinary(size):
    """A text of so many bytes at least, of ordinary messages."""
    text = "".join(f"message Message{n} {{\n  string name = 1;\n  repeated int64 values = 2;\n}}\n" for n in range(size // 60))
    return hostile.HEAD + text


def opens_of_one(n):
    """n opens of one document of a megabyte, each with another text, and no request."""
    text = ordinary(1_000_000)
    for number in range(n):
        yield open_of(URI, f"{text}// {number}\n")


def signs(n):
    """A document of n bad signs, and a request for its diagnostics."""
    yield open_of(URI, hostile.HEAD + "#" * n)
    yield {"id": 2, "method": "textDocument/diagnostic", "params": {"textDocument": {"uri": URI}}}


def changes(text, place_of):
    """A document, and changes of it that each put another letter in place of one in a comment."""

    def messages(n):
        yield open_of(URI, text)
        for number in range(n):
            yield change_of(URI, number + 2, *place_of(number), "xyz"[number % 3], 1)

    return messages


SHORT_LINES = hostile.HEAD + "// a line of thirty-two bytes..\n" * 312
ONE_LINE = hostile.HEAD + "//" + "." * 10_000

STREAMS = [
    Line("n letters in a document of 10 KB with short lines", changes(SHORT_LINES, lambda n: (1 + n % 312, 2)), 100_000, 5),
    Line("n letters in a document of 10 KB in one line", changes(ONE_LINE, lambda n: (1, 2 + n % 10_000)), 100_000, 5),
    # (the reply has 160 bytes for each sign, and may take three times its length)
    Line("n bad signs, and the reply about them", signs, 2_097_152, 0, 2_020),
]


class Edit(typing.NamedTuple):
    """An edit: what it is, the files before it, what it puts into the second line of the first one, the smaller of its two sizes, and what
    the larger one may take of seconds."""

    name: str
    files: typing.Callable
    added: typing.Callable
    size: int
    seconds: float


EDITS = [
    Edit("n messages put into an empty file", lambda n: {"a.proto": hostile.HEAD}, messages, 40_000, 0.3),
    Edit("a message above n others", lambda n: {"a.proto": hostile.HEAD + messages(n)}, lambda n: "message New {}\n", 40_000, 0.3),
    Edit("a message above n of one name, with another such file", twice_equal, lambda n: "message New {}\n", 20_000, 0.3),
]

# How often a document of a megabyte is opened, each time with another text, before anything is asked about it, and the MB that a server may have by then.
OPENS_OF_ONE, OPENS_OF_ONE_MEGABYTES = [500, 1_000], 1_000


def peak_of(server):
    """The most MB that a server has had."""
    status = pathlib.Path(f"/proc/{server.process.pid}/status").read_text()
    return next(int(line.split()[1]) for line in status.splitlines() if line.startswith("VmHWM:")) * 1_024 / 1e6


def worked(server):
    """The seconds of processors that a server has taken."""
    fields = pathlib.Path(f"/proc/{server.process.pid}/stat").read_text().rpartition(")")[2].split()
    return (int(fields[11]) + int(fields[12])) / os.sysconf("SC_CLK_TCK")


def piled_up(count):
    """The seconds of processors, and the most MB, that a server takes for so many opens of one document, until its workers have nothing left to do."""
    with stream.Server(["serve"]) as server:
        client = Client(server)
        for message in opens_of_one(count):
            client.send(**message)
        before = None
        while (now := worked(server)) != before:
            before = now
            time.sleep(1)
        return now, peak_of(server)


def judged_opens_of_one():
    """Whether texts that nobody asks about don't pile up."""
    (small, less), (large, megabytes) = map(piled_up, OPENS_OF_ONE)
    limits = [
        (f"{large / small:.1f} times the time of half the opens", large <= GROWTH * small),
        (f"{megabytes / less:.1f} times the memory of half the opens", megabytes <= GROWTH * less),
        (f"over {OPENS_OF_ONE_MEGABYTES} MB", megabytes <= OPENS_OF_ONE_MEGABYTES),
    ]
    return show("n opens of a document of 1 MB, without a request", OPENS_OF_ONE[-1], large, megabytes, limits)


# How many times a name is used, in files of so many uses each, and what is asked about it.
USES, USES_EACH = [500_000, 1_000_000], 10_000
QUESTIONS = {
    "references": {"context": {"includeDeclaration": True}},
    "rename": {"newName": "Renamed"},
}

# How many documents are opened one after the other, each count twice the one before, and the seconds that the largest count may take.
OPENS = [1_000, 2_000, 4_000]
OPENS_SECONDS = 2


def put(folder, files):
    for name, text in files.items():
        (folder / name).write_text(text)


# Runs a command and prints its seconds, the most memory that it took, and how it ended. What the system says of a process counts the memory of
# the one that started it, so a small one does.
MEASURE = """
import os, sys, time
start = time.perf_counter()
files = [(os.POSIX_SPAWN_OPEN, 0, sys.argv[1], os.O_RDONLY, 0), (os.POSIX_SPAWN_OPEN, 1, os.devnull, os.O_WRONLY, 0)]
_, status, used = os.wait4(os.posix_spawn(sys.argv[2], sys.argv[2:], os.environ, file_actions=files), 0)
print(time.perf_counter() - start, used.ru_maxrss, os.waitstatus_to_exitcode(status))
"""


def measured(words, source=os.devnull):
    """The seconds and the MB that a run of the program with these words and this input takes."""
    command = [sys.executable, "-I", "-S", "-c", MEASURE, source, *stream.command(words)]
    run = subprocess.run(command, stdin=subprocess.DEVNULL, capture_output=True, text=True)
    seconds, kilobytes, status = run.stdout.split()
    if status not in ("0", "1"):
        sys.exit(f"protols {words[0]} ended with {status}: {run.stderr[-300:]}")
    return float(seconds), int(kilobytes) / 1_000


def best(words, source=os.devnull):
    """The least time of 3 runs, or of one if that takes 3 seconds or more, and the MB of the first."""
    seconds, megabytes = measured(words, source)
    if seconds < BEST_BELOW:
        seconds = min(seconds, *(measured(words, source)[0] for _ in range(2)))
    return seconds, megabytes


def best_check(files):
    """The same of a check of a folder with these files."""
    with tempfile.TemporaryDirectory() as room:
        put(pathlib.Path(room), files)
        return best(["check", "--root", room])


def best_session(messages):
    """The same of a session with these messages, whose input is a file."""
    with tempfile.NamedTemporaryFile() as source:
        for message in [INITIALIZE, *messages, {"id": 0, "method": "shutdown"}, {"method": "exit"}]:
            source.write(stream.frame(json.dumps({"jsonrpc": "2.0", **message}, ensure_ascii=False)))
        source.flush()
        return best(["serve"], source.name)


def show(name, size, seconds, megabytes, limits, well="kept"):
    """Prints a line of the table, which ends with `well` if each limit is kept, and says whether it is."""
    broken = [text for text, kept in limits if not kept]
    memory = f"{megabytes:7.0f} MB" if megabytes else " " * 10
    print(f"{name:55} {size:6} {seconds:8.3f} s {memory}  {'; '.join(broken) or well}", flush=True)
    return not broken


def judged(line, measure):
    larger = line.larger or 2 * line.size
    small, less = measure(line.tree(line.size))
    large, megabytes = measure(line.tree(larger))
    grown = [f"{large / small:.1f} times the time of half the size", f"{megabytes / less:.1f} times the memory of half the size"]
    limits = [
        (grown[0], large <= line.growth * small or large < LEAST),
        (grown[1], megabytes <= line.growth * less or megabytes < LEAST_MEGABYTES),
        (f"over {line.seconds} s", not line.seconds or large <= line.seconds),
        (f"over {line.megabytes} MB", not line.megabytes or megabytes <= line.megabytes),
    ]
    return show(line.name, larger, large, megabytes, limits, "kept" if line.growth == GROWTH else f"known: {', '.join(grown)}")


class Client:
    """A server over a folder, which is sent messages of JSON-RPC 2.0."""

    def __init__(self, server):
        self.server = server
        self.send(**INITIALIZE)
        server.receive()

    def send(self, **body):
        self.server.send(json.dumps({"jsonrpc": "2.0", **body}))

    def open(self, uri, text):
        self.send(**open_of(uri, text))

    def diagnostics(self, uri):
        self.send(id=2, method="textDocument/diagnostic", params={"textDocument": {"uri": uri}})
        self.server.receive()


def edited(files, added):
    """The seconds from an edit of the first file, which is open, to its diagnostics."""
    with tempfile.TemporaryDirectory() as room:
        put(pathlib.Path(room), files)
        place, text = next(iter(files.items()))
        uri = f"file://{room}/{place}"
        with stream.Server(["serve", "--root", room]) as server:
            client = Client(server)
            client.open(uri, text)
            client.diagnostics(uri)
            start = time.perf_counter()
            client.send(**change_of(uri, 2, 1, 0, added))
            client.diagnostics(uri)
            return time.perf_counter() - start


def judged_edit(edit):
    small, large = (min(edited(edit.files(size), edit.added(size)) for _ in range(3)) for size in (edit.size, 2 * edit.size))
    limits = [
        (f"{large / small:.1f} times the time of half the size", large <= GROWTH * small or large < LEAST),
        (f"over {edit.seconds} s", large <= edit.seconds),
    ]
    return show(edit.name, 2 * edit.size, large, 0, limits)


def asked(count):
    """For each of the questions about a name with so many uses the seconds from the request to the end of its reply; and the most MB that the server had then."""
    with tempfile.TemporaryDirectory() as room:
        put(pathlib.Path(room), hostile.uses(count // USES_EACH, USES_EACH))
        with stream.Server(["serve", "--root", room]) as server:
            client = Client(server)
            client.diagnostics(f"file://{room}/a.proto")
            found = {}
            for method, more in QUESTIONS.items():
                at = {"textDocument": {"uri": f"file://{room}/a.proto"}, "position": {"line": 1, "character": 8}}
                start = time.perf_counter()
                client.send(id=3, method=f"textDocument/{method}", params={**at, **more})
                length = len(server.receive(stream.LIMIT))
                found[method] = (time.perf_counter() - start, peak_of(server), length / 1e6)
            return found


def judged_uses():
    """Whether what is asked about a name that is used very often keeps its limits."""
    small, large = (asked(count) for count in USES)
    well = True
    for method, (seconds, megabytes, reply) in large.items():
        limits = [
            (f"{seconds / small[method][0]:.1f} times the time of half the uses", seconds <= GROWTH * small[method][0]),
            (f"{megabytes / small[method][1]:.1f} times the memory of half the uses", megabytes <= GROWTH * small[method][1]),
        ]
        well = show(f"{method} of n uses: a reply of {reply:.0f} MB", USES[-1], seconds, megabytes, limits) and well
    return well


def opened(names):
    """The seconds for documents that are opened one after the other, each followed by a request for its diagnostics."""
    with tempfile.TemporaryDirectory() as room, stream.Server(["serve", "--root", room]) as server:
        client = Client(server)
        start = time.perf_counter()
        for n in names:
            uri = f"file://{room}/f{n:05}.proto"
            client.open(uri, f"{hostile.HEAD}package p{n % 7};\nmessage M{n} {{}}\n")
            client.diagnostics(uri)
        return time.perf_counter() - start


# With which the order of documents in no order of their paths is made, the same in each run.
SEED = 4


def shuffled(names):
    return random.Random(SEED).sample(names, len(names))


def judged_opens(name, ordered, is_linear):
    """Whether opening documents in this order stays within the limit and, if `is_linear`, takes at most GROWTH times the time of half as many."""
    well, before = True, None
    for count in OPENS:
        seconds = min(opened(ordered(range(count))) for _ in range(2))
        limits = [(f"over {OPENS_SECONDS} s", count < OPENS[-1] or seconds <= OPENS_SECONDS)]
        if before and is_linear:
            limits.append((f"{seconds / before:.1f} times the time of half the number", seconds <= GROWTH * before))
        well = show(name, count, seconds, 0, limits) and well
        before = seconds
    return well


def main(words):
    def is_wanted(it):
        return not words or any(word in it.name for word in words)

    well = [judged(it, best_check) for it in LINES if is_wanted(it)]
    well += [judged(it, best_session) for it in STREAMS if is_wanted(it)]
    well += [judged_edit(it) for it in EDITS if is_wanted(it)]
    if not words or "opens" in words:
        well += [judged_opens_of_one()]
    if not words or "uses" in words:
        well += [judged_uses()]
    if not words or "documents" in words:
        well += [judged_opens("documents opened in path order", list, True), judged_opens("documents opened in no order", shuffled, False)]
    return 0 if all(well) else 1


if __name__ == "__main__":
    sys.exit(main(sys.argv[1:]))
