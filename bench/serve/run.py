#!/usr/bin/env python3
"""Times `protols serve` from its start to its end on one document: opened, asked for its diagnostics, shut down.

The first documents are ordinary proto3, which has no diagnostic; the others are a single line of `#`, which has one
for each. Of each kind every text is twice as long as the one before, so that the time and the memory may about double.
A time is the best of 5, in turn, once with a file as the input and once through a pipe, as an editor speaks to the
server. The memory is the most that was resident when the reply had come, also as a multiple of the text and the reply
together.

Then it types into a document of a folder of 1,000 and 10,000 files: what is asked for beside what is published, also with 200 documents open.
These are medians of 200 characters, in turn. 100 changes come in one write, and 500 documents are opened one after the other, each behind the
publications of the one before: 125,250 in all, of which none may be left out.

usage: run.py [texts] [publishing]"""
import itertools
import json
import pathlib
import statistics
import subprocess
import sys
import tempfile
import time

HERE = pathlib.Path(__file__).resolve().parent
sys.path[:0] = [str(HERE.parent), str(HERE.parent.parent / "tests")]
import lab
import stream
import trees
from editors import Editor, put_tree

TIMES = 5

# The most that twice the text may cost, as a multiple of the time or the memory of the text itself. A quadratic step
# costs 4.
MOST = 3

# Shorter times than this, in seconds, say nothing about growth.
LEAST = 0.03

URI = "file:///w/a.proto"
PROTO3 = 'syntax = "proto3";\n'


def order(n):
    """A message, an enum and a service of their own."""
    return (
        f"// An order of the shop, number {n}.\nmessage Order{n} {{\n  string customer_name = 1;\n"
        f"  repeated Item items = 2 [deprecated = true];\n  map<string, int64> prices_by_name = 3;\n"
        f"  /* In cents,\n   * with taxes. */\n  uint64 total_cents = {n % 90 + 4};\n"
        f'  double discount = {n % 500 + 500} [(shop.hint) = "0.{n}e-3 \\"off\\""];\n  reserved 1000 to 0x7FF, 0177;\n'
        f"  message Item {{\n    string name = 1;\n    .shop.orders.Order{n} order = 2;\n  }}\n}}\n\n"
        f"enum Kind{n} {{\n  option allow_alias = true;\n  KIND{n}_NONE = 0;\n  KIND{n}_OTHER = -{n};\n}}\n\n"
        f"service Shop{n} {{\n  rpc Find (Order{n}) returns (stream Order{n}) {{\n    option deadline = {n}.5e3;\n  }}\n}}\n\n"
    )


def ordinary(size):
    """That many bytes of messages, enums, services, comments and options, without anything to report."""
    parts = [PROTO3 + "package shop.orders;\n\n"]
    left = size - len(parts[0])
    for part in map(order, itertools.count(1)):
        if len(part) > left:
            break
        parts.append(part)
        left -= len(part)
    return "".join(parts) + "\n" * left


def signs(size):
    """That many bytes, each of which is a diagnostic but for those of the first line."""
    return PROTO3 + "#" * (size - len(PROTO3))


def messages(text):
    """What an editor sends: the bodies up to the question, and those that end the server."""
    document = {"uri": URI, "languageId": "proto", "version": 1, "text": text}
    initialize = {"id": 1, "method": "initialize", "params": stream.PULLING}
    opening = {"method": "textDocument/didOpen", "params": {"textDocument": document}}
    question = {"id": 2, "method": "textDocument/diagnostic", "params": {"textDocument": {"uri": URI}}}
    ending = [{"id": 3, "method": "shutdown"}, {"method": "exit"}]
    bodies = [json.dumps({"jsonrpc": "2.0", **message}) for message in [initialize, opening, question, *ending]]
    return bodies[:3], bodies[3:]


def dialogue(text):
    """The reply to the question and the most kilobytes that were resident by then."""
    asking, ending = messages(text)
    with stream.Server() as server:
        server.send_bytes(stream.frames(asking))
        server.receive()
        reply = server.receive()
        status = pathlib.Path(f"/proc/{server.process.pid}/status").read_text()
        peak = next(int(line.split()[1]) for line in status.splitlines() if line.startswith("VmHWM:"))
        server.send_bytes(stream.frames(ending))
        if server.wait() != 0:
            raise SystemExit("the server did not end by its exit")
    return reply, peak


def pipe_seconds(inputs):
    """The best time of several runs for each input, which comes through a pipe, in turn, in seconds."""
    bests = [float("inf")] * len(inputs)
    for _ in range(TIMES):
        for place, data in enumerate(inputs):
            start = time.perf_counter()
            subprocess.run(stream.command(), input=data, stdout=subprocess.DEVNULL, check=True)
            bests[place] = min(bests[place], time.perf_counter() - start)
    return bests


def measured(texts):
    """For each text the seconds from a file and through a pipe, the peak in kilobytes and the bytes of the reply."""
    peaks, lengths = [], []
    for text in texts:
        reply, peak = dialogue(text)
        if len(json.loads(reply)["result"]["items"]) != text.count("#"):
            raise SystemExit(f"not a diagnostic for each # of a text of {len(text)} bytes")
        peaks.append(peak)
        lengths.append(len(reply))
    inputs = [stream.frames([body for part in messages(text) for body in part]) for text in texts]
    paths = [lab.text_file(f"serve{place}.frames", data) for place, data in enumerate(inputs)]
    from_files = lab.best_of_each([(stream.command(), path) for path in paths], TIMES)
    return list(zip(from_files, pipe_seconds(inputs), peaks, lengths))


def grows_well(before, now):
    """Whether the times and the memory at most about double, where they are long enough to tell."""
    times = [later <= max(MOST * earlier, LEAST) for earlier, later in zip(before[:2], now[:2])]
    return all(times) and now[2] <= MOST * before[2]


def print_row(name, size, before, now):
    """A line of the table: each measure, and behind it how it grew from the text of half the size."""
    growth = [f"{later / earlier:6.2f}" for earlier, later in zip(before, now)] if before else [" " * 6] * 3
    file, pipe, peak, reply = now
    multiple = peak * 1024 / (size + reply)
    print(
        f"{name:>8} {size:>9,} {file * 1000:>7.1f} ms {growth[0]} {pipe * 1000:>7.1f} ms {growth[1]} "
        f"{peak / 1024:>7.1f} MB {growth[2]} {reply:>11,} {multiple:>7.1f}",
        flush=True,
    )


# An editor that says nothing of diagnostics.
PUBLISHED = {"capabilities": {}}

# The most that a character may take above one with a question, in seconds, with one document open and with 200.
ABOVE, ABOVE_OF_MANY = 0.0002, 0.002
MANY = 200
KEYSTROKES = 200

# Changes in one write and documents opened in turn, and the seconds that they may take.
CHANGES, CHANGES_SECONDS = 100, 0.1
OPENS, OPENS_SECONDS = 500, 2


def new_document(holder, n):
    """A document that is no file, and its text."""
    return f"file://{holder}/new{n:03}.proto", f'syntax = "proto3";\npackage new.p{n % 7};\nmessage M{n} {{ }}\n'


def typed(holder, size, count):
    """The median of the seconds from a character to the reply to a question, and to the last publication, where so many documents are open."""
    place, text = trees.path(size // 2), trees.ordinary(size // 2)
    with Editor(holder, place, text) as asking, Editor(holder, place, text, client=PUBLISHED) as published:
        asking.open()
        documents = [(published.uri, 1)]
        published.publish(documents, published.opening(published.uri, text))
        for uri, its_text in (new_document(holder, n) for n in range(count - 1)):
            asking.after(asking.opening(uri, its_text))
            # (behind the files of the folder, by their paths)
            documents.append((uri, 1))
            published.publish(documents, published.opening(uri, its_text))
        documents[0] = published.uri, 2
        pairs = [(asking.change(0, " "), published.publish(documents, published.changing(published.uri, 0, " "))) for _ in range(KEYSTROKES)]
        return [statistics.median(column) for column in zip(*pairs)]


def changed_at_once(holder, size):
    """The seconds from many changes in one write to the last publication, the best of 5."""
    with Editor(holder, trees.path(size // 2), trees.ordinary(size // 2), client=PUBLISHED) as editor:
        editor.publish([(editor.uri, 1)], editor.opening(editor.uri, editor.text))
        versions = range(2, 2 + CHANGES)
        return min(
            editor.publish([(editor.uri, it) for it in versions], *(editor.changing(editor.uri, 0, " ", it) for it in versions)) for _ in range(TIMES)
        )


def opened_in_turn():
    """The seconds for documents that are opened one after the other, the best of 3, in a folder without files."""
    bests = []
    for _ in range(3):
        with tempfile.TemporaryDirectory() as holder, Editor(holder, "none.proto", "", client=PUBLISHED) as editor:
            new = [new_document(holder, n) for n in range(OPENS)]
            bests.append(sum(editor.publish([(uri, 1) for uri, _ in new[: n + 1]], editor.opening(*new[n])) for n in range(OPENS)))
    return min(bests)


def publishing():
    """Prints the figures of publishing, and says whether they are within the limits."""
    kept = True

    def show(name, seconds, most, more=""):
        print(f"{name:>42} {seconds * 1000:>9.3f} ms, at most {most * 1000:,.1f}{more}", flush=True)
        return seconds <= most

    for size in (1_000, 10_000):
        with tempfile.TemporaryDirectory() as holder:
            put_tree(pathlib.Path(holder), size)
            for count, most in ((1, ABOVE), (MANY, ABOVE_OF_MANY)):
                asked, told = typed(holder, size, count)
                kept = show(f"above a question, {size:,} files, {count} open", told - asked, most, f" ({asked * 1000:.3f} ms asked, {told * 1000:.3f} ms published)") and kept
            if size == 1_000:
                kept = show(f"{CHANGES} changes in one write", changed_at_once(holder, size), CHANGES_SECONDS) and kept
    return show(f"{OPENS} documents opened in turn", opened_in_turn(), OPENS_SECONDS) and kept


def growing():
    """Prints the table of texts, and says whether times and memory grow well."""
    kept = True
    print(f"{'text':>8} {'bytes':>9} {'file':>10} growth {'pipe':>10} growth {'memory':>10} growth {'reply':>11} multiple")
    kinds = [("ordinary", ordinary, [1_000_000, 2_000_000, 4_000_000, 8_000_000]), ("#", signs, [25_000, 50_000, 100_000, 200_000])]
    for name, make, sizes in kinds:
        before = None
        for size, now in zip(sizes, measured([make(size) for size in sizes])):
            kept = kept and (before is None or grows_well(before, now))
            print_row(name, size, before, now)
            before = now
    return kept


def main(words):
    print(lab.machine())
    kept = all([measure() for name, measure in (("texts", growing), ("publishing", publishing)) if not words or name in words])
    print("kept" if kept else "NOT kept")
    return 0 if kept else 1


if __name__ == "__main__":
    sys.exit(main(sys.argv[1:]))
