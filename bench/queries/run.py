#!/usr/bin/env python3
"""Times symbols, definition, references and rename of `protols serve` on trees of 1,000 and 10,000 files (or as many as are named).

The first request makes the analysis and isn't timed. Each other one is asked in one dialogue, and its time is the best of 5. An
empty request is one that the server doesn't know. The memory is what was resident at most, beside the length of the longest reply.
In a tree of its own each file uses the same name ten times: the references of that name, and another name for it, are timed beside each other. So is another
name for one that stands in ten files, and for a message with 200 declarations inside, which each file sees. A rename analyses the edited texts, on one
thread, so it is compared with the first answer of one worker; that of the name in ten files, in larger ones, also with that of four. With a rename the
session may have 1.3 times the memory that it had after the first answer, and with the same one again 1.05 times that of the first time, since the heap isn't cut the same way.

usage: run.py [FILES..]"""
import json
import pathlib
import sys
import tempfile
import time

HERE = pathlib.Path(__file__).resolve().parent
sys.path[:0] = [str(HERE.parent), str(HERE.parent.parent / "tests")]
import lab
import stream
import trees

TIMES = 5
stream.LIMIT = 900

# What may be spent, in seconds.
RARE, ABOVE_EMPTY = 0.050, 0.001
# And how many times the first answer's time a rename may take: with one worker, and with four if a name is used in few files.
OF_FIRST, OF_FIRST_BY_FOUR = 2, 0.3
# How many times the session's memory a rename may take, and how many times that of the first time the same one again.
OF_SESSION, OF_FIRST_TIME = 1.3, 1.05


def written(folder, count, text_of):
    """A tree of so many files, and one more with a name that nine of them use."""
    users = trees.users_of_rare_name(count)
    for n in range(count):
        file = pathlib.Path(folder, trees.path(n))
        file.parent.mkdir(parents=True, exist_ok=True)
        file.write_text(text_of(n) + (trees.use_of_rare_name(n) if n in users else ""))
    pathlib.Path(folder, trees.RARE_NAME).write_text(trees.RARE_NAME_TEXT)


def asked(server, method, params):
    """The reply to a request, and the seconds that it took."""
    body = json.dumps({"jsonrpc": "2.0", "id": 2, "method": method, "params": params})
    start = time.perf_counter()
    server.send_bytes(stream.frame(body))
    reply = server.receive()
    return reply, time.perf_counter() - start


def best(server, method, params):
    replies = [asked(server, method, params) for _ in range(TIMES)]
    return replies[0][0], min(seconds for _, seconds in replies)


def peak(server):
    status = pathlib.Path(f"/proc/{server.process.pid}/status").read_text()
    return next(int(line.split()[1]) for line in status.splitlines() if line.startswith("VmHWM:"))


def forget_peak(server):
    """From here on the peak is that of what comes."""
    pathlib.Path(f"/proc/{server.process.pid}/clear_refs").write_text("5")


def resident(server):
    status = pathlib.Path(f"/proc/{server.process.pid}/status").read_text()
    return next(int(line.split()[1]) for line in status.splitlines() if line.startswith("VmRSS:"))


def place_of(text, word, folder, path):
    """The params that name the place of a word in a file."""
    at = text.index(word)
    line = text.count("\n", 0, at)
    return {"textDocument": {"uri": f"file://{folder}/{path}"}, "position": {"line": line, "character": at - (text.rfind("\n", 0, at) + 1)}}


def count_in(reply):
    found = json.loads(reply)
    return len(found["result"] or []) if "result" in found else 0


def is_renamed(server, place, began, limit):
    """Gives what stands at a place another name, again and again, and says whether that took so much of the first answer's time, and of memory what it may."""
    first, session = began
    times, peaks = [], []
    for _ in range(TIMES):
        forget_peak(server)
        reply, seconds = asked(server, "textDocument/rename", {**place, "newName": "Amount"})
        times.append(seconds / first)
        peaks.append(peak(server) / session)
    files = json.loads(reply)["result"]["changes"]
    edits = f"{sum(map(len, files.values())):>9,} edits in {len(files):,} files"
    print(f"{'rename':>16} {min(times) * first * 1000:>9.2f} ms {edits}, {len(reply):,} bytes, {min(times):.2f} times the first answer")
    print(f"{'':>16} {peaks[0]:.3f} times the session's memory at first, {max(peaks[1:]):.3f} again, {resident(server) / session:.3f} left", flush=True)
    return min(times) <= limit and peaks[0] <= OF_SESSION and max(peaks) <= OF_FIRST_TIME * peaks[0]


def queries(folder, count):
    """The requests that are timed: their names, methods and params."""
    n = count // 2
    text, path = trees.ordinary(n), trees.path(n)
    declared = place_of(text, f"Order{n}M0", folder, path)
    used = place_of(text, "Item.Kind one", folder, path)
    return [
        ("empty", "$/nothing", {}),
        ("definition", "textDocument/definition", used),
        ("references", "textDocument/references", {**declared, "context": {"includeDeclaration": True}}),
        ("symbols, one", "workspace/symbol", {"query": f"ORDER{n}M3.ITEM.KIND_ONE"}),
        ("symbols, none", "workspace/symbol", {"query": "no.such.name"}),
        ("symbols, long", "workspace/symbol", {"query": "x" * 100}),
        ("symbols, all", "workspace/symbol", {"query": ""}),
    ]


def began(server, count):
    """Waits for the analysis of the tree: how many seconds it took, and what is resident then."""
    server.send_bytes(stream.frame(json.dumps({"jsonrpc": "2.0", "id": 1, "method": "initialize", "params": stream.PULLING})))
    server.receive()
    _, first = asked(server, "workspace/symbol", {"query": "no.such.name"})
    session = resident(server)
    print(f"{count:>7,} files: the analysis {first:.2f} s, {session / 1024:,.0f} MB resident", flush=True)
    return first, session


def measured(count):
    """The times of one tree, and whether they are within what may be spent."""
    with tempfile.TemporaryDirectory() as folder:
        written(folder, count, trees.ordinary)
        with stream.Server(("serve", "--root", folder, "--workers", "4")) as server:
            place = place_of(trees.RARE_NAME_TEXT, "Seldom", folder, trees.RARE_NAME)
            kept = is_renamed(server, place, began(server, count), OF_FIRST_BY_FOUR)
            forget_peak(server)
            before, empty, longest = resident(server), 0.0, 1
            for name, method, params in queries(folder, count):
                reply, seconds = best(server, method, params)
                longest = max(longest, len(reply))
                empty = seconds if name == "empty" else empty
                if name == "definition":
                    kept = kept and seconds - empty <= ABOVE_EMPTY
                if name in ("symbols, one", "symbols, none") and count <= 10_000:
                    kept = kept and seconds <= RARE
                print(f"{name:>16} {seconds * 1000:>9.2f} ms {count_in(reply):>9,} answers {len(reply):>12,} bytes", flush=True)
            more = (peak(server) - before) * 1024
            print(f"{'':>16} the longest reply took {more / longest:.2f} times its size in memory", flush=True)
            kept = kept and more <= 3 * longest
    return kept


def renamed(count):
    """The times of other names for one that all files of a tree use, for one that stands in ten, and for a message with 200 declarations inside, which all
    see; whether they are within what may be spent."""
    with tempfile.TemporaryDirectory() as folder:
        written(folder, count, trees.user_of_one_name)
        text = trees.ONE_NAME_TEXT + trees.WIDE_MESSAGE
        pathlib.Path(folder, trees.ONE_NAME).write_text(text)
        kept = True
        with stream.Server(("serve", "--root", folder, "--workers", "1")) as server:
            start = began(server, count)
            for text, path, name in ((text, trees.ONE_NAME, "Money"), (trees.RARE_NAME_TEXT, trees.RARE_NAME, "Seldom"), (text, trees.ONE_NAME, "Wide")):
                place = place_of(text, name, folder, path)
                kept = is_renamed(server, place, start, OF_FIRST) and kept
                reply, seconds = best(server, "textDocument/references", {**place, "context": {"includeDeclaration": True}})
                print(f"{'references':>16} {seconds * 1000:>9.2f} ms {count_in(reply):>9,} answers {len(reply):>12,} bytes", flush=True)
    return kept


def main():
    print(lab.machine())
    counts = [int(count) for count in sys.argv[1:] or ("1000", "10000")]
    kept = all([*map(measured, counts), *map(renamed, counts)])
    print("kept" if kept else "NOT kept")
    return 0 if kept else 1


if __name__ == "__main__":
    sys.exit(main())
