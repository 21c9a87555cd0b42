"""End-to-end tests of `--workers N`: the output is the same with any number of workers, and the program ends whatever fails.

The expected bytes are those of tests/test_serve.py, or come from the rules in docs/.
"""
import concurrent.futures
import json
import os
import pathlib
import resource
import shutil
import subprocess
import tempfile
import time
import unittest

import stream
from stream import NUMBERS, Server, frames
from test_serve import EXIT, FIRST_INPUT, FIRST_OUTPUT, INITIALIZE, INITIALIZED, PROTO3, SHUT, SHUTDOWN

ALL_REPORTS = '{"jsonrpc":"2.0","id":2,"method":"workspace/diagnostic","params":{}}'

# How often the first session is run at most, the seconds after which no further run begins, and how often it has to be run.
RUNS, SECONDS, LEAST = 10_000, 60, 100

# More files than jobs may be out at once.
FILES = 300

# An identifier that no process of this machine has.
NOBODY = 65_123


def words(number, *others):
    return ["serve", "--workers", str(number), *others]


def checking(number, folder):
    return ["check", "--quiet", "--workers", str(number), "--root", folder]


def run(data, args, **how):
    """Runs the program on these bytes: its standard output, standard error and exit status."""
    done = subprocess.run(stream.command(args), input=data, capture_output=True, timeout=stream.LIMIT, **how)
    return done.stdout, done.stderr, done.returncode


def report_of(path, has_fault):
    """The report of a file on disk, whose second line is `#` where it has a fault."""
    place = {"end": {"character": 1, "line": 1}, "start": {"character": 0, "line": 1}}
    fault = {"code": 201, "message": "illegal character", "range": place, "severity": 1, "source": "protols"}
    return {"items": [fault] * has_fault, "kind": "full", "uri": path, "version": None}


def as_body(value):
    return json.dumps(value, separators=(",", ":"), sort_keys=True)


class WorkersTest(unittest.TestCase):
    def folder(self, count):
        """A folder of so many files, each third of which has a fault, and the reply that tells of them all."""
        folder = tempfile.TemporaryDirectory()
        self.addCleanup(folder.cleanup)
        items = []
        for number in range(count):
            name = f"{number:04}.proto"
            pathlib.Path(folder.name, name).write_text(PROTO3 + "#\n" * (number % 3 == 0))
            items.append(report_of(f"file://{folder.name}/{name}", number % 3 == 0))
        return folder.name, as_body({"id": 2, "jsonrpc": "2.0", "result": {"items": items}})

    def open_folder(self, count):
        """Such a folder, which any user may read."""
        folder, _ = self.folder(count)
        os.chmod(folder, 0o755)
        return folder

    def large_files(self, front):
        """A folder of 20 files with this front and 2,000 messages, and their paths."""
        folder, _ = self.folder(0)
        paths = [f"{number:02}.proto" for number in range(20)]
        for path in paths:
            pathlib.Path(folder, path).write_text(front + "".join(f"message M{number} {{ }}\n" for number in range(2_000)))
        return folder, paths

    def limited_program(self):
        """What runs a copy of the program with at most so many threads: its standard output, standard error and exit status."""
        folder = tempfile.TemporaryDirectory()
        self.addCleanup(folder.cleanup)
        os.chmod(folder.name, 0o755)
        program = shutil.copy(stream.PROGRAM, folder.name)
        os.chmod(program, 0o755)

        def limit(most):
            """Takes an identity that has no other process, and leaves it so many threads: root is refused none."""
            resource.setrlimit(resource.RLIMIT_NPROC, (most, most))
            if os.getuid() == 0:
                os.setgid(NOBODY)
                os.setuid(NOBODY)

        def run_limited(most, args, data=b""):
            done = subprocess.run([program, *args], input=data, capture_output=True, cwd="/", timeout=stream.LIMIT, preexec_fn=lambda: limit(most))
            return done.stdout, done.stderr, done.returncode

        return run_limited

    def check_with_little_memory(self, args, data, whole, status):
        """A run ends with this output and this status; or where there is too little memory, with a part of that output and with 803 or 804."""
        self.assertEqual(run(data, args), (whole, b"", status))
        seen = set()
        for megabytes in range(24, 240, 6):
            most = megabytes << 20
            out, err, ended = run(data, args, preexec_fn=lambda most=most: resource.setrlimit(resource.RLIMIT_AS, (most, most)))
            with self.subTest(megabytes=megabytes):
                self.assertTrue(whole.startswith(out))
                self.assertIn((err, ended), {(b"", status), (b"protols: fault 803\n", 3), (b"protols: fault 804\n", 3)})
                self.assertTrue(err or out == whole)
            seen.add(err)
        self.assertLessEqual({b"", b"protols: fault 803\n"}, seen)


class TheSameOutput(WorkersTest):
    def test_the_first_session_with_any_number_of_workers(self):
        for number in (*NUMBERS, 2, 7, 63):
            with self.subTest(workers=number):
                self.assertEqual(run(FIRST_INPUT, words(number)), (FIRST_OUTPUT, b"", 0))

    def test_the_first_session_again_and_again(self):
        began = time.monotonic()

        def one(number):
            if time.monotonic() - began > SECONDS:
                return None
            return run(FIRST_INPUT, words(NUMBERS[number % len(NUMBERS)]))

        with concurrent.futures.ThreadPoolExecutor(os.cpu_count()) as pool:
            seen = [it for it in pool.map(one, range(RUNS)) if it is not None]
        self.assertGreaterEqual(len(seen), LEAST)
        self.assertEqual(set(seen), {(FIRST_OUTPUT, b"", 0)})

    def test_more_files_than_jobs_may_be_out(self):
        folder, reports = self.folder(FILES)
        for number in NUMBERS:
            with self.subTest(workers=number):
                data = frames([INITIALIZE, ALL_REPORTS, SHUTDOWN, EXIT])
                self.assertEqual(run(data, words(number, "--root", folder)), (frames([INITIALIZED, reports, SHUT]), b"", 0))

    def test_many_workers_on_one_processor(self):
        folder, reports = self.folder(FILES)
        one = min(os.sched_getaffinity(0))
        data = frames([INITIALIZE, ALL_REPORTS, SHUTDOWN, EXIT])
        done = run(data, words(64, "--root", folder), preexec_fn=lambda: os.sched_setaffinity(0, {one}))
        self.assertEqual(done, (frames([INITIALIZED, reports, SHUT]), b"", 0))

    def test_texts_that_change_while_they_are_worked_on(self):
        uri = "file:///w/a.proto"
        document = {"uri": uri, "version": 1}
        bodies = [INITIALIZE, json.dumps({"jsonrpc": "2.0", "method": "textDocument/didOpen", "params": {"textDocument": {**document, "text": PROTO3}}})]
        replies = [INITIALIZED]
        for number in range(200):
            text = PROTO3 + "#\n" * (number % 2)
            change = {"textDocument": document, "contentChanges": [{"text": text}]}
            bodies.append(json.dumps({"jsonrpc": "2.0", "method": "textDocument/didChange", "params": change}))
            if number % 5 == 4:
                bodies.append(json.dumps({"jsonrpc": "2.0", "id": number, "method": "textDocument/diagnostic", "params": {"textDocument": {"uri": uri}}}))
                result = {"items": report_of(uri, number % 2)["items"], "kind": "full"}
                replies.append(as_body({"id": number, "jsonrpc": "2.0", "result": result}))
        for number in NUMBERS:
            with self.subTest(workers=number):
                self.assertEqual(run(frames([*bodies, SHUTDOWN, EXIT]), words(number)), (frames([*replies, SHUT]), b"", 0))


class TheEnd(WorkersTest):
    def test_an_exit_while_jobs_are_out(self):
        folder, _ = self.folder(FILES)
        for number in NUMBERS:
            with self.subTest(workers=number):
                self.assertEqual(run(frames([INITIALIZE, EXIT]), words(number, "--root", folder)), (frames([INITIALIZED]), b"", 1))

    def test_an_input_that_ends_while_a_request_waits(self):
        folder, reports = self.folder(FILES)
        for number in NUMBERS:
            with self.subTest(workers=number):
                done = run(frames([INITIALIZE, ALL_REPORTS]), words(number, "--root", folder))
                self.assertEqual(done, (frames([INITIALIZED, reports]), b"", 1))

    def test_an_output_that_is_closed_while_jobs_are_out(self):
        folder, _ = self.folder(FILES)
        for number in NUMBERS:
            with self.subTest(workers=number):
                reading, writing = os.pipe()
                os.close(reading)
                process = subprocess.Popen(
                    stream.command(words(number, "--root", folder)), stdin=subprocess.PIPE, stdout=writing, stderr=subprocess.PIPE
                )
                os.close(writing)
                _, err = process.communicate(frames([INITIALIZE, ALL_REPORTS]), timeout=stream.LIMIT)
                self.assertEqual((err, process.returncode), (b"protols: fault 802\n", 3))

    def test_a_thread_of_the_pool_that_is_refused_is_804(self):
        folder = self.open_folder(FILES)
        run_limited = self.limited_program()
        # (another user than root has other processes, so the first thread is refused already)
        for threads, number in ((1, 1), (1, 4), (3, 4), (3, 64), (20, 64)):
            with self.subTest(threads=threads, workers=number):
                self.assertEqual(run_limited(threads, words(number), FIRST_INPUT), (b"", b"protols: fault 804\n", 3))
                self.assertEqual(run_limited(threads, checking(number, folder)), (b"", b"protols: fault 804\n", 3))

    def test_a_thread_of_an_analysis_that_is_refused_is_804(self):
        folder = self.open_folder(FILES)
        run_limited = self.limited_program()
        data = frames([INITIALIZE, ALL_REPORTS, SHUTDOWN, EXIT])
        # The thread that reads and writes and the four workers are there, and none of the four that link. (Where that identity has other processes
        # a worker is refused already, before anything is written.)
        out, err, status = run_limited(5, words(4, "--root", folder), data)
        self.assertIn(out, (frames([INITIALIZED]), b""))
        self.assertEqual((err, status), (b"protols: fault 804\n", 3))
        if os.getuid() == 0:
            _, err, status = run_limited(64, words(4, "--root", folder), data)
            self.assertEqual((err, status), (b"", 0))

    def test_refused_memory_is_803_or_804_and_never_another_answer(self):
        folder, paths = self.large_files(PROTO3)
        reports = {"items": [report_of(f"file://{folder}/{path}", False) for path in paths]}
        whole = frames([INITIALIZED, as_body({"id": 2, "jsonrpc": "2.0", "result": reports}), SHUT])
        data, args = frames([INITIALIZE, ALL_REPORTS, SHUTDOWN, EXIT]), words(3, "--root", folder)
        self.check_with_little_memory(args, data, whole, 0)

    def test_refused_memory_in_a_check_is_803_or_804_and_never_another_answer(self):
        folder, paths = self.large_files(PROTO3 + "#\n")
        lines = "".join(f"{path}:2:1: 201 illegal character\n" for path in paths)
        self.check_with_little_memory(checking(3, folder), b"", lines.encode(), 1)

    def test_refused_memory_is_803_or_804_where_threads_make_the_lines(self):
        folder, paths = self.large_files(PROTO3 + "#\n" * 100)
        lines = "".join(f"{path}:{line}:1: 201 illegal character\n" for path in paths for line in range(2, 102))
        self.check_with_little_memory(checking(3, folder), b"", lines.encode(), 1)


class TheWords(unittest.TestCase):
    def test_numbers_of_workers_that_are_refused(self):
        for number in ("0", "65", "x", "", "+1", "-1", "1.5", "٣", "18446744073709551617"):
            for command in ("serve", "check"):
                with self.subTest(command=command, number=number):
                    out, err, status = run(b"", [command, "--workers", number])
                    self.assertEqual((out, status), (b"", 2))
                    self.assertTrue(err.startswith(b"error: "), err)
                    self.assertIn(b"--workers", err)
                    self.assertTrue(err.endswith(b"\n\nFor more information, try '--help'.\n"), err)


class Threads(WorkersTest):
    def test_there_are_as_many_threads_as_workers_and_none_is_busy(self):
        for number in (1, 7):
            with self.subTest(workers=number), Server(words(number)) as server:
                server.send(INITIALIZE)
                server.receive()
                process = pathlib.Path("/proc", str(server.process.pid))
                self.assertEqual(len(list((process / "task").iterdir())), number + 1)

                def ticks():
                    return sum(map(int, (process / "stat").read_text().rpartition(")")[2].split()[11:13]))

                time.sleep(0.2)
                before = ticks()
                time.sleep(2)
                # (a busy thread would take about 200)
                self.assertLessEqual(ticks() - before, 1)
                server.send(SHUTDOWN)
                server.send(EXIT)
                self.assertEqual(server.wait(), 0)


if __name__ == "__main__":
    unittest.main()
