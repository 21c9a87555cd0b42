"""End-to-end tests of what the program takes of the machine: the stack of a thread, and memory for long replies and for texts that nobody asks about."""
import os
import resource
import subprocess
import sys
import tempfile
import unittest

import hostile
import stream
from test_serve import A, ASK, EXIT, INITIALIZE, INITIALIZED, PROTO3, SHUT, SHUTDOWN, opening

MEBIBYTE = 1 << 20

# The stack that each thread has in the tests of deep texts.
STACK = MEBIBYTE

# Runs a command with standard input from a file, with at most so much address space if that isn't 0, and prints its status, the most memory that was
# resident, in KiB, and how many bytes it wrote, of which it shows a digest. What the system says of a process counts the memory of the one that started it, so
# a small one does.
MEASURE = """
import hashlib, os, resource, sys
source, most, words = sys.argv[1], int(sys.argv[2]), sys.argv[3:]
out, theirs = os.pipe()
pid = os.fork()
if pid == 0:
    os.dup2(os.open(source, os.O_RDONLY), 0)
    os.dup2(theirs, 1)
    os.close(out)
    os.close(theirs)
    if most:
        resource.setrlimit(resource.RLIMIT_AS, (most, most))
    os.execv(words[0], words)
os.close(theirs)
total, seen = 0, hashlib.sha256()
while piece := os.read(out, 1 << 20):
    total += len(piece)
    seen.update(piece)
_, status, used = os.wait4(pid, 0)
print(os.waitstatus_to_exitcode(status), used.ru_maxrss, total, seen.hexdigest())
"""


def measured(data, words, most=0):
    """Runs the program on these bytes: its status, the most memory that was resident, how many bytes it wrote, a digest of these, and standard error."""
    with tempfile.NamedTemporaryFile() as source:
        source.write(data)
        source.flush()
        command = [sys.executable, "-I", "-S", "-c", MEASURE, source.name, str(most), *stream.command(words)]
        run = subprocess.run(command, stdin=subprocess.DEVNULL, capture_output=True, text=True, timeout=stream.LIMIT)
    status, kilobytes, written, digest = run.stdout.split()
    return int(status), int(kilobytes) << 10, int(written), digest, run.stderr


def little_stack():
    resource.setrlimit(resource.RLIMIT_STACK, (STACK, STACK))


class LittleStack(unittest.TestCase):
    def expect_same(self, data, words, cwd=None):
        """The program does the same with a small stack as with the usual one, with 1 and with 64 workers."""
        usual = subprocess.run(stream.command(words), input=data, capture_output=True, cwd=cwd, timeout=stream.LIMIT)
        for workers in ("1", "64"):
            small = subprocess.run(
                stream.command((*words, "--workers", workers)), input=data, capture_output=True, cwd=cwd, timeout=stream.LIMIT, preexec_fn=little_stack
            )
            self.assertEqual((small.stdout, small.stderr, small.returncode), (usual.stdout, usual.stderr, usual.returncode), f"{workers} workers")
        return usual

    def test_deep_texts(self):
        texts = [hostile.deep_messages(64), hostile.deep_messages(65), hostile.deep_option(100_000), hostile.deep_messages(100_000)]
        for text in texts:
            with self.subTest(text[:40]):
                data = stream.frames([INITIALIZE, opening(A, text), ASK, SHUTDOWN, EXIT])
                self.assertEqual(self.expect_same(data, ("serve",)).returncode, 0)
        with tempfile.TemporaryDirectory() as folder:
            for number, text in enumerate(texts):
                with open(os.path.join(folder, f"{number}.proto"), "w") as file:
                    file.write(text)
            lines = self.expect_same(b"", ("check", "--root", folder))
        self.assertEqual((lines.stdout, lines.returncode), (b"1.proto:2:641: 203 blocks nested too deep\n3.proto:2:641: 203 blocks nested too deep\n", 1))

    def test_deep_json(self):
        data = stream.frames([INITIALIZE, "[" * 127 + "]" * 127, "[" * 128 + "]" * 128, "[" * 1_000_000, SHUTDOWN, EXIT])
        self.assertEqual(self.expect_same(data, ("serve",)).returncode, 0)


class LongReplies(unittest.TestCase):
    # So many signs have a reply that is longer than the longest message that is read.
    SIGNS = 1_000_000

    def test_memory_is_at_most_3_times_the_reply_or_refused(self):
        data = stream.frames([INITIALIZE, opening(A, PROTO3 + "#" * self.SIGNS), ASK, SHUTDOWN, EXIT])
        status, memory, written, digest, err = measured(data, ("serve",))
        self.assertEqual((status, err), (0, ""))
        self.assertGreater(written, 67_108_864)
        self.assertLessEqual(memory, 3 * written)
        ends = set()
        # What the heaps of the threads keep for later counts as address space too, so the last of these is plenty.
        for most in (written // 4, written, 2 * written, 6 * written):
            with self.subTest(megabytes=most >> 20):
                ended = measured(data, ("serve", "--workers", "1"), most)
                if ended[0] == 0:
                    self.assertEqual(ended[2:4], (written, digest))
                else:
                    # The reply to `initialize` went out, and nothing of the long one.
                    self.assertEqual((ended[0], ended[2], ended[4]), (3, len(stream.frame(INITIALIZED)), "protols: fault 803\n"))
                ends.add(ended[0])
        self.assertEqual(ends, {0, 3})


if __name__ == "__main__":
    unittest.main()
