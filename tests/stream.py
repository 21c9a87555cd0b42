"""What the tests of `protols serve` share: frames of the base protocol, whole runs of the program, and live dialogues."""
import json
import os
import pathlib
import select
import subprocess
import time

ROOT = pathlib.Path(__file__).resolve().parent.parent
PROGRAM = pathlib.Path(os.environ.get("PROTOLS", ROOT / "crates/protols/out/protols"))

# The seconds after which a run that hasn't ended, or a reply that hasn't come, is a failure; and those for a run of `check`.
LIMIT = 60
CHECK_LIMIT = 120

# The most bytes of a reply that are read at once.
PIECE = 1 << 20

# The numbers of workers that the tests try, besides the default.
NUMBERS = (1, 3, 4, 64)

SEPARATOR = b"\r\n\r\n"

# The params of `initialize` of a client that asks for diagnostics. To one that doesn't say so they are published.
PULLING = {"capabilities": {"textDocument": {"diagnostic": {}}}}


def command(args=("serve",)):
    """The words that start the program. A program that isn't there is a failure and never a test passed over."""
    if not PROGRAM.is_file():
        raise AssertionError(f"the program isn't there: build {PROGRAM}, or name another one in the variable PROTOLS")
    return [str(PROGRAM), *args]


def frame(body):
    """A body, text or bytes, as a frame of the Language Server Protocol's base protocol."""
    data = body.encode() if isinstance(body, str) else body
    return b"Content-Length: %d\r\n\r\n%b" % (len(data), data)


def frames(bodies):
    """The bodies as frames, one behind the other."""
    return b"".join(map(frame, bodies))


def document_bodies(text):
    """What an editor sends that opens a text, asks for its diagnostics under the id 2, and ends the session."""
    uri = "file:///w/a.proto"
    messages = [
        {"id": 1, "method": "initialize", "params": PULLING},
        {"method": "textDocument/didOpen", "params": {"textDocument": {"uri": uri, "version": 1, "text": text}}},
        {"id": 2, "method": "textDocument/diagnostic", "params": {"textDocument": {"uri": uri}}},
        {"id": 3, "method": "shutdown"},
        {"method": "exit"},
    ]
    return [json.dumps({"jsonrpc": "2.0", **message}) for message in messages]


def split_frames(data):
    """The bodies of frames as the server writes them. Anything but whole frames is a failure."""
    bodies = []
    while data:
        header, separator, rest = data.partition(SEPARATOR)
        name, _, digits = header.partition(b": ")
        if name != b"Content-Length" or not digits.isdigit() or not separator or len(rest) < int(digits):
            raise AssertionError(f"no whole frame begins with {data[:100]!r}")
        bodies.append(rest[: int(digits)])
        data = rest[int(digits) :]
    return bodies


def run(input_bytes, args=("serve",)):
    """Runs the program on these bytes, which then end: its standard output, standard error and exit status."""
    try:
        done = subprocess.run(command(args), input=input_bytes, capture_output=True, timeout=LIMIT)
    except subprocess.TimeoutExpired:
        raise AssertionError(f"no end within {LIMIT} seconds") from None
    return done.stdout, done.stderr, done.returncode


def check(words, cwd=None, quiet=True):
    """Runs `protols check` with these options: its standard output, standard error and exit status. If it is quiet, it doesn't say how much it checked."""
    words = (*(["--quiet"] if quiet else []), *map(str, words))
    done = subprocess.run(command(("check", *words)), stdin=subprocess.DEVNULL, capture_output=True, cwd=cwd, timeout=CHECK_LIMIT)
    return done.stdout, done.stderr, done.returncode


def check_with_each(words, cwd=None, quiet=True):
    """The same, where it has to be the same with each number of workers."""
    said = check(words, cwd, quiet)
    for number in NUMBERS:
        if check(("--workers", number, *words), cwd, quiet) != said:
            raise AssertionError(f"with {number} workers `check` says another thing")
    return said


class Server:
    """A running program whose input stays open while its replies are read. What it says while it is told something is kept: neither waits for the other."""

    def __init__(self, args=("serve",), program=None):
        pipe = subprocess.PIPE
        self.process = subprocess.Popen([program, *args] if program else command(args), stdin=pipe, stdout=pipe, stderr=pipe, bufsize=0)
        os.set_blocking(self.process.stdin.fileno(), False)
        self.heard = bytearray()

    def __enter__(self):
        return self

    def __exit__(self, *_):
        if self.process.poll() is None:
            self.process.kill()
        self.process.communicate()

    def send(self, body):
        """Sends one frame, in one write where the pipe takes it."""
        self.send_bytes(frame(body))

    def send_bytes(self, data):
        """Sends these bytes as they are."""
        data = data[self.process.stdin.write(data) or 0 :]
        while data:
            out = [] if self.process.stdout.closed else [self.process.stdout]
            readable, writable, _ = select.select(out, [self.process.stdin], [])
            if readable:
                self.heard += os.read(self.process.stdout.fileno(), PIECE)
            if writable:
                data = data[self.process.stdin.write(data) or 0 :]

    def receive(self, timeout=None):
        """The body of the next frame."""
        deadline = time.monotonic() + (timeout or LIMIT)
        while SEPARATOR not in self.heard:
            self._hear(deadline)
        start = self.heard.index(SEPARATOR)
        digits = self.heard[:start].removeprefix(b"Content-Length: ")
        if not digits.isdigit():
            raise AssertionError(f"not the header of a frame: {bytes(self.heard[:start])!r}")
        del self.heard[: start + len(SEPARATOR)]
        return self.receive_bytes(int(digits), timeout)

    def receive_bytes(self, count, timeout=None):
        """The next so many bytes."""
        deadline = time.monotonic() + (timeout or LIMIT)
        while len(self.heard) < count:
            self._hear(deadline)
        data = bytes(self.heard[:count])
        del self.heard[:count]
        return data

    def is_silent(self, seconds):
        """Whether nothing, not even the end of the output, comes for that long."""
        return not self.heard and not self._is_readable(seconds)

    def wait(self, timeout=LIMIT):
        """The exit status of a program that has to end although its input stays open."""
        try:
            return self.process.wait(timeout)
        except subprocess.TimeoutExpired:
            raise AssertionError(f"no end within {timeout} seconds, while the input is open") from None

    def close(self, timeout=LIMIT):
        """Ends the input: the rest of standard output, standard error and the exit status."""
        try:
            out, err = self.process.communicate(timeout=timeout)
        except subprocess.TimeoutExpired:
            raise AssertionError(f"no end within {timeout} seconds behind the end of the input") from None
        return bytes(self.heard) + out, err, self.process.returncode

    def _is_readable(self, seconds):
        return bool(select.select([self.process.stdout], [], [], max(seconds, 0))[0])

    def _hear(self, deadline):
        if not self._is_readable(deadline - time.monotonic()):
            raise AssertionError("no reply came in time, while the input is open")
        data = os.read(self.process.stdout.fileno(), PIECE)
        if not data:
            raise AssertionError("the output ended in place of a reply")
        self.heard += data
