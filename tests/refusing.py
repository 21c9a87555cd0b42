"""Runs programs whose calls fail: an allocation, the start of a thread, a read or a write, each by its number (refusing.c)."""
import atexit
import concurrent.futures
import functools
import os
import pathlib
import shutil
import subprocess
import tempfile

SOURCE = pathlib.Path(__file__).with_name("refusing.c")

# The seconds after which a run that hasn't ended is a failure.
LIMIT = 60


@functools.cache
def library():
    """What is loaded before a program to make its calls fail. It is compiled once."""
    folder = tempfile.mkdtemp()
    atexit.register(shutil.rmtree, folder)
    file = f"{folder}/refusing.so"
    subprocess.run([os.environ.get("CC", "gcc"), "-O2", "-shared", "-fPIC", "-o", file, SOURCE], check=True)
    return file


class Run:
    """A run of a program on these bytes with these settings of refusing.c: what came of it, whether the one call was refused, and how many threads started."""

    def __init__(self, words, input_bytes, settings):
        reader, writer = os.pipe()
        given = {**os.environ, "LD_PRELOAD": library(), "TOLD": str(writer), **{name: str(number) for name, number in settings.items()}}
        try:
            done = subprocess.run(words, input=input_bytes, capture_output=True, env=given, pass_fds=[writer], timeout=LIMIT)
        finally:
            os.close(writer)
            with os.fdopen(reader, "rb") as told:
                said = told.read()
        self.is_refused, self.threads = b"!" in said, said.count(b"t")
        self.settings = settings
        self.out, self.err, self.status = done.stdout, done.stderr, done.returncode

    def __repr__(self):
        return f"{self.settings}: status {self.status}, {self.err[-300:]!r}, {self.out[-300:]!r}"


def runs(words, input_bytes, settings):
    """The runs with each of these settings, in their order, several at once."""
    library()
    with concurrent.futures.ThreadPoolExecutor(os.cpu_count()) as pool:
        yield from pool.map(lambda one: Run(words, input_bytes, one), settings)


def refused_runs(words, input_bytes=b"", name="REFUSE_ALLOCATION"):
    """The runs of which the first call of a kind fails, the second, and so on, until one ends before its call of that number."""
    at_once = 4 * (os.cpu_count() or 1)
    first = 1
    while True:
        for run in runs(words, input_bytes, [{name: number} for number in range(first, first + at_once)]):
            if not run.is_refused:
                return
            yield run
        first += at_once
