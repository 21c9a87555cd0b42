"""The gate: every proof and every crate's tests from nothing, by `rt ci`; the edits of must-fail/, and the wrong bodies that have no current verdict; the
tests in tests/.

usage: gate.py [ROOT]

The tests of the tools come first: they prove small repositories of their own, for which the proofs would leave no processor. `rt ci` runs over a copy
of the repository without must-fail/, since it would prove a crate once more for its edits there. As soon as it has proved a crate,
tools/wrong_bodies.py tries the crate's edits over the libraries that it has built, those of must-fail/ each time. The tests of the program run once it is
built. All this gives way to the proofs. A check has one job, and there are as many at a time as processors and memory allow. Of the working tree only
the built programs change.

The last lines name what failed and say how long each part took. The last one is `N passed, M failed`, and the status is 0 only if M is 0.
"""
import os
import pathlib
import re
import shutil
import subprocess
import sys
import tempfile
import threading
import time
from concurrent.futures import ThreadPoolExecutor

HERE = pathlib.Path(__file__).resolve().parent
sys.path.insert(0, str(HERE.parent / "tools"))
import kit  # noqa: E402

# The lines of `rt ci`, run_file.py and tools/wrong_bodies.py that name what failed, those that count, and that of a crate whose library `rt ci` has.
NAMES_A_FAILURE = re.compile(r"rt: .*(NOT PROVED|FAILED)|FAILED: |\S+: (NAMES ONLY|NOT REFUSED|BAD EDIT|UNPROVED|MISSING): ")
COUNTS = re.compile(r"(\d+) (?:passed|refused), (\d+) (?:failed|not)$")
PROVED = re.compile(r"rt: (\w+) (?:proved$|is kept: )")
# Where a line of `rt ci` on a crate begins: two of its threads that print at once do so on one line.
BEGINS = re.compile(r"(?=rt: \w+(?:: its tests are)? (?:proved$|is kept: |NOT PROVED))")
# The memory that a proof at one job and a check of edits have been seen to take, in bytes.
OF_A_PROOF, OF_EDITS = 4_500_000_000, 2_000_000_000
STARTED, TURN = time.time(), threading.Lock()


class Part:
    """A part of the gate, so many commands at a time: how many passed and failed, a line for each failure that has a name, and what it took."""

    def __init__(self, name, lanes, nice):
        self.name, self.nice, self.pool, self.begun = name, nice, ThreadPoolExecutor(lanes), []
        self.passed, self.failed, self.named, self.began, self.ended, self.seconds = 0, 0, [], None, STARTED, 0.0

    def start(self, words, cwd):
        """Runs a command once there is a lane."""
        self.begun.append(self.pool.submit(self.run, words, cwd))

    def run(self, words, cwd, told=None, env={}):
        """Runs a command, and adds what it says. Each line is given to a call as it comes, or else all are shown at the end."""
        self.began = self.began or time.time()
        how = {"stdin": subprocess.DEVNULL, "stdout": subprocess.PIPE, "stderr": subprocess.STDOUT, "text": True, "errors": "replace"}
        with subprocess.Popen(["nice", "-n", str(self.nice), *words], cwd=cwd, env={**os.environ, **env}, **how) as ran:
            lines = []
            for line in ran.stdout:
                for said in [it for it in BEGINS.split(line.rstrip("\n")) if it] or [""]:
                    lines.append(said)
                    if told:
                        told(said)
            _, status, used = os.wait4(ran.pid, 0)
            ran.returncode = os.waitstatus_to_exitcode(status)
        with TURN:
            print(*([] if told else lines), sep="\n", end="" if told else "\n", flush=True)
            self.seconds, self.ended = self.seconds + used.ru_utime + used.ru_stime, time.time()
        found = [(int(it[1]), int(it[2])) for it in map(COUNTS.match, lines) if it]
        passed, failed = found[-1] if found else (0, 1)
        failed = failed or int(ran.returncode != 0)
        named = [it for it in lines if NAMES_A_FAILURE.match(it)] or [it for it in lines if it and not COUNTS.match(it)][-1:]
        self.add(passed, failed, named if failed else [])

    def add(self, passed, failed, named):
        with TURN:
            self.passed, self.failed, self.named = self.passed + passed, self.failed + failed, self.named + [f"{self.name}: {it}" for it in named]

    def wait(self):
        for it in self.begun:
            it.result()

    def __str__(self):
        began, ended = [(it - STARTED) / 60 for it in (self.began or STARTED, self.ended)]
        return f"{self.name}: {self.passed} passed, {self.failed} failed; from {began:.1f} to {ended:.1f} minutes, {self.seconds / 60:.1f} processor minutes"


class Gate:
    """The parts of the gate over a repository, in a folder that is removed afterwards."""

    def __init__(self, root, room):
        self.root, self.copy, self.apart = root, room / "copy", room / "must-fail"
        processors, memory = kit.rt.processors(), 0.85 * kit.rt.free()
        self.lanes = max(1, min(processors, int((memory - OF_EDITS) / OF_A_PROOF)))
        self.edits = Part("edits", max(1, min(processors, int(memory / OF_EDITS) - self.lanes)), kit.GIVES_WAY)
        self.ci, self.tests = Part("rt ci", 1, 0), Part("tests", processors, kit.GIVES_WAY)
        self.programs = [it.parent.parent.name for it in sorted(root.glob("crates/*/src/main.rt"))]

    def copy_files(self):
        """Copies the repository for `rt ci`, without what was built; the edits of must-fail/ lie apart."""
        left = {str(self.root): {".git", "out"}, **{str(it): {"out"} for it in self.root.glob("crates/*")}}
        shutil.copytree(self.root, self.copy, symlinks=True, ignore=lambda at, names: left.get(at, set()) & {*names})
        # (it is the top of a repository)
        (self.copy / ".git").mkdir()
        self.apart.mkdir()
        for it in self.copy.glob("crates/*/must-fail"):
            # (a link is for rt ci to refuse)
            if not it.is_symlink():
                it.rename(self.apart / it.parent.name)
        self.untried = {it.parent.name for it in self.copy.glob("crates/*/wrong-bodies")} | {*os.listdir(self.apart)}

    def told(self, line):
        """Has a crate's edits tried once `rt ci` says that it is proved."""
        with TURN:
            print(line, flush=True)
        found = PROVED.match(line)
        if found and found[1] in self.untried:
            self.untried.remove(found[1])
            words = ["--gate", "--jobs", "1", "--root", str(self.copy), "--apart", str(self.apart)]
            self.edits.start([sys.executable, str(kit.ROOT / "tools/wrong_bodies.py"), found[1], *words], self.copy)

    def start_tests(self, names):
        for name in names:
            self.tests.start([sys.executable, str(HERE / "run_file.py"), f"tests/{name}"], self.root)

    def take_programs(self):
        """Puts the programs that `rt ci` has built where the tests run them, and says which weren't built."""
        for name in self.programs:
            made, to = (it / "crates" / name / "out" / name for it in (self.copy, self.root))
            to.unlink(missing_ok=True)
            if made.is_file():
                to.parent.mkdir(exist_ok=True)
                shutil.copy2(made, to)
        return [it for it in self.programs if not (self.root / "crates" / it / "out" / it).is_file()]

    def run(self):
        of_tools, others = kit.tests_in(self.root)
        self.start_tests(of_tools)
        self.tests.wait()
        self.ci.run(["rt", "ci"], self.copy, self.told, {"RT_JOBS": str(self.lanes)})
        lacking = self.take_programs()
        for name in lacking:
            self.tests.add(0, 1, [f"the program {name} was not built, so only the tests of the tools were run"])
        self.start_tests([] if lacking else others)
        for crate in sorted(self.untried):
            self.edits.add(0, 1, [f"those of {crate} were not tried, since it is not proved"])
        for it in (self.edits, self.tests):
            it.wait()


def main(words):
    root = pathlib.Path(words[0] if words else HERE.parent).resolve()
    with tempfile.TemporaryDirectory(prefix="gate-") as room:
        gate = Gate(root, pathlib.Path(room))
        try:
            gate.copy_files()
        except (OSError, shutil.Error) as why:
            gate.ci.add(0, 1, [f"the copy of the repository can't be made: {why}"])
        else:
            gate.run()
    parts = [gate.ci, gate.edits, gate.tests]
    for it in parts:
        print(*it.named, sep="\n", end="\n" * bool(it.named))
    passed, failed = sum(it.passed for it in parts), sum(it.failed for it in parts)
    used = sum(it.seconds for it in parts) + sum(os.times()[:2])
    print(*parts, f"all: {(time.time() - STARTED) / 60:.1f} minutes, {used / 60:.1f} processor minutes", f"{passed} passed, {failed} failed", sep="\n", flush=True)
    return 0 if failed == 0 else 1


if __name__ == "__main__":
    sys.exit(main(sys.argv[1:]))
