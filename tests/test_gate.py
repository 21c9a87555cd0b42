"""Tests of the gate's own script, on small repositories that are made here: it fails and names what is planted, and passes where nothing is."""
import os
import pathlib
import re
import subprocess
import sys
import tempfile
import unittest

import gate
from test_wrong_bodies import ABOVE, BASE, write

GATE = pathlib.Path(__file__).resolve().parent / "gate.py"
REFUSED = "file: src/lib.rt\nold:     n + 1\nnew:     n + 2\n"
PASSING = "import unittest\n\n\nclass Good(unittest.TestCase):\n    def test_good(self):\n        pass\n"
FAILING = f"{PASSING}\n    def test_bad(self):\n        self.fail()\n\n    @unittest.skip('planted')\n    def test_skipped(self):\n        pass\n"
PROGRAM = """#![tactic(auto)]

use std::io;

fn main(rt: HostRuntime) -> io::Result<()> {
    println!(rt; "said")?;
    Ok(())
}
"""


class Planted(unittest.TestCase):
    def setUp(self):
        room = tempfile.TemporaryDirectory()
        self.addCleanup(room.cleanup)
        self.root = pathlib.Path(room.name, "repository")
        write(self.root / "HANDLES", "Handles allowed: none.\n")
        write(self.root / "crates.txt", "base:\n")
        write(self.root / "crates/base/src/lib.rt", BASE)
        write(self.root / "tests/test_good.py", PASSING)

    def run_gate(self):
        """What the gate prints, and its status."""
        ran = subprocess.run([sys.executable, str(GATE), str(self.root)], stdin=subprocess.DEVNULL, stdout=subprocess.PIPE, stderr=subprocess.STDOUT, text=True)
        for part in ("rt ci", "edits", "tests"):
            self.assertRegex(ran.stdout, rf"(?m)^{part}: \d+ passed, \d+ failed; from \S+ to \S+ minutes, \S+ processor minutes$")
        return ran.stdout, ran.returncode

    def test_nothing_planted(self):
        write(self.root / "crates/base/must-fail/refused.edit", REFUSED)
        said, status = self.run_gate()
        self.assertTrue(said.endswith("\n3 passed, 0 failed\n"), said)
        self.assertEqual(status, 0, said)

        # The tree is as it was, and what was refused is tried again each time, where a proof may be kept.
        self.assertEqual(sorted(it.name for it in (self.root / "crates/base").iterdir()), ["must-fail", "src"])
        write(self.root / "crates/base/must-fail/refused.edit", REFUSED.replace("n + 2", "n"))
        write(self.root / "crates/base/wrong-bodies/verdicts.json", '{"gone.edit": {"said": "", "sum": ""}, "refused.edit": {"said": "", "sum": ""}}')
        said, status = self.run_gate()
        self.assertIn("base: 1 edits, 1 tried in 1 checks", said)
        self.assertRegex(said, r"(?m)^edits: base/gone\.edit: MISSING: .*\nedits: base/refused\.edit: MISSING: ")
        self.assertEqual((said.splitlines()[-1], status), ("3 passed, 2 failed", 1), said)

    def test_all_is_named(self):
        write(self.root / "crates.txt", "base:\nbroken:\nabove: broken\nprogram: broken\n")
        write(self.root / "crates/broken/src/lib.rt", BASE.replace("    n + 1\n", "    n + 2\n"))
        write(self.root / "crates/above/src/lib.rt", ABOVE.replace("base", "broken"))
        write(self.root / "crates/above/must-fail/untried.edit", REFUSED)
        write(self.root / "crates/program/src/main.rt", PROGRAM)
        write(self.root / "crates/program/out/program", "an older one")
        write(self.root / "crates/base/must-fail/harmless.edit", "file: src/lib.rt\nold:     n + 1\nnew:     { n + 1 }\n")
        write(self.root / "crates/base/must-fail/not_applied.edit", "file: src/lib.rt\nold: n + 7\nnew: n + 2\n")
        write(self.root / "crates/base/must-fail/no_edit.txt", REFUSED)
        write(self.root / "crates/base/must-fail/inner/deep.edit", REFUSED)
        (self.root / "crates/base/must-fail/link.edit").symlink_to("harmless.edit")
        write(self.root / "tests/test_gate.py", FAILING)
        said, status = self.run_gate()
        for line in (
            "rt ci: rt: broken NOT PROVED",
            "rt ci: rt: program NOT PROVED: its library broken failed",
            "edits: base/must-fail/harmless.edit: NOT REFUSED: ",
            "edits: base/must-fail/not_applied.edit: BAD EDIT: ",
            "edits: base/must-fail/no_edit.txt: BAD EDIT: ",
            "edits: base/must-fail/deep.edit: BAD EDIT: ",
            "edits: base/must-fail/link.edit: BAD EDIT: ",
            "edits: those of above were not tried",
            "tests: FAILED: test_gate.Good.test_bad",
            "tests: FAILED: test_gate.Good.test_skipped",
            "tests: the program program was not built",
        ):
            self.assertRegex(said, f"(?m)^{re.escape(line)}")
        self.assertNotIn("test_good.Good", said)
        self.assertFalse((self.root / "crates/program/out/program").exists())
        # (of four crates one, and of its five edits none; of the tests those of the tools, one of three, and not the others)
        self.assertEqual((said.splitlines()[-1], status), ("2 passed, 12 failed", 1), said)

    def test_a_file_out_of_layout(self):
        write(self.root / "crates/base/lost.rt", BASE)
        said, status = self.run_gate()
        self.assertRegex(said, r"(?m)^rt ci: .*lost\.rt")
        self.assertEqual((said.splitlines()[-1], status), ("1 passed, 1 failed", 1), said)

    def test_no_copy(self):
        os.mkfifo(self.root / "crates/base/pipe")
        said, status = self.run_gate()
        self.assertRegex(said, r"(?m)^rt ci: the copy of the repository can't be made: .*pipe")
        self.assertEqual((said.splitlines()[-1], status), ("0 passed, 1 failed", 1), said)


class Lines(unittest.TestCase):
    """What the gate reads of a part's lines."""

    def test_two_at_once(self):
        told, part = [], gate.Part("rt ci", 1, 0)
        lines = [*(f"rt: {it} NOT PROVED: its library low failed" for it in ("one", "two")), "rt: three: its tests are NOT PROVED", "rt: four proved"]
        part.run(["printf", "%s%s%s%s\n\n\n\n1 passed, 3 failed\n", *lines], "/", told.append)
        self.assertEqual(told, [*lines, *3 * [""], "1 passed, 3 failed"])
        self.assertEqual(part.named, [f"rt ci: {it}" for it in lines[:3]])
        self.assertEqual((part.passed, part.failed), (1, 3))


class Programs(unittest.TestCase):
    """What the tests in tests/ run."""

    def test_programs_are_taken(self):
        with tempfile.TemporaryDirectory() as room:
            root = pathlib.Path(room, "repository")
            for name in ("one", "two"):
                write(root / "crates" / name / "src/main.rt", PROGRAM)
            gates = gate.Gate(root, pathlib.Path(room))
            write(gates.copy / "crates/one/out/one", "built")
            write(root / "crates/two/out/two", "an older one")
            self.assertEqual(gates.take_programs(), ["two"])
            self.assertEqual((root / "crates/one/out/one").read_text(), "built")
            self.assertFalse((root / "crates/two/out/two").exists())


if __name__ == "__main__":
    unittest.main()
