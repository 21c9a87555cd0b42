"""Tests of the wrong bodies' edits themselves: each can be applied. That the prover refuses them is for `rt ci` and tools/wrong_bodies.py to say."""
import pathlib
import sys
import unittest

ROOT = pathlib.Path(__file__).resolve().parent.parent
sys.path.insert(0, str(ROOT / "tools"))
import kit


class EditsTest(unittest.TestCase):
    def test_each_edit_can_be_applied(self):
        edits = sorted([*ROOT.glob("crates/*/must-fail/*.edit"), *ROOT.glob("crates/*/wrong-bodies/*.edit")])
        self.assertGreater(len(edits), 285)
        bad = {}
        for edit in edits:
            _, why = kit.rt.read_edit(str(edit), str(edit.parent.parent))
            if why:
                bad[str(edit.relative_to(ROOT))] = why
        self.assertEqual(bad, {})

    def test_each_edit_says_what_it_does(self):
        for edit in sorted([*ROOT.glob("crates/*/must-fail/*.edit"), *ROOT.glob("crates/*/wrong-bodies/*.edit")]):
            with self.subTest(edit=edit.name):
                heads = [line.partition(":")[0] for line in edit.read_text(encoding="utf-8").splitlines()[:3]]
                self.assertEqual(heads, ["what", "refused by", "file"])


if __name__ == "__main__":
    unittest.main()
