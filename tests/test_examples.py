"""End-to-end test of the example tree, which `make run` checks: its lines are the stored ones, and one file alone is at fault."""
import pathlib
import shutil
import tempfile
import unittest

import stream

EXAMPLES = stream.ROOT / "examples"
FAULTY = "shop/faulty.proto"


def check(root):
    """What `protols check` writes on standard output, and its status."""
    lines, _, status = stream.check_with_each(("--root", root))
    return lines.decode(), status


class Examples(unittest.TestCase):
    def test_the_lines_are_the_stored_ones(self):
        lines, status = check(EXAMPLES / "protos")
        self.assertEqual((lines, status), ((EXAMPLES / "check.stdout").read_text(), 1))
        self.assertEqual({line.partition(":")[0] for line in lines.splitlines()}, {FAULTY})

    def test_nothing_is_wrong_without_the_faulty_file(self):
        with tempfile.TemporaryDirectory() as holder:
            copy = pathlib.Path(holder) / "protos"
            shutil.copytree(EXAMPLES / "protos", copy)
            (copy / FAULTY).unlink()
            self.assertEqual(check(copy), ("", 0))


if __name__ == "__main__":
    unittest.main()
