"""Runs the tests of one file. It names those that failed or were skipped, the last line is `N passed, M failed`, and the status is 0 only if M is 0.

usage: run_file.py FILE
"""
import pathlib
import sys
import unittest


def main(words):
    file = pathlib.Path(words[0]).resolve()
    result = unittest.TextTestRunner(stream=sys.stdout, verbosity=2).run(unittest.defaultTestLoader.discover(str(file.parent), pattern=file.name))
    bad = [it for it, _ in [*result.failures, *result.errors, *result.skipped]] + result.unexpectedSuccesses
    # (parts of a test count as that test)
    names = sorted({getattr(it, "test_case", it).id() for it in bad})
    print(*(f"FAILED: {it}" for it in names), f"{max(0, result.testsRun - len(names))} passed, {len(names)} failed", sep="\n", flush=True)
    return 1 if names else 0


sys.exit(main(sys.argv[1:]))
