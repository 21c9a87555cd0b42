#!/usr/bin/env python3
"""Writes docs/WRONG-BODIES.md, the table of all wrong bodies, from the edits themselves. The file isn't committed.

usage: wrong_bodies_table.py [--check]

An edit is a file crates/CRATE/must-fail/NAME.edit or crates/CRATE/wrong-bodies/NAME.edit. Its first two lines say what it is:

    what: the behaviour that the wrong body has
    refused by: the clause of the public call that it breaks, in parentheses the private function that is refused first

The kit's reader of edits skips both lines. With --check nothing is written. The status is 1 if an edit lacks one of its lines.
"""
import pathlib
import re
import sys

ROOT = pathlib.Path(__file__).resolve().parent.parent
DOCUMENT = ROOT / "docs/WRONG-BODIES.md"
FRONT = """# Wrong bodies

Written by `make docs`, and not committed. The last column names the public call and the clause that the edit breaks, and in parentheses
the private function, if there is one, whose own contract refuses it first. How to write an edit: CONTRIBUTING.md.
"""
FOLDERS = ("must-fail", "wrong-bodies")
HEAD = ("| Edit | In | What it breaks | What refuses it |", "|---|---|---|---|")


def crates():
    """The crates in the order of crates.txt, lowest first."""
    return [line.partition(":")[0] for line in (ROOT / "crates.txt").read_text().splitlines() if re.match(r"\w+:", line)]


def described(edit):
    """What an edit says of itself before its first `file:` line: what it breaks, and what refuses it."""
    said = {}
    for line in edit.read_text(encoding="utf-8").splitlines():
        if line.startswith("file:"):
            break
        key, colon, value = line.partition(": ")
        if colon and value.strip():
            said[key] = value.strip()
    return said.get("what"), said.get("refused by")


def edits_of(crate):
    """The edits of a crate by name, each with its folder."""
    found = [(edit.stem, folder, edit) for folder in FOLDERS for edit in (ROOT / "crates" / crate / folder).glob("*.edit")]
    return sorted(found, key=lambda one: (FOLDERS.index(one[1]), one[0]))


def table():
    """The document, and the edits that lack a line."""
    lines, lacking = [FRONT.rstrip()], []
    for crate in crates():
        edits = edits_of(crate)
        if not edits:
            continue
        lines += ["", f"## `{crate}`", "", *HEAD]
        for name, folder, edit in edits:
            what, refused = described(edit)
            if not (what and refused):
                lacking.append(edit.relative_to(ROOT).as_posix())
            lines.append(f"| `{name}` | `{folder}/` | {what or 'not described'} | {refused or 'not described'} |")
    return "\n".join(lines) + "\n", lacking


def main():
    check = sys.argv[1:] == ["--check"]
    if sys.argv[1:] and not check:
        sys.exit(__doc__)
    written, lacking = table()
    for edit in lacking:
        print(f"{edit}: no line 'what:' or no line 'refused by:'")
    if not check:
        DOCUMENT.write_text(written, encoding="utf-8")
    return 1 if lacking else 0


if __name__ == "__main__":
    sys.exit(main())
