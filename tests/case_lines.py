"""The notation of cases: lines of fields, as crates/library_cases/README.md writes them down, the files of tests/cases/, and the program of cases.

In such a file each line that isn't empty, a remark or a `let` is a case, and the line behind it, with `= ` at the front, is the answer that has to come.
"""
import pathlib
import re
import subprocess
import typing

FOLDER = pathlib.Path(__file__).resolve().parent / "cases"
PROGRAM = FOLDER.parent.parent / "crates/session_cases"

SYNTAX = 'syntax = "proto3";\n'
# Characters that stand for those that a line can't hold.
MARKS = {"|": "\n", "␍": "\r", "␉": "\t", "␋": "\v", "␌": "\f", "␀": "\0", "␡": "\x7f", "␣": "\xa0", "␂": "\ufeff"}
SHOWN = {MARKS[mark]: mark for mark in "|␍␉␀␡"}


class Case(typing.NamedTuple):
    """A case: where it stands, its call, its fields and the answer that has to come."""

    place: str
    call: str
    fields: list
    answer: str

    def text(self, number=0):
        """The text that a field stands for."""
        return plain(self.fields[number])

    def files(self, mark=""):
        """The files of the fields that have this mark, or none, at the front: each a path and a text."""
        marks = ("> ", "? ")
        own = [it.removeprefix(mark) for it in self.fields if (it.startswith(mark) if mark else not it.startswith(marks))]
        return [(path, plain(text)) for path, _, text in (it.partition(" ") for it in own)]

    def marked(self, mark):
        """The fields with this mark at the front, without it."""
        return [it.removeprefix(mark) for it in self.fields if it.startswith(mark)]


def plain(field):
    """The text that a field stands for."""
    front, body = (SYNTAX, field[2:]) if field.startswith("S|") else ("", field)
    return front + "".join(MARKS.get(it, it) for it in body)


def shown(text):
    """A text as a field, with no `S|`."""
    return "".join(SHOWN.get(it, it) for it in text)


def expanded(line, names):
    """A line with each `⟦name⟧` as the piece of that name, and each `⟦3 piece⟧` as the piece three times."""

    def piece(found):
        times, space, again = found[1].partition(" ")
        return int(times) * again if space and times.isdigit() else names[found[1]]

    return re.sub("⟦([^⟧]*)⟧", piece, line)


def cases_of(name):
    """The cases of a file."""
    names, cases, given = {}, [], None
    for number, line in enumerate((FOLDER / name).read_text(encoding="utf-8").split("\n"), 1):
        if given is not None:
            if line != "=" and not line.startswith("= "):
                raise AssertionError(f"{name}:{number}: no answer")
            place, (call, *fields) = given
            cases.append(Case(place, call, fields, expanded(line[2:], names)))
            given = None
        elif line.startswith("let "):
            word, _, piece = line.removeprefix("let ").partition(" :: ")
            names[word] = expanded(piece, names)
        elif line and not line.startswith("#"):
            given = f"{name}:{number}", expanded(line, names).split(" :: ")
    if given is not None or not cases:
        raise AssertionError(f"{name}: a case without an answer, or no case")
    return cases


def program_cases():
    """The lines of the program of cases, with their names written out, and its answers."""
    given, answers = ((PROGRAM / name).read_text(encoding="utf-8").split("\n") for name in ("stdin", "stdout"))
    names, cases = {}, []
    for line, answer in zip(given, answers, strict=True):
        whole = expanded(line, names)
        if line.startswith("let "):
            word, _, names[word] = whole.removeprefix("let ").partition(" :: ")
        elif line and not line.startswith("#"):
            cases.append((whole, answer))
    return cases


def case_program():
    """The program of cases, which is built if it isn't there."""
    program = PROGRAM / "out" / PROGRAM.name
    if not program.is_file():
        subprocess.run(["rt", "run"], cwd=PROGRAM, stdin=subprocess.DEVNULL, capture_output=True)
    return str(program)
