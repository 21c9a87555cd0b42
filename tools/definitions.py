#!/usr/bin/env python3
"""Writes the lists of docs/DEFINITIONS.md from the sources: each file of definitions with its headline, and each law with its statement.

usage: definitions.py [--check]

A headline is the first sentence of the comment at the front of crates/CRATE/specs/*.antt, a law's statement that of the comment on its function, which
begins with 'A law'. A file is for private steps if no contract of a public call and no definition that such a contract cites, directly or through others,
takes a word from it. The lists stand between the two markers of the document; the rest of it is written by hand. With --check nothing is written,
and the status is 1 if the document isn't current.
"""
import bisect
import pathlib
import re
import sys

ROOT = pathlib.Path(__file__).resolve().parent.parent
DOCUMENT = ROOT / "docs/DEFINITIONS.md"
BEGIN, END = "<!-- begin: written by tools/definitions.py -->", "<!-- end -->"

# The best order to read the files of a crate in, if it isn't that of its specs/Lib.antt. A file that isn't named comes last.
ORDER = {
    "lsp_frame": "Header Grammar Stream StreamLaws Counts Devices FrameReader Reading Writing Fault".split(),
    "proto_lex": "Bytes Numbers NumberForms Forms Trivia Kinds Tokens Rest Laws Characters".split(),
    "proto_tree": "Lexeme Cut Parts Forms Grammar Read Names Identifiers".split(),
    "proto_decls": "Text FullNames Numbers Tree Members Decls Problems Diags Order Checks Facts IdentifierLaws Nesting".split(),
    "import_graph": "Paths Imports Walks Views Closures Outlooks Laws".split(),
    "proto_names": "Files Outlines Packages Holders Hashed Entries Buckets".split(),
    "proto_resolve": "Sites Names Uses Finding FindingLaws ViewDiagnostics Resolved Laws DiagnosticLaws Seen Outlines".split(),
    "doc_text": "Lines Positions Edits Laws".split(),
    "piece_collector": "Events History Views Board Runs Fault Laws".split(),
    "work_index": "Workspace Pieces".split(),
    "work_shares": "Diagnosis Unchecked Fault".split(),
    "work_changes": ["Changes"],
    "work_meaning": "Bindings Edited".split(),
    "work_update": ["Updates"],
    "work_files": "Files Roots Texts Disk View".split(),
    "work_space": "BoardTexts View".split(),
    "lsp_answers": "Context Questions Answers Reports Diagnostics Ranges Views".split(),
    "lsp_core": "Session Core Run View".split(),
    "lsp_runs": ["Listed"],
}

LAW = re.compile(r"((?:^///.*\n)+)pub fn (\w+)\(", re.MULTILINE)
WORD = re.compile(r"[^\W\d]\w*")
# What a file takes from files of definitions: their words, or one name for all of them.
TAKEN = re.compile(r"use Rattle\.(\w+)\.specs\.(\w+)(?:\.\{([^}]*)\}|(?: as (\w+))?;?$)", re.MULTILINE)
CHUNK = re.compile(r"^(?=(?:  )?(?:abbrev|unfoldable|(?:pub )?(?:data|record)) )", re.MULTILINE)
DECLARED = re.compile(r" *(?:abbrev |unfoldable )?(?:pub )?(?:data |record )?(\w+)")
FUNCTION = re.compile(r"^ *(pub |pub\(\w+\) )?(?:const |unsafe )*fn (\w+)", re.MULTILINE)
CLAUSE = re.compile(r"^ +(?:ensures|requires) *(\w*)[^{\n]*\{", re.MULTILINE)
OWNER = re.compile(r"^(?:pub (trait) (\w+)|impl\b(.*?) ?\{$|\})", re.MULTILINE)


def crates():
    """The crates of the repository, in the order of crates.txt, lowest first."""
    return [line.partition(":")[0] for line in (ROOT / "crates.txt").read_text().splitlines() if re.match(r"\w+:", line)]


def front_comment(path, mark):
    """The comment at the front of a file, on one line."""
    lines = path.read_text(encoding="utf-8").splitlines()
    while lines and not lines[0].startswith(mark):
        lines.pop(0)
    taken = []
    while lines and lines[0].startswith(mark) and lines[0] != mark.strip():
        taken.append(lines.pop(0)[len(mark):].strip())
    return " ".join(taken)


def first_sentence(text):
    return re.split(r"(?<=\.) (?=[A-Z`(])", text)[0]


def named_files(crate):
    """The files of definitions of a crate, as its specs/Lib.antt names them."""
    library = ROOT / "crates" / crate / "specs/Lib.antt"
    return re.findall(r"^pub mod (\w+)", library.read_text(), re.MULTILINE) if library.is_file() else []


def words_of_file(text):
    """What each word of a file may mean: the word of a file of definitions, as (crate, file, word); and the names of whole files."""
    words, whole = {}, {}
    for crate, file, names, name in TAKEN.findall(text):
        for word in WORD.findall(names):
            words[word] = (crate, file, word)
        if not names:
            whole[name or file] = (crate, file)
    return words, whole


def cited(text, words, whole):
    """The words of files of definitions that stand in a text."""
    found = {words[word] for word in WORD.findall(text) if word in words}
    return found | {(*whole[name], word) for name, word in re.findall(r"\b(\w+)\.(\w+)", text) if name in whole}


def definitions():
    """What each definition cites, by its crate, its file and its word."""
    cites = {}
    for crate in crates():
        for file in named_files(crate):
            text = (ROOT / "crates" / crate / "specs" / f"{file}.antt").read_text(encoding="utf-8")
            words, whole = words_of_file(text)
            said = {DECLARED.match(chunk)[1]: chunk for chunk in CHUNK.split(text)[1:]}
            # A file may show words of another one again.
            cites.update({(crate, file, word): {place} for word, place in words.items()})
            words.update({word: (crate, file, word) for word in said})
            cites.update({(crate, file, word): cited(chunk, words, whole) for word, chunk in said.items()})
    return cites


def owners(text):
    """Where blocks of types and traits begin and end in a source file, each with the type or trait and whether it is a trait's, or of a trait."""
    found = [(0, None, False)]
    for one in OWNER.finditer(text):
        if one[0] == "}":
            found.append((one.start(), None, False))
        elif one[1]:
            found.append((one.start(), one[2], True))
        else:
            plain = re.sub(r"<[^<>]*(?:<[^<>]*>[^<>]*)*>", "", one[3])
            trait, _for, name = plain.rpartition(" for ")
            found.append((one.start(), WORD.search(name)[0], bool(trait)))
    return found


class Function:
    """A function of a source file: the type or trait that it is of, if any, and its clauses by their names ("" for one without)."""

    def __init__(self, name, owner, by_trait, is_pub):
        self.name, self.owner, self.by_trait, self.is_pub, self.clauses = name, owner, by_trait, is_pub, []

    def labels(self):
        return {label for label, _clause in self.clauses}


def functions(text):
    """The functions of a source file."""
    blocks = owners(text)
    found, starts = [], []
    for one in FUNCTION.finditer(text):
        _start, owner, by_trait = blocks[bisect.bisect_right([block[0] for block in blocks], one.start()) - 1]
        found.append(Function(one[2], owner, by_trait, one[1] == "pub "))
        starts.append(one.start())
    for begun in CLAUSE.finditer(text):
        depth, end = 1, begun.end()
        while depth:
            depth += {"{": 1, "}": -1}.get(text[end], 0)
            end += 1
        found[bisect.bisect_right(starts, begun.start()) - 1].clauses.append((begun[1], text[begun.end():end]))
    return found


def promised(crate):
    """The words that the contracts of a crate's public calls cite."""
    library = ROOT / "crates" / crate / "src/lib.rt"
    if not library.is_file():
        return set()
    shown = library.read_text(encoding="utf-8")
    public = {word for use in re.findall(r"^pub use ([^;]*);", shown, re.MULTILINE) for word in WORD.findall(use)}
    modules = set(re.findall(r"^pub mod (\w+)", shown, re.MULTILINE)) | {"lib"}
    found = set()
    for path in sorted((ROOT / "crates" / crate / "src").rglob("*.rt")):
        text = path.read_text(encoding="utf-8")
        words, whole = words_of_file(text)
        for one in functions(text):
            if (one.is_pub or one.by_trait) and (path.stem in modules or (one.owner or one.name) in public):
                found |= cited("\n".join(clause for _label, clause in one.clauses), words, whole)
    return found


def promises():
    """The files of definitions that the promises of the crates need, as (crate, file)."""
    cites = definitions()
    found = {word for crate in crates() for word in promised(crate)}
    left = list(found)
    while left:
        more = cites.get(left.pop(), set()) - found
        found |= more
        left += more
    return {(crate, file) for crate, file, _word in found}


def files(crate, needed):
    """The files of definitions of a crate in reading order: those of its promises, and those for private steps."""
    named = named_files(crate)
    order = ORDER.get(crate, named)
    public = [name for name in named if (crate, name) in needed]
    public.sort(key=lambda name: (order.index(name) if name in order else len(order), named.index(name)))
    return public, [name for name in named if (crate, name) not in needed]


def laws(crate):
    """The laws of a crate, each with its statement and its file."""
    found = []
    for path in sorted((ROOT / "crates" / crate / "src").glob("*.rt")):
        for comment, name in LAW.findall(path.read_text(encoding="utf-8")):
            said = " ".join(line[3:].strip() for line in comment.splitlines())
            if said.startswith("A law") or name.endswith("_law"):
                said = first_sentence(re.sub(r"^A law[.:] ", "", said))
                found.append((name, said if said.startswith("`") else said[0].lower() + said[1:], path.name))
    return found


def listed(crate, needed):
    """The part of the document that is about one crate."""
    public, private = files(crate, needed)
    stated = laws(crate)
    if not (public or private or stated):
        return []
    at = f"../crates/{crate}"
    lines = ["", f"## `{crate}`"]
    lines += [""] if public else []
    for name in public:
        said = first_sentence(front_comment(ROOT / "crates" / crate / "specs" / (name + ".antt"), "-- "))
        lines.append(f"- [{name}]({at}/specs/{name}.antt): {said}")
    if private:
        lines += ["", "For private steps: " + ", ".join(private) + "."]
    if stated:
        lines += ["", "Laws:", ""]
        lines += [f"- [`{name}`]({at}/src/{file}): {said}" for name, said, file in stated]
    return lines


def main():
    check = sys.argv[1:] == ["--check"]
    if sys.argv[1:] and not check:
        sys.exit(__doc__)
    old = DOCUMENT.read_text(encoding="utf-8")
    before, begin, rest = old.partition(BEGIN)
    _lists, end, after = rest.partition(END)
    if not (begin and end):
        sys.exit("docs/DEFINITIONS.md: the two markers are not there")
    needed = promises()
    lines = [line for crate in crates() for line in listed(crate, needed)]
    new = before + "\n".join([BEGIN, *lines, "", END]) + after
    if check:
        if new != old:
            print("docs/DEFINITIONS.md isn't current: run python3 tools/definitions.py")
        return 1 if new != old else 0
    if new != old:
        DOCUMENT.write_text(new, encoding="utf-8")
    return 0


if __name__ == "__main__":
    sys.exit(main())
