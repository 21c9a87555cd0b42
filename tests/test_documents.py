"""Tests of the documents: their links, what they name, the parts that are generated, and plain words. They need no built program."""
import pathlib
import re
import shutil
import subprocess
import sys
import unittest

ROOT = pathlib.Path(__file__).resolve().parent.parent
sys.path.insert(0, str(ROOT / "tools"))
import definitions  # noqa: E402
import manual  # noqa: E402
import wrong_bodies_table  # noqa: E402

# What `make docs` writes and isn't committed.
WRITTEN = "docs/WRONG-BODIES.md"
FENCE = re.compile(r"^(```|~~~).*?^\1", re.MULTILINE | re.DOTALL)
CODE = re.compile(r"`[^`\n]*`")
LINK = re.compile(r"\[[^\]]*\]\(([^)\s]+)\)")
HEADING = re.compile(r"^#{1,6} +(.*?) *$", re.MULTILINE)

# Words that only this repository's authors would use, each with plain ones.
PRIVATE_WORDS = {
    "want of memory": "out of memory",
    "is told where": "is reported if",
    "are told where": "are reported if",
    "told only where": "reported only if",
    "of ours beside": "other work on the machine",
    "for want of": "for lack of",
    "known to everybody": "fixed",
}

# Names that had several meanings, each with what stands for it now.
OLD_NAMES = {
    "LinkedFile": "FileImports",
    "Linked": "Snapshot",
    "ViewFaults": "ViewDiagnostics",
    "faults_of": "view_diagnostics",
    "fault_law": "diagnostic_law",
    "links_of": "imports_of or resolution_of",
    "look_alike": "same_outlook",
    "tell_alike": "same_exports",
    "import_alike": "same_imports",
    "messages_in_order": "problems_in_order",
    "result_begun": "begin_result",
}


def documents():
    """The documents of the repository, without what was built and what `make docs` writes anew."""
    here = [path for path in ROOT.rglob("*.md") if not {"out", ".git"} & set(path.relative_to(ROOT).parts)]
    return sorted(path for path in here if path != ROOT / WRITTEN)


def anchor(heading):
    """The anchor that a heading gets: lower case, without marks, with hyphens for spaces."""
    plain = re.sub(r"\[([^\]]*)\]\([^)]*\)", r"\1", heading).replace("`", "")
    return re.sub(r"[^\w\- ]", "", plain.lower()).replace(" ", "-")


def anchors(document):
    """All anchors of a document."""
    return {anchor(heading) for heading in HEADING.findall(FENCE.sub("", document.read_text(encoding="utf-8")))}


def targets(document):
    """What the links of a document name, without those to the web."""
    text = FENCE.sub("", document.read_text(encoding="utf-8"))
    return [target for target in LINK.findall(CODE.sub("`code`", text)) if not re.match(r"[a-z]+:", target)]


class Documents(unittest.TestCase):
    def test_no_link_is_dead(self):
        for document in documents():
            for target in targets(document):
                path, _mark, place = target.partition("#")
                named = (document.parent / path).resolve() if path else document
                with self.subTest(document=document.relative_to(ROOT).as_posix(), link=target):
                    self.assertTrue(named.is_relative_to(ROOT) and named.exists(), "names nothing")
                    if place:
                        self.assertIn(place, anchors(named))

    def test_words_are_plain(self):
        for document in documents():
            text = document.read_text(encoding="utf-8")
            for private, plain in PRIVATE_WORDS.items():
                with self.subTest(document=document.relative_to(ROOT).as_posix()):
                    self.assertFalse(re.search(rf"\b{private}\b", text), f"{private}: say it in plain English: {plain}")

    def test_no_name_has_its_old_meanings(self):
        named = re.compile(rf"\b({'|'.join(OLD_NAMES)})\b")
        for folder in ("crates", "docs", "bench", "tools"):
            for path in sorted((ROOT / folder).rglob("*")):
                if path.suffix in (".rt", ".antt", ".edit", ".md", ".txt", ".py") and not {"out", "__pycache__"} & set(path.parts):
                    with self.subTest(file=path.relative_to(ROOT).as_posix()):
                        found = named.search(path.read_text(encoding="utf-8"))
                        self.assertIsNone(found, found and f"{found[0]}: {OLD_NAMES[found[0]]}")

    def test_each_crate_says_what_is_proved_what_is_only_tested_and_what_is_neither(self):
        for line in (ROOT / "crates.txt").read_text().splitlines():
            crate = line.partition(":")[0]
            if re.match(r"\w+:", line):
                with self.subTest(crate=crate):
                    headings = HEADING.findall((ROOT / "crates" / crate / "README.md").read_text(encoding="utf-8"))
                    said = [heading for heading in headings if heading in ("What is proved", "What is only tested", "What is neither")]
                    self.assertEqual(said, ["What is proved", "What is only tested", "What is neither"])

    def test_each_library_is_in_the_table_of_crates(self):
        rows = re.findall(r"^\| (`[^|]*) \|", (ROOT / "docs/ARCHITECTURE.md").read_text(encoding="utf-8"), re.MULTILINE)
        named = {name for row in rows for name in re.findall(r"`(\w+)`", row)}
        crates = {line.partition(":")[0] for line in (ROOT / "crates.txt").read_text().splitlines() if re.match(r"\w+:", line)}
        self.assertEqual({crate for crate in crates if not re.search(r"_(cases|tests)$", crate)} - named, set())

    def test_documents_are_short(self):
        words = {document: len(document.read_text(encoding="utf-8").split()) for document in documents()}
        self.assertLessEqual(words[ROOT / "README.md"], 1200)
        self.assertLessEqual(words[ROOT / "docs/BENCHMARKS.md"], 800)
        self.assertLessEqual(sum(count for document, count in words.items() if document.parent == ROOT / "docs"), 17_000)

    def test_the_lines_of_a_check_are_those_of_the_example(self):
        shown = re.findall(r"^    (shop/.*)$", (ROOT / "README.md").read_text(encoding="utf-8"), re.MULTILINE)
        self.assertTrue(shown)
        self.assertEqual(shown, (ROOT / "examples/check.stdout").read_text(encoding="utf-8").splitlines()[: len(shown)])

    def test_the_words_of_diagnostics_are_those_of_the_code(self):
        rows = re.findall(r"^\| (\d{3}) \| ([^|]*?) \|", (ROOT / "docs/DIAGNOSTICS.md").read_text(encoding="utf-8"), re.MULTILINE)
        self.assertEqual([int(number) for number, _words in rows], [*range(201, 205), *range(301, 319), *range(401, 407)])
        code = "\n".join(path.read_text(encoding="utf-8") for path in sorted((ROOT / "crates").glob("*/src/*.rt")))
        for number, words in rows:
            for one in words.split(", "):
                with self.subTest(number=number, words=one):
                    self.assertIn(f'=> "{one}"', code)


# A file that a document names: below a folder of the repository, or a source by its name alone, of the document's own crate or of the one behind it.
FILE = re.compile(r"(?<![\w/.])((?:crates|docs|tools|tests|bench|examples|packaging|editors)/[\w./-]*\w)(?![\w*/-])")
SOURCE = re.compile(r"(?<![\w/])(specs/\w+\.antt|\w+\.rt)\b`?(?:\s+of\s+`(\w+)`)?")
# A source, and behind it words that stand in it.
IN_SOURCE = re.compile(r"(?<![\w/])(specs/\w+\.antt|\w+\.rt)`?(?:\s+of\s+`(\w+)`)?((?:,\s+`[\w:]+`)+)")
# Words of code in a document: a name, or a name of a type or crate and one of its own.
NAME = re.compile(r"^[^\W\d]\w+$")
CALL = re.compile(r"^\w+::\w+$")
# Calls, and in parentheses names of their clauses.
CLAUSES = re.compile(r"((?:`[\w:]+`(?:,\s|\sand\s)?)+)(?:\s\(|:\s)((?:`[a-z]\w*`(?:,\s)?)+)[,;)]")
LAWS = re.compile(r"\blaws?\s((?:`\w+`(?:,\s|\sand\s)?)+)")
# Names of clauses, and the call that they are of.
OF_CALL = re.compile(r"((?:`\w+`(?:,\s|\sand\s)?)+)\sof\s`(\w+)`")
# What stands in a document and in no source: words of the protocol, of std and of the kit, and a pattern of names. The front page names other tools too.
OTHERS = {"rangeLength", "RandomState", "IndexMap", "say_CALL", "u64::MAX"}


def spans(text):
    """The pieces of code in a text, each without its marks."""
    return [span[1:-1] for span in CODE.findall(text)]


class Sources:
    """What the sources declare: the words of each, and each function by its name."""

    def __init__(self):
        self.words, self.functions, self.files, self.owned = set(OTHERS), {}, {}, set(OTHERS)
        for path in sorted((ROOT / "crates").rglob("*")):
            parts = path.relative_to(ROOT / "crates").parts
            if path.suffix in (".rt", ".antt") and "out" not in parts:
                text = path.read_text(encoding="utf-8")
                self.words.update(definitions.WORD.findall(text))
                self.files.setdefault(path.name, set()).add(parts[0])
                if path.suffix == ".rt":
                    self.add(parts[0], text)
        for folder, names in (("tests", "*.py"), ("tools", "*.py"), ("bench", "*.py"), ("", "Makefile")):
            for path in (ROOT / folder).glob(f"**/{names}" if folder else names):
                self.words.update(definitions.WORD.findall(path.read_text(encoding="utf-8")))
        self.words.update(definitions.crates())

    def add(self, crate, text):
        for one in definitions.functions(text):
            self.functions.setdefault(one.name, []).append(one)
            self.owned |= {f"{one.owner}::{one.name}", f"{crate}::{one.name}"}
        for kind, owner, body in re.findall(r"^pub (struct|enum|trait) (\w+)(.*?)^\}", text, re.MULTILINE | re.DOTALL):
            self.owned.add(f"{crate}::{owner}")
            self.owned |= {f"{owner}::{word}" for word in re.findall(r"^    (\w+)", body, re.MULTILINE) if kind == "enum"}


class Named(unittest.TestCase):
    @classmethod
    def setUpClass(cls):
        cls.sources = Sources()

    def refuse(self, wrong, besides=None):
        """Each document's text, without what is shown in blocks, is right: `wrong` gives what is wrong in one about a crate."""
        found = []
        for document in documents():
            parts = document.relative_to(ROOT).parts
            if document == besides or parts[0] == "editors":
                continue
            plain = FENCE.sub("", document.read_text(encoding="utf-8"))
            found += [f"{'/'.join(parts)}: {one}" for one in wrong(plain, parts[1] if parts[0] == "crates" else None)]
        self.assertEqual(found, [])

    def test_each_file_is_there(self):
        def wrong(text, crate):
            for path in FILE.findall(text):
                if not re.search("NAME|CRATE", path) and path != WRITTEN and not (ROOT / path).exists():
                    yield path
            for path, of in SOURCE.findall(text):
                here = self.sources.files.get(path.rpartition("/")[2], set())
                if not (here & {of or crate} if of or crate else here):
                    yield f"{path} of {of or crate}: there is one of {', '.join(sorted(here)) or 'no crate'}"

        self.refuse(wrong)

    def test_each_word_stands_in_the_source_that_is_named_with_it(self):
        def wrong(text, crate):
            for path, of, words in IN_SOURCE.findall(text):
                here = [it for it in (ROOT / "crates" / (of or crate or "")).glob(f"**/{path.rpartition('/')[2]}") if not {"out", "proofs"} & set(it.parts)]
                there = {word for it in here for word in definitions.WORD.findall(it.read_text(encoding="utf-8"))}
                for word in spans(words):
                    if word.rpartition("::")[2] not in there:
                        yield f"{path} of {of or crate}: {word}"

        self.refuse(wrong)

    def test_each_name_stands_in_the_sources(self):
        self.refuse(lambda text, crate: (span for span in spans(text) if NAME.match(span) and span not in self.sources.words), besides=ROOT / "README.md")

    def test_each_call_is_one_of_its_type(self):
        self.refuse(lambda text, crate: (span for span in spans(text) if CALL.match(span) and span not in self.sources.owned))

    def test_each_law_is_a_function(self):
        self.refuse(lambda text, crate: (law for laws in LAWS.findall(text) for law in spans(laws) if law not in self.sources.functions))

    def test_each_clause_is_one_of_its_call(self):
        def wrong(text, crate):
            for calls, labels in CLAUSES.findall(text):
                found = [one for call in spans(calls) for one in self.sources.functions.get(call.rpartition("::")[2], [])]
                known = set().union(*(one.labels() for one in found)) if found else set(spans(labels))
                for label in set(spans(labels)) - known:
                    yield f"{calls} ({label})"
            for labels, call in OF_CALL.findall(text):
                known = set().union(*(one.labels() for one in self.sources.functions.get(call, [])))
                for label in set(spans(labels)) - known if known else ():
                    yield f"{label} of {call}"

        self.refuse(wrong)

    def test_each_wrong_body_names_what_refuses_it(self):
        found = []
        for edit in sorted(ROOT.glob("crates/*/wrong-bodies/*.edit")) + sorted(ROOT.glob("crates/*/must-fail/*.edit")):
            refused = wrong_bodies_table.described(edit)[1] or ""
            unknown = {word for span in spans(refused) for word in definitions.WORD.findall(span)} - self.sources.words
            # (a private function stands in parentheses too, also behind names of clauses)
            for calls, labels in CLAUSES.findall(refused + ")") + CLAUSES.findall(refused.replace("` (", "`; (") + ")"):
                known = [one.labels() for call in spans(calls) for one in self.sources.functions.get(call.rpartition("::")[2], [])]
                unknown |= set(spans(labels)) - set(self.sources.functions).union(*known) if known else set()
            for labels, call in OF_CALL.findall(refused):
                known = [one.labels() for one in self.sources.functions.get(call, [])]
                unknown |= set(spans(labels)) - set(self.sources.functions).union(*known) if known else set()
            if unknown:
                found.append(f"{edit.relative_to(ROOT).as_posix()}: {', '.join(sorted(unknown))}")
        self.assertEqual(found, [])


class Packaging(unittest.TestCase):
    """The manual page and the completions have the options of the program, and each paper names the one licence."""

    def test_each_command_has_the_options_of_its_usage(self):
        source = manual.SOURCE.read_text(encoding="utf-8")
        said = manual.texts(source)
        for command, options in manual.commands(source).items():
            with self.subTest(command=command):
                self.assertEqual([one.name for one in options], re.findall(r"--([\w-]+)", said[f"{command.upper()}_USAGE"]))
        self.assertEqual(set(manual.commands(source)), {"serve", "check"})

    def test_manual_and_completions_have_each_option_and_no_other(self):
        declared = set(re.findall(r'\.long\("([\w-]+)"\)', manual.SOURCE.read_text(encoding="utf-8"))) | {"help", "version"}
        for name, text in manual.all_files("2026-01-01").items():
            shown = re.findall(r" -l ([\w-]+)", text) if name.endswith(".fish") else re.findall(r"--([A-Za-z][\w-]*)", text.replace("\\-", "-"))
            with self.subTest(file=name):
                self.assertEqual(set(shown), declared)

    def test_the_formats_are_those_of_the_check(self):
        source = manual.SOURCE.read_text(encoding="utf-8")
        named = re.findall(r'^ +"(\w+)" => Some\(Format::', (ROOT / "crates/check_lines/src/format.rt").read_text(encoding="utf-8"), re.MULTILINE)
        self.assertEqual(manual.names(source)["FORMATS"], named)
        for name in named:
            with self.subTest(format=name):
                self.assertIn(f"`{name}`", manual.texts(source)["FORMAT_HELP"])

    def test_the_manual_tells_of_files(self):
        text = manual.manual(manual.SOURCE.read_text(encoding="utf-8"), "2026-01-01")
        self.assertIn("\n.I FILE\nWrite the lines of these files alone", text)

    def test_the_licence_is_one(self):
        for name in ("LICENSE", "README.md"):
            with self.subTest(file=name):
                self.assertTrue("SPDX-License-Identifier: Apache-2.0" in (ROOT / name).read_text(encoding="utf-8"))
        self.assertTrue("/usr/share/common-licenses/Apache-2.0" in (ROOT / "packaging/copyright").read_text(encoding="utf-8"))


class Layout(unittest.TestCase):
    def test_the_sources_are_laid_out_by_the_kit(self):
        rattle = pathlib.Path(shutil.which("rt")).resolve().parent / "rattle"
        files = [it for ending in ("rt", "antt") for part in ("src", "specs", "proofs") for it in sorted(ROOT.glob(f"crates/*/{part}/**/*.{ending}"))]
        self.assertTrue(files)
        ended = subprocess.run([rattle, "fmt", "--check", *files], stdin=subprocess.DEVNULL, capture_output=True, text=True)
        self.assertEqual((ended.returncode, ended.stdout + ended.stderr), (0, ""))


class Generated(unittest.TestCase):
    def run_check(self, tool):
        ended = subprocess.run([sys.executable, str(ROOT / "tools" / tool), "--check"], stdin=subprocess.DEVNULL, capture_output=True, text=True)
        self.assertEqual((ended.returncode, ended.stdout + ended.stderr), (0, ""))

    def test_each_wrong_body_says_what_it_breaks(self):
        self.run_check("wrong_bodies_table.py")

    def test_the_list_of_definitions_is_current(self):
        self.run_check("definitions.py")

    def test_each_file_in_the_order_of_reading_is_there(self):
        for crate, order in definitions.ORDER.items():
            with self.subTest(crate=crate):
                self.assertEqual(set(order) - set(definitions.named_files(crate)), set())


if __name__ == "__main__":
    unittest.main()
