"""Tests of tools/wrong_bodies.py: a small crate that is made here, with planted edits, and what counts as an edit's own error."""
import json
import pathlib
import re
import subprocess
import sys
import tempfile
import unittest

TOOLS = pathlib.Path(__file__).resolve().parent.parent / "tools"
sys.path.insert(0, str(TOOLS))
import rattle_source  # noqa: E402
import wrong_bodies  # noqa: E402

SOURCE = """// Planted.
#![tactic(auto)]

ghost use Rattle.std.specs.Prelude.{◌≡◌, ◌+◌, ◌<◌};

// One more.
pub fn low(n: usize) -> usize
    requires { n < 1000 }
    ensures { result ≡ n + 1 }
{
    let more = n + 1;
    more
}

// Two more.
pub fn high(n: usize) -> usize
    requires { n < 900 }
    ensures { result ≡ n + 2 }
{
    let first = low(n);
    low(first)
}

// Two more, by another.
pub fn top(n: usize) -> usize
    requires { n < 800 }
    ensures { result ≡ n + 2 }
{
    let two = high(n);
    two
}

// Two more, by a proof of its own.
pub fn named(n: usize) -> usize
    requires { n < 700 }
    ensures { result ≡ n + 2 }
{
    let most = high(n);
    most
}

// The same.
pub fn apart(n: usize) -> usize
    ensures { result ≡ n }
{
    let same = n;
    same
}
"""

# The proof of `named`, which names a step of it.
NAMING_PROOF = "use Rattle.planted.proofs.named.Goals as goal\n\npub returns : goal.returns\nreturns c = c.high-most.ensures\n"

# What each edit puts in the place of what, and its verdict. `low` is hidden behind nothing, `high` and `top` behind their callees.
EDITS = {
    "wrong_low": ("let more = n + 1;", "let more = n + 2;", "REFUSED"),
    "wrong_high": ("low(first)", "first", "REFUSED"),
    "harmless_high": ("let first = low(n);", "let first = low(n); let _ = first;", "NOT REFUSED"),
    "wrong_top": ("let two = high(n);", "let two = high(n) + 1;", "REFUSED"),
    "harmless_top": ("    two", "    { two }", "NOT REFUSED"),
    "wrong_named": ("let most = high(n);", "let most = high(n + 1);", "REFUSED"),
    "renamed_named": ("let most = high(n);", "let most = n;", "NAMES ONLY"),
    "harmless_apart": ("let same = n;", "let same = n; let _ = same;", "NOT REFUSED"),
    "unknown_name_apart": ("    same", "    sane", "BAD EDIT"),
    "not_applied": ("let there_is_none = 1;", "let there_is_none = 2;", "BAD EDIT"),
    "no_token": ("let same = n;", 'let same = "n;', "BAD EDIT"),
    "no_expression": ("let same = n;", "let same = ;", "BAD EDIT"),
    "weaker_contract": ("ensures { result ≡ n }", "ensures { n ≡ n }", "NOT REFUSED"),
    "stronger_contract": ("ensures { result ≡ n }", "ensures { result ≡ n + 1 }", "REFUSED"),
    "too_little_for_high": ("ensures { result ≡ n + 1 }", "ensures { n < result }", "REFUSED"),
}
TWO_FUNCTIONS = "file: src/lib.rt\nold: let more = n + 1;\nnew: let more = n + 1; let _ = more;\nold: let same = n;\nnew: let same = n / 2;\n"
WANTED = {**{name: verdict for name, (_, _, verdict) in EDITS.items()}, "two_functions": "REFUSED"}


def write(file, text):
    file.parent.mkdir(parents=True, exist_ok=True)
    file.write_text(text, encoding="utf-8")


class Planted(unittest.TestCase):
    def setUp(self):
        self.room = tempfile.TemporaryDirectory()
        self.root = pathlib.Path(self.room.name, "repository")
        self.crate = self.root / "crates/planted"
        write(self.root / "crates.txt", "planted:\n")
        write(self.root / "HANDLES", "Handles allowed: none.\n")
        write(self.crate / "src/lib.rt", SOURCE)
        write(self.crate / "proofs/named/Answers.antt", NAMING_PROOF)
        for name, (old, new, _) in EDITS.items():
            self.plant(name, f"file: src/lib.rt\nold: {old}\nnew: {new}\n")
        self.plant("two_functions", TWO_FUNCTIONS)

    def tearDown(self):
        self.room.cleanup()

    def plant(self, name, text):
        write(self.crate / f"wrong-bodies/{name}.edit", text)

    def run_tool(self, *words):
        """The tool's run on the planted repository, and the verdicts that it printed."""
        words = [sys.executable, str(TOOLS / "wrong_bodies.py"), "--root", str(self.root), "--show", *words]
        ran = subprocess.run(words, stdin=subprocess.DEVNULL, stdout=subprocess.PIPE, stderr=subprocess.STDOUT, text=True)
        return ran, dict(re.findall(r"(?m)^planted/(\w+)\.edit: (REFUSED|NAMES ONLY|NOT REFUSED|BAD EDIT|UNPROVED|MISSING): ", ran.stdout))

    def test_planted_edits(self):
        ran, found = self.run_tool()
        self.assertEqual(found, WANTED, ran.stdout)
        self.assertEqual(ran.returncode, 1)
        self.assertRegex(ran.stdout, r"wrong_low\.edit: REFUSED: with \d+ others")
        self.assertTrue(ran.stdout.endswith("\n7 refused, 9 not\n"), ran.stdout)
        self.assertRegex(ran.stdout, r"\d+ edits tried now, 4 BAD EDIT, 1 NAMES ONLY, 4 NOT REFUSED;")

        # What was refused is on record; the rest is tried again, also after a comment changed.
        recorded = {f"{it}.edit" for it, verdict in WANTED.items() if verdict in ("REFUSED", "NAMES ONLY")}
        self.assertEqual({*json.loads((self.crate / "wrong-bodies/verdicts.json").read_text())}, recorded)
        for name, verdict in WANTED.items():
            if verdict != "REFUSED":
                (self.crate / f"wrong-bodies/{name}.edit").unlink()
        write(self.crate / "src/lib.rt", SOURCE.replace("// Planted.", "// Planted here."))
        ran, found = self.run_tool()
        self.assertIn("planted: 7 edits, 0 tried in 0 checks", ran.stdout)
        self.assertEqual(ran.returncode, 0)

        # Under --gate a recorded edit that is gone is a failure.
        (self.crate / "wrong-bodies/wrong_low.edit").unlink()
        ran, found = self.run_tool("--gate")
        self.assertEqual(found["wrong_low"], "MISSING")
        self.assertEqual(ran.returncode, 1)

        # An edit that changes is tried again, and no other.
        self.plant("wrong_high", "file: src/lib.rt\nold: low(first)\nnew: n\n")
        ran, found = self.run_tool()
        self.assertIn("planted: 6 edits, 1 tried", ran.stdout)
        self.assertEqual({*found.values()}, {"REFUSED"}, ran.stdout)

        # What another function does is no reason to try an edit of one body again, but one to try an edit of clauses. What it promises is one for both.
        write(self.crate / "src/lib.rt", SOURCE.replace("let more = n + 1;", "let more = n + 1; let _ = more;"))
        ran, found = self.run_tool()
        self.assertIn("planted: 6 edits, 3 tried", ran.stdout)
        self.assertEqual({*found.values()}, {"REFUSED"}, ran.stdout)

        # A crate that isn't proved says nothing of its edits.
        write(self.crate / "src/lib.rt", SOURCE.replace("ensures { result ≡ n + 1 }", "ensures { result ≡ n + 3 }"))
        ran, found = self.run_tool()
        self.assertIn("planted: UNPROVED: ", ran.stdout)
        self.assertEqual(found, {})
        self.assertEqual(ran.returncode, 1)


BASE = """#![tactic(auto)]

ghost use Rattle.std.specs.Prelude.{◌≡◌, ◌+◌, ◌<◌};

/// One more.
pub fn more(n: usize) -> usize
    requires { n < 1000 }
    ensures { result ≡ n + 1 }
{
    n + 1
}
"""

ABOVE = """#![tactic(auto)]

ghost use Rattle.std.specs.Prelude.{◌≡◌, ◌+◌, ◌<◌};

use base::more;

/// Two more.
pub fn two_more(n: usize) -> usize
    requires { n < 900 }
    ensures { result ≡ n + 2 }
{
    let first = more(n);
    more(first)
}
"""


class AfterCi(unittest.TestCase):
    """What the gate does: the libraries are those that `rt ci` has left."""

    def test_libraries_of_the_gate(self):
        with tempfile.TemporaryDirectory() as room:
            root = pathlib.Path(room, "repository")
            (root / ".git").mkdir(parents=True)
            write(root / "crates.txt", "base:\nabove: base\n")
            write(root / "HANDLES", "Handles allowed: none.\n")
            write(root / "crates/base/src/lib.rt", BASE)
            write(root / "crates/above/src/lib.rt", ABOVE)
            write(root / "crates/above/wrong-bodies/once.edit", "file: src/lib.rt\nold: more(first)\nnew: first\n")
            words = [sys.executable, str(TOOLS / "wrong_bodies.py"), "--root", str(root), "--gate", "--show"]
            how = {"stdin": subprocess.DEVNULL, "stdout": subprocess.PIPE, "stderr": subprocess.STDOUT, "text": True}

            # Where it has left none, nothing is tried.
            ran = subprocess.run(words, **how)
            self.assertIn("above: UNPROVED: it is not proved, or a library below it isn't", ran.stdout)
            self.assertEqual(ran.returncode, 1)

            # Else they are taken as they are, and not proved again.
            ran = subprocess.run(["rt", "ci"], cwd=root, **how)
            self.assertEqual(ran.returncode, 0, ran.stdout)
            ran = subprocess.run(words, **how)
            self.assertIn("above/once.edit: REFUSED", ran.stdout)
            self.assertEqual(ran.returncode, 0, ran.stdout)
            self.assertFalse((root / "crates/base/out/incremental").exists())


def edits_of(*names):
    """Edits of these functions of the planted source."""
    source = rattle_source.Source("src/lib.rt", SOURCE)
    edits = []
    for name in names:
        edit = wrong_bodies.Edit(f"{name}.edit")
        edit.path, edit.number = "src/lib.rt", next(at for at, it in enumerate(source.functions) if it.name == name)
        edit.function = source.functions[edit.number]
        edits.append(edit)
    return edits


class Judged(unittest.TestCase):
    """What counts as an edit's own error in a check of several."""

    def judged(self, text, *names):
        group = edits_of(*names)
        found = wrong_bodies.judge(wrong_bodies.Said(f"{text}\nlogic=not-proved", "planted"), group, {it: it.function for it in group})
        return None if found is None else {it.name.partition(".")[0] for it in found}

    def test_a_callee_is_no_reason(self):
        said = "fn planted::low: no proof: expected answers in ./proofs/low/Answers.antt; `search` did not prove `returns`\nfn planted::high: no proof: it calls `planted::low`, which is not proved"
        self.assertEqual(self.judged(said, "low", "high"), {"low"})

    def test_a_goal_beside_a_callee_is(self):
        said = "fn planted::low: no proof: `search` did not prove `returns`\nfn planted::high: no proof: `search` did not prove `returns`; it calls `planted::low`, which is not proved"
        self.assertEqual(self.judged(said, "low", "high"), {"low", "high"})

    def test_an_error_in_its_proof_file(self):
        said = "./proofs/high/Answers.antt:3:4: error: `returns`: expected type\nfn planted::high: not proved"
        self.assertEqual(self.judged(said, "low", "high"), {"high"})

    def test_an_error_at_second_hand(self):
        said = "./proofs/high/Answers.antt:3:4: error: 2 declarations that depend on `lemma`, which was rejected, were not checked: returns\nfn planted::high: not proved"
        self.assertEqual(self.judged(said, "low", "high"), set())

    def test_a_name_that_is_gone(self):
        group = edits_of("low", "high")
        for lacks in ("has no field `low`", "(nearest: .low-n)"):
            gone = f"./proofs/high/Answers.antt:3:4: error: `returns`: record `Rattle.planted.proofs.high.Lts.After` {lacks}\nfn planted::high: not proved"
            said = wrong_bodies.judge(wrong_bodies.Said(f"{gone}\nlogic=not-proved", "planted"), group, {it: it.function for it in group})
            self.assertEqual([wrong_bodies.verdict_of(it) for it in said.values()], ["NAMES ONLY"])
        self.assertEqual(wrong_bodies.verdict_of("with 3 others: `search` did not prove `returns`"), "REFUSED")

    def test_what_is_a_failure(self):
        self.assertEqual(wrong_bodies.failures({"REFUSED": 5, "NAMES ONLY": 1, "NOT REFUSED": 2}), 3)

    def test_not_proved_with_no_reason(self):
        self.assertEqual(self.judged("fn planted::high: not proved", "low", "high"), set())

    def test_an_error_of_nobody(self):
        said = "./proofs/Lemmas.antt:3:4: error: `lemma`: expected type\nfn planted::high: no proof: `search` did not prove `returns`"
        self.assertIsNone(self.judged(said, "low", "high"))

    def test_a_function_that_nobody_edited(self):
        said = "fn planted::top: no proof: `search` did not prove `returns`\nfn planted::high: no proof: `search` did not prove `returns`"
        self.assertIsNone(self.judged(said, "low", "high"))

    def test_a_cycle_of_calls_with_a_callee(self):
        said = "fn planted::low: no proof: `search` did not prove `returns`\nfn planted::top: no proof: in `planted::apart`, of this cycle of calls: it calls `planted::low`, which is not proved"
        self.assertEqual(self.judged(said, "low", "high"), {"low"})

    def test_a_goal_of_a_ring(self):
        words = "no proof: expected answers in ./proofs/+all/Answers.antt; `search` did not prove `high-returns`"
        self.assertEqual(self.judged(f"fn planted::top: {words}\nfn planted::high: {words}; it calls `planted::low`, which is not proved", "low", "high"), {"high"})

    def test_a_goal_of_a_ring_that_is_nobodys(self):
        words = "no proof: expected answers in ./proofs/+all/Answers.antt; `search` did not prove `high-returns`, `top-returns`"
        self.assertIsNone(self.judged(f"fn planted::top: {words}\nfn planted::high: {words}", "low", "high"))

    def test_an_undecided_function(self):
        said = "fn planted::high: could not tell\nnote: src/lib.rt:21:5: it is not proved that x (`y`)"
        self.assertEqual(self.judged(said, "low", "high"), set())


class Grouped(unittest.TestCase):
    """Which edits share a check."""

    def neighbours(self, reach, cited):
        made = wrong_bodies.Neighbours.__new__(wrong_bodies.Neighbours)
        made.reach, made.cited = reach, cited
        return made

    def test_one_function_stays_apart(self):
        low, high, top = edits_of("low", "high", "top")
        groups = self.neighbours({}, {}).groups([low, high, edits_of("low")[0], top])
        self.assertEqual([len(it) for it in groups], [3, 1])

    def test_a_ring_stays_apart(self):
        low, high = edits_of("low", "high")
        self.assertTrue(self.neighbours({"low": {"high"}, "high": {"low"}}, {}).stay_apart(low, high))
        self.assertFalse(self.neighbours({"low": set(), "high": {"low"}}, {}).stay_apart(low, high))

    def test_a_proof_that_cites_another_stays_apart(self):
        low, high = edits_of("low", "high")
        self.assertTrue(self.neighbours({}, {"high/Answers": {"high/Answers", "Lemmas", "low/Goals"}}).stay_apart(low, high))


class Read(unittest.TestCase):
    """What is read of a source file."""

    TEXT = (
        "mod inner { impl<T: Into<u8>> Show for Pair<T> { fn show(&self) -> u8 { 1 } } impl Pair<u8> { pub const fn of() -> u8 { 2 } } "
        "trait Try { fn go() { } } }\nfn answers() -> impl Fn() { || () }\npub fn shown() { inner() }\npub(crate) fn hidden() { }"
    )

    def test_functions(self):
        functions = rattle_source.Source("src/a/b.rt", self.TEXT).functions
        self.assertEqual(
            [(it.path, it.is_plain, it.is_named, it.is_private) for it in functions],
            [
                ("a::b::inner::PairShow::show", True, False, False),
                ("a::b::inner::Pair::of", False, False, False),
                ("a::b::inner::go", False, False, False),
                ("a::b::answers", False, False, False),
                ("a::b::shown", True, True, False),
                ("a::b::hidden", True, True, True),
            ],
        )

    def test_the_lines_of_a_function(self):
        functions = rattle_source.Source("src/lib.rt", "fn one() -> [u8; 0] { [] }\n// Two.\n#[cycle(all)]\n#[must_use]\npub fn two() { }").functions
        self.assertEqual([(it.first, it.last) for it in functions], [(1, 1), (3, 5)])

    def test_the_function_with_some_texts(self):
        source = rattle_source.Source("src/lib.rt", SOURCE)
        self.assertEqual(source.function_with([b"let more = n + 1;"]).name, "low")
        self.assertIsNone(source.function_with([b"let more = n + 1;", b"let same = n;"]))
        self.assertIsNone(source.function_with([b"requires { n < 800 }"]))
        self.assertIsNone(source.function_with([b"ensures { result"]))
        self.assertIsNone(source.function_with([b"let there_is_none = 1;"]))

    def test_words_beside(self):
        words = rattle_source.Source("src/a/b.rt", self.TEXT).words_beside()
        for seen in ("show", "of", "2", "go", "answers"):
            self.assertIn(seen, words)
        for unseen in ("1", "shown", "hidden"):
            self.assertNotIn(unseen, words)

    def test_imports(self):
        source = rattle_source.Source(
            "src/lib.rt",
            "ghost use Rattle.std.specs.Prelude.{◌≡◌, List};\nghost use Rattle.a.specs.Said as said;\nuse a::{b::{c, d as e}, self};\n#[allow(x)]\npub use f::g;\npub mod h;\n"
            "pub fn seen() -> e\n    ensures { result ≡ said.x }\n{\n    c()\n}\npub const TWO: e = 2;\n",
        )
        self.assertEqual([it.cores for it in source.imports], [["≡"], ["List"], ["said"], ["c"], ["e"], ["a"]])
        promised = dict((it.name, words) for it, words in source.promises())["seen"]
        self.assertIn("Rattle.std.specs.Prelude", promised)
        self.assertIn("Rattle.a.specs.Said", promised)
        self.assertNotIn("List", promised)
        self.assertEqual([it.words for it in source.exports], [["f", ":", ":", "g"]])
        self.assertEqual(source.words_beside(), ["pub", "const", "TWO", ":", "e", "=", "2", ";", *"a :: b :: d as e".replace("::", ": :").split()])

    def test_types(self):
        source = rattle_source.Source(
            "src/lib.rt",
            "use a::Inner;\n#[derive(Drop)]\nstruct Hidden {\n    of: Inner,\n}\npub struct Seen(u8);\npub(crate) enum Kind { One }\nstruct Unit;\nconst ONE: usize = 1;\npub fn last() { }\n",
        )
        self.assertEqual(sorted(source.types), ["Hidden", "Kind", "ONE", "Unit"])
        self.assertEqual(source.hidden_types()["Hidden"], ["#", "[", "derive", "(", "Drop", ")", "]", "struct", "Hidden", "{", "of", ":", "Inner", ",", "}", "a", ":", ":", "Inner"])
        self.assertEqual(source.types["Kind"][:4], ["pub", "(", "crate", ")"])
        self.assertEqual(source.words_beside(), ["pub", "struct", "Seen", "(", "u8", ")", ";"])

    def test_what_is_named(self):
        known = {"A": [("src/lib.rt", ["struct", "A", "B"])], "B": [("src/lib.rt", ["struct", "B"])], "C": [("src/lib.rt", ["struct", "C", "A"])]}
        self.assertEqual([name for name, _ in wrong_bodies.Surface.named({"A"}, known)], ["A", "B"])

    def test_promises(self):
        promises = rattle_source.Source("src/a/b.rt", self.TEXT).promises()
        self.assertEqual([(it.name, words) for it, words in promises], [("shown", ["pub", "fn", "shown", "(", ")"]), ("hidden", ["pub", "(", "crate", ")", "fn", "hidden", "(", ")"])])
