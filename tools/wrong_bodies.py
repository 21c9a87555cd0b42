#!/usr/bin/env python3
"""Tries the wrong bodies in crates/*/wrong-bodies/*.edit: the prover has to refuse each. Several are tried in one check.

usage: wrong_bodies.py [CRATE..] [--root FOLDER] [--jobs N] [--must-fail] [--anew] [--alone] [--gate] [--apart FOLDER] [--show]

An edit has the form of the kit's must-fail edits: a line `file: src/NAME.rt`, then pairs of lines `old: TEXT` and `new: TEXT`, each TEXT once in that
file. Its verdict is

  REFUSED      the prover refuses the edited function, for a reason of its own, or, tried over the whole crate, any function
  NAMES ONLY   it does so only because a proof file names what the edit took away, which shows nothing of a contract
  NOT REFUSED  tried alone, the crate is still proved
  BAD EDIT     it can't be applied, or what it makes can't be read
  UNPROVED     the crate itself isn't proved, so nothing was tried

What is refused is kept in crates/NAME/wrong-bodies/verdicts.json, under a sum of all that it rests on: the edit, the edited function with its own
proof files, what each function promises whose name stands in one of these, the private types and constants that they name, the crate's definitions
and lemmas and all else of its sources but for functions, the same of the crates below it (of definitions those that it cites) and the kit's logic.
Bodies of other functions don't count, but for those that a caller sees; nor do imports of names that nothing of this has. An edit of anything but
one body rests on the whole crate. Comments, layout and an edit's description don't count. What is current isn't tried again; --anew tries all.
--must-fail takes the edits of must-fail/ in the same way, and keeps their verdicts in the crate's out/. --alone tries each edit in a check of its
own. --gate, beside an `rt ci` that has proved these crates or after it, takes the libraries as that has built them, whose statements alone are read. It
tries the edits of must-fail/ too, each time, and also fails where verdicts.json names an edit that isn't there. --apart says where these lie if not in
the crates: in FOLDER/NAME.

The status is 0 if each edit is REFUSED, else 1. The last line is `N refused, M not`; the one before it counts the others by their verdicts.

How edits share a check
  - The unchanged crate has to be proved. A check of edits then asks for the edited functions alone: what they promise is what it was before, so nothing
    but their own proofs can fail.
  - An edit may share a check if it changes one function's body and nothing else, and nothing else sees that body. Edits of one function, of functions
    that may call each other in a ring, and of functions whose proofs cite each other stay apart. An edit of one function's clauses has a check of
    that function, and any other edit one of the whole crate.
  - In a shared check an edit counts as refused only if a goal of its own function failed: in the function's line, at a line of its text, or in its own
    proof files. That a callee isn't proved is no reason. A goal of functions that call each other in a ring is said of each of them, and counts
    for the one that it names. If an error is nobody's, the whole check says nothing.
  - What a shared check leaves open is tried again with the others that are left, and at last alone. What isn't refused even so is tried over the whole
    crate, as `rt must-fail` does it.
"""
import argparse
import hashlib
import json
import os
import pathlib
import re
import resource
import sys
import tempfile
import threading
import time
from concurrent.futures import ThreadPoolExecutor

import kit
from rattle_source import WORD, Source, homes_of

REFUSED, NAMES, PASSED, BAD, UNPROVED = "REFUSED", "NAMES ONLY", "NOT REFUSED", "BAD EDIT", "UNPROVED"
FOLDER, RECORD = "wrong-bodies", "verdicts.json"
OF_THE_KIT = "must-fail"
FLAGS = ["--jobs", "1"]
# The most edits in one check: more would take longer to sort out where one of them can't be read.
MOST = 24
# A change here makes every recorded verdict old.
FORM = "3"

LOCATED = re.compile(r"(note: )?(?:\./)?((?:src|specs|proofs)/\S+?):(\d+):\d+: (.*)")
STATUS = re.compile(r"(fn|struct|enum|union|impl|trait|const|static) (\S+): (.*)")
# What is said where another declaration or file failed, and not this one.
SECOND_HAND = re.compile(r"was rejected|was not admitted|were not checked|was not checked|is not proved|are not proved|could not be read")
NAMES_ONLY = re.compile(r"has no field|\(nearest: |is not in scope|has no `|was not admitted")
# What the verdict says of a refusal that shows nothing of a contract, here and where the kit has tried an edit.
FOR_NAMES = "only because a proof file names what the edit took away"
ONLY_CALLEES = re.compile(r"(not proved|no proof)[:;] (in `[^`]+`, of this cycle of calls: )?it calls .*")
# The goals of functions that call each other in a ring stand in one file, each behind the name of its function, and are said of every one of them.
OF_A_RING = re.compile(r"no proof: expected answers in \./proofs/(?:\S+/)?\+\w+/Answers\.antt; `search` did not prove ((?:`[\w-]+`(?:, )?)+)(?:; it calls .*)?")
# What is said where `--only` names no function.
NO_FUNCTION = re.compile(r"has no function `([^`]+)`")
# The proof files of one function.
OWN_PROOFS = ("/Answers.antt", "/Invariants.antt")
EDIT_NAME = re.compile(r"[A-Za-z0-9_-][A-Za-z0-9_.-]*\.edit")
CITED = re.compile(r"Rattle\.(\w+)\.(specs|proofs)\.([\w.]+)")


def edit_text(file):
    """What an edit does: its lines but for those that describe it."""
    return [line for line in pathlib.Path(file).read_text(encoding="utf-8", errors="replace").split("\n") if line.startswith(("file:", "old:", "new:"))]


def sum_of(*parts):
    made = hashlib.sha256()
    for part in parts:
        made.update(repr(part).encode())
    return made.hexdigest()[:32]


# -- the text of crates, as far as a verdict rests on it

def files_below(folder, part, ending):
    return sorted(it for it in pathlib.Path(folder, part).rglob(f"*{ending}") if it.is_file())


def antt_text(file):
    """The text of a file of definitions or proofs, without comments on lines of their own."""
    return re.sub(r"(?m)^\s*--.*\n", "", file.read_text(encoding="utf-8", errors="replace"))


def sources_of(crate):
    """The crate's source files by their paths in it."""
    return {str(it.relative_to(crate.folder)): it.read_text(encoding="utf-8", errors="replace") for it in files_below(crate.folder, "src", ".rt")}


def definitions_of(crate):
    """The crate's own definitions and proofs by their paths in it."""
    return {str(it.relative_to(crate.folder)): antt_text(it) for part in ("specs", "proofs") for it in files_below(crate.folder, part, ".antt")}


def edited_function(edit, sources):
    """The source and the function whose body holds all that an edit replaces, where no caller sees that body; else None."""
    lines = edit_text(edit.file)
    source = sources.get(next((it[len("file:") :].strip() for it in lines if it.startswith("file:")), ""))
    function = source and source.function_with([it[len("old:") :].strip().encode() for it in lines if it.startswith("old:")])
    return (source, function) if function else None


def cited_definitions(crate):
    """The files of definitions and lemmas in the crates below that this crate's text leads to, by their paths."""
    below = {it.name: it for it in crate.below()}
    texts = [text for text in sources_of(crate).values()]
    texts += [antt_text(it) for part in ("specs", "proofs") for it in files_below(crate.folder, part, ".antt")]
    found = {}
    while texts:
        for name, part, module in CITED.findall(texts.pop()):
            words = module.rstrip(".").split(".")
            for length in range(1, len(words) + 1) if name in below else ():
                file = pathlib.Path(below[name].folder, part, *words[:length]).with_suffix(".antt")
                if file not in found and file.is_file():
                    found[file] = antt_text(file)
                    texts.append(found[file])
    return sorted((str(file), text) for file, text in found.items())


class Surface:
    """What functions see of a crate: all of its sources but for functions that are called by their names alone, for types that no other crate can
    name and for what it hands on, and what each of these is."""

    def __init__(self, sources, is_own):
        beside = [(path, words) for path, source in sources.items() if (words := source.words_beside())]
        self.types, self.promises = {}, {}
        self.exports = [it for source in sources.values() for it in source.exports]
        for path, source in sources.items():
            for name, words in source.hidden_types().items():
                self.types.setdefault(name, []).append((path, words))
            for function, words in source.promises():
                if is_own or not function.is_private:
                    self.promises.setdefault(function.name, []).append((path, words))
        self.beside = sum_of(beside, self.named({it for _, words in beside for it in words}, self.types))

    @staticmethod
    def named(names, known):
        """What is known under these names, and under the names that stand in it, and so on."""
        found, left = {}, {*names}
        while left:
            name = left.pop()
            if name in known and name not in found:
                found[name] = known[name]
                left |= {it for _, words in known[name] for it in words}
        return sorted(found.items())

    def promised(self, names):
        """What the functions promise that have these names, the types that these or their promises name, and what is handed on under these names."""
        promises = sorted((name, self.promises[name]) for name in names & self.promises.keys())
        types = self.named(names | {it for _, some in promises for _, words in some for it in words}, self.types)
        return promises, types, sorted(it.words for it in self.exports if "*" in it.words or names & {*it.cores})


class Surfaces:
    """What other crates see of a crate, worked out once for each."""

    def __init__(self):
        self.known, self.lock = {}, threading.Lock()

    def of(self, crate):
        with self.lock:
            if crate.name not in self.known:
                self.known[crate.name] = Surface({path: Source(path, text) for path, text in sources_of(crate).items()}, False)
            return self.known[crate.name]


# -- edits

class Edit:
    """An edit file, and which function it changes if it is one alone: its place in its file, and its new text, with clauses and body. It has no record if
    it is tried each time."""

    def __init__(self, file, has_record=True):
        self.file, self.name, self.has_record = file, os.path.basename(file), has_record
        self.path, self.number, self.function, self.new = None, None, None, None

    def shown(self):
        return self.name if self.has_record else f"{OF_THE_KIT}/{self.name}"

    def place(self, texts, sources):
        """Finds the one function that the edit changes, and says whether it may share a check: it may if nothing but the body differs."""
        changed, is_body = [], True
        for path, text in texts.items():
            if path not in sources:
                return False
            old = sources[path]
            new = old.with_text(text)
            if old.functions is None or new.functions is None or len(old.functions) != len(new.functions) or old.between() != new.between():
                return False
            pairs = [*zip(old.functions, new.functions)]
            changed += [(path, at, new.whole(it)) for at, (before, it) in enumerate(pairs) if new.whole(it) != old.whole(before)]
            is_body = is_body and all(new.head(it) == old.head(before) for before, it in pairs)
        if len(changed) != 1:
            return False
        path, number, whole = changed[0]
        function = sources[path].functions[number]
        if not function.is_plain:
            return False
        self.path, self.number, self.new, self.function = path, number, whole, function
        return is_body


def place_of(given, crate, folder):
    """Where the edits of a folder of a crate lie."""
    return f"{given.apart}/{crate.name}" if given.apart and folder == OF_THE_KIT else f"{crate.folder}/{folder}"


def edits_in(folder, has_record=True):
    """The edits of a folder and what else is in it that should be one, each with whether it is one."""
    for at, folders, files in os.walk(folder):
        folders.sort()
        links = [it for it in [*folders, *files] if os.path.islink(f"{at}/{it}")]
        for name in sorted({*files, *links}):
            if name != RECORD and not name.endswith(".md"):
                yield Edit(f"{at}/{name}", has_record), bool(at == folder and EDIT_NAME.fullmatch(name) and name not in links)


class Neighbours:
    """Which edits of a crate must not share a check."""

    def __init__(self, crate, sources):
        self.cited, self.reach = self.citations(crate), self.calls(sources)

    @staticmethod
    def citations(crate):
        """For each proof file, without its ending, all those that it leads to by its imports."""
        top, uses = pathlib.Path(crate.folder, "proofs"), {}
        for file in files_below(crate.folder, "proofs", ".antt"):
            named = re.findall(rf"Rattle\.{re.escape(crate.name)}\.proofs\.([\w.+-]+)", antt_text(file))
            uses[str(file.relative_to(top).with_suffix(""))] = {it.rstrip(".").replace(".", "/") for it in named}
        closed = {}
        for module in uses:
            seen, left = set(), [module]
            while left:
                it = left.pop()
                if it not in seen:
                    seen.add(it)
                    left += uses.get(it, ())
            closed[module] = seen
        return closed

    @staticmethod
    def calls(sources):
        """For each function's bare name, the names that it may come to call: more than it does."""
        words = {}
        for source in sources.values():
            for function in source.functions or []:
                words.setdefault(function.name, set()).update(re.findall(r"[A-Za-z_]\w*", source.body(function).decode(errors="replace")))
        reach = {}
        for name in words:
            seen, left = set(), [name]
            while left:
                for it in words[left.pop()] & words.keys():
                    if it not in seen:
                        seen.add(it)
                        left.append(it)
            reach[name] = seen
        return reach

    def stay_apart(self, one, other):
        f, g = one.function, other.function
        if f.path == g.path:
            return True
        if g.name in self.reach.get(f.name, ()) and f.name in self.reach.get(g.name, ()):
            return True
        return self.cites(f, g) or self.cites(g, f)

    def cites(self, f, g):
        return any(f.owns_file(f"proofs/{file}/") and any(g.owns_file(f"proofs/{it}/") for it in leads) for file, leads in self.cited.items())

    def groups(self, edits):
        groups = []
        for edit in edits:
            fits = next((it for it in groups if len(it) < MOST and not any(self.stay_apart(edit, other) for other in it)), None)
            if fits is None:
                groups.append([edit])
            else:
                fits.append(edit)
        return groups


# -- what the prover said

class Said:
    """The output of a check, by function."""

    def __init__(self, text, crate):
        self.lines = text.rstrip("\n").split("\n")
        self.last, self.status, self.located = self.lines[-1], {}, []
        for line in self.lines:
            found = STATUS.match(line)
            if found and found[2].startswith(f"{crate}::"):
                self.status[found[1], found[2][len(crate) + 2 :]] = found[3]
            found = LOCATED.match(line)
            if found and (found[4].startswith("error") or found[1] and found[4].startswith("it is not proved that")):
                self.located.append((bool(found[1]), found[2], int(found[3]), found[4], line))

    def is_reached(self):
        return self.last.startswith("only=")

    def unproved(self):
        return {it: said for it, said in self.status.items() if not said.startswith(("proved", "assumed"))}


def names_of_ring(words):
    """The functions whose goals failed, where this is said of a function of a ring; else None."""
    found = OF_A_RING.fullmatch(words)
    return {it.partition("-")[0] for it in re.findall(r"`([\w-]+)`", found[1])} if found else None


def judge(said, group, placed):
    """The refused edits of a group with the line that says so, or None where an error is nobody's, so that nothing can be told.

    `placed` gives each edit's function as it stands in the checked text.
    """

    def owner(file, line):
        return next((it for it in group if file == it.path and placed[it].first <= line <= placed[it].last or placed[it].owns_file(file)), None)

    reasons = {it: [] for it in group}
    for (kind, path), words in said.unproved().items():
        edit = next((it for it in group if kind == "fn" and placed[it].owns(path)), None)
        names = names_of_ring(words)
        if names is not None:
            module = path.rpartition("::")[0]
            owners = {placed[it].name: it for it in group if placed[it].path.rpartition("::")[0] == module}
            if not names <= owners.keys():
                return None
            for name in names:
                reasons[owners[name]].append((True, f"fn {path}: {words}"))
        elif edit is None:
            # a function that nobody edited may be unproved for its callees alone
            if kind != "fn" or not ONLY_CALLEES.fullmatch(words):
                return None
        elif words.startswith(("no proof", "not proved")) and "`search` did not prove" in words:
            reasons[edit].append((True, f"fn {path}: {words}"))
    for is_note, file, line, words, whole in said.located:
        edit = owner(file, line)
        if edit is None:
            return None
        if is_note or not SECOND_HAND.search(words):
            reasons[edit].append((is_note or not NAMES_ONLY.search(words), whole))
    refused = {}
    for edit in group:
        stated = [words for (kind, path), words in said.unproved().items() if kind == "fn" and placed[edit].owns(path)]
        if reasons[edit] and any(it.startswith(("not proved", "no proof")) for it in stated):
            is_goal, line = next((it for it in reasons[edit] if it[0]), reasons[edit][0])
            refused[edit] = ("" if is_goal else f"({FOR_NAMES}) ") + line[:200]
    return refused


def verdict_of(said):
    """The verdict of an edit that is refused, by what is said of it."""
    return NAMES if FOR_NAMES in said else REFUSED


def verdict_alone(outcome, said):
    """The verdict of an edit that the kit tried alone. Kits answer a word, or only whether it is refused."""
    refused = [True, *(getattr(kit.rt, word) for word in ("REFUSED", "AT_LIMIT") if hasattr(kit.rt, word))]
    if outcome in refused:
        return verdict_of(said)
    return PASSED if said.startswith("NOT REFUSED") else BAD


# -- the edits of a crate

class Trial:
    """The edits of one crate, and their verdicts."""

    def __init__(self, crate, given, slots, surfaces):
        self.crate, self.given, self.slots, self.surfaces = crate, given, slots, surfaces
        self.folder = f"{crate.folder}/{given.folder}"
        self.recorded = pathlib.Path(self.folder if given.folder == FOLDER else f"{crate.folder}/out", RECORD)
        self.checks, self.log, self.verdicts, self.keys, self.writing, self.turn = 0, [], {}, {}, threading.Lock(), threading.Lock()
        homes = homes_of(sources_of(crate))
        self.sources = {path: Source(path, text, homes) for path, text in sources_of(crate).items()}
        self.own = Surface(self.sources, True)
        self.definitions = definitions_of(crate)

    def record(self):
        try:
            return json.loads(self.recorded.read_text())
        except FileNotFoundError:
            return {}

    def write_record(self):
        """Keeps what is refused so far, so that a run that is cut off isn't lost."""
        with self.writing:
            refused = [(it, said) for it, (verdict, said) in [*self.verdicts.items()] if verdict in (REFUSED, NAMES) and it.has_record]
            rows = {it.name: {"sum": self.keys[it], "said": said} for it, said in refused}
            text = json.dumps(rows, indent=1, sort_keys=True, ensure_ascii=False) + "\n"
            if rows or self.recorded.exists():
                self.recorded.write_text(text)

    def key(self):
        """What the verdict of each edit of the crate rests on."""
        below = [(it.name, self.surfaces.of(it).beside) for it in self.crate.below()]
        cited = [(os.path.relpath(file, kit.ROOT if self.given.root is None else self.given.root), text) for file, text in cited_definitions(self.crate)]
        rest = [(path, text) for path, text in self.definitions.items() if not path.endswith(OWN_PROOFS)]
        return sum_of(FORM, kit.logic(), sorted(self.crate.of_kit), self.own.beside, rest, cited, below)

    def own_key(self, edit):
        """What else that of this one rests on: the edited function, or all functions where it isn't one alone, and what those promise that it names."""
        found, change = edited_function(edit, self.sources), edit_text(edit.file)
        if found is None:
            words = [(path, source.words()) for path, source in self.sources.items()]
            return sum_of(words, self.definitions, change, self.promised([*change, *(it for _, some in words for it in some)]))
        source, function = found
        words = source.words_of(function, change)
        proofs = [(path, text) for path, text in self.definitions.items() if path.endswith(OWN_PROOFS) and function.owns_file(path)]
        return sum_of(words, proofs, self.promised(words))

    def promised(self, words):
        """What the functions promise, here and in the crates below, whose names are among these words or in them."""
        names = {*WORD.findall(" ".join(words))}
        return [("", self.own.promised(names)), *((it.name, self.surfaces.of(it).promised(names)) for it in self.crate.below())]

    def check(self, group, texts):
        """Checks the edited functions of a group, and those that they call."""
        only = [word for it in group for word in ("--only", it.function.path)]
        return self.over_kept_work(lambda kept: kit.rt.checked(self.crate, texts, [*FLAGS, *only], kept))

    def alone(self, edit):
        if edit.function is not None:
            found = self.together([edit])
            if edit in found:
                return found[edit]
        outcome, text = self.over_kept_work(lambda kept: kit.rt.must_fail(self.crate, edit.file, FLAGS, kept))
        said = text.partition(f"{edit.name}: ")[2] or text
        return verdict_alone(outcome, said), f"alone: {said}"

    def over_kept_work(self, call):
        """Runs a check over a copy of what the crate's own check kept, or where there is none, over what the checks before it kept, in turn."""
        kept = f"{self.crate.folder}/out/incremental"
        # (what was checked over whole libraries is of no use over their statements)
        if self.given.gate or not os.path.isdir(kept):
            with self.turn, self.slots:
                self.checks += 1
                return call(self.room)
        with self.slots, tempfile.TemporaryDirectory(prefix="wrong-bodies-", dir=f"{self.crate.folder}/out") as room:
            self.checks += 1
            kit.linked(kept, f"{room}/kept")
            return call(f"{room}/kept")

    def together(self, group):
        """The verdicts that one check of these edits gives. Those that it leaves open aren't in it."""
        texts, placed = {}, {}
        for path in {it.path for it in group}:
            texts[path] = self.sources[path].with_functions({it.number: it.new for it in group if it.path == path})
            functions = self.sources[path].with_text(texts[path]).functions
            if functions is None:
                return self.halves(group)
            placed.update({it: functions[it.number] for it in group if it.path == path})
        ran = self.check(group, texts)
        said = Said(ran.stdout, self.crate.name)
        if not said.is_reached() or kit.rtlib.STALE.search(ran.stdout) or any(kit.rt.unread(it, texts) for it in said.lines):
            return self.without_blamed(group, placed, said)
        refused = judge(said, group, placed) if ran.returncode else {}
        if refused is None:
            self.log.append(f"a check of {len(group)} has an error that is none of its functions': {[it.name for it in group]}")
            return self.halves(group)
        how = f"with {len(group) - 1} others" if len(group) > 1 else "alone"
        found = {it: (verdict_of(why), f"{how}: {why}") for it, why in refused.items()}
        self.verdicts.update(found)
        self.write_record()
        return found

    def without_blamed(self, group, placed, said):
        """Tries the edits again without those at whose lines something couldn't be read."""
        blamed = set()
        for line in said.lines:
            at = re.search(r"(?:\./)?(src/\S+?):(\d+)(?::\d+)?\b", line)
            if at:
                blamed |= {it for it in group if it.path == at[1] and placed[it].first <= int(at[2]) <= placed[it].last}
            unknown = NO_FUNCTION.search(line)
            blamed |= {it for it in group if unknown and it.function.path == unknown[1]}
        self.log.append(f"a check of {len(group)} did not reach the prover; blamed: {sorted(it.name for it in blamed)}")
        if not blamed:
            return self.halves(group)
        rest = [it for it in group if it not in blamed]
        return self.together(rest) if len(rest) > 1 else {}

    def halves(self, group):
        half, found = len(group) // 2, {}
        for part in (group[:half], group[half:]):
            found.update(self.together(part) if len(part) > 1 else {})
        return found

    def try_all(self, edits, texts):
        placed = [it for it in edits if it.place(texts[it], self.sources)]
        left = [] if self.given.alone else placed
        neighbours = Neighbours(self.crate, self.sources)
        with tempfile.TemporaryDirectory(prefix="wrong-bodies-", dir=f"{self.crate.folder}/out") as self.room, ThreadPoolExecutor(self.given.jobs) as pool:
            while len(left) > 1:
                found = {}
                for refused in pool.map(lambda it: self.together(it) if len(it) > 1 else {}, neighbours.groups(left)):
                    found.update(refused)
                left = [it for it in left if it not in found]
                if not found:
                    break
            alone = [it for it in edits if it not in self.verdicts]
            self.log.append(f"tried alone: {[it.name for it in alone]}")
            self.verdicts.update(zip(alone, pool.map(self.alone, alone)))

    def sort_out(self):
        """Settles the edits that need no check, and gives those that are left with their texts, and the recorded ones that aren't there."""
        found = [it for folder, has_record in self.given.folders for it in edits_in(place_of(self.given, self.crate, folder), has_record)]
        good = [it for it, is_edit in found if is_edit]
        self.verdicts = {it: (BAD, "an edit is a file right in its folder, with a plain name that ends in .edit") for it, is_edit in found if not is_edit}
        record, key = self.record(), self.key()
        self.keys = keys = {it: sum_of(key, self.own_key(it)) for it in good}
        texts = {}
        for edit in good:
            row = record.get(edit.name) if edit.has_record else None
            if row and row["sum"] == keys[edit] and not self.given.anew:
                self.verdicts[edit] = verdict_of(row["said"]), row["said"]
                continue
            texts[edit], why = kit.rt.read_edit(edit.file, self.crate.folder)
            if why:
                self.verdicts[edit] = BAD, why
                del texts[edit]
        missing = sorted({*record} - {it.name for it in good if it.has_record}) if self.given.gate else []
        return texts, missing

    def run(self):
        """Tries what isn't current, keeps what is refused, and gives the names of recorded edits that aren't there."""
        texts, missing = self.sort_out()
        if texts:
            self.try_all([*texts], texts)
        self.write_record()
        return len(texts), missing


def processor_seconds():
    used = [resource.getrusage(it) for it in (resource.RUSAGE_SELF, resource.RUSAGE_CHILDREN)]
    return sum(it.ru_utime + it.ru_stime for it in used)


def arguments(words):
    asks = argparse.ArgumentParser(description=__doc__, formatter_class=argparse.RawDescriptionHelpFormatter)
    asks.add_argument("crates", nargs="*")
    asks.add_argument("--root")
    asks.add_argument("--apart")
    asks.add_argument("--jobs", type=int, default=0)
    for flag in ("--must-fail", "--anew", "--alone", "--gate", "--show"):
        asks.add_argument(flag, action="store_true")
    given = asks.parse_args(words)
    given.folder = OF_THE_KIT if given.must_fail else FOLDER
    # (with whether what is refused there is recorded)
    given.folders = [(given.folder, True), *([(OF_THE_KIT, False)] if given.gate and not given.must_fail else [])]
    given.jobs = given.jobs or kit.rt.processors()
    return given


def proved_by_ci(crates):
    """Which of these crates `rt ci` has proved: those that it has built, and their libraries too. (A program that isn't proved fails there.)"""
    return [it for it in crates if all(os.path.isdir(one.rlib) for one in [*it.below(), it] if one.makes_rlib())]


def proved_now(crates, jobs):
    """Proves these crates, over what earlier runs kept, and what they stand on, and says which are proved."""
    some = kit.in_order({one for crate in crates for one in [*crate.below(), crate]})
    proved = kit.run_tasks([kit.proof_task(it, it.makes_rlib()) for it in some], lanes=jobs)
    return [it for it in crates if proved[it.name]]


def failures(counts):
    """How many of the counted verdicts are failures."""
    return sum(n for verdict, n in counts.items() if verdict != REFUSED)


def main(words):
    given = arguments(words)
    crates = kit.crates(given.root or kit.ROOT)
    lacking = {*given.crates} - {it.name for it in crates}
    if lacking:
        sys.exit(f"wrong_bodies: crates.txt names no crate {', '.join(sorted(lacking))}")
    crates = [it for it in crates if (not given.crates or it.name in given.crates) and any(os.path.isdir(place_of(given, it, folder)) for folder, _ in given.folders)]
    # (an `rt ci` beside it holds the crates, and proves none of these again)
    held = [] if given.gate else kit.hold(kit.in_order({*crates, *(below for crate in crates for below in crate.below())}))
    slots, surfaces, printing = threading.Semaphore(given.jobs), Surfaces(), threading.Lock()
    trials = {it: Trial(it, given, slots, surfaces) for it in crates}
    stale = [it for it in crates if trials[it].sort_out()[0]]
    ready = proved_by_ci(stale) if given.gate else proved_now(stale, given.jobs)
    # (from here on the repository is only read, as `rt must-fail` does, which holds no lock either)
    for it in held:
        os.close(it)
    counts = {REFUSED: 0}
    tried = 0

    def one(crate):
        nonlocal tried
        trial, began = trials[crate], time.time()
        if crate in stale and crate not in ready:
            with printing:
                counts[UNPROVED] = counts.get(UNPROVED, 0) + 1
                print(f"{crate.name}: UNPROVED: it is not proved, or a library below it isn't", flush=True)
            return
        new, missing = trial.run()
        with printing:
            tried += new
            for it, (verdict, said) in sorted(trial.verdicts.items(), key=lambda row: row[0].name):
                counts[verdict] = counts.get(verdict, 0) + 1
                if verdict != REFUSED or given.show:
                    print(f"{crate.name}/{it.shown()}: {verdict}: {said[:260]}", flush=True)
            for name in missing:
                counts["MISSING"] = counts.get("MISSING", 0) + 1
                print(f"{crate.name}/{name}: MISSING: {RECORD} names it, and there is no such edit", flush=True)
            if given.show:
                print("".join(f"  {crate.name}: {it}\n" for it in trial.log), end="", flush=True)
            print(f"{crate.name}: {len(trial.verdicts)} edits, {new} tried in {trial.checks} checks, {time.time() - began:.0f} s", flush=True)

    with ThreadPoolExecutor(max(1, given.jobs)) as pool:
        for _ in pool.map(one, crates):
            pass
    said = "".join(f", {n} {verdict}" for verdict, n in sorted(counts.items()) if verdict != REFUSED)
    print(f"{tried} edits tried now{said}; {processor_seconds():.0f} processor seconds")
    failed = failures(counts)
    print(f"{sum(counts.values()) - failed} refused, {failed} not")
    return 1 if failed else 0


if __name__ == "__main__":
    sys.exit(main(sys.argv[1:]))
