"""A thousand random renames on the built program, in small trees that somebody made to be misread.

Which names a text has, and what each means, is worked out here from the rules of the language, and in each session the definitions of all names and the
references of some have to agree. If a rename answers edits, an editor makes them, and a new session on the result finds diagnostics of the same numbers in
each file, and each name, by its number in its file, means what it meant. If a rename is refused since a meaning would change, the same edits made by hand
change one of the two.
"""
import collections
import itertools
import json
import random
import re
import unittest

import stream
from test_encodings import ENCODINGS, ENDING, at, changing, choosing, notification, opening, position, replaced, request

# (with this seed it is the names' numbers alone that change in some trees, files without an edit alone in others, and once edits take a name away)
SEED, TREES, RENAMES, ROOT = 5, 250, 4, "file:///"
# Of so many names of a tree each session is asked for the references.
SOME = 30
REFUSED = {number: {"code": -32803, "message": f"rename refused: {number}"} for number in range(701, 706)}

# What follows reads texts without bad tokens, lone braces, strings in a row or numbers that aren't decimal: none are written here, and no rename makes one.
SCALARS = "double float int32 int64 uint32 uint64 sint32 sint64 fixed32 fixed64 sfixed32 sfixed64 bool string bytes".split()
TOKEN = re.compile(r'//[^\n]*|/\*.*?\*/|("[^"\n]*"|[A-Za-z_]\w*|\d+|\S)', re.DOTALL | re.ASCII)
WORD = r"[A-Za-z_]\w*"
TYPE = rf"(?:\. )?{WORD}(?: \. {WORD})*"
LABELS = "(?:L L |L (?!L )|(?!L ))".replace("L", "(?:repeated|optional)")
FLAG = "(?:stream |(?!stream ))"
TAIL = rf"(?P<name>{WORD}) = \d+ (?:\[ .+ \] )?;$"

BLOCKS = ("message", "enum", "service", "oneof", "extend", "rpc")
# For each body the first words that settle a statement's form, and the forms of its other statements.
FORMS = {
    "file": ("syntax import package option message enum service extend ;", []),
    "message": ("message enum extend option oneof reserved ;", ["map", "field"]),
    "oneof": ("option ;", ["field"]),
    "extend": (";", ["field"]),
    "enum": ("option reserved ;", ["value"]),
    "service": ("option rpc ;", []),
}
# The tokens of a statement with a space between two, or those that it begins with. In other forms nothing is declared or named.
PATTERNS = {
    **{word: rf"{word} (?P<name>{WORD}) {{" for word in ("message", "enum", "service", "oneof")},
    "extend": rf"extend (?P<type>{TYPE}) {{",
    "rpc": rf"rpc (?P<name>{WORD}) \( {FLAG}(?P<type>{TYPE}) \) returns \( {FLAG}(?P<other>{TYPE}) \) [;{{]",
    "map": rf"{LABELS}map < {TYPE} , (?P<type>{TYPE}) > {TAIL}",
    "field": rf"{LABELS}(?P<type>{TYPE}) {TAIL}",
    "value": TAIL,
    "syntax": r'syntax = "(?P<syntax>\w*)" ;$',
    "import": r'import (?P<how>(?:weak |public )?)"(?P<path>[^"]*)" ;$',
    "package": rf"package {WORD}(?: \. {WORD})* ;$",
}

Token = collections.namedtuple("Token", "word start end")
Decl = collections.namedtuple("Decl", "kind full_name start end")
Name = collections.namedtuple("Name", "scope from_top parts")
Spot = collections.namedtuple("Spot", "path start end target")


def joined(scope, name):
    return f"{scope}.{name}" if scope else name


def fronts(full_name):
    """A full name, and those that it begins with, the longest first."""
    return [*itertools.accumulate(full_name.split("."), joined)][::-1] if full_name else []


def statements(tokens, body):
    """The statements of a body in which something may be declared or named: the tokens, the form, and the match."""
    start = depth = 0
    for place, (word, *_) in enumerate(tokens, 1):
        depth += (word == "{") - (word == "}")
        first = tokens[start].word
        if depth == 0 and (word == ";" or word == "}" and first in BLOCKS and body != "enum"):
            words = " ".join(it.word for it in tokens[start:place])
            for form in [first] if first in FORMS[body][0].split() else FORMS[body][1]:
                if found := re.match(PATTERNS.get(form, "$"), words, re.ASCII):
                    yield tokens[start:place], form, found
            start = place


class File:
    """What a text declares and names, in order. If it isn't proto3, that is nothing."""

    def __init__(self, text):
        tokens = [Token(it[1], *it.span(1)) for it in TOKEN.finditer(text) if it[1]]
        rows = [*statements(tokens, "file")]
        syntax = next((found["syntax"] for _, form, found in rows if form == "syntax"), None)
        rows = rows if syntax == "proto3" else []
        self.imports = [(found["path"], found["how"] == "public ") for _, form, found in rows if form == "import"]
        self.package = next(([it for it in statement[1:-1] if it.word != "."] for statement, form, _ in rows if form == "package"), [])
        self.packages = fronts(".".join(it.word for it in self.package))
        self.decls, self.names = [], []
        self.add(tokens if rows else [], "file", *self.packages[:1] or [""])
        self.first = {it.full_name: number for number, it in reversed([*enumerate(self.decls)])}

    def add(self, tokens, body, scope):
        for statement, form, found in statements(tokens, body):
            for group in sorted({"name", "type", "other"} & found.groupdict().keys(), key=found.start):
                first, last = (found.string.count(" ", 0, it) for it in found.span(group))
                parts = [it for it in statement[first : last + 1] if it.word != "."]
                if group == "name":
                    self.decls.append(Decl(form, joined(scope, found["name"]), parts[0].start, parts[0].end))
                elif form not in ("field", "map") or found[group] not in SCALARS:
                    self.names.append(Name(scope, found[group][0] == ".", parts))
            if form in FORMS:
                inside = statement[1 + [it.word for it in statement].index("{") : -1]
                self.add(inside, form, joined(scope, found["name"]) if form in ("message", "service") else scope)


class Tree:
    """The files of a tree and what their names mean: a declaration, as its path and its number there, or a package, as its full name, or None."""

    def __init__(self, texts, encoding="utf-16"):
        self.texts, self.encoding = texts, encoding
        self.files = {path: File(text) for path, text in texts.items()}
        self.decls = {(path, number): it for path, file in self.files.items() for number, it in enumerate(file.decls)}
        self.kinds = {target: it.kind for target, it in self.decls.items()}
        self.own_place = {target: [Spot(target[0], it.start, it.end, target)] for target, it in self.decls.items()}
        self.views = {path: self.view(path) for path in texts}
        meanings = {path: [self.meaning(path, name) for name in file.names] for path, file in self.files.items()}
        # For each file what the parts of its names mean, with the number of the name. One without a meaning isn't listed, but counts.
        self.bindings = [[(number, it) for number, found in enumerate(some) for it in found] for some in meanings.values()]
        self.spots = []
        for path, file in self.files.items():
            rows = [*((it, (path, number)) for number, it in enumerate(file.decls)), *((it, "package") for it in file.package)]
            rows += [row for name, found in zip(file.names, meanings[path]) for row in itertools.zip_longest(name.parts, found)]
            self.spots += sorted(Spot(path, it.start, it.end, target) for it, target in rows)

    def view(self, path):
        """The files that a file sees, itself first."""
        seen, ways = {path}, [it for it, _ in self.files[path].imports if it in self.files]
        while ways:
            seen.add(way := ways.pop())
            ways += [it for it, is_public in self.files[way].imports if is_public and it in self.files.keys() - seen]
        return [path, *sorted(seen - {path})]

    def at(self, path, full_name):
        """What a file finds at a full name."""
        seen = [(other, self.files[other]) for other in self.views[path]]
        declared = next(((other, file.first[full_name]) for other, file in seen if full_name in file.first), None)
        return declared or next((full_name for _, file in seen if full_name in file.packages), None)

    def meaning(self, path, name):
        """What each part of a name stands for, or nothing."""
        first, *rest = (it.word for it in name.parts)
        kinds = ("message", "enum", "service", "package") if rest else ("message", "enum")
        firsts = {it: self.at(path, joined(it, first)) for it in [*fronts(name.scope), ""]}
        scopes = [""] if name.from_top else [it for it, found in firsts.items() if self.kinds.get(found, found and "package") in kinds]
        found = [self.at(path, it) for it in itertools.accumulate([joined(scopes[0], first), *rest], joined)] if scopes else [None]
        return found if found[-1] else []

    def target(self, path, offset):
        return next((it.target for it in self.spots if it.path == path and it.start <= offset <= it.end), None)

    def places(self, target):
        """Where a declaration is named, by itself and elsewhere."""
        return [it for it in self.spots if it.target == target] if target in self.decls else []

    def refusal(self, target, name):
        """Why what stands somewhere can't get a name, whatever that would change."""
        if target not in self.decls:
            return 702 if target else 701
        if not re.fullmatch(WORD, name, re.ASCII):
            return 703
        full_name = joined(self.decls[target].full_name.rpartition(".")[0], name)
        is_declared = any(it.full_name == full_name and other != target for other, it in self.decls.items())
        return 704 if is_declared or any(full_name in it.packages for it in self.files.values()) else None

    def about(self, method, path, offset=0, **more):
        """A method, and params for a place. They have more than each method reads."""
        place = position(self.texts[path], offset, self.encoding)
        return f"textDocument/{method}", at(ROOT + path, place, context={"includeDeclaration": True}, **more)

    def locations(self, spots):
        """What a reply has for places, and null for none."""
        ends = [[position(self.texts[it.path], offset, self.encoding) for offset in (it.start, it.end)] for it in spots]
        return [{"range": {"start": start, "end": end}, "uri": ROOT + it.path} for it, (start, end) in zip(spots, ends)] or None


WORDS = ["A", "B", "Box", "foo", "bar", "p", "q"]
KEYWORDS = ["message", "option", "stream", "int32", "map", "repeated", "reserved", "oneof", "rpc", "enum", "string", "optional"]
NO_NAMES = ["", "9x", "a.b", ".A", "A ", "é", "x-y"]
# What a text is made of: <rule> is one of the texts of that rule, # a number, and TYPE a type, which is chosen when all declarations are there.
RULES = {
    "file": ['syntax = "proto3"; // é😀\n<rest>'] * 15 + ['syntax = "proto2";\n<rest>'],
    "rest": ["<import><import><import><package><block><block><block>"],
    "import": ['import "<path>";\n', 'import public "<path>";\n'] * 8 + [""] * 8 + ['import "none.proto";\n'],
    "package": ["", "", "package p;\n", "package p.q;\n", "package foo.bar;\n", "package <word>;\n", "package <word>.<word>;\n"],
    "block": [""] * 4 + ["<message>"] * 6 + ["<lost>", "<turned>", "<enum>", "<service>", "extend TYPE {\n<field>}\n"],
    # A name may lose what the next one gets, and a field may become an option.
    "lost": ["message <one> {\nmessage Z { }\n}\nmessage n# {\nmessage <two> { }\n<one>.Z n# = #;\n}\nmessage n# {\n<two>.Z n# = #;\n}\n"],
    "turned": ['import "none.proto";\nmessage <one> { }\nmessage n# {\n<one> n# = #;\nrepeated option n# = #;\n}\n'],
    "message": ["message <title> {\n<member><member>}\n", "message <title> {\n<member><member><member><member>}\n"],
    "member": ["<field>"] * 5 + ["<message>"] * 2 + ["<enum>", "oneof <title> {\n<field><field>}\n", "extend TYPE {\n<field>}\n", 'reserved "<word>";\n'],
    "field": ["<note>TYPE <name> = #<options>;\n"] * 5 + ["repeated TYPE <name> = #;\n", "optional TYPE <name> = #;\n", "map<string, TYPE> <name> = #;\n"],
    "options": [""] * 4 + [" [(o) = { a: 1 }]"],
    "enum": ["enum <title> {\n<name> = 0;\n}\n", "enum <title> {\n<name> = 0;\n<name> = #;\n}\n"],
    "service": ["service <title> {\nrpc <name>(TYPE) returns (stream TYPE);\nrpc <name>(stream TYPE) returns (TYPE) { }\n}\n"],
    "title": ["<note><word>"] * 4 + ["<note>n#"],
    "name": ["<note>n#"] * 9 + ["<note><word>"],
    "note": [""] * 12 + ["/* é */ ", "/* 😀 */ ", "/* é😀\n */ "],
    "dot": ["."] * 12 + [" . ", "./* 😀 */ "],
}


def written(dice, rules, rule):
    return re.sub(r"<(\w+)>", lambda it: written(dice, rules, it[1]), dice.choice(rules[rule]))


def random_tree(dice):
    """A tree of files that use few words for many names, and name mostly what is declared, all of its full name or the end."""
    words, numbers = dice.sample(WORDS, 4) + dice.sample(KEYWORDS, dice.randint(0, 2)), itertools.count(1)
    rules = {**RULES, "word": words, "one": words[:1], "two": words[1:2], "path": ["a.proto", "b.proto", "c.proto", "d.proto", "e.proto"][: dice.randint(2, 5)]}
    texts = {path: re.sub("#", lambda _: str(next(numbers)), written(dice, rules, "file")) for path in rules["path"]}
    declared = [it.full_name for it in Tree(texts).decls.values() for _ in range(8 if it.kind in ("message", "enum") else 1)] or words

    def type_of(_):
        parts = dice.choice([dice.choice(declared).split(".")] * 8 + [dice.choices(words, k=dice.randint(1, 3)), ["int32"]])
        name = ".".join(parts[dice.choice([0, dice.randrange(len(parts))]) :])
        return dice.choice([""] * 5 + ["."]) + re.sub(r"\.", lambda _: written(dice, rules, "dot"), name)

    texts = {path: re.sub(r"\bTYPE\b", type_of, text).replace("\n", dice.choice(["\n", "\r\n"])) for path, text in texts.items()}
    return Tree(texts, dice.choice(ENCODINGS))


def random_rename(dice, tree):
    """A place, and a new name for what stands there."""
    spots = [it for it in tree.spots if tree.kinds.get(it.target) in ("message", "enum")]
    spot = dice.choice(spots if spots and dice.random() < 0.85 else tree.spots or [Spot("a.proto", 0, 0, None)])
    offset = dice.randint(spot.start, spot.end) if dice.random() < 0.96 else dice.choice([it.start() for it in re.finditer(r"\S", tree.texts[spot.path])])
    names = [*WORDS, *(name for it in tree.spots if (name := tree.texts[it.path][it.start : it.end])[0] != "n")]
    return spot.path, offset, dice.choice(dice.choices([names, [f"New{dice.randrange(9)}"], KEYWORDS, NO_NAMES], [10, 7, 4, 1])[0])


class RandomRenames(unittest.TestCase):
    maxDiff = None

    def session(self, dice, tree, asked, by_changes=False):
        """The numbers of each file's diagnostics, and the results of what is asked, in a new session in which each name means what it means here."""
        bodies = [choosing(tree.encoding)]
        if by_changes:  # (there is an analysis of other texts before)
            bodies += [*(opening(ROOT + it, dice.choice([*tree.texts.values()])) for it in tree.texts), request(1, "workspace/diagnostic", {})]
        for path, text in tree.texts.items():
            bodies.append(changing(ROOT + path, [{"text": text}]) if by_changes else opening(ROOT + path, text))
            bodies += [notification(*tree.about(it, path)) for it in ("didSave", "didClose")] * (dice.random() < 0.3)
        first = [tree.about("diagnostic", path) for path in tree.texts]
        first += [tree.about("definition", it.path, dice.randint(it.start, it.end)) for it in tree.spots]
        some = dice.sample(tree.spots, min(len(tree.spots), SOME))
        first += [tree.about("references", it.path, dice.randint(it.start, it.end)) for it in some]
        bodies += [*(request(number, *it) for number, it in enumerate([*first, *asked], 2)), *ENDING]
        out, err, status = stream.run(stream.frames(bodies), ("serve", "--workers", str(dice.choice([1, 4]))))
        self.assertEqual((err, status), (b"", 1))
        results = iter([it.get("result", it.get("error")) for it in map(json.loads, stream.split_frames(out)) if it["id"] > 1])
        codes = [[it["code"] for it in next(results)["items"]] for _ in tree.texts]
        self.assertEqual([next(results) for _ in tree.spots], [tree.locations(tree.own_place.get(it.target, [])) for it in tree.spots])
        self.assertEqual([next(results) for _ in some], [tree.locations(tree.places(it.target)) for it in some])
        return codes, [*results]

    def check_meaning(self, dice, tree, codes, target, name, found, answer):
        """Edits come if nothing changes that is compared. Gives the refusal, or None."""
        places, texts, edits, moved = tree.places(target), {**tree.texts}, collections.defaultdict(list), []
        for it, spot in zip(found, places):
            moved.append((spot.path, spot.start + len(edits[it["uri"]]) * (len(name) - (spot.end - spot.start))))
            edits[it["uri"]].append({"newText": name, "range": it["range"]})
        for it, spot in reversed([*zip(found, places)]):
            texts[spot.path] = replaced(texts[spot.path], {"range": it["range"], "text": name}, tree.encoding)
        after, own = Tree(texts, tree.encoding), moved[places.index(*tree.own_place[target])]
        codes_after, [found_after] = self.session(dice, after, [after.about("references", *own)])
        is_same = (codes, tree.bindings) == (codes_after, after.bindings)
        self.assertEqual(answer, {"changes": edits} if is_same else REFUSED[705])
        places_after = after.places(after.target(*own))
        self.assertEqual(found_after, after.locations(places_after))
        # (with a missing import a statement may take another form and lose a name, while all that mean something mean the same)
        if is_same and [len(it.names) for it in tree.files.values()] == [len(it.names) for it in after.files.values()]:
            self.assertEqual([(it.path, it.start) for it in places_after], moved)
        return None if is_same else 705

    def check_tree(self, number):
        """The refusals of random renames in a random tree, and None for edits."""
        dice, refusals = random.Random(f"{SEED} {number}"), []
        tree = random_tree(dice)
        renames = [random_rename(dice, tree) for _ in range(RENAMES)]
        asked = [[tree.about("references", *place), tree.about("rename", *place, newName=name)] for *place, name in renames]
        with self.subTest(tree=number, texts=tree.texts):
            codes, results = self.session(dice, tree, itertools.chain(*asked), dice.random() < 0.5)
            for (*place, name), found, answer in zip(renames, results[::2], results[1::2]):
                target = tree.target(*place)
                with self.subTest(place=place, name=name):
                    self.assertEqual(found, tree.locations(tree.places(target)))
                    if refusal := tree.refusal(target, name):
                        self.assertEqual(answer, REFUSED[refusal])
                    refusals.append(refusal or self.check_meaning(dice, tree, codes, target, name, found, answer))
        return refusals

    def test_a_thousand_renames(self):
        outcomes = collections.Counter(itertools.chain(*map(self.check_tree, range(TREES))))
        self.assertEqual(outcomes.total(), 1000)
        self.assertGreaterEqual(min(outcomes[None], outcomes[705]), 100, outcomes)


if __name__ == "__main__":
    unittest.main()
