"""The functions of a Rattle source file, and its text without their bodies, read from the tokens of the kit's own formatter.

Relied on of the kit: `rattle fmt --tokens FILE..` prints for each file a line `file N` and then a line `LINE START END KIND TEXT` for each token,
where LINE counts from 1, START and END are bytes, KIND is Code, Literal, Head, Antt, Text or End, and TEXT is a JSON string.
"""
import json
import re
import subprocess
import tempfile

import kit

WORD = re.compile(r"[A-Za-z_]\w*")
# The types that a file declares.
TYPE = re.compile(r"(?m)^\s*(?:pub(?:\([a-z]+\))?\s+)?(?:struct|enum|union)\s+(\w+)")
BEFORE_FN = ("pub", "const", "unsafe", "extern", "async", ")", "crate", "(", "super", "in", '""')


class Function:
    """A function with a body that isn't inside another function's.

    `path` is its path as the checker prints it, `start` the byte where it begins, `first` and `last` its lines, `body` the bytes from brace to
    brace. `is_plain` is false where others see its body: a const function, a trait's default, one that returns an `impl`. `is_named` says that it is
    plain and of no trait, so that only what writes its name can call it. `is_private` says that no other crate sees it at all.
    """

    def __init__(self, path, name, start, lines, body, is_plain, is_named, is_private):
        self.path, self.name, self.start, self.body = path, name, start, body
        self.is_plain, self.is_named, self.is_private = is_plain, is_named, is_private
        self.first, self.last = lines

    def holders(self):
        """Its path, and how the paths of its closures begin."""
        above, _, name = self.path.rpartition("::")
        return self.path, f"{above}::fn::{name}::" if above else f"fn::{name}::"

    def owns(self, path):
        exact, inner = self.holders()
        return path == exact or path.startswith((inner, exact + "::"))

    def owns_file(self, file):
        exact, inner = (it.replace("::", "/").rstrip("/") for it in self.holders())
        return file.startswith((f"proofs/{exact}/", f"proofs/{inner}/"))


def tokens_of(text):
    """The tokens of a source text, or None where it can't be read."""
    with tempfile.NamedTemporaryFile(suffix=".rt") as file:
        file.write(text)
        file.flush()
        ran = subprocess.run([kit.rtlib.RATTLE, "fmt", "--tokens", file.name], capture_output=True)
    if ran.returncode:
        return None
    rows = re.findall(rb"(?m)^(\d+) (\d+) (\d+) (\w+) (.*)$", ran.stdout)
    return [(int(line), int(start), int(end), kind.decode(), json.loads(said)) for line, start, end, kind, said in rows]


def code_of(tokens):
    """The tokens of the code itself: clauses, ghost items and `use` items of ghosts are left out, since their brackets may hold code."""
    code, in_clause, in_use = [], False, False
    for line, start, end, kind, text in tokens:
        if in_clause:
            in_clause = kind != "End"
        elif in_use:
            in_use = text != ";"
        elif kind == "Head":
            in_clause, in_use = text == "{", text == "use"
        elif kind in ("Code", "Literal"):
            code.append((line, start, end, text if kind == "Code" else '""'))
    return code


def last_name(words):
    """The last plain name of a type's path, outside its type arguments."""
    depth, name = 0, None
    for at, word in enumerate(words):
        if word == "<":
            depth += 1
        elif word == ">" and words[at - 1] not in ("-", "="):
            depth -= 1
        elif word == "where":
            break
        elif depth == 0 and WORD.fullmatch(word) and word not in ("dyn", "mut"):
            name = word
    return name


def parts_of_impl(words):
    """The type of an `impl`, and its trait if it has one."""
    if words[:1] == ["<"]:
        depth = 0
        for at, word in enumerate(words):
            depth += (word == "<") - (word == ">" and words[at - 1] not in ("-", "="))
            if depth == 0:
                words = words[at + 1 :]
                break
    words = words[: words.index("where")] if "where" in words else words
    at = words.index("for") if "for" in words else None
    return (last_name(words), None) if at is None else (last_name(words[at + 1 :]), last_name(words[:at]))


def type_of_impl(words):
    return parts_of_impl(words)[0]


def name_of_impl(words):
    """The name of an `impl` as the checker prints it: the type's, and the trait's behind it."""
    own, of = parts_of_impl(words)
    return own if of is None else f"{own}{of}"


def module_of(path):
    parts = path[len("src/") : -len(".rt")].split("/")
    return [] if parts in (["lib"], ["main"]) else parts[:-1] if parts[-1] == "mod" else parts


def homes_of(texts):
    """The modules of the types that a crate's files declare, by their names, where they are declared once."""
    found = [(name, module_of(path)) for path, text in texts.items() for name in TYPE.findall(text)]
    return {name: modules for name, modules in found if sum(name == other for other, _ in found) == 1}


class Import:
    """A name that a `use` item brings: the words of its whole path, and the word or the operator's words by which it is called."""

    def __init__(self, words):
        self.words = words
        name = next(it for it in reversed(words) if it not in ("self", ":"))
        # (a definition's path is one word, with dots; `◌` stands for what an operator takes)
        self.cores = [it for it in name.rpartition(".")[2].split("◌") if it]

    def may_be_in(self, text, words):
        """Whether a text may name it, of which these are the words."""
        return "*" in self.words or any(it in words or not re.fullmatch(r"\w+", it) and it in text for it in self.cores)


def imports_of(words):
    """What the words of a `use` item between `use` and `;` bring."""
    found, above, path = [], [], []
    for word in [*words, ","]:
        if word == "{":
            above, path = [*above, path], []
        elif word in (",", "}"):
            if path:
                found.append(Import([*(it for some in above for it in some), *path]))
            above, path = above[:-1] if word == "}" else above, []
        else:
            path.append(word)
    return found


class Reader:
    """Finds the functions of a file, in one pass over its code. `homes` has the modules of the crate's types, by their names."""

    def __init__(self, path, tokens, homes):
        self.code, self.modules, self.homes = code_of(tokens), module_of(path), homes
        self.functions, self.at, self.above, self.of_types, self.of_traits, self.pending = [], 0, [], [], [], []

    def word(self, at):
        return self.code[at][3] if at < len(self.code) else ""

    def balanced(self, at):
        """The place of the bracket that closes the one at this place."""
        depth = 0
        while at < len(self.code):
            depth += (self.word(at) in ("{", "(", "[")) - (self.word(at) in ("}", ")", "]"))
            if depth == 0:
                return at
            at += 1
        return len(self.code) - 1

    def read(self):
        while self.at < len(self.code):
            word = self.word(self.at)
            if word == "fn" and WORD.match(self.word(self.at + 1)):
                self.read_function()
            elif word == "{":
                self.open()
            elif word == "}":
                self.above, self.of_types, self.of_traits, self.pending = self.above[:-1], self.of_types[:-1], self.of_traits[:-1], []
                self.at += 1
            elif word == ";":
                self.pending = []
                self.at += 1
            elif word == "#" and self.word(self.at + 1) in ("[", "!"):
                self.at = self.balanced(self.at + 1 if self.word(self.at + 1) == "[" else self.at + 2) + 1
            else:
                self.pending.append(word)
                self.at += 1
        return self.functions

    def open(self):
        """Goes into the braces of a module, an impl or a trait, and past all others."""
        kind = next((it for it in self.pending if it in ("mod", "impl", "trait")), None)
        if kind and "macro_rules" not in self.pending:
            after = self.pending[self.pending.index(kind) + 1 :]
            self.above.append(after[0] if kind == "mod" else name_of_impl(after) or "" if kind == "impl" else "?trait")
            self.of_types.append(type_of_impl(after) if kind == "impl" else None)
            self.of_traits.append(kind == "trait" or kind == "impl" and "for" in after)
        else:
            self.at = self.balanced(self.at)
        self.pending = []
        self.at += 1

    def above_attributes(self, at):
        """The place where the attributes begin that stand before this one."""
        while at and self.word(at - 1) == "]":
            open_at = at - 1
            while open_at and self.balanced(open_at) != at - 1:
                open_at -= 1
            if not open_at or self.word(open_at - 1) != "#":
                break
            at = open_at - 1
        return at

    def read_function(self):
        at, name, end = self.at, self.word(self.at + 1), self.at + 2
        while end < len(self.code) and self.word(end) not in ("{", ";"):
            end = (self.balanced(end) if self.word(end) in ("(", "[") else end) + 1
        if self.word(end) == "{":
            close, begin = self.balanced(end), at
            while begin and self.word(begin - 1) in BEFORE_FN:
                begin -= 1
            head = [it[3] for it in self.code[begin:end]]
            dash = head.index("-") if "-" in head else head.index("->") if "->" in head else len(head)
            is_plain = "const" not in head[: head.index("fn")] and "impl" not in head[dash:] and "?trait" not in self.above
            above = [it for it in self.above if it not in ("", "?trait")]
            home = self.homes.get(self.of_types[-1]) if self.of_types and self.of_types[-1] else None
            # (a method is printed where its type is declared, which may be another file)
            path = "::".join([*self.modules, *above, name] if home is None or len(above) > 1 else [*home, *above, name])
            is_public = "pub" in head and head[head.index("pub") + 1] != "("
            is_named = is_plain and not any(self.of_traits)
            lines, body = (self.code[self.above_attributes(begin)][0], self.code[close][0]), (self.code[end][1], self.code[close][2])
            self.functions.append(Function(path, name, self.code[begin][1], lines, body, is_plain, is_named, is_named and not is_public))
            end = close
        self.at, self.pending = end + 1, []


# What no other crate can name unless it is `pub`.
HIDDEN = ("struct", "enum", "union", "const", "static")


def is_item(words, after):
    """Whether an item begins behind these words, whose keyword this token follows: no `const` parameter, and no function."""
    return after != ("Code", "fn") and (not words or words[-1] in ("{", "}", ";", "]", ")"))


def begin_of_item(words):
    """Where an item begins behind these words: with its attributes, or with `pub(crate)`."""
    begin = len(words) - 4 if words[-4:] == ["pub", "(", "crate", ")"] else len(words)
    while words[begin - 1 : begin] == ["]"]:
        depth, at = 1, begin - 1
        while at and depth:
            at -= 1
            depth += (words[at] == "]") - (words[at] == "[")
        if words[at - 1 : at] != ["#"]:
            break
        begin = at - 1
    return begin


def end_of_item(tokens, at):
    """The place behind a type's `;`, or behind the brace that closes it."""
    depth = 0
    for place in range(at, len(tokens)):
        kind, text = tokens[place]
        if kind == "Code":
            depth += (text in ("{", "(", "[")) - (text in ("}", ")", "]"))
            if depth == 0 and text in (";", "}"):
                return place + 1
    return len(tokens)


class Source:
    """A source file: its bytes, and its functions, None where its text can't be read. `homes` is that of the crate's files."""

    def __init__(self, path, text, homes={}):
        self.path, self.homes, self.data = path, homes, text.encode() if isinstance(text, str) else text
        tokens = tokens_of(self.data)
        self.functions = Reader(path, tokens, homes).read() if tokens is not None else None
        self.tokens = tokens
        self.rest, self.types, self.imports, self.exports = self.beside()

    def with_text(self, text):
        """The same file with another text."""
        return Source(self.path, text, self.homes)

    def body(self, function):
        return self.data[slice(*function.body)]

    def head(self, function):
        """A function's text up to its body, with its clauses."""
        return self.data[function.start : function.body[0]]

    def whole(self, function):
        """A function's text, clauses and body."""
        return self.data[function.start : function.body[1]]

    def between(self):
        """The text between the functions."""
        at, pieces = 0, []
        for function in self.functions:
            pieces.append(self.data[at : function.start])
            at = function.body[1]
        return [*pieces, self.data[at:]]

    def with_functions(self, others):
        """The text with others in the place of some functions, by their number."""
        pieces = self.between()
        made = b"".join(piece + others.get(at, self.whole(function)) for at, (piece, function) in enumerate(zip(pieces, self.functions)))
        return (made + pieces[-1]).decode()

    def words(self):
        """Its tokens as text, so that comments and layout don't count; where it can't be read, its bytes."""
        return [token[4] for token in self.tokens] if self.tokens is not None else [self.data.decode(errors="replace")]

    def words_within(self, start, end):
        return [text for _, first, _, _, text in self.tokens if start <= first < end]

    def words_of(self, function, more):
        """The tokens of a function, with its clauses and its body, and these words, with the imports that all of them may name."""
        return self.with_imports([*self.words_within(function.start, function.body[1]), *more])

    def beside(self):
        """Its tokens without the functions that are called by their names alone, without the bodies that no caller sees, without the types and constants
        that no other crate can name, without what it only imports or hands on, and without the modules that it names; the tokens of each of those types
        and constants by its name; the imports; and what it hands on by `pub use`."""
        if self.functions is None:
            return self.words(), {}, [], []
        hidden = [(it.start if it.is_named else it.body[0], it.body[1]) for it in self.functions if it.is_plain]
        tokens = [(kind, text) for _, start, _, kind, text in self.tokens if not any(first <= start < last for first, last in hidden)]
        words, types, imports, exports, at = [], {}, [], [], 0
        while at < len(tokens):
            kind, text = tokens[at]
            if text == "use" and kind in ("Code", "Head"):
                end = next(it for it in range(at, len(tokens)) if tokens[it][1] == ";")
                is_export = words[-1:] in (["pub"], [")"])
                words = words[: begin_of_item(words[:-1] if words[-1:] in (["pub"], ["ghost"]) else words)]
                (exports if is_export else imports).extend(imports_of([it for _, it in tokens[at + 1 : end]]))
                at = end + 1
            elif kind == "Code" and text == "mod" and tokens[at + 2 : at + 3] == [("Code", ";")]:
                words = words[: begin_of_item(words[:-1] if words[-1:] == ["pub"] else words)]
                at += 3
            elif kind == "Code" and text in HIDDEN and words[-1:] != ["pub"] and is_item(words, tokens[at + 1]):
                begin, end = begin_of_item(words), end_of_item(tokens, at)
                types[tokens[at + 1][1]] = [*words[begin:], *(it for _, it in tokens[at:end])]
                words, at = words[:begin], end
            else:
                words.append(text)
                at += 1
        return words, types, imports, exports

    def with_imports(self, words):
        """These words of the file with the paths of the imports that they may name."""
        text = " ".join(words)
        named = {*re.findall(r"\w+", text)}
        return [*words, *(word for it in self.imports if it.may_be_in(text, named) for word in it.words)]

    def words_beside(self):
        """Its tokens without those functions, bodies and types, and of its imports those that the rest may name."""
        return self.with_imports(self.rest)

    def hidden_types(self):
        """Those types, each with the imports that it may name."""
        return {name: self.with_imports(words) for name, words in self.types.items()}

    def promises(self):
        """Those functions, with the tokens of each up to its body, which no caller sees, and the imports that these may name."""
        return [(it, self.with_imports(self.words_within(it.start, it.body[0]))) for it in self.functions or [] if it.is_named]

    def function_with(self, texts):
        """The function in whose body all these texts stand, each once in the file and where no caller sees it; None where there is none."""
        places = [(self.data.find(it), len(it)) for it in texts]
        if self.functions is None or any(at < 0 for at, _ in places):
            return None
        inside = [it for it in self.functions if it.is_plain and all(it.body[0] < at and at + size < it.body[1] for at, size in places)]
        return inside[0] if inside else None
