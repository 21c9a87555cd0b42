"""Cases of texts and of files, as data in tests/cases/, on the built program: what is wrong in them, what their names mean, and what is told after changes.

A live session opens the files of a case, is asked, and closes them again, so that one run of the program has many cases. A call gives what the answer
in the file has to be; what is told of a case also has to be what `protols check` says of the same files on disk.
"""
import ast
import pathlib
import re
import tempfile
import unittest

import stream
from case_editor import Editor, Places, package_span
from case_lines import FOLDER, SYNTAX, cases_of, plain

IMPORT = re.compile(r"""^import\s+(?:public\s+|weak\s+)?((?:"[^"\n]*"|'[^'\n]*'|\s)+);""", re.MULTILINE)


def path_of(literal):
    """The path that the strings of an import make up."""
    return "".join(ast.literal_eval(it) for it in re.findall(r"""'[^']*'|"[^"]*\"""", literal))


class Folder(unittest.TestCase):
    def test_each_file_has_a_test(self):
        """The files that are tested, here and in test_cases_sessions.py, are all that there are."""
        tested = ["files.txt", "messages.txt", "sessions.txt", "streams.txt", "texts.txt"]
        self.assertEqual(sorted(it.name for it in FOLDER.iterdir()), tested)


class CasesTest(unittest.TestCase):
    maxDiff = None

    def check_all(self, name):
        """Each case of a file gives its answer."""
        with tempfile.TemporaryDirectory() as folder:
            self.editor = Editor(folder)
            try:
                for case in cases_of(name):
                    with self.subTest(case.place, call=case.call):
                        try:
                            self.assertEqual(getattr(self, f"say_{case.call}")(case).rstrip(), case.answer)
                        finally:
                            self.editor.drop_all()
                self.editor.close()
            finally:
                self.editor.server.__exit__()

    def open(self, text, path="a.proto"):
        self.editor.put(path, text)
        return self.editor.opened[path]


class Texts(CasesTest):
    def test_texts(self):
        self.check_all("texts.txt")

    def found(self, text):
        """What is wrong in a text by itself."""
        self.open(text)
        return [it for it in self.editor.diagnostics()["a.proto"] if it[0] < 400]

    def say_faults(self, case):
        """The bad tokens of a text, then its bad statements, which stand behind another statement of the syntax."""
        found, front, own = self.found(SYNTAX + case.text()), len(SYNTAX), Places(case.text())
        faults = sorted((it for it in found if it[0] < 300), key=lambda it: it[0] != 201)
        return " ".join(f"{own.shown((start - front, end - front))} {code}," for code, (start, end) in faults)

    def say_depth(self, case):
        """How many blocks stand one inside the other, each of which declares a message."""
        self.open(case.text())
        return str(len(self.editor.symbols()))

    def say_problems(self, case):
        found = self.found(case.text())
        syntax = "Opaque" if any(code in (316, 317) for code, _ in found) else "Proto3"
        return ", ".join([syntax, *(f"{start}-{end} {code}" for code, (start, end) in found)])

    def is_public(self, path):
        """Whether what a.proto imports by this path is seen by a file that imports a.proto."""
        self.open(f"{SYNTAX}message Behind {{ }}\n", path)
        reader = self.open(f'{SYNTAX}import "a.proto";\nmessage Reader {{ Behind b = 1; }}\n', "reader.proto")
        is_seen = self.editor.means("reader.proto", reader.names()[-2]) is not None
        self.open(SYNTAX, path)
        return is_seen

    def say_facts(self, case):
        """The language and what is wrong, the package with the places of its names, the imports and the declarations of a text."""
        text = case.text()
        parts, places, (stated, package) = [self.say_problems(case)], self.editor.opened["a.proto"], package_span(text)
        components = [it for it in places.names() if self.editor.means("a.proto", it) == "package"]
        if components:
            parts.append(" ".join([f"package {package}", *(f"{start}-{end}" for start, end in components)]))
            self.assertTrue(all(stated[0] <= start and end <= stated[1] for start, end in components))
        declared = self.editor.symbols()
        missing = [span for code, span in self.editor.diagnostics()["a.proto"] if code == 403]
        for start, end in missing:
            path = path_of(text[start:end])
            parts.append(f"import {path} {start}-{end} {str(self.is_public(path)).lower()}")
        return "; ".join([*parts, *(f"{kind} {name} {start}-{end}" for _, name, kind, (start, end) in declared)])


class Files(CasesTest):
    def test_files(self):
        self.check_all("files.txt")

    # ---- graphs

    def imports_of(self, found, paths, path):
        """Of each import of a file the number of the file that it names, or `-`, and `!` where it closes a cycle."""
        codes = {}
        for code, span in found[path]:
            codes.setdefault(span, set()).add(code)
        shown = []
        for it in IMPORT.finditer(self.editor.texts[path]):
            own, named = codes.get(it.span(1), ()), path_of(it[1])
            self.assertEqual(403 in own, named not in paths or named.startswith("/"))
            shown.append(" -" if 403 in own else f" {paths.index(named)}{'!' * (404 in own)}")
        return "".join(shown)

    def seen(self, case):
        """Of each file the imports, the files that it sees, and whether its view is closed. What it sees is the files whose message it can name; where its
        view is closed, a name that nobody declares is reported. A file of another syntax has no names, and says nothing of what it sees."""
        files = case.files()
        paths, packages = [path for path, _ in files], [package_span(text)[1] for _, text in files]
        names = [f".{package}.Shows{n}".replace("..", ".") for n, package in enumerate(packages)]
        for n, (path, text) in enumerate(files):
            fields = "".join(f" {name} f{at} = {at + 1};" for at, name in enumerate([*names, "Nowhere"]))
            self.editor.put(path, f"{text}\nmessage Shows{n} {{ }}\nmessage Asks{n} {{{fields} }}\n")
        found = self.editor.diagnostics()
        self.assertEqual([*found], paths)
        rows = []
        for n, path in enumerate(paths):
            text, sees, closed = self.editor.texts[path], [], False
            if 317 not in [code for code, _ in found[path]]:
                ask = text.index(f"message Asks{n} {{")
                for at, name in enumerate(names):
                    start = text.index(f" {name} f{at}", ask) + len(name) + 1 - len(f"Shows{at}")
                    meant = self.editor.means(path, (start, start))
                    if meant is not None:
                        self.assertEqual(meant[0], paths[at])
                        sees.append(at)
                start = text.index(" Nowhere ", ask) + 1
                closed = (401, (start, start + len("Nowhere"))) in found[path]
            rows.append((self.imports_of(found, paths, path), sees, closed))
        return rows

    def say_graph(self, case):
        rows = enumerate(self.seen(case))
        return "".join(f"{n}:{imports}{''.join(f' +{it}' for it in sees)}{'.' * closed}; " for n, (imports, sees, closed) in rows)

    def say_seers(self, case):
        rows = self.seen(case)
        return "".join(f"{n}:{''.join(f' {it}' for it, row in enumerate(rows) if n in row[1])}; " for n in range(len(rows)))

    def say_ring(self, case):
        """How many imports close cycles in a ring of files that each import the next two."""
        count = int(case.fields[0])
        files = [(f"{n:05}.proto", f'{SYNTAX}import "{(n + 1) % count:05}.proto";\nimport "{(n + 2) % count:05}.proto";\n') for n in range(count)]
        lines = self.check_folder(files)
        self.assertEqual({line.partition(": ")[2] for line in lines}, {"404 import cycle"})
        return str(len(lines))

    # ---- names

    def uses(self, path):
        """The names of a file that stand for a declaration or a package, without those that declare or state one: a span and what it means."""
        stated, _ = package_span(self.editor.texts[path])
        found = [(span, self.editor.means(path, span)) for span in self.editor.opened[path].names()]
        return [(span, it) for span, it in found if it not in (None, (path, span)) and not (it == "package" and stated[0] <= span[0] < stated[1])]

    def numbered(self):
        """The number of the file and the number of each declaration, by its path and its span, and its full name."""
        paths, numbers = [*self.editor.diagnostics()], {}
        for path, name, _, span in self.editor.symbols():
            numbers[path, span] = (paths.index(path), sum(it[0] == path for it in numbers), name)
        return numbers

    def package_of(self, text, uses, at, numbers):
        """The name of a package that is used: what stands before the names behind it in the full name of what these mean, or all that is written
        from a leading dot on."""
        end, behind = at, 0
        while end + 1 < len(uses) and text[uses[end][0][1] : uses[end + 1][0][0]] == ".":
            end, behind = end + 1, behind + 1
        meant = uses[end][1]
        if meant != "package":
            return numbers[meant][2].rsplit(".", behind)[0]
        start = re.search(r"[\w.]*$", text[: uses[at][0][1]])[0]
        self.assertTrue(start.startswith("."), "a package that is no whole name")
        return start[1:]

    def say_links(self, case):
        """Of each file what its names mean, then what is wrong with what they mean."""
        self.editor.put_all(case.files())
        found, numbers, line = self.editor.diagnostics(), self.numbered(), ""
        for path, text in case.files():
            uses = self.uses(path)
            for at, (span, meant) in enumerate(uses):
                target = f"package {self.package_of(text, uses, at, numbers)}" if meant == "package" else "{}.{}".format(*numbers[meant][:2])
                line += f" {self.editor.opened[path].shown(span)}>{target}"
            line += self.shown_diagnostics(path, [it for it in found[path] if it[0] > 400]) + ";"
        return line

    def shown_diagnostics(self, path, found):
        return "".join(f" {self.editor.opened[path].shown(span)} {code}" for code, span in found)

    # ---- analyses

    def check_folder(self, files):
        """The lines of a check of these files, which are the same with each number of workers, and its status is that of its lines."""
        with tempfile.TemporaryDirectory() as folder:
            for path, text in files:
                file = pathlib.Path(folder, path)
                file.parent.mkdir(parents=True, exist_ok=True)
                file.write_text(text, encoding="utf-8", newline="")
            out, err, status = stream.check_with_each(["--root", folder])
        lines = out.decode().splitlines()
        self.assertEqual((err, status), (b"", int(any(": 317 " not in it for it in lines))))
        return lines

    def said(self):
        """All that is wrong, by path. A check says the same of these files where they can be on a disk."""
        found, checked = self.editor.diagnostics(), []
        for path, some in found.items():
            for code, (start, _) in some:
                position = self.editor.opened[path].position(start)
                checked.append(f"{path}:{position['line'] + 1}:{position['character'] + 1}: {code}")
        if not any(path.startswith("/") for path in found):
            lines = self.check_folder(self.editor.texts.items())
            self.assertEqual([re.match(r".*: \d+(?= )", it)[0] for it in lines], checked)
        return "".join(f"{path}{self.shown_diagnostics(path, some)};" for path, some in found.items())

    def answer(self, question):
        """The answer to a question of an analysis."""
        call, _, words = question.partition(" ")
        found, numbers = self.editor.diagnostics(), self.numbered()
        if call == "files":
            return "".join(f" {path}" for path in found)
        if call == "declarations":
            return "".join(f" {file}.{number}" for file, number, _ in numbers.values())
        if call == "named":
            return "".join(f" {file}.{number}" for file, number, name in numbers.values() if name == words)
        if call == "at":
            return f" {len(found.get(words, []))}"
        if call == "path":
            return f" {[*found].index(words)}" if words in found else f" none, imported {str(words in self.missing(found)).lower()}"
        path = [*found][int(call)]
        return f" {sum(it[0] == path for it in numbers)} {len(self.uses(path))} {len(found[path])}"

    def missing(self, found):
        """The paths that imports have and no file."""
        spans = [(path, span) for path, some in found.items() for code, span in some if code == 403]
        return {path_of(self.editor.opened[path].bytes[start:end].decode()) for path, (start, end) in spans}

    def answers(self, case):
        return "".join(f" {it}:{self.answer(it)}" for it in case.marked("? "))

    def say_analysis(self, case):
        self.editor.put_all(case.files())
        return self.said() + self.answers(case)

    def say_again(self, case):
        """The same after changes, or where a file comes to others: before it, each was asked for."""
        self.editor.put_all(case.files())
        self.editor.diagnostics()
        self.editor.put_all(case.files("> "))
        return self.said() + self.answers(case)

    say_once = say_with = say_again

    # ---- what is asked about names

    def ask(self, question):
        call, _, words = question.partition(" ")
        if call == "symbols":
            return "".join(f" {path} {name}" for path, name, _, _ in self.editor.symbols(plain(words)))
        name, words = words.split(" ", 1) if call == "rename" else ("", words)
        path, _, place = words.partition(" ")
        if call == "report":
            return self.shown_diagnostics(path, self.editor.diagnostics()[path])
        position = self.editor.opened[path].asked(place)
        if call == "definition":
            found = self.editor.definition(path, position)
        elif call == "rename":
            found = self.editor.rename(path, position, name)
        else:
            found = self.editor.references(path, position, call == "references+")
        if not isinstance(found, list):
            return " null" if found is None else f" {found}"
        return f" {name}" * bool(name) + "".join(f" {path} {self.editor.opened[path].shown(span)}" for path, span in found)

    def say_queries(self, case):
        self.editor.put_all(case.files())
        return " ".join(f"{it}:{self.ask(it)};" for it in case.marked("? "))


if __name__ == "__main__":
    unittest.main()
