"""A live session that the cases ask, with places by bytes as the cases write them: a line and a column from 0, or an offset."""
import bisect
import itertools
import json
import re

import stream

# The severities of the diagnostics that are no errors.
SEVERITIES = {317: 3}
KINDS = {6: "Rpc", 7: "Oneof", 8: "Field", 10: "EnumDef", 11: "Service", 22: "Value", 23: "Message"}
# What stands between names, and names.
WORDS = re.compile(r"""//[^\n]*|/\*.*?\*/|"[^"\n]*"|'[^'\n]*'|[A-Za-z_]\w*""", re.DOTALL | re.ASCII)


class Places:
    """The places of a text: byte offsets, the protocol's positions, and how cases write them."""

    def __init__(self, text):
        self.bytes = text.encode()
        self.lines = [line.encode() for line in re.split(r"(?<=\n)|(?<=\r)(?!\n)", text)]
        self.starts = [0, *itertools.accumulate(map(len, self.lines[:-1]))]

    def offset(self, position):
        """The byte offset of a position that a reply has."""
        line, units = position["line"], position["character"]
        return self.starts[line] + len(self.lines[line].decode().encode("utf-16-le")[: 2 * units].decode("utf-16-le").encode())

    def position(self, offset):
        """The position of a byte offset, and one behind the text for an offset behind it."""
        if offset > len(self.bytes):
            return {"line": 2**64 - 1, "character": 2**64 - 1}
        line = bisect.bisect_right(self.starts, offset) - 1
        return {"line": line, "character": len(self.bytes[self.starts[line] : offset].decode().encode("utf-16-le")) // 2}

    def span(self, found):
        """The byte offsets of a range."""
        return self.offset(found["start"]), self.offset(found["end"])

    def shown(self, span):
        """The line of a span's start, and the columns of its start and its end."""
        (line, start), (_, end) = [(self.bytes.count(b"\n", 0, at), at - self.bytes.rfind(b"\n", 0, at) - 1) for at in span]
        return f"{line}:{start}-{end}"

    def asked(self, place):
        """The position of a place as a case writes it: a line and a column, or an offset."""
        line, colon, column = place.partition(":")
        if not colon:
            return self.position(int(place))
        rows = self.bytes.split(b"\n")[: int(line)]
        return self.position(sum(len(row) + 1 for row in rows) + int(column))

    def names(self):
        """The spans of all identifiers that stand in no comment and no string."""
        return [it.span() for it in WORDS.finditer(self.bytes.decode("latin-1")) if it[0][0] not in "/\"'"]


def diagnostic_of(item):
    """A diagnostic's number, of which the source and the severity have to be those of its number."""
    if item["source"] != "protols" or item["severity"] != SEVERITIES.get(item["code"], 1) or not item["message"]:
        raise AssertionError(f"another source or severity: {item}")
    return item["code"]


class Editor:
    """An editor of documents below an empty root, whose texts and paths are those of a case."""

    def __init__(self, root):
        self.root, self.number = f"file://{root}/", 0
        self.texts, self.opened = {}, {}
        self.server = stream.Server(("serve", "--root", root))
        self.ask("initialize", stream.PULLING)

    def close(self):
        """Ends the session, which has to end well."""
        self.server.send('{"jsonrpc":"2.0","id":0,"method":"shutdown"}')
        self.server.receive()
        self.server.send('{"jsonrpc":"2.0","method":"exit"}')
        out, err, status = self.server.close()
        if (out, err, status) != (b"", b"", 0):
            raise AssertionError(f"more was said, or it ended otherwise: {out}, {err}, {status}")

    def tell(self, method, params):
        self.server.send(json.dumps({"jsonrpc": "2.0", "method": method, "params": params}))

    def ask(self, method, params):
        """The result of a request, or its error."""
        self.number += 1
        self.server.send(json.dumps({"jsonrpc": "2.0", "id": self.number, "method": method, "params": params}))
        reply = json.loads(self.server.receive())
        if reply["id"] != self.number:
            raise AssertionError(f"not the reply to {self.number}: {reply}")
        return reply["error"] if "error" in reply else reply["result"]

    # ---- documents

    def uri(self, path):
        if path.startswith("/"):
            return path[1:]
        return self.root + path

    def path(self, uri):
        return uri.removeprefix(self.root) if uri.startswith(self.root) else "/" + uri

    def put(self, path, text):
        """Opens a document, or changes it."""
        document = {"uri": self.uri(path), "version": self.number}
        if path in self.texts:
            self.tell("textDocument/didChange", {"textDocument": document, "contentChanges": [{"text": text}]})
        else:
            self.tell("textDocument/didOpen", {"textDocument": {**document, "languageId": "proto", "text": text}})
        self.texts[path] = text
        self.opened[path] = Places(text)

    def put_all(self, files):
        for path, text in files:
            self.put(path, text)

    def drop_all(self):
        """Closes all documents: none is left."""
        for path in self.texts:
            self.tell("textDocument/didClose", {"textDocument": {"uri": self.uri(path)}})
        self.texts, self.opened = {}, {}

    # ---- questions

    def diagnostics(self):
        """For each path, in order, the diagnostics of its file, which have to be the same asked for one by one: each a number and a span."""
        found = {}
        for report in self.ask("workspace/diagnostic", {"previousResultIds": []})["items"]:
            alone = self.ask("textDocument/diagnostic", {"textDocument": {"uri": report["uri"]}})
            if alone["items"] != report["items"]:
                raise AssertionError(f"by itself it has {alone['items']}, and among all {report['items']}")
            path = self.path(report["uri"])
            found[path] = [(diagnostic_of(it), self.opened[path].span(it["range"])) for it in report["items"]]
        return found

    def symbols(self, query=""):
        """The declarations that a query finds, in order: the path, the full name, the kind and the span of the name of each."""
        found = []
        for it in self.ask("workspace/symbol", {"query": query}):
            path, scope = self.path(it["location"]["uri"]), it.get("containerName")
            name = f"{scope}.{it['name']}" if scope else it["name"]
            found.append((path, name, KINDS[it["kind"]], self.opened[path].span(it["location"]["range"])))
        return found

    def _at(self, path, position, **more):
        return {"textDocument": {"uri": self.uri(path)}, "position": position, **more}

    def _sites(self, result):
        if result is None:
            return None
        return [(self.path(it["uri"]), self.opened[self.path(it["uri"])].span(it["range"])) for it in result]

    def definition(self, path, position):
        """The path and the span of the declaration that a name means, in a list, or None."""
        return self._sites(self.ask("textDocument/definition", self._at(path, position)))

    def references(self, path, position, declaration=False):
        return self._sites(self.ask("textDocument/references", self._at(path, position, context={"includeDeclaration": declaration})))

    def rename(self, path, position, name):
        """The places that get the new name, by path, or the number of the refusal."""
        result = self.ask("textDocument/rename", self._at(path, position, newName=name))
        if "code" in result:
            front, _, number = result["message"].rpartition(": ")
            if (result["code"], front) != (-32803, "rename refused"):
                raise AssertionError(f"another refusal: {result}")
            return int(number)
        edits = [(self.path(uri), it) for uri, some in result["changes"].items() for it in some]
        if any(it["newText"] != name for _, it in edits):
            raise AssertionError(f"another new name: {result}")
        return sorted((path, self.opened[path].span(it["range"])) for path, it in edits)

    def means(self, path, span):
        """What the name of a span means: `package`, the path and the span of a declaration, or None."""
        position = self.opened[path].position(span[0])
        refusal = self.rename(path, position, "9x")
        found = self.definition(path, position)
        if (refusal == 703) != (found is not None) or refusal not in (701, 702, 703):
            raise AssertionError(f"{path} {span}: a rename says {refusal}, and the definition is {found}")
        return found[0] if found else "package" if refusal == 702 else None


def package_span(text):
    """The span of the first package statement of a text, and the name that it states."""
    stated = re.search(r"^\s*package\s+([\w.\s]+);", text, re.MULTILINE)
    return (stated.span(), re.sub(r"\s", "", stated[1])) if stated else ((0, 0), "")
