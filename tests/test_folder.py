"""End-to-end tests of the command line of `protols serve` and of the folder that it reads.

A file whose content isn't UTF-8 shows that it was read: it gives the line `skipped` on standard error, and a line that says
which file it is and why. So the number of the former says how many of such files the walk over the folder has found.
"""
import contextlib
import os
import pathlib
import re
import resource
import shutil
import socket
import subprocess
import tempfile
import unittest
import urllib.parse

import stream
from stream import frame, frames, run, split_frames
from test_serve import (
    ASK,
    EXIT,
    FIRST_INPUT,
    FIRST_OUTPUT,
    INITIALIZE,
    INITIALIZED,
    PROTO3,
    SHUT,
    SHUTDOWN,
    asking,
    nobody_reads,
    notification,
    opening,
    refusal,
    report,
    request,
    sign,
)

NOT_UTF8 = b"\xff"
SKIPPED = b"skipped\n"
FOLDER = b"protols: folder\n"

# What follows the lines `skipped` and `protols: folder`, where paths may hold line feeds.
SKIPPED_WHY = re.compile(rb"^skipped\nprotols: skipped (.+?): (not UTF-8|the name isn't UTF-8|neither a file nor a folder|[^\n:]+ \(os error \d+\))\n", re.DOTALL | re.MULTILINE)
FOLDER_WHY = re.compile(rb"^protols: folder\nprotols: folder (.*?): (can't be listed: [^\n:]+|more than 64 folders stand in one another|more than 100,000 entries in all)\n", re.DOTALL | re.MULTILINE)

MOST_FOLDERS = 64
MOST_ENTRIES = 100_000

NOBODY = 65534

QUIET_CHECK = ("check", "--quiet")

# How `protols serve` is called.
SERVE_USAGE = b"""\
protols serve [--root DIR] [--proto-path DIR]... [--read-others]
                     [--workers N] [--stdio] [--clientProcessId ID]
"""


def text(path):
    """A path, text or bytes, as bytes."""
    return os.fsencode(path)


def fixed(err):
    """The fixed lines of standard error. Behind each `skipped` and `protols: folder` stands one that says what and why."""
    for line, explained in ((rb"^skipped$", SKIPPED_WHY), (rb"^protols: folder$", FOLDER_WHY)):
        if len(re.findall(line, err, re.MULTILINE)) != len(explained.findall(err)):
            raise AssertionError(f"a line isn't explained by the one behind it: {err!r}")
    return FOLDER_WHY.sub(FOLDER, SKIPPED_WHY.sub(SKIPPED, err))


def run_fixed(data, words):
    """Runs the program: its standard output, the fixed lines of its standard error, and its status."""
    out, err, status = run(data, words)
    return out, fixed(err), status


class FolderTest(unittest.TestCase):
    maxDiff = None

    def setUp(self):
        holder = tempfile.TemporaryDirectory()
        self.addCleanup(holder.cleanup)
        os.chmod(holder.name, 0o755)
        self.holder = pathlib.Path(holder.name)
        self.root = self.holder / "root"
        self.root.mkdir()

    def put(self, path, content=NOT_UTF8):
        """Writes a file below the root, with the folders on its way. A path may be text or bytes."""
        place = os.path.join(text(self.root), text(path))
        os.makedirs(os.path.dirname(place), exist_ok=True)
        with open(place, "wb") as file:
            file.write(content if isinstance(content, bytes) else content.encode())

    def check(self, skipped, *, root=None, status=1, told=b""):
        """The folder is read with that many entries skipped, and then the input ends."""
        ended = run_fixed(b"", ("serve", "--root", self.root if root is None else root))
        self.assertEqual(ended, (b"", SKIPPED * skipped + told, status))

    def check_unread(self, root):
        """The folder can't be read, whatever the input is."""
        for data in (b"", FIRST_INPUT, b"no frame\r\n\r\n"):
            with self.subTest(root=root, data=data[:10]):
                self.assertEqual(run_fixed(data, ("serve", "--root", root)), (b"", FOLDER, 3))


class CommandLine(FolderTest):
    def check_wrong(self, *words, shown=b"Usage: " + SERVE_USAGE):
        """The words are refused, with a message that shows how the program is called, and where more is said."""
        with self.subTest(words=words):
            out, err, status = run(FIRST_INPUT, words)
            self.assertEqual((out, status), (b"", 2))
            self.assertTrue(err.startswith(b"error: "), err)
            self.assertIn(shown, err)
            self.assertTrue(err.endswith(b"\n\nFor more information, try '--help'.\n"), err)
            return err

    def check_good(self, *words):
        """The words are taken, and the session is that of `protols serve`."""
        with self.subTest(words=words):
            self.assertEqual(run(FIRST_INPUT, words), (FIRST_OUTPUT, b"", 0))

    def test_commands_that_are_refused(self):
        self.check_wrong()
        self.check_wrong("")
        self.check_wrong("Serve")
        self.check_wrong("serv")
        self.check_wrong("serve", "serve")
        self.check_wrong("serve", "extra")
        self.check_wrong("serve", "--", "extra")
        self.check_wrong("serve", "-")
        self.check_wrong("--stdio")
        self.check_wrong("--stdio", "serve")
        self.check_wrong("--root", self.root, "serve")
        self.check_wrong("help", "none")

    def test_options_that_are_refused(self):
        self.check_wrong("serve", "--unknown")
        self.check_wrong("serve", "--roo", self.root)
        self.check_wrong("serve", "--ROOT", self.root)
        self.check_wrong("serve", "-r", self.root)
        self.check_wrong("serve", "-stdio")
        self.check_wrong("serve", "--stdio=yes")
        self.check_wrong("serve", "--stdio", "yes")
        self.check_wrong("serve", "--clientProcessId", shown=b"a value is required for '--clientProcessId <ID>'")
        self.check_wrong("serve", "--root", self.root, "other")

    def test_a_root_begins_with_a_slash(self):
        for root in ("", ".", "w", "./w", "../w", "~/w", " /w", "file:///w", "\\w"):
            self.assertIn(b"'/'", self.check_wrong("serve", "--root", root))
            self.assertIn(b"'/'", self.check_wrong("serve", f"--root={root}"))
        self.check_wrong("serve", "--root", shown=b"a value is required for '--root <DIR>'")
        self.check_wrong("serve", "--root", "--stdio", shown=b"a value is required for '--root <DIR>'")

    def test_an_option_is_given_once(self):
        self.check_wrong("serve", "--root", self.root, "--root", self.root)
        self.check_wrong("serve", "--root", self.root, f"--root={self.root}")
        self.check_wrong("serve", "--stdio", "--stdio")
        self.check_wrong("serve", "--clientProcessId", "1", "--clientProcessId=2")

    def test_words_that_are_not_utf8(self):
        self.check_wrong(b"\xff")
        self.check_wrong("serve", b"\xff")
        self.check_wrong("serve", "--root", b"/\xff")
        self.check_wrong("serve", b"--root=/\xff")
        self.check_wrong("serve", "--clientProcessId", b"\xff")
        self.check_wrong("--help", b"\xff")

    def test_words_that_are_taken(self):
        self.check_good("serve")
        self.check_good("serve", "--")
        self.check_good("serve", "--stdio")
        for number in ("4242", "", "any text", "-1", "--stdio", "é"):
            self.check_good("serve", "--clientProcessId", number)
            self.check_good("serve", f"--clientProcessId={number}")
        self.check_good("serve", "--root", self.root)
        self.check_good("serve", f"--root={self.root}")
        self.check_good("serve", "--stdio", "--clientProcessId", "7", "--root", self.root)
        self.check_good("serve", "--root", self.root, "--clientProcessId=7", "--stdio")

    def test_help(self):
        for words in (["--help"], ["-h"], ["help"]):
            with self.subTest(words=words):
                out, err, status = run(FIRST_INPUT, words)
                self.assertEqual((err, status), (b"", 0))
                for part in (SERVE_USAGE, b"Example", b"status"):
                    self.assertIn(part, out)

    def test_help_on_serve(self):
        for words in (["serve", "--help"], ["serve", "-h"], ["help", "serve"], ["serve", "--root", "/missing", "--help"]):
            with self.subTest(words=words):
                out, err, status = run(FIRST_INPUT, words)
                self.assertEqual((err, status), (b"", 0))
                for part in (b"--root <DIR>", b"--proto-path <DIR>", b"--read-others", b"--workers <N>", b"--stdio", b"--clientProcessId <ID>", b"default", b"Example"):
                    self.assertIn(part, out)

    def test_version(self):
        """The program's name, its version, and the logic that it was proved in, which is this kit's too."""
        kit = subprocess.run(["rt", "version"], stdin=subprocess.DEVNULL, capture_output=True, check=True, timeout=stream.LIMIT).stdout.strip()
        logic = kit[kit.index(b"logic") :]
        for words in (["--version"], ["-V"]):
            with self.subTest(words=words):
                out, err, status = run(FIRST_INPUT, words)
                self.assertRegex(out, rb"\Aprotols 1 \(%b\)\n\Z" % logic)
                self.assertEqual((err, status), (b"", 0))

    def test_help_that_nobody_reads_is_802(self):
        with nobody_reads() as output:
            words = stream.command(["--help"])
            done = subprocess.run(words, stdin=subprocess.DEVNULL, stdout=output, stderr=subprocess.PIPE, timeout=stream.LIMIT)
        self.assertEqual((done.stderr, done.returncode), (b"protols: fault 802\n", 3))

    def test_the_command_line_is_judged_before_the_folder(self):
        self.check_wrong("serve", "--root", self.holder / "missing", "extra")
        self.check_wrong("serve", "extra", "--root", self.holder / "missing")


class Names(FolderTest):
    def test_an_empty_folder(self):
        self.check(0)

    def test_names_that_end_in_proto_are_read(self):
        for name in ("a.proto", "b.c.proto", "a b.proto", "é.proto", "sub/d.proto", "sub/deep/e.proto", "-.proto", "a\nb.proto"):
            self.put(name)
        self.check(8)

    def test_other_names_are_not(self):
        for name in ("a", "proto", "aproto", "a.Proto", "a.PROTO", "a.proto~", "a.proto.txt", "a.protoc", "a.proto "):
            self.put(name)
        self.check(0)

    def test_names_that_begin_with_a_dot_are_skipped(self):
        for name in (".proto", ".a.proto", "..a.proto", "...proto", ".git/a.proto", "sub/.hidden/a.proto", b".\xff.proto"):
            self.put(name)
        self.check(0)

    def test_a_folder_may_end_in_proto(self):
        self.put("x.proto/a.proto")
        self.put("x.proto/y.proto/b.proto")
        (self.root / "z.proto").mkdir()
        self.check(2)

    def test_names_that_are_not_utf8_are_skipped(self):
        self.put(b"\xff.proto", PROTO3)
        self.check(1)
        self.put(b"\xfe/a.proto", PROTO3)
        self.check(2)
        self.put(b"sub/\xed\xa0\x80.proto", PROTO3)
        self.check(3)

    def test_contents_that_are_not_utf8_are_skipped(self):
        self.put("good.proto", PROTO3)
        self.put("empty.proto", b"")
        self.put("mark.proto", b"\xef\xbb\xbf" + PROTO3.encode())
        self.put("zero.proto", b"\0")
        self.put("four.proto", "\U0001f600")
        self.check(0)
        for name, content in (("cut", b"\xf0\x9f\x98"), ("long", b"\xc0\x80"), ("half", b"\xed\xa0\x80"), ("behind", PROTO3.encode() + NOT_UTF8)):
            self.put(f"{name}.proto", content)
        self.check(4)

    def test_large_files(self):
        line = PROTO3.encode()
        self.put("good.proto", line * 500_000)
        self.put("bad.proto", line * 500_000 + NOT_UTF8)
        self.check(1)


class Reasons(FolderTest):
    """What standard error says behind `skipped` and `protols: folder`."""

    def check_told(self, *lines, command=("serve",), root=None, status=1):
        out, err, ended = run(b"", (*command, "--root", self.root if root is None else root))
        self.assertEqual((out, sorted(err.splitlines()), ended), (b"", sorted(lines), status))

    def test_what_is_skipped_and_why(self):
        self.put("sub/é.proto", PROTO3.encode("latin-1") + b"// caf\xe9\n")
        self.put(b"sub/\xff.txt", PROTO3)
        os.mkfifo(self.root / "pipe.proto")
        lines = (
            b"skipped",
            b"skipped",
            b"skipped",
            "protols: skipped sub/é.proto: not UTF-8".encode(),
            rb"protols: skipped sub/\xff.txt: the name isn't UTF-8",
            b"protols: skipped pipe.proto: neither a file nor a folder",
        )
        self.check_told(*lines)
        self.check_told(*lines, command=QUIET_CHECK, status=0)

    def test_a_folder_that_is_not_there(self):
        root = self.holder / "none"
        why = f"protols: folder {root}: can't be listed: No such file or directory (os error 2)".encode()
        self.check_told(b"protols: folder", why, root=root, status=3)
        self.check_told(b"protols: folder", why, command=QUIET_CHECK, root=root, status=3)

    def test_folders_in_one_another(self):
        (self.root / "/".join(["d"] * (MOST_FOLDERS + 1))).mkdir(parents=True)
        self.check_told(b"protols: folder", f"protols: folder {self.root}: more than 64 folders stand in one another".encode(), status=3)


class Links(FolderTest):
    def test_links_are_skipped(self):
        outside = self.holder / "outside"
        outside.mkdir()
        (outside / "a.proto").write_bytes(NOT_UTF8)
        self.put("b.proto")
        (self.root / "file.proto").symlink_to(outside / "a.proto")
        (self.root / "folder").symlink_to(outside)
        (self.root / "folder.proto").symlink_to(outside)
        (self.root / "dangling.proto").symlink_to(self.holder / "missing")
        self.check(1)

    def test_loops_of_links_are_skipped(self):
        self.put("sub/a.proto")
        (self.root / "sub" / "up").symlink_to(self.root)
        (self.root / "self.proto").symlink_to("self.proto")
        (self.root / "one").symlink_to("two")
        (self.root / "two").symlink_to("one")
        self.check(1)

    def test_the_root_may_be_a_link(self):
        self.put("a.proto")
        self.put("sub/b.proto")
        link, second = self.holder / "link", self.holder / "second"
        link.symlink_to(self.root)
        second.symlink_to("link")
        for root in (link, f"{link}/", second, f"{second}///"):
            with self.subTest(root=root):
                self.check(2, root=root)


class Roots(FolderTest):
    def test_slashes_at_the_end(self):
        self.put("a.proto")
        for end in ("", "/", "//", "/.", "/./", "/sub/.."):
            with self.subTest(end=end):
                (self.root / "sub").mkdir(exist_ok=True)
                self.check(1, root=f"{self.root}{end}")

    def test_any_path(self):
        for name in ("a b", "é", "%20", "a#b?c", "a\nb", "-", "x.proto", ".hidden", "'\""):
            with self.subTest(name=name):
                root = self.holder / "roots" / name
                root.mkdir(parents=True)
                (root / "a.proto").write_bytes(NOT_UTF8)
                self.check(1, root=root)

    def test_roots_that_cannot_be_listed(self):
        self.put("file.proto", PROTO3)
        self.check_unread(self.holder / "missing")
        self.check_unread(self.root / "file.proto")
        self.check_unread(f"{self.root}/file.proto/")
        self.check_unread(self.root / "file.proto" / "below")
        (self.holder / "dangling").symlink_to("missing")
        self.check_unread(self.holder / "dangling")
        (self.holder / "loop").symlink_to("loop")
        self.check_unread(self.holder / "loop")
        os.mkfifo(self.holder / "pipe")
        self.check_unread(self.holder / "pipe")
        self.check_unread("/" + "n" * 300)
        self.check_unread("/" + "n/" * 3000)

    def test_a_standard_error_that_nobody_reads(self):
        self.put("a.proto")
        for root, status in ((self.root, 1), (self.holder / "missing", 3)):
            with self.subTest(root=root), nobody_reads() as output:
                words = stream.command(["serve", "--root", root])
                done = subprocess.run(words, stdin=subprocess.DEVNULL, stdout=subprocess.PIPE, stderr=output, timeout=stream.LIMIT)
                self.assertEqual((done.stdout, done.returncode), (b"", status))


class Unreadable(FolderTest):
    def run_as_nobody(self, root, command=("serve",)):
        """Runs the program so that permissions count: not as the user who may do everything."""
        if os.geteuid() != 0:
            return run_fixed(b"", (*command, "--root", root))
        program = self.holder / "protols"
        shutil.copy(stream.command()[0], program)
        program.chmod(0o755)
        words = [program, *command, "--root", root]
        done = subprocess.run(
            words, stdin=subprocess.DEVNULL, capture_output=True, timeout=stream.LIMIT, user=NOBODY, group=NOBODY, extra_groups=[]
        )
        return done.stdout, fixed(done.stderr), done.returncode

    @contextlib.contextmanager
    def without_permissions(self, *paths):
        """Nobody may read these paths, until they are removed."""
        for path in paths:
            path.chmod(0)
        try:
            yield
        finally:
            for path in paths:
                path.chmod(0o755)

    def test_what_may_not_be_read_is_skipped(self):
        for name in ("shut.proto", "open.proto", "shut.txt", "shut/a.proto", "open/a.proto"):
            self.put(name, PROTO3)
        with self.without_permissions(*(self.root / name for name in ("shut.proto", "shut.txt", "shut"))):
            self.assertEqual(self.run_as_nobody(self.root), (b"", SKIPPED * 2, 1))
            self.assertEqual(self.run_as_nobody(self.root, QUIET_CHECK), (b"", SKIPPED * 2, 0))

    def test_a_root_that_may_not_be_read(self):
        with self.without_permissions(self.root):
            self.assertEqual(self.run_as_nobody(self.root), (b"", FOLDER, 3))
            self.assertEqual(self.run_as_nobody(self.root, QUIET_CHECK), (b"", FOLDER, 3))

    def test_what_is_no_file_is_skipped(self):
        os.mkfifo(self.root / "pipe")
        os.mkfifo(self.root / ".pipe.proto")
        self.check(0)
        os.mkfifo(self.root / "pipe.proto")
        self.check(1)
        with socket.socket(socket.AF_UNIX) as bound:
            bound.bind(str(self.root / "socket.proto"))
            self.check(2)

    def test_paths_that_are_too_long_for_the_system_are_skipped(self):
        # The path of the sixteenth of these folders takes more than the system's 4,096 bytes.
        here = os.getcwd()
        self.addCleanup(os.chdir, here)
        os.chdir(self.root)
        for _ in range(20):
            os.mkdir("n" * 255)
            os.chdir("n" * 255)
        os.chdir(here)
        self.check(1)

    def test_want_of_memory_is_803(self):
        def limit():
            resource.setrlimit(resource.RLIMIT_AS, (1 << 30, 1 << 30))

        words = stream.command(["serve", "--root", self.root])
        for size, told, status in ((1 << 20, b"", 1), (1 << 36, b"protols: fault 803\n", 3)):
            with self.subTest(size=size):
                self.put("a.proto", b"")
                os.truncate(self.root / "a.proto", size)
                done = subprocess.run(words, stdin=subprocess.DEVNULL, capture_output=True, timeout=stream.LIMIT, preexec_fn=limit)
                self.assertEqual((done.stdout, done.stderr, done.returncode), (b"", told, status))


class Limits(FolderTest):
    def test_folders_in_one_another(self):
        deepest = "/".join(["d"] * MOST_FOLDERS)
        self.put(f"{deepest}/a.proto")
        self.put(f"{deepest}/.hidden/a.proto")
        (self.root / deepest / "link").symlink_to(self.root)
        self.check(1)
        (self.root / deepest / "d").mkdir()
        self.check_deep()

    def check_deep(self):
        """One folder more is too deep. How much was skipped before depends on the order of the listing."""
        out, err, status = run_fixed(b"", ("serve", "--root", self.root))
        self.assertEqual((out, err.replace(SKIPPED, b"", 1), status), (b"", FOLDER, 3))

    def test_the_root_has_no_part_in_the_depth(self):
        root = self.root / "/".join(["r"] * 100)
        root.mkdir(parents=True)
        (root / "a.proto").write_bytes(NOT_UTF8)
        self.check(1, root=root)

    def test_entries(self):
        (self.root / "sub").mkdir()
        for number in range(MOST_ENTRIES - 2):
            os.mknod(self.root / "sub" / f"{number}.txt")
        self.put("a.proto")
        self.check(1)
        # Entries that are skipped count too.
        os.mknod(self.root / ".hidden")
        out, err, status = run_fixed(b"", ("serve", "--root", self.root))
        self.assertEqual((out, err.replace(SKIPPED, b"", 1), status), (b"", FOLDER, 3))


class DiskTexts(FolderTest):
    """What the session knows of the files that were read."""

    def uri(self, path, root=None):
        """The URI of a file below the root, as an editor writes it."""
        return "file://" + urllib.parse.quote(f"{self.root if root is None else root}/{path}")

    def check_session(self, bodies, replies, *, root=None):
        """Behind `initialize`, messages are answered by exactly these replies; then the input ends."""
        out, err, ended = run(frames([INITIALIZE, *bodies]), ("serve", "--root", self.root if root is None else root))
        self.assertEqual([body.decode() for body in split_frames(out)], [INITIALIZED, *replies])
        self.assertEqual((err, ended), (b"", 1))

    def test_files_that_were_never_opened(self):
        self.put("a.proto", PROTO3 + "#\n")
        self.put("good.proto", PROTO3)
        self.put("sub/deep/b.proto", PROTO3 + "# #")
        paths = ["a.proto", "good.proto", "sub/deep/b.proto"]
        asks = [asking(10 + number, self.uri(path)) for number, path in enumerate(paths)]
        self.check_session(asks, [report(10, sign(1)), report(11), report(12, sign(1), sign(1, 2))])

    def test_files_that_are_not_read_are_unknown(self):
        self.put("a.txt", PROTO3)
        self.put(".a.proto", PROTO3)
        self.put("a.proto", PROTO3)
        (self.root / "link.proto").symlink_to("a.proto")
        names = ["a.txt", ".a.proto", "link.proto", "missing.proto"]
        asks = [asking(number, self.uri(name)) for number, name in enumerate(names)]
        self.check_session(asks, [refusal(-32602, number) for number in range(len(names))])

    def test_paths_that_are_escaped(self):
        root = self.holder / "a b é%20~"
        root.mkdir()
        (root / "c d é#?%.proto").write_text(PROTO3 + "#")
        for given in (root, f"{root}/", f"{root}//"):
            with self.subTest(root=given):
                self.check_session([asking(2, self.uri("c d é#?%.proto", root))], [report(2, sign(1))], root=given)

    def test_without_a_root_no_file_is_read(self):
        self.put("a.proto", "#")
        out, err, ended = run(frames([INITIALIZE, asking(2, self.uri("a.proto"))]))
        self.assertEqual([body.decode() for body in split_frames(out)], [INITIALIZED, refusal(-32602, 2)])
        self.assertEqual((err, ended), (b"", 1))

    def test_open_texts_stand_before_disk_texts(self):
        bad, good = PROTO3 + "#\n", PROTO3
        self.put("a.proto", good)
        uri, escaped = self.uri("a.proto"), self.uri("%61.proto").replace("%2561", "%61")
        document = '{"textDocument":{"uri":"%s"}}'
        change = '{"textDocument":{"uri":"%s","version":2},"contentChanges":[{"text":"syntax = \\"proto3\\";\\n"}]}'
        self.check_session(
            [
                asking(2, uri),
                opening(escaped, bad),
                asking(3, uri),
                notification("textDocument/didSave", document % uri),
                notification("textDocument/didClose", document % uri),
                asking(4, uri),
                opening(uri, good),
                notification("textDocument/didClose", document % uri),
                asking(5, uri),
                notification("textDocument/didChange", change % uri),
                asking(6, uri),
                opening("untitled:One", bad),
                notification("textDocument/didClose", document % "untitled:One"),
                asking(7, "untitled:One"),
                opening("not a url", bad),
                asking(8, "not a url"),
            ],
            [report(2), *(report(number, sign(1)) for number in (3, 4, 5, 6)), refusal(-32602, 7), refusal(-32602, 8)],
        )

    def test_the_disk_is_read_once(self):
        self.put("a.proto", PROTO3 + "#")
        with stream.Server(("serve", "--root", self.root)) as server:
            server.send(INITIALIZE)
            self.assertEqual(server.receive().decode(), INITIALIZED)
            self.put("a.proto", "")
            server.send(asking(2, self.uri("a.proto")))
            self.assertEqual(server.receive().decode(), report(2, sign(1)))
            server.send(SHUTDOWN)
            self.assertEqual(server.receive().decode(), SHUT)
            server.send(EXIT)
            self.assertEqual(server.close(), (b"", b"", 0))


class Statuses(FolderTest):
    def test_a_session_behind_a_folder(self):
        self.put("a.proto", PROTO3)
        self.put("bad.proto")
        words = ("serve", "--root", self.root)
        cases = [
            (frames([INITIALIZE, SHUTDOWN, EXIT]), frames([INITIALIZED, SHUT]), b"", 0),
            (frames([INITIALIZE, EXIT]), frame(INITIALIZED), b"", 1),
            (frame(INITIALIZE), frame(INITIALIZED), b"", 1),
            (frame(INITIALIZE) + b"none\r\n\r\n", frame(INITIALIZED), b"protols: fault 101\n", 3),
        ]
        for data, output, told, status in cases:
            with self.subTest(status=status, told=told):
                self.assertEqual(run_fixed(data, words), (output, SKIPPED + told, status))


if __name__ == "__main__":
    unittest.main()
