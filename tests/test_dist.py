"""Tests of what `make dist` packs: the same bytes twice, the files of both packages, what they need, and the manual page beside the program's own help."""
import pathlib
import posixpath
import re
import subprocess
import sys
import tarfile
import tempfile
import unittest

import stream

sys.path.insert(0, str(stream.ROOT / "tools"))
import dist  # noqa: E402
import manual  # noqa: E402

EPOCH = 1_700_000_000


def shown(*words):
    """What the program writes for a command line."""
    return subprocess.run(stream.command(words), stdin=subprocess.DEVNULL, stdout=subprocess.PIPE, text=True, check=True).stdout


class Dist(unittest.TestCase):
    @classmethod
    def setUpClass(cls):
        folder = tempfile.TemporaryDirectory()
        cls.addClassCleanup(folder.cleanup)
        cls.made = [pathlib.Path(folder.name) / name for name in ("first", "second")]
        cls.sums, cls.needs = zip(*(dist.pack(str(stream.PROGRAM), into, EPOCH) for into in cls.made))

    def test_the_same_bytes_twice(self):
        self.assertEqual(*self.sums)
        self.assertEqual(len(self.sums[0].splitlines()), 2)

    def test_the_sums_are_those_of_the_files(self):
        ended = subprocess.run(["sha256sum", "--check", "--strict", "SHA256SUMS"], cwd=self.made[0], stdout=subprocess.PIPE, text=True, check=True)
        self.assertEqual(ended.stdout.count(": OK\n"), 2)

    def test_the_archive(self):
        [path] = self.made[0].glob("*.tar.gz")
        with tarfile.open(path) as tar:
            entries = tar.getmembers()
        names = [entry.name for entry in entries]
        self.assertEqual(names, sorted(names))
        self.assertEqual({(entry.uid, entry.gid, entry.mtime) for entry in entries}, {(0, 0, EPOCH)})
        # (an entry of a folder would change the one that is there)
        self.assertTrue(all(entry.isfile() for entry in entries))
        files = {name.partition("/")[2] for name in names}
        for file in ("bin/protols", "share/man/man1/protols.1", "share/doc/protols/README.md", "share/doc/protols/DIAGNOSTICS.md", "share/doc/protols/LICENSE"):
            self.assertIn(file, files)

    def test_the_package(self):
        [path] = self.made[0].glob("*.deb")
        listed = subprocess.run(["dpkg-deb", "--contents", path], stdout=subprocess.PIPE, text=True, check=True).stdout
        self.assertEqual(set(re.findall(r"^\S+ (\S+)", listed, re.MULTILINE)), {"root/root"})
        for file in ("usr/bin/protols", "usr/share/man/man1/protols.1.gz", "usr/share/doc/protols/copyright", "usr/share/doc/protols/changelog.gz"):
            self.assertIn(f"./{file}\n", listed)

    def test_a_root_with_an_older_c_library_is_refused_the_package(self):
        [path] = self.made[0].glob("*.deb")
        field = subprocess.run(["dpkg-deb", "--field", path, "Pre-Depends"], stdout=subprocess.PIPE, text=True, check=True).stdout.strip()
        self.assertEqual(field, self.needs[0])
        [needed] = re.findall(r"^libc6 \(>= ([\d.]+)\)$", field)
        self.assertIn(f"glibc {needed} or newer", (stream.ROOT / "README.md").read_text(encoding="utf-8"))

    def test_the_front_page_names_both(self):
        text = (stream.ROOT / "README.md").read_text(encoding="utf-8")
        for path in self.made[0].glob("protols*"):
            with self.subTest(file=path.name):
                self.assertIn(path.name, text)

    def test_each_link_in_a_document_names_what_is_packed(self):
        packed = dist.documents()
        for path, data in packed.items():
            for target in re.findall(r"\]\(([^)\s#]+)", data.decode()) if path.endswith(".md") else ():
                with self.subTest(document=path, link=target):
                    self.assertIn(posixpath.normpath(posixpath.join(posixpath.dirname(path), target)), packed)
        self.assertLessEqual({"editors/emacs.el", "editors/neovim.lua", "editors/helix/languages.toml", "examples/protos/shop/faulty.proto"}, set(packed))

    def test_the_manual_has_the_options_of_the_help(self):
        text = manual.manual(manual.SOURCE.read_text(encoding="utf-8"), "2026-01-01").replace("\\-", "-")
        for command in ("serve", "check"):
            [part] = re.findall(rf"^\.SH OPTIONS OF {command.upper()}$(.*?)^\.SH", text, re.MULTILINE | re.DOTALL)
            with self.subTest(command=command):
                self.assertEqual(re.findall(r"^\.TP\n\\fB--([\w-]+)", part, re.MULTILINE), [one for one in self.options(command) if one != "help"])

    def options(self, command):
        return re.findall(r"^ +(?:-\w, )?--([\w-]+)", shown(command, "--help"), re.MULTILINE)

    def test_the_program_is_of_the_version_that_is_packed(self):
        self.assertEqual(shown("--version").split()[1], manual.version(manual.SOURCE.read_text(encoding="utf-8")))

    def test_both_have_the_completions_the_manual_page_and_the_set_ups_that_the_readme_names(self):
        [path], [package] = (self.made[0].glob(name) for name in ("*.tar.gz", "*.deb"))
        with tarfile.open(path) as tar:
            archived = {entry.name.partition("/")[2] for entry in tar.getmembers() if entry.isfile()}
        listed = subprocess.run(["dpkg-deb", "--contents", package], stdout=subprocess.PIPE, text=True, check=True).stdout
        packaged = set(re.findall(r" \./usr/(\S*[^/\s])$", listed, re.MULTILINE))
        set_ups = re.findall(r"\]\((editors/[^)#\s]+)", (stream.ROOT / "README.md").read_text(encoding="utf-8"))
        self.assertGreaterEqual(len(set_ups), 4)
        shared = ["bash-completion/completions/protols", "fish/vendor_completions.d/protols.fish", *(f"doc/protols/{file}" for file in set_ups)]
        self.assertEqual({f"share/{file}" for file in ("man/man1/protols.1", "zsh/site-functions/_protols", *shared)} - archived, set())
        self.assertEqual({f"share/{file}" for file in ("man/man1/protols.1.gz", "zsh/vendor-completions/_protols", *shared)} - packaged, set())


if __name__ == "__main__":
    unittest.main()
