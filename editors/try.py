#!/usr/bin/env python3
"""Tries protols in each editor that is installed, without a screen, with the set-up that stands beside this file.

In a folder of three files each editor is shown a fault behind `é` and an emoji, which is then fixed; a fault that a change in another window causes,
which is then taken back; and it is asked for the references and the definition of a name, for symbols, and for another name for it, after which all
files are saved and have to be the expected ones. What an editor shows is compared with what is expected: a line for each says what differs.

usage: try.py [EDITOR..]

The program is crates/protols/out/protols, or the one that the variable PROTOLS names. The status is 1 if an editor that was tried shows anything else,
or if none was tried. An editor that isn't installed is named as not tried."""
import json
import os
import pathlib
import pty
import re
import shutil
import subprocess
import sys
import tempfile
import threading
import time

HERE = pathlib.Path(__file__).resolve().parent
PROGRAM = pathlib.Path(os.environ.get("PROTOLS", HERE.parent / "crates/protols/out/protols")).resolve()

# The seconds for one editor.
LIMIT = 240

HEAD = 'syntax = "proto3";\npackage shop;\n'
IMPORT = 'import "money.proto";\n'
FILES = {
    "money.proto": HEAD + "message Money {\n  int64 cents = 1;\n}\n",
    "order.proto": HEAD + IMPORT + "message Order {\n  Money price = 1;\n  /* é😀 */ Mony paid = 2;\n}\n",
    "refund.proto": HEAD + IMPORT + "message Refund {\n  Money back = 1;\n}\n",
}

# What each step has to show: lines and columns in characters, from 1.
EXPECTED = {
    "fault": "6:12 401",
    "fixed": "",
    "other window": "5:3 401, 6:12 401",
    "other window, fixed": "",
    "references": "money.proto 3:9, order.proto 5:3, order.proto 6:12, refund.proto 5:3",
    "definition": "money.proto 3:9",
    "symbols": "money.proto 3:9, money.proto 4:9",
    "rename": "Amount price = 1;",
}
RENAMED = {path: text.replace("Mony", "Money").replace("Money", "Amount") for path, text in FILES.items()}


def in_terminal(words, folder, environment):
    """Runs a command in a terminal that nobody looks at, and gives what it wrote there."""
    child, terminal = pty.fork()
    if child == 0:
        os.chdir(folder)
        os.execvpe(words[0], words, environment)
    written = bytearray()

    def read():
        try:
            while data := os.read(terminal, 65536):
                written.extend(data)
        except OSError:
            pass

    reader = threading.Thread(target=read, daemon=True)
    reader.start()
    end = time.monotonic() + LIMIT
    while os.waitpid(child, os.WNOHANG) == (0, 0):
        if time.monotonic() > end:
            os.kill(child, 9)
            os.waitpid(child, 0)
            break
        time.sleep(0.05)
    os.close(terminal)
    return bytes(written)


def by_script(words):
    """How an editor is tried that runs a script of its own, which writes down what it sees."""

    def seen(folder, environment):
        told = in_terminal(words, folder, environment)
        try:
            return json.loads(pathlib.Path(environment["PROTOLS_SEEN"]).read_text())
        except (OSError, ValueError):
            return {"fault_of_the_trial": f"nothing was written down; on the screen: {told[-1000:]!r}"}

    return seen


class Screen:
    """A terminal of tmux, into which keys go and whose screen can be read."""

    def __init__(self, words, folder, environment):
        self.server = ["tmux", "-L", f"protols-{os.getpid()}", "-f", os.devnull]
        self.environment = environment
        self.tmux("new-session", "-d", "-x", "110", "-y", "24", "-c", str(folder), *words)

    def __enter__(self):
        return self

    def __exit__(self, *_):
        self.tmux("kill-server")

    def tmux(self, *words):
        return subprocess.run([*self.server, *words], env=self.environment, capture_output=True, text=True, check=False).stdout

    def lines(self):
        return self.tmux("capture-pane", "-p").splitlines()

    def keys(self, *keys):
        """Texts, and keys by tmux's names in angle brackets."""
        for key in keys:
            # (tmux would end its own command at a `;`)
            self.tmux("send-keys", *([key[1:-1].replace(";", "\\;")] if key[0] == "<" else ["-l", key]))
            time.sleep(0.2)

    def found(self, pattern):
        """What a pattern finds in the lines of the screen, in order."""
        return [it[1] for line in self.lines() for it in [re.search(pattern, line)] if it]

    def wait(self, expected, see):
        """What is seen once it is what is expected and stays so, or after a while."""
        end = time.monotonic() + 15
        while see() != expected and time.monotonic() < end:
            time.sleep(0.1)
        time.sleep(0.5)
        return see()


# What Helix shows on its screen: it has no columns in its lists, and marks the lines of the other window.
ON_SCREEN = {
    **EXPECTED,
    "other window": "lines 5, 6",
    "other window, fixed": "lines ",
    "references": "money.proto:3, order.proto:5, order.proto:6, refund.proto:5",
    "symbols": "struct Money, field cents",
}


def helix(folder, environment):
    """What Helix shows at these keys."""
    seen = {"version": subprocess.run(["hx", "--version"], capture_output=True, text=True, check=False).stdout.split()[1]}
    with Screen(["hx", "order.proto"], folder, environment) as screen:

        def place():
            """Where the cursor of the window with the keys is, as its last line says."""
            return "".join(screen.found(r" NOR .* sel +(\d+:\d+)"))

        def marked():
            """The lines that are marked in the left window."""
            return "lines " + ", ".join(screen.found(r"^\S +(\d+) "))

        def step(name, see):
            seen[name] = screen.wait(ON_SCREEN[name], see)

        screen.wait("lines 6", marked)
        screen.keys("]", "d", "<M-;>")
        at = screen.wait("6:12", place)
        screen.keys(" ", "d")
        step("fault", lambda: ", ".join(f"{at} {it}" for it in screen.found(r"ERROR .*?(\d+) ")))
        screen.keys("<Escape>", "cMoney", "<Escape>")
        step("fixed", lambda: ", ".join(screen.found(r"^\S +(\d+) ")))

        screen.keys(":vsplit money.proto", "<Enter>", "%sMoney", "<Enter>", "cCash", "<Escape>")
        step("other window", marked)
        screen.keys("u")
        step("other window, fixed", marked)
        screen.keys(":quit", "<Enter>", "5gglll", "gr")
        step("references", lambda: ", ".join(screen.found(r"([a-z]+\.proto:\d+) ")))
        screen.keys("<Escape>", " ", "S", "money")
        step("symbols", lambda: ", ".join(re.sub(" +", " ", it) for it in screen.found(r"((?:struct|field) +\w+) .*money\.proto")))
        screen.keys("<Escape>", "gd")
        step("definition", lambda: "".join(screen.found(r" NOR +(\S+)")) + " " + place())
        screen.keys(" ", "r", "<C-u>", "Amount", "<Enter>")
        screen.keys(":open order.proto", "<Enter>")
        step("rename", lambda: "".join(screen.found(r"^ +5 +(\S.*;)")))
        screen.keys(":write-all", "<Enter>")
        screen.wait(True, lambda: all((folder / path).read_text() == text for path, text in RENAMED.items()))
    return seen


# Each editor: the commands that it needs, its set-up by the places in the home folder, how it is tried, and what it has to show.
EDITORS = {
    "neovim": (
        ["nvim"],
        {".config/nvim/plugin/protols.lua": (HERE / "neovim.lua").read_text()},
        by_script(["nvim", "--headless", "-c", f"luafile {HERE}/try/neovim.lua"]),
        EXPECTED,
    ),
    "emacs": (["emacs"], {".emacs.d/init.el": f'(load "{HERE}/emacs.el")\n'}, by_script(["emacs", "-nw", "-l", f"{HERE}/try/emacs.el"]), EXPECTED),
    "helix": (["hx", "tmux"], {".config/helix/languages.toml": (HERE / "helix/languages.toml").read_text()}, helix, ON_SCREEN),
}


def tried(setup, how, expected):
    """The version of an editor, why it wasn't tried, if so, and what it shows otherwise than expected."""
    with tempfile.TemporaryDirectory() as room:
        home, folder = pathlib.Path(room, "home"), pathlib.Path(room, "protos")
        for place in (home, folder, folder / ".git"):
            place.mkdir()
        for path, text in FILES.items():
            (folder / path).write_text(text)
        for path, text in setup.items():
            (home / path).parent.mkdir(parents=True, exist_ok=True)
            (home / path).write_text(text.replace("/home/ann/protos", str(folder)))
        (home / "bin").mkdir()
        (home / "bin" / "protols").symlink_to(PROGRAM)
        (home / "expected.json").write_text(json.dumps(expected))
        environment = {
            "HOME": str(home),
            "PATH": f"{home}/bin:{os.environ['PATH']}",
            "LANG": "C.UTF-8",
            "TERM": "xterm-256color",
            "PROTOLS_EXPECTED": str(home / "expected.json"),
            "PROTOLS_SEEN": str(home / "seen.json"),
        }
        seen = how(folder, environment)
        if "not tried" in seen:
            return "", seen["not tried"], []
        wrong = [f"{step}: {seen.get(step)!r} in place of {what!r}" for step, what in expected.items() if seen.get(step) != what]
        if "fault_of_the_trial" in seen:
            wrong.append(seen["fault_of_the_trial"])
        wrong += [f"the file {path} is not the renamed one: {(folder / path).read_text()!r}" for path, text in RENAMED.items() if (folder / path).read_text() != text]
        return seen.get("version", "?"), None, wrong


def main(words):
    if not PROGRAM.is_file():
        print(f"the program isn't there: build {PROGRAM}, or name another one in the variable PROTOLS")
        return 1
    tries, faults = 0, 0
    for name, (commands, *more) in EDITORS.items():
        if words and name not in words:
            continue
        missing = [it for it in commands if not shutil.which(it)]
        version, reason, wrong = ("", f"{', '.join(missing)} isn't installed", []) if missing else tried(*more)
        if reason:
            print(f"{name}: not tried: {reason}", flush=True)
            continue
        tries, faults = tries + 1, faults + bool(wrong)
        print(f"{name} {version}: {'as expected' if not wrong else 'OTHERWISE'}", *(f"    {it}" for it in wrong), sep="\n", flush=True)
    print(f"{tries} tried, {faults} with a difference")
    return 1 if faults or not tries else 0


if __name__ == "__main__":
    sys.exit(main(sys.argv[1:]))
