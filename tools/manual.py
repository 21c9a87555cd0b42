#!/usr/bin/env python3
"""Makes the manual page and the shells' completions from the source of `--help`, crates/program_options/src/commands.rt.

usage: manual.py FOLDER      writes protols.1, protols.bash, _protols and protols.fish into the folder

The frame of the manual page is packaging/protols.1. What each option means is said once, in commands.rt.
"""
import pathlib
import re
import sys
import textwrap
import time

ROOT = pathlib.Path(__file__).resolve().parent.parent
SOURCE = ROOT / "crates/program_options/src/commands.rt"
FRAME = ROOT / "packaging/protols.1"

TEXT = re.compile(r'^const (\w+): &str =\s+"((?:[^"\\]|\\.)*)";', re.MULTILINE | re.DOTALL)
FUNCTION = re.compile(r"^(?:pub\(crate\) )?fn (\w+)<.*?^\}", re.MULTILINE | re.DOTALL)
NAMES = re.compile(r"^const (\w+): &\[&str\] = &\[([^\]]*)\];", re.MULTILINE)
# A folder is completed as one, and a value that is one of some names by these; of any other value only the option is offered.
FOLDER = "DIR"


class Option:
    """An option of a command: its name without `--`, the name of its value if it takes one, the values if they are some names, whether it may be
    repeated, and what it means."""

    def __init__(self, name, value, choices, repeated, said):
        self.name, self.value, self.choices, self.repeated, self.said = name, value, choices, repeated, said

    def headline(self):
        """What it means, in its first sentence."""
        return re.split(r"[.:;] | \[", self.said)[0]


def texts(source):
    """The texts of the source by their names, as the compiler reads them; `{n}` is a line end."""
    found = {}
    for name, text in TEXT.findall(source):
        text = re.sub(r"\\\n\s*", "", text).replace('\\"', '"')
        found[name] = text.replace("{n}", " ")
    return found


def names(source):
    """The lists of names of the source, by the lists' names."""
    return {name: re.findall(r'"([^"]*)"', listed) for name, listed in NAMES.findall(source)}


def takes_files(said, command):
    """Whether files may be named behind the options of a command."""
    return "[FILE]..." in said[f"{command.upper()}_USAGE"]


def commands(source):
    """The options of each command, as the source adds them."""
    said, lists, functions = texts(source), names(source), {one[1]: one[0] for one in FUNCTION.finditer(source)}
    found = {}
    for name, body in functions.items():
        if name.endswith("_command"):
            used = re.findall(r"\b(\w+_option)\(alloc(?:, (\w+))?\)", body)
            found[name[: -len("_command")]] = [option(functions[made], help_text, said, lists) for made, help_text in used]
    return found


def option(body, help_text, said, lists):
    """The option that a function of the source makes."""
    value = re.search(r'\.value_name\("(\w+)"\)', body)
    chosen = re.search(r"ValueParser::Names\((\w+)\)", body)
    text = re.search(r"\.help\((\w+)\)", body)[1]
    return Option(re.search(r'\.long\("([\w-]+)"\)', body)[1], value and value[1], chosen and lists[chosen[1]], "Append" in body, said[help_text or text])


def version(source):
    """The program's version, without the kit."""
    return texts(source)["VERSION"].split()[0]


def roff(text):
    """A text as roff shows it, on lines of at most 80 bytes."""
    text = "\n".join(textwrap.wrap(text, 72, break_long_words=False, break_on_hyphens=False))
    text = re.sub(r"^([.'])", r"\\&\1", text.replace("\\", "\\e").replace("-", "\\-"), flags=re.MULTILINE)
    return re.sub(r"`([^`]*)`", r"\\fB\1\\fR", text)


def option_lines(options):
    lines = []
    for one in options:
        value = f" \\fI{one.value}\\fR" if one.value else ""
        lines += [".TP", f"\\fB{roff('--' + one.name)}\\fR{value}", roff(one.said)]
    return lines


def synopsis_lines(said):
    lines = []
    for usage in (said["SERVE_USAGE"], said["CHECK_USAGE"]):
        shown = re.sub(r"\b([A-Z]+)\b", r"\\fI\1\\fR", roff(usage))
        lines += [shown.replace("protols", "\\fBprotols\\fR", 1), ".br"]
    return lines[:-1]


def status_lines(said):
    lines = []
    for status, meaning in re.findall(r"^  (\d)  (.*(?:\n     .*)*)", said["PROGRAM_HELP"].partition("Exit status:")[2], re.MULTILINE):
        lines += [".TP", f".B {status}", roff(re.sub(r"\s+", " ", meaning))]
    return lines


def example_lines(said):
    lines = []
    for text in (said["SERVE_HELP"], said["CHECK_HELP"]):
        for introduction, shown in re.findall(r"^Example, (.*(?:\n\S.*)*):\n((?:  .*\n?)+)", text, re.MULTILINE):
            introduction = re.sub(r"\s+", " ", introduction)
            lines += [".PP", roff(introduction[0].upper() + introduction[1:] + ":"), ".PP", ".nf", ".RS"]
            lines += [*(roff(line.strip()) for line in shown.splitlines()), ".RE", ".fi"]
    return lines[1:]


def manual(source, date):
    """The manual page."""
    said = texts(source)
    parts = {
        "%synopsis": synopsis_lines(said),
        "%file": [roff(said["FILE_HELP"])],
        "%status": status_lines(said),
        "%examples": example_lines(said),
        **{f"%{command}": option_lines(options) for command, options in commands(source).items()},
    }
    lines = []
    for line in FRAME.read_text(encoding="utf-8").splitlines():
        lines += parts.get(line, [line.replace("%date", date).replace("%version", version(source))])
    return "\n".join(lines) + "\n"


def bash(source):
    """The completion for bash."""
    found = commands(source)
    every = {one.name: one for options in found.values() for one in options}.values()
    cases = "\n".join(f"        {command}) words='{' '.join('--' + one.name for one in options)} --help' ;;" for command, options in found.items())
    folders = sorted("--" + one.name for one in every if one.value == FOLDER)
    chosen = "\n".join(f"        --{one.name}) words='{' '.join(one.choices)}'; mapfile -t COMPREPLY < <(compgen -W \"$words\" -- \"$word\"); return ;;" for one in every if one.choices)
    others = sorted("--" + one.name for one in every if one.value not in (None, FOLDER) and not one.choices)
    filed = "|".join(command for command in found if takes_files(texts(source), command))
    return f"""# Completion of protols for bash, made by tools/manual.py.
_protols()
{{
    local word=${{COMP_WORDS[COMP_CWORD]}} before=${{COMP_WORDS[COMP_CWORD - 1]}} words='{' '.join(found)} --help --version'
    COMPREPLY=()
    case $before in
        {'|'.join(folders)}) compopt -o filenames; mapfile -t COMPREPLY < <(compgen -d -- "$word"); return ;;
{chosen}
        {'|'.join(others)}) return ;;
    esac
    if ((COMP_CWORD > 1)); then
        case ${{COMP_WORDS[1]}} in
{cases}
        *) return ;;
        esac
        if [[ ${{COMP_WORDS[1]}} == @({filed}) && $word != -* ]]; then
            compopt -o filenames
            mapfile -t COMPREPLY < <(compgen -d -- "$word"; compgen -f -X '!*.proto' -- "$word")
            return
        fi
    fi
    mapfile -t COMPREPLY < <(compgen -W "$words" -- "$word")
}}
complete -F _protols protols
"""


def quoted(text):
    """A text between single quotes, as a shell reads it."""
    return "'" + text.replace("'", "'\\''") + "'"


def zsh(source):
    """The completion for zsh."""
    lines = ["#compdef protols", "# Completion of protols for zsh, made by tools/manual.py.", "", "local curcontext=$curcontext state line", ""]
    lines += ["_arguments -C '(- *)--help[show the help]' '(- *)--version[show the version]' '1:command:(" + " ".join(commands(source)) + ")' '*::option:->option'", ""]
    lines += ["case $state:$line[1] in"]
    for command, options in commands(source).items():
        lines.append(f"  option:{command})")
        lines.append("    _arguments '(- *)--help[show the help]' \\")
        shown = []
        for one in options:
            headline = re.sub(r"([\[\]:\\])", r"\\\1", one.headline()).replace("`", "")
            completed = f"({' '.join(one.choices)})" if one.choices else "_directories" if one.value == FOLDER else " "
            value = f":{one.value}:{completed}" if one.value else ""
            shown.append("      " + quoted(("*" if one.repeated else "") + f"--{one.name}[{headline}]{value}"))
        if takes_files(texts(source), command):
            shown.append("      '*:FILE:_files -g \"*.proto\"'")
        lines += [" \\\n".join(shown), "    ;;"]
    return "\n".join([*lines, "esac", ""])


def fish(source):
    """The completion for fish."""
    found = commands(source)
    lines = ["# Completion of protols for fish, made by tools/manual.py.", "complete -c protols -f"]
    lines += [f"complete -c protols -n __fish_use_subcommand -a {command}" for command in found]
    lines += ["complete -c protols -l help -d 'Show the help'", "complete -c protols -n __fish_use_subcommand -l version -d 'Show the version'"]
    for command, options in found.items():
        if takes_files(texts(source), command):
            lines.append(f"complete -c protols -n '__fish_seen_subcommand_from {command}' -F")
        for one in options:
            value = {None: "", FOLDER: " -x -a '(__fish_complete_directories)'"}.get(one.value, " -x")
            value += f" -a '{' '.join(one.choices)}'" if one.choices else ""
            said = quoted(one.headline().replace("`", ""))
            lines.append(f"complete -c protols -n '__fish_seen_subcommand_from {command}' -l {one.name}{value} -d {said}")
    return "\n".join(lines) + "\n"


def all_files(date):
    """The name of each file, with its text."""
    source = SOURCE.read_text(encoding="utf-8")
    return {"protols.1": manual(source, date), "protols.bash": bash(source), "_protols": zsh(source), "protols.fish": fish(source)}


def main():
    if len(sys.argv) != 2 or sys.argv[1].startswith("-"):
        sys.exit(__doc__)
    for name, text in all_files(time.strftime("%Y-%m-%d", time.gmtime())).items():
        (pathlib.Path(sys.argv[1]) / name).write_text(text, encoding="utf-8")


if __name__ == "__main__":
    main()
