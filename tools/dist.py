#!/usr/bin/env python3
"""Packs the built program: dist/protols-VERSION-linux-x86_64.tar.gz, dist/protols_VERSION_amd64.deb, and their SHA256SUMS.

usage: dist.py [--program FILE] [--into FOLDER]

Both hold the program, its manual page, completions for bash, zsh and fish, README.md, DIAGNOSTICS.md, SECURITY.md, the licence, the small tree of
examples/, and what is in editors/. The same sources and program give the same bytes: names are sorted, the owner is root, and every time is that of the
last commit, or SOURCE_DATE_EPOCH. The program has to be that of these sources: its version and the options that it shows are compared with them.
"""
import argparse
import email.utils
import gzip
import hashlib
import io
import os
import pathlib
import posixpath
import re
import shutil
import subprocess
import sys
import tarfile
import tempfile
import time

import manual

ROOT = pathlib.Path(__file__).resolve().parent.parent
PACKAGING = ROOT / "packaging"
# What the C library's package brings, and what other packages do.
OF_LIBC = {"libc.so.6", "libm.so.6", "libpthread.so.0", "libdl.so.2", "librt.so.1", "ld-linux-x86-64.so.2"}
PACKAGES = {"libgcc_s.so.1": "libgcc-s1"}


def output(*words):
    """What a command writes to standard output."""
    return subprocess.run(words, check=True, stdin=subprocess.DEVNULL, stdout=subprocess.PIPE, text=True, cwd=ROOT).stdout


def refuse_other_program(program, source):
    """The program shows the version and the options of the source."""
    shown = output(program, "--version").split()[1]
    if shown != manual.version(source):
        sys.exit(f"{program} is version {shown}, and the source is {manual.version(source)}: run make build")
    for command, options in manual.commands(source).items():
        shown = set(re.findall(r"^ +(?:-\w, )?--([\w-]+)", output(program, command, "--help"), re.MULTILINE)) - {"help"}
        if shown != {one.name for one in options}:
            sys.exit(f"{program} {command} --help shows other options than the source: {', '.join(sorted(shown))}. Run make build")


def dependencies(program):
    """The packages that the program needs, as Debian names them."""
    needed = set(re.findall(r"^ +NEEDED +(\S+)", output("objdump", "-p", program), re.MULTILINE))
    versions = re.findall(r"\bGLIBC_(\d+(?:\.\d+)+)", output("objdump", "-T", program))
    least = max(versions, key=lambda version: [int(part) for part in version.split(".")])
    others = sorted(needed - OF_LIBC)
    if set(others) - set(PACKAGES):
        sys.exit(f"{program} needs libraries that no package is known for: {', '.join(others)}")
    return ", ".join([f"libc6 (>= {least})", *(PACKAGES[name] for name in others)])


def stripped(program):
    """The program without the names of its functions."""
    with tempfile.TemporaryDirectory() as folder:
        copy = pathlib.Path(folder) / "protols"
        output("strip", "--remove-section=.comment", "-o", str(copy), program)
        return copy.read_bytes()


def packed(data):
    return gzip.compress(data, 9, mtime=0)


def documents():
    """What stands in the folder of documents of both packages, by its path there. A link to what isn't packed becomes words that say where it is."""
    # (what tries the set-ups isn't one)
    set_ups = [path for path in (ROOT / "editors").rglob("*") if not path.relative_to(ROOT / "editors").parts[0].startswith("try")]
    packed_files = [ROOT / "README.md", ROOT / "docs/DIAGNOSTICS.md", ROOT / "docs/SECURITY.md", *set_ups, *(ROOT / "examples/protos").rglob("*")]
    found = {path.relative_to(ROOT).as_posix(): path for path in sorted(packed_files) if path.is_file()}
    placed = {path: path.removeprefix("docs/") for path in found}

    def text(path):
        def link(one):
            named, mark, place = one[2].partition("#")
            if not named or ":" in named:
                return one[0]
            target = posixpath.normpath(posixpath.join(posixpath.dirname(path), named))
            if target in placed:
                return f"[{one[1]}]({posixpath.relpath(placed[target], posixpath.dirname(placed[path]) or '.')}{mark}{place})"
            where = f"{target} of the sources"
            alone = one.string[one.start() - 1] == "(" and one.string[one.end()] == ")"
            return where if one[1] in target else f"{one[1]}: {where}" if alone else f"{one[1]} ({where})"

        data = found[path].read_bytes()
        return re.sub(r"\[([^\]]*)\]\(([^)\s]+)\)", link, data.decode()).encode() if path.endswith(".md") else data

    return {placed[path]: text(path) for path in found}


def written(epoch):
    """The manual page and the completions."""
    return {name: text.encode() for name, text in manual.all_files(time.strftime("%Y-%m-%d", time.gmtime(epoch))).items()}


def of_archive(program, epoch):
    """The files of the archive, as they lie below /usr/local."""
    made = written(epoch)
    return {
        "bin/protols": program,
        "share/man/man1/protols.1": made["protols.1"],
        "share/bash-completion/completions/protols": made["protols.bash"],
        "share/zsh/site-functions/_protols": made["_protols"],
        "share/fish/vendor_completions.d/protols.fish": made["protols.fish"],
        "share/doc/protols/LICENSE": (ROOT / "LICENSE").read_bytes(),
        "share/doc/protols/copyright": (PACKAGING / "copyright").read_bytes(),
        **{f"share/doc/protols/{name}": data for name, data in documents().items()},
    }


def of_package(program, epoch, version):
    """The files of the Debian package, as they lie below /."""
    made, maintainer = written(epoch), re.search(r"^Maintainer: (.*)", (PACKAGING / "control").read_text(encoding="utf-8"), re.MULTILINE)[1]
    change = f"protols ({version}) unstable; urgency=medium\n\n  * Version {version}.\n\n -- {maintainer}  {email.utils.formatdate(epoch)}\n"
    return {
        "usr/bin/protols": program,
        "usr/share/man/man1/protols.1.gz": packed(made["protols.1"]),
        "usr/share/bash-completion/completions/protols": made["protols.bash"],
        "usr/share/zsh/vendor-completions/_protols": made["_protols"],
        "usr/share/fish/vendor_completions.d/protols.fish": made["protols.fish"],
        "usr/share/doc/protols/copyright": (PACKAGING / "copyright").read_bytes(),
        "usr/share/doc/protols/changelog.gz": packed(change.encode()),
        **{f"usr/share/doc/protols/{name}": data for name, data in documents().items()},
    }


def mode(path):
    return 0o755 if path.endswith(("bin/protols", "editors/pre-commit")) else 0o644


def archive(files, top, epoch):
    """The bytes of an archive with these files below a folder. Folders have no entries, so that those which are there keep their owners and modes."""
    held = io.BytesIO()
    with tarfile.open(fileobj=held, mode="w", format=tarfile.USTAR_FORMAT) as tar:
        for path, data in sorted(files.items()):
            entry = tarfile.TarInfo(f"{top}/{path}")
            entry.size, entry.mode, entry.mtime, entry.uname, entry.gname = len(data), mode(path), epoch, "root", "root"
            tar.addfile(entry, io.BytesIO(data))
    return gzip.compress(held.getvalue(), 9, mtime=epoch)


def package(files, control, into, epoch):
    """Writes the Debian package."""
    with tempfile.TemporaryDirectory() as folder:
        top = pathlib.Path(folder) / "protols"
        sums = "".join(f"{hashlib.md5(files[path]).hexdigest()}  {path}\n" for path in sorted(files))
        for path, data in {**files, "DEBIAN/control": control.encode(), "DEBIAN/md5sums": sums.encode()}.items():
            (top / path).parent.mkdir(parents=True, exist_ok=True)
            (top / path).write_bytes(data)
            (top / path).chmod(mode(path))
        for path in [*top.rglob("*"), top]:
            if path.is_dir():
                path.chmod(0o755)
            os.utime(path, (epoch, epoch))
        words = ["dpkg-deb", "--root-owner-group", "--threads-max=1", "-Zxz", "--build", str(top), str(into)]
        subprocess.run(words, check=True, stdout=subprocess.DEVNULL, env={**os.environ, "SOURCE_DATE_EPOCH": str(epoch)})


def control_of(files, version, depends):
    """What the package says of itself. A file takes its size in whole kilobytes, a folder one."""
    folders = {parent for path in files for parent in pathlib.PurePosixPath(path).parents}
    size = len(folders) + sum((len(data) + 1023) // 1024 for data in files.values())
    text = (PACKAGING / "control").read_text(encoding="utf-8")
    for word, value in (("%version", version), ("%size", str(size)), ("%depends", depends)):
        text = text.replace(word, value)
    return text


def pack(program, into, epoch, version=None):
    """Writes the archive, the package and their sums into a folder. Gives the sums, and the packages that the program needs."""
    version = version or manual.version(manual.SOURCE.read_text(encoding="utf-8"))
    depends, data = dependencies(program), stripped(program)
    into.mkdir(parents=True, exist_ok=True)
    name = f"protols-{version}-linux-x86_64"
    made = [into / f"{name}.tar.gz", into / f"protols_{version}_amd64.deb"]
    made[0].write_bytes(archive(of_archive(data, epoch), name, epoch))
    files = of_package(data, epoch, version)
    package(files, control_of(files, version, depends), made[1], epoch)
    sums = "".join(f"{hashlib.sha256(path.read_bytes()).hexdigest()}  {path.name}\n" for path in made)
    (into / "SHA256SUMS").write_text(sums)
    return sums, depends


def main():
    words = argparse.ArgumentParser()
    words.add_argument("--program", default=str(ROOT / "crates/protols/out/protols"))
    words.add_argument("--into", type=pathlib.Path, default=ROOT / "dist")
    given = words.parse_args()
    for tool in ("objdump", "strip", "dpkg-deb"):
        if not shutil.which(tool):
            sys.exit(f"make dist needs the command {tool}")
    refuse_other_program(given.program, manual.SOURCE.read_text(encoding="utf-8"))
    epoch = int(os.environ.get("SOURCE_DATE_EPOCH") or output("git", "log", "-1", "--format=%ct"))
    sums, depends = pack(given.program, given.into, epoch)
    print(f"{sums}the program needs {depends}")


if __name__ == "__main__":
    main()
