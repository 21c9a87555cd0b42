"""What the benchmarks share: it builds the programs that are compared, and times them."""
import os
import pathlib
import shutil
import subprocess
import time

ROOT = pathlib.Path(__file__).resolve().parent.parent
WORK = ROOT / "out" / "bench"


def crate_lines():
    """The repository's crates, each with the libraries that it stands on."""
    lines = {}
    for line in (ROOT / "crates.txt").read_text().splitlines():
        line = line.split("#")[0].strip()
        if line:
            name, _, libraries = line.partition(":")
            lines[name.split()[0]] = libraries.split()
    return lines


def put_crate(folder, source):
    """Makes the crate's folder equal to the source but for what rt keeps in out/."""
    for part in ("src", "specs", "proofs"):
        if (folder / part).exists():
            shutil.rmtree(folder / part)
        if (source / part).exists():
            shutil.copytree(source / part, folder / part)


def rattle_program(name, libraries):
    """Builds bench/NAME/main.rt.txt as a program over copies of the repository's crates, and gives its executable's path.

    The program is no crate of the repository, so that the gate doesn't prove it: hence its name. Here it is proved first,
    and the crates below it too. Without arguments and input it has to end at once.
    """
    top = WORK / name
    listed = crate_lines()
    wanted = [crate for crate in libraries if crate in listed]
    for crate in wanted:
        wanted.extend(other for other in listed[crate] if other in listed and other not in wanted)
    program = f"{name}_speed"
    for crate in wanted:
        put_crate(top / "crates" / crate, ROOT / "crates" / crate)
    (top / "crates" / program / "src").mkdir(parents=True, exist_ok=True)
    shutil.copy(ROOT / "bench" / name / "main.rt.txt", top / "crates" / program / "src" / "main.rt")
    lines = [f"{crate}: {' '.join(listed[crate])}" for crate in wanted] + [f"{program}: {' '.join(libraries)}"]
    (top / "crates.txt").write_text("\n".join(lines) + "\n")
    shutil.copy(ROOT / "HANDLES", top / "HANDLES")
    folder = top / "crates" / program
    run = subprocess.run(["rt", "run"], cwd=folder, stdin=subprocess.DEVNULL, capture_output=True, text=True)
    executable = folder / "out" / program
    if run.returncode != 0 or not executable.exists():
        raise SystemExit(f"{name}: the program was not built\n{run.stdout}{run.stderr}")
    return str(executable)


def c_program(source, libraries=()):
    """Compiles a C file with these libraries as the kit compiles its programs, and gives the path of the executable."""
    source = pathlib.Path(source)
    WORK.mkdir(parents=True, exist_ok=True)
    executable = WORK / f"{source.parent.name}_{source.stem}"
    subprocess.run(["gcc", "-O2", "-march=x86-64-v2", "-o", str(executable), str(source), *map(str, libraries)], check=True)
    return str(executable)


def text_file(name, data):
    """Writes the bytes into a file of that name, and gives its path."""
    WORK.mkdir(parents=True, exist_ok=True)
    path = WORK / name
    path.write_bytes(data)
    return str(path)


def seconds(command, stdin=None):
    """Runs the command once, with that file as its input, and gives the seconds of the clock that it took."""
    with open(stdin or os.devnull, "rb") as given:
        start = time.perf_counter()
        subprocess.run(command, stdin=given, stdout=subprocess.DEVNULL, stderr=subprocess.DEVNULL, check=True)
        return time.perf_counter() - start


def best(command, times=5, stdin=None):
    """The best time of several runs of the command, in seconds."""
    return min(seconds(command, stdin) for _ in range(times))


def best_of_each(commands, times=5):
    """The best time of each command, run in turn so that all meet the same machine: a list of (command, input)."""
    bests = [float("inf")] * len(commands)
    for _ in range(times):
        for place, (command, stdin) in enumerate(commands):
            bests[place] = min(bests[place], seconds(command, stdin))
    return bests


def printed(command):
    """What a run of the command prints, and the times that it writes on standard error in nanoseconds, as milliseconds."""
    done = subprocess.run(command, capture_output=True, text=True, check=True)
    return done.stdout.strip(), [int(word) / 1e6 for word in done.stderr.split()]


def fastest(commands, times=5):
    """What each command prints, and the least of each of its times, over several runs of all in turn."""
    runs = [[printed(command) for command in commands] for _ in range(times)]
    return [(column[0][0], [min(one) for one in zip(*(each for _, each in column))]) for column in zip(*runs)]


def machine():
    """The machine in one line, for a figure's heading."""
    model = "unknown processor"
    for line in pathlib.Path("/proc/cpuinfo").read_text().splitlines():
        if line.startswith("model name"):
            model = line.split(":", 1)[1].strip()
            break
    return f"{os.cpu_count()} cores, {model}"
