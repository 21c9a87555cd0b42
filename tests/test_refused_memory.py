"""Memory refused in a call, at each of its allocations in turn or at less and less of it: the answer is the number of that fault or the right one, and
never another. An allocation that is refused alone is never passed over."""
import itertools
import json
import resource
import subprocess
import unittest

from case_lines import case_program, program_cases
from refusing import refused_runs, runs
from test_serve import ASK, EXIT, INITIALIZE, INITIALIZED, OPEN, PROTO3, REPORT, A, B, asking, notification, opening, report

# The files of an analysis, and the messages of each.
FILES, MESSAGES = 12, 500

# Calls of the program of cases, each with its own answers where it finds no memory. An error that is nothing but a refusal is answered as one of the line.
CALLS = {
    **dict.fromkeys(("tokens", "parse", "facts", "others", "analyse", "analyse with others", "symbols", "references", "merge", "closed"), []),
    "rename": ["fault 706"],
}

# A stream of one frame, and its end, which is asked for twice, as a fault is.
STREAM = "frames :: 0 ends 5000 :: Content-Length: 33␍|␍|" + EXIT

# What is done to a board, and then asked of it: the next job, and the stamp of one more text.
EVENTS = (
    "set a.proto S|#|",
    "next",
    "remove a.proto",
    "offer a.proto 1 S|#|",
    "set a.proto S|",
    "offer a.proto 1 S|#|",
    "offer a.proto 2 S|#|",
    "offer a.proto 3 S|",
    "fail a.proto 2",
    "offer a.proto 2 S|",
    "offer a.proto 2 S|",
    "fail a.proto 2",
)
BOARD = " :: ".join(["board", "0", *EVENTS, "then", "next", "set z.proto S|"])
BOARD_DONE = "Foreign Stale Foreign Foreign Taken Taken Doubled Doubled complete true; none; 3"
# The same where an event is refused: before anything was done, behind the first event, behind the third one, and the text that comes last.
BOARD_REFUSED = [
    "fault 501 complete true; none; 1",
    'fault 501 complete false; a.proto 1 syntax = "proto3";|#|; 2',
    "fault 501 complete true; none; 2",
    BOARD_DONE.replace("3", "fault 501"),
]

# Runs of a core: what is brought is taken, doubled, foreign and stale, and two requests wait for it. After the change the file has two declarations more.
DECLARED = "message One {}|message Two {}|"
CHANGED = json.dumps(PROTO3 + DECLARED.replace("|", "\n"))
CHANGE = notification("textDocument/didChange", f'{{"textDocument":{{"uri":"{A}","version":2}},"contentChanges":[{{"text":{CHANGED}}}]}}')
CORE_EVENTS = (
    INITIALIZE,
    OPEN,
    opening(B, PROTO3),
    ASK,
    CHANGE,
    asking("3", A),
    "made 2 b.proto S|",
    "made 2 b.proto S|",
    "made 1 z.proto S|",
    "made 1 a.proto S|#|",
    "made 1 a.proto S|#|",
    f"made 3 a.proto S|{DECLARED}",
)
# The same messages, but between what is brought; one piece is of another text than the one of its stamp.
MIXED_EVENTS = (
    INITIALIZE,
    OPEN,
    "made 1 z.proto S|",
    opening(B, PROTO3),
    ASK,
    "made 2 b.proto S|",
    "made 1 a.proto S|",
    CHANGE,
    "made 2 b.proto S|",
    asking("3", A),
    "made 1 a.proto S|#|",
    "made 1 a.proto S|#|",
    f"made 3 a.proto S|{DECLARED}",
)
CORE_RUNS = {CORE_EVENTS: "Taken Doubled Foreign Taken Stale Taken", MIXED_EVENTS: "Foreign Taken Foreign Doubled Taken Stale Taken"}


def run_within(program, line, megabytes):
    """What the program answers to a line with so much memory, and its status."""
    most = megabytes << 20
    run = subprocess.run([program], input=line, capture_output=True, text=True, preexec_fn=lambda: resource.setrlimit(resource.RLIMIT_AS, (most, most)))
    return run.stdout, run.returncode


class RefusedMemory(unittest.TestCase):
    def test_an_analysis_by_threads_is_whole_or_finds_no_memory(self):
        program = case_program()
        paths = [f"{number:02}.proto" for number in range(FILES)]
        text = "S|" + " ".join(f"message M{number} {{ M{number} m = 1; }}" for number in range(MESSAGES))
        line = " :: ".join(["shares", "3", *(f"{path} {text}" for path in paths)])
        stamps = " ".join(f"{path}@{stamp}" for stamp, path in enumerate(paths, 1))
        visits = " ".join(f"{path} 1" for path in paths)
        whole = f"{FILES} pieces: {stamps}; came: {visits}; {FILES} files: {';'.join(paths)};\n", 0
        # Without memory for the line itself or for its pieces there is no analysis. A thread that gets no stack is refused.
        others = {("", 1), ("error: out of memory\n", 0), ("error: fault 602\n", 0)}
        none = "error: fault 601\n", 0
        seen = set()
        for megabytes in range(8, 160, 2):
            with self.subTest(megabytes=megabytes):
                answer = run_within(program, line + "\n", megabytes)
                self.assertIn(answer, {whole, none, *others})
                seen.add(answer)
        self.assertLessEqual({whole, none}, seen)


class EachAllocation(unittest.TestCase):
    maxDiff = None

    def answers(self, line, right):
        """The answers of the program of cases to a line, with one allocation after the other refused: first the one without a refusal has to be right, and
        then none is. One answer stands for several in a row."""
        words, data = [case_program()], f"{line}\n".encode()
        [whole] = runs(words, data, [{}])
        self.assertEqual((whole.out.decode(), whole.err, whole.status), (f"{right}\n", b"", 0))
        told = []
        for run in refused_runs(words, data):
            self.assertNotEqual((run.out, run.status), (whole.out, 0), f"passed over: {run}")
            told.append((run.out.decode().removesuffix("\n"), run.status))
        return [answer for answer, _again in itertools.groupby(told)]

    def check_line(self, line, right, refused):
        """Where the line itself, or a piece of the answer, finds no memory the program says so, and else the call answers its own refusals, in this order."""
        told = [answer for answer in self.answers(line, right) if answer != ("", 1) and "error: out of memory" not in answer[0]]
        self.assertEqual([answer for answer, _again in itertools.groupby(told)], [(answer, 0) for answer in refused])

    def test_the_first_case_of_each_call(self):
        first = {line.partition(" :: ")[0]: (line, right) for line, right in reversed(program_cases())}
        for call, refused in CALLS.items():
            with self.subTest(call):
                self.check_line(*first[call], refused)

    def test_a_frame(self):
        self.check_line(STREAM, f"<{EXIT}> end end", ["108 108"])

    def test_events_of_a_board(self):
        self.check_line(BOARD, BOARD_DONE, BOARD_REFUSED)

    def test_runs_of_a_core(self):
        for events, verdicts in CORE_RUNS.items():
            with self.subTest(verdicts):
                line = " :: ".join(["run", *(f"> {event}" for event in events)])
                self.check_line(line, f"6 processed {verdicts}: {INITIALIZED} {REPORT} {report('3')}", [" fault 803"])


if __name__ == "__main__":
    unittest.main()
