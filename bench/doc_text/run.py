#!/usr/bin/env python3
"""Times doc_text against plain C on the same texts, in turn, best of 5. Prints milliseconds and ratios.

Offsets and positions are compared with a C loop that gives the same answer, the positions of a million offsets
with the one of the text's end, and a change of one character with one memcpy of the text."""
import os
import sys

HERE = os.path.dirname(os.path.abspath(__file__))
sys.path.insert(0, os.path.dirname(HERE))
import lab

SIZE = 16_000_000


def filled(piece):
    piece = piece.encode()
    return piece * (SIZE // len(piece))


TEXTS = {
    "ascii": filled(
        'syntax = "proto3";\n\n// A message of the mail service.\nmessage Letter {\n'
        "  string sender = 1;\n  repeated string receivers = 2; // in order\n  int64 sent_at = 3;\n}\n\n"
    ),
    "unicode": filled("// 消息 é😀 Привет, мир\r\nmessage 消息 { string имя = 1; }\r\n"),
    "lines": b"\n" * 10_000_000,
}

# Each task, what stands beside it, and the most that its time may be of the other's.
TASKS = [
    ("offset", "offset", 2.0),
    ("position", "position", 2.0),
    ("positions", "position, by us", 4.0),
    ("front", "copy", 3.0),
    ("middle", "copy", 3.0),
    ("end", "copy", 3.0),
]


def main():
    rattle = lab.rattle_program("doc_text", ["doc_text", "anyhow"])
    plain = lab.c_program(os.path.join(HERE, "plain.c"))
    kept = True
    print(lab.machine())
    for name, text in TEXTS.items():
        path = lab.text_file(f"doc_text_{name}", text)
        for task, against, limit in TASKS:
            other = [rattle, "position"] if task == "positions" else [plain, against]
            (sum_here, [here]), (sum_there, [there]) = lab.fastest([[rattle, task, path], [*other, path]])
            if task == against and sum_here != sum_there:
                sys.exit(f"{name} {task}: {sum_here} here, {sum_there} in plain C")
            kept = kept and here <= limit * there
            print(f"{name:8} {task:9} {here:8.3f} ms  {against:17} {there:8.3f} ms  ratio {here / there:5.2f}  at most {limit}")
    sys.exit(0 if kept else 1)


if __name__ == "__main__":
    main()
