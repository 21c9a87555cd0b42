#!/usr/bin/env python3
"""Times the lexer, the parser and the facts of a million bytes of ordinary proto3 in one process, best of 5 runs of 10
each. All three together may take at most 6 times as long as the lexer alone; the status is 1 where they take longer."""
import pathlib
import sys

HERE = pathlib.Path(__file__).resolve().parent
sys.path[:0] = [str(HERE.parent)]
import lab
from serve.run import ordinary

SIZE = 1_000_000

# The most that all may take, as a multiple of the lexer's time.
MOST = 6


def main():
    program = lab.rattle_program("proto_facts", ["proto_facts", "proto_lex", "proto_syntax", "anyhow"])
    path = lab.text_file("facts.proto", ordinary(SIZE).encode())
    [(found, [lexing, parsing, checking])] = lab.fastest([[program, path]])
    ratio = (lexing + parsing + checking) / lexing
    print(lab.machine())
    print(f"{SIZE:,} bytes, declarations and diagnostics: {found}")
    print(f"lexer {lexing:.2f} ms, parser {parsing:.2f} ms, facts {checking:.2f} ms; together {ratio:.2f} times the lexer")
    print("kept" if ratio <= MOST else "NOT kept")
    return 0 if ratio <= MOST else 1


if __name__ == "__main__":
    sys.exit(main())
