#!/usr/bin/env python3
"""Times proto_lex against a plain table-driven C loop on the same texts, in turn, best of 5. Prints milliseconds,
speeds and ratios.

The first text is ordinary proto3; each other one is a single piece again and again, at one and at two million bytes:
twice as many bytes may take about twice the time. Where each byte is a token, 48 MB of tokens are more than malloc
keeps from one run to the next, and the plain loop's time grows as much; so its growth is the measure."""
import os
import sys

HERE = os.path.dirname(os.path.abspath(__file__))
sys.path.insert(0, os.path.dirname(HERE))
import lab

SIZE = 1_000_000

# The least speed on ordinary text, as a part of the plain loop's.
LEAST = 0.6

# The most that a byte of twice as long a text may cost beside one of the shorter text, as a part of the same in C
# (or of 1, where that is less).
MOST = 1.5

PIECES = ["/", '"', "7", "\\", "/*", "*", ".", "'\n", "/**/"]


def ordinary():
    """A million bytes of messages, services, comments, numbers and strings."""
    parts, size, n = ['syntax = "proto3";\n\npackage shop.orders.v1;\n\n'], 48, 0
    while size < SIZE:
        n += 1
        part = (
            f"// An order of the shop, number {n}.\nmessage Order{n} {{\n  string customer_name = 1;\n"
            f"  repeated Item{n} items = 2 [deprecated = true];\n  map<string, int64> prices_by_name = 3;\n"
            f"  /* In cents,\n   * with taxes. */\n  uint64 total_cents = {n % 90 + 4};\n"
            f"  double discount = {n % 500 + 500} [default = 0.{n}e-3];\n  reserved 1000 to 0x7FF, 017;\n}}\n\n"
            f'enum Kind{n} {{\n  option allow_alias = true;\n  KIND{n}_NONE = 0;\n  KIND{n}_OTHER = -{n};\n}}\n\n'
            f"service Shop{n} {{\n  rpc Find (Order{n}) returns (stream .shop.orders.v1.Order{n}) {{\n"
            f'    option (google.api.http) = "/v1/orders/{n}?q=\\"a\\"";\n  }}\n}}\n\n'
        )
        parts.append(part)
        size += len(part)
    return "".join(parts)[:SIZE]


def main():
    rattle = lab.rattle_program("proto_lex", ["proto_lex", "anyhow"])
    plain = lab.c_program(os.path.join(HERE, "plain.c"))
    kept = True
    print(lab.machine())
    path = lab.text_file("ordinary.proto", ordinary().encode())
    (count, [ours]), (same, [theirs]) = lab.fastest([[rattle, path], [plain, path]])
    ratio = theirs / ours
    kept = kept and count == same and ratio >= LEAST
    print(f"ordinary text, {SIZE:,} bytes, {count} tokens (C: {same})")
    print(f"  proto_lex {ours:6.2f} ms, {SIZE / ours / 1000:4.0f} MB/s; C {theirs:6.2f} ms; {ratio:.2f} of its speed")
    for piece in PIECES:
        texts = [(piece * (size // len(piece))).encode() for size in (SIZE, 2 * SIZE)]
        paths = [lab.text_file(f"piece{size}.proto", text) for size, text in enumerate(texts)]
        runs = lab.fastest([[program, path] for program in (rattle, plain) for path in paths])
        (_, [short]), (count, [long]), (_, [plain_short]), (same, [plain_long]) = runs
        growth, plain_growth = long / (2 * short), plain_long / (2 * plain_short)
        kept = kept and count == same and growth <= MOST * max(1, plain_growth)
        print(
            f"  {piece!r:8} {short:6.2f} ms, twice as long {long:6.2f} ms, {growth:.2f} a byte; "
            f"C {plain_short:6.2f} ms, {plain_long:6.2f} ms, {plain_growth:.2f}; {count} tokens (C: {same})"
        )
    print("kept" if kept else "NOT kept")
    return 0 if kept else 1


if __name__ == "__main__":
    sys.exit(main())
