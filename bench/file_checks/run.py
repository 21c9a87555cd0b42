#!/usr/bin/env python3
"""Times `protols serve` from its start to its end on one large document: opened, asked for its diagnostics, shut down.

The first texts are of about 15 MB: statements at one level, and the same inside 63 blocks. Options, which declare nothing, may
take at most 1.5 times the time there; messages with fields, whose full names begin with the names of all 63 blocks there,
twice the time. The next are blocks in blocks and braces in braces, 100,000, 200,000 and 400,000 of them. The others
have very many of one thing in one body or file (fields, values, reserved numbers beside fields, declarations of one name,
imports), 50,000, 100,000 and 200,000 of them: twice as many may take at most 2.5 times the time, and 100,000 one second.
Each text is asked for its diagnostics once before, and has to have as many as it is known to have.

A time is the best of 5, in turn. The program is crates/protols/out/protols, or the one that PROTOLS names."""
import json
import pathlib
import sys

HERE = pathlib.Path(__file__).resolve().parent
sys.path[:0] = [str(HERE.parent), str(HERE.parent.parent / "tests")]
import lab
import stream

TIMES = 5

# What stands in the texts, and the most that the deep one may take, as a multiple of the time of the flat one.
OPTION = 'option (shop.hint).deep = { name: "an order" values: [1, 2, 3] nested { a: -1.5e3 } };\n'
MESSAGE = "message Order{} { string customer_name = 1; repeated int64 items = 2; map<string, int64> prices = 3; }\n"
DEEPER = [("options", OPTION, 1.5), ("messages", MESSAGE, 2)]

# The most that twice as many may take, as a multiple. A quadratic step costs 4.
GROWTH = 2.5

# The most that 100,000 of a thing may take, in seconds.
LONGEST = 1.0

PROTO3 = 'syntax = "proto3";\n'


def statements(size, depth, part):
    """That many bytes of a statement again and again, each with a number of its own, inside so many blocks."""
    opening = PROTO3 + "".join(f"message B{level} {{\n" for level in range(depth))
    closing = "}\n" * depth
    parts, length = [], len(opening) + len(closing)
    while length < size:
        parts.append(part.replace("{}", str(len(parts)), 1))
        length += len(parts[-1])
    return opening + "".join(parts) + closing


def field_numbers(count):
    """The first numbers that a field may have."""
    return [number for number in range(1, count + 1_001) if not 19_000 <= number <= 19_999][:count]


def fields(count):
    return PROTO3 + "message M {\n" + "".join(f"  int32 f{n} = {n};\n" for n in field_numbers(count)) + "}\n"


def values(count):
    return PROTO3 + "enum E {\n" + "".join(f"  V{n} = {n};\n" for n in range(count)) + "}\n"


def reservations(count):
    """As many reserved numbers as fields, none of them a field's."""
    reserved = ", ".join(str(30_000 + 2 * n) for n in range(count))
    own = "".join(f"  int32 f{n} = {30_001 + 2 * n};\n" for n in range(count))
    return PROTO3 + f"message M {{\n  reserved {reserved};\n{own}}}\n"


def declarations(count):
    return PROTO3 + "message A { }\n" * count


def imports(count):
    return PROTO3 + "".join(f'import "a{n}.proto";\n' for n in range(count))


def blocks(count):
    return PROTO3 + "message A{" * count + "}" * count


def braces(count):
    return PROTO3 + "option o = " + "{" * count + "}" * count + ";"


def report_length(text):
    """How many diagnostics the program gives the text."""
    output, _, status = stream.run(stream.frames(stream.document_bodies(text)))
    if status != 0:
        raise SystemExit(f"the status is {status}")
    return len(json.loads(stream.split_frames(output)[1])["result"]["items"])


def seconds(name, texts, wanted):
    """The best time of each text, which has to have so many diagnostics."""
    for text, count in zip(texts, wanted):
        found = report_length(text)
        if found != count:
            raise SystemExit(f"{name}: {found} diagnostics and not {count}")
    paths = [lab.text_file(f"{name}{place}.frames", stream.frames(stream.document_bodies(text))) for place, text in enumerate(texts)]
    return lab.best_of_each([(stream.command(), path) for path in paths], TIMES)


def print_row(name, count, time, ratio):
    shown = f"{ratio:6.2f}" if ratio else ""
    print(f"{name:>28} {count:>12,} {time * 1000:>9.1f} ms {shown}", flush=True)


def judge_depth(name, part, most):
    """Whether the deep text takes about as long as the flat one."""
    texts = [statements(15_000_000, depth, part) for depth in (0, 63)]
    flat, deep = seconds(f"depth_{name}", texts, [0, 0])
    print_row(f"{name}, bytes", len(texts[0]), flat, None)
    print_row(f"{name} in 63 blocks", len(texts[1]), deep, deep / flat)
    return deep <= most * flat


def judge_growth(name, make, counts, wanted):
    """Whether twice as many take about twice the time, and 100,000 no longer than they may."""
    times = seconds(name.replace(" ", "_"), [make(count) for count in counts], [wanted(count) for count in counts])
    kept, before = True, None
    for count, time in zip(counts, times):
        print_row(name, count, time, time / before if before else None)
        kept = kept and (before is None or time <= GROWTH * before) and (count != 100_000 or time <= LONGEST)
        before = time
    return kept


def main():
    print(lab.machine())
    print(f"{'text':>28} {'count':>12} {'time':>12} growth")
    kept = all([judge_depth(*row) for row in DEEPER])
    nested = [100_000, 200_000, 400_000]
    many = [50_000, 100_000, 200_000]
    none = lambda count: 0
    kept &= judge_growth("blocks in blocks", blocks, nested, lambda count: 1)
    kept &= judge_growth("braces of an option", braces, nested, none)
    kept &= judge_growth("fields of a message", fields, many, none)
    kept &= judge_growth("values of an enum", values, many, none)
    kept &= judge_growth("reserved beside fields", reservations, many, none)
    kept &= judge_growth("declarations of one name", declarations, many, lambda count: count - 1)
    kept &= judge_growth("imports", imports, many, lambda count: count)
    print("kept" if kept else "NOT kept")
    return 0 if kept else 1


if __name__ == "__main__":
    sys.exit(main())
