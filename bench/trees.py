"""Workspaces of any size, which the benchmarks measure."""

# How many messages a file has.
MESSAGES = 8

# The imported files, counted back from the importing one.
STEPS = [1, 2, 3, 7, 40]

# How many files are of one package.
TOGETHER = 20


def path(n):
    return f"area{n // TOGETHER:04}/file{n:05}.proto"


def package(n):
    return f"shop.area{n // TOGETHER}.v1"


def imported(n):
    """The files that a file imports: earlier ones, near and far."""
    return [n - step for step in STEPS if step <= n]


def message(n, m):
    """A message with types inside, and fields whose types are its own, its neighbours and imported ones."""
    others = imported(n)
    far = [f"  {package(o)}.Order{o}M{m}.Item.Kind far{k} = {10 + k};\n" for k, o in enumerate(others)]
    near = [f"  .{package(o)}.Order{o}M{(m + 1) % MESSAGES} near{k} = {20 + k};\n" for k, o in enumerate(others)]
    return (
        f"message Order{n}M{m} {{\n  message Item {{\n    enum Kind {{ KIND_NONE = 0; KIND_ONE = 1; }}\n"
        f"    Kind kind = 1;\n    string name = 2;\n  }}\n  Item item = 1;\n  map<string, Item.Kind> kinds = 2;\n"
        f"  Order{n}M{(m + 3) % MESSAGES} next = 3;\n  oneof choice {{ Item.Kind one = 4; int64 two = 5; }}\n"
        + "".join(far) + "".join(near) + "}\n"
    )


def imports(n):
    return "".join(f'import "{path(o)}";\n' for o in imported(n))


def ordinary(n):
    messages = "".join(message(n, m) for m in range(MESSAGES))
    return f'syntax = "proto3";\npackage {package(n)};\n{imports(n)}{messages}'


def same_name(n):
    """A file that refers to `M`, which it declares itself or imports."""
    messages = "".join(f"message A{n}M{m} {{ message M {{ }} .M m = 1; M n = 2; }}\n" for m in range(MESSAGES))
    return f'syntax = "proto3";\n{imports(n)}{"" if n % 2 else "message M { }"}\n{messages}'


# A file with a name that each file of its tree uses.
ONE_NAME = "money.proto"
ONE_NAME_TEXT = 'syntax = "proto3";\npackage shop;\nmessage Money { int64 units = 1; }\n'

# What may stand there too, so that each file sees it: a message with 200 declarations inside.
WIDE_MESSAGE = "message Wide {\n" + "".join(f"  message Part{k} {{ }}\n  Part{k} part{k} = {k};\n" for k in range(1, 101)) + "}\n"


def user_of_one_name(n):
    """A file that uses that name ten times."""
    fields = "".join(f"  shop.Money price{k} = {k};\n" for k in range(1, 11))
    return f'syntax = "proto3";\npackage {package(n)};\nimport "{ONE_NAME}";\nmessage Order{n} {{\n{fields}}}\n'


# A file with a name that nine other files of its tree use, so that it stands in ten.
RARE_NAME = "rare.proto"
RARE_NAME_TEXT = 'syntax = "proto3";\npackage rare;\nmessage Seldom { int64 units = 1; }\n'


def users_of_rare_name(count):
    """The numbers of those nine files among so many, far from each other."""
    return range(0, 9 * (count // 9), count // 9)


def use_of_rare_name(n):
    """What stands at the end of each of them."""
    return f'import "{RARE_NAME}";\nmessage User{n} {{ rare.Seldom one = 1; }}\n'
