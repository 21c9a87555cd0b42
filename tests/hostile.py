"""Trees and texts that somebody made to be slow, of any size n: for each the texts of its files by path."""

HEAD = 'syntax = "proto3";\n'


def undeclared(n):
    """A package of n components, and n fields of types that nothing declares."""
    fields = "".join(f"T{k} f{k} = {k + 1};\n" for k in range(n))
    return {"a.proto": f"{HEAD}package {'.'.join(f'p{k}' for k in range(n))};\nmessage M {{\n{fields}}}\n"}


def declared_elsewhere(n):
    """The same, where each type's name is that of a message inside another one."""
    inner = "".join(f"message T{k} {{}}\n" for k in range(n))
    fields = "".join(f"T{k} f{k} = {k + 1};\n" for k in range(n))
    return {"a.proto": f"{HEAD}package {'.'.join(f'p{k}' for k in range(n))};\nmessage Q {{\n{inner}}}\nmessage M {{\n{fields}}}\n"}


def of_components(n):
    """The same, where each type's name is that of a component of the package."""
    fields = "".join(f"p{k} f{k} = {k + 1};\n" for k in range(n))
    return {"a.proto": f"{HEAD}package {'.'.join(f'p{k}' for k in range(n))};\nmessage M {{\n{fields}}}\n"}


def one_component(n):
    """The package `a.a.a..` of n components, and 200 names that nothing declares."""
    fields = "".join(f"T{k} f{k} = {k + 1};\n" for k in range(200))
    return {"a.proto": f"{HEAD}package {'.'.join(['a'] * n)};\nmessage M {{\n{fields}}}\n"}


def packed(n, imports):
    """n files of which each imports what it is said to, publicly, and has a package and a message of its own."""
    return {
        f"f{k:05}.proto": f"{HEAD}package p{k};\n" + "".join(f'import public "f{other:05}.proto";\n' for other in imports(k)) + f"message M{k} {{}}\n"
        for k in range(n)
    }


def all_of_all(n):
    """n files of which each publicly imports all n."""
    return packed(n, lambda k: range(n))


def ring(n):
    """n files of which each publicly imports the next, and the last one the first."""
    return packed(n, lambda k: [(k + 1) % n])


def chain(n):
    """n files of which each publicly imports the next."""
    return packed(n, lambda k: [k + 1] if k + 1 < n else [])


def hub(n):
    """A file that publicly imports n others, which each import it publicly."""
    return packed(n + 1, lambda k: range(1, n + 1) if k == 0 else [0])


def long_names(n):
    """A package whose name has 27 bytes for each of n messages."""
    messages = "".join(f"message Message{k} {{}}\n" for k in range(n))
    return {"a.proto": f"{HEAD}package {'.'.join(['component_of_a_long_name'] * (n * 27 // 25))};\n{messages}"}


def equal_names(n):
    """n messages of one name."""
    return {"a.proto": HEAD + "message M {}\n" * n}


def overlaps(n):
    """n reserved ranges of one body, each of which overlaps with the others."""
    ranges = "".join(f"reserved {k + 1} to {2 * n - k};\n" for k in range(n))
    return {"a.proto": f"{HEAD}message M {{\n{ranges}}}\n"}


def small_files(n):
    """n files of 100 bytes."""
    return {f"f{k:06}.proto": f"{HEAD}message M{k:06} {{ M{k:06} m = 1; }}".ljust(99) + "\n" for k in range(n)}


def importing(n, each):
    """n files of which each imports so many of those behind it, and names what the next one declares."""
    return {
        f"f{k:05}.proto": HEAD + "".join(f'import "f{other:05}.proto";\n' for other in range(k + 1, min(n, k + 1 + each))) + f"message M{k} {{ M{min(n - 1, k + 1)} m = 1; }}\n"
        for k in range(n)
    }


def all_before(n):
    """n files of which each publicly imports all those before it, and names what the first one declares."""
    return {f"f{k:05}.proto": HEAD + "".join(f'import public "f{other:05}.proto";\n' for other in range(k)) + f"message M{k} {{ M0 m = 1; }}\n" for k in range(n)}


def named_chain(n):
    """n files of which each publicly imports the next, and names what that one declares."""
    return {
        f"f{k:05}.proto": HEAD + f'import public "f{k + 1:05}.proto";\n' * (k + 1 < n) + f"message M{k} {{ M{min(n - 1, k + 1)} m = 1; }}\n" for k in range(n)
    }


def nested_in_long_package(n):
    """A package whose name has 9 bytes for each of n messages that have a message with another one inside."""
    messages = "".join(f"message M{k} {{ message N {{ message O {{}} }} }}\n" for k in range(n))
    return {"a.proto": f"{HEAD}package {'.'.join(['componen'] * n)};\n{messages}"}


def in_many_scopes(n):
    """A package of 100 components, and n names of two components that nothing declares."""
    fields = "".join(f"T{k}.U f{k} = {k + 1};\n" for k in range(n))
    return {"a.proto": f"{HEAD}package {'.'.join(f'p{k}' for k in range(100))};\nmessage M {{\n{fields}}}\n"}


def of_two_components(n):
    """A package of n components, and n names of two components that nothing declares."""
    fields = "".join(f"T{k}.U f{k} = {k + 1};\n" for k in range(n))
    return {"a.proto": f"{HEAD}package {'.'.join(f'p{k}' for k in range(n))};\nmessage M {{\n{fields}}}\n"}


def uses(files, each):
    """A file that declares a message, and others that each name it so often."""
    fields = "".join(f"M f{k} = {k + 1};\n" for k in range(each))
    return {"a.proto": f"{HEAD}message M {{}}\n"} | {f"u{k:05}.proto": f'{HEAD}import "a.proto";\nmessage U{k} {{\n{fields}}}\n' for k in range(files)}


def deep_option(n):
    """An option with n braces in one another."""
    return f"{HEAD}option o = {'{' * n}{'}' * n};\n"


def deep_messages(n):
    """n messages in one another, in one line."""
    return f"{HEAD}{'message A{' * n}{'}' * n}\n"


def repeated(words, size):
    """A text of at most so many bytes, with these words again and again in one line."""
    return {"a.proto": HEAD + words * ((size - len(HEAD)) // len(words))}
