"""A frame with a body of 64 MiB, and many small frames, against a C program that copies the same bytes."""
import pathlib
import sys

sys.path.insert(0, str(pathlib.Path(__file__).resolve().parent.parent))
import lab  # noqa: E402


def main():
    here = pathlib.Path(__file__).resolve().parent
    program = lab.rattle_program("lsp_frame", ["lsp_frame", "anyhow"])
    plain = lab.c_program(here / "plain.c")
    size = 64 * 1024 * 1024
    large = lab.text_file("large.frames", b"Content-Length: %d\r\n\r\n" % size + b"x" * size)
    small = lab.text_file("small.frames", (b"Content-Length: 100\r\n\r\n" + b"x" * 100) * 200_000)
    print(lab.machine())
    print("input                      frames      C  ratio")
    for name, path in (("one body of 64 MiB", large), ("200,000 bodies of 100 B", small)):
        ours, theirs = lab.best_of_each([([program], path), ([plain], path)], 7)
        print(f"{name:24} {ours:7.3f} s {theirs:6.3f} s {ours / theirs:5.2f}")


main()
