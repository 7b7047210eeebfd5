"""Stores the input and the expected output of a program that runs cases, or compares them with what is stored."""
import pathlib
import sys

# bytes that such a program reads
MOST = 65536


def store(crate, given, expected, check):
    assert sum(len(line) + 1 for line in given) <= MOST, "more than the program reads"
    folder = pathlib.Path(__file__).resolve().parent.parent / "crates" / crate
    for name, lines in (("stdin", given), ("stdout", expected)):
        text = "".join(line + "\n" for line in lines)
        path = folder / name
        if not check:
            path.write_bytes(text.encode())
        elif not path.exists() or path.read_bytes() != text.encode():
            sys.exit("%s/%s is not what the script works out" % (crate, name))
    print("%s: %d cases" % (crate, len(given)))
