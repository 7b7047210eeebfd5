#!/usr/bin/env python3
"""Writes the first part of the stored calls and of what must be written of them: the calls of the scripts below, each of
which works its answers out from documents 01 and 02. The second part is the second implementation's (differential/, stored). The program
vectors runs the calls of crates/vectors; evidence by records, which it does not know, is in differential/records, and stored runs it.

    tools/vectors.py            write the first part of stdin and stdout in both folders
    tools/vectors.py --check    compare it with what is stored
"""
import pathlib
import sys

import evidence_cases
import mention_cases
import names_cases
import policy_cases
import search_cases
import text_cases
import traces_cases
import turning_cases
from calls import RECORDS

SCRIPTS = (turning_cases, policy_cases, text_cases, search_cases, evidence_cases, traces_cases, names_cases, mention_cases)
ROOT = pathlib.Path(__file__).resolve().parent.parent
# each folder, and whether its calls are those on records
FOLDERS = {"crates/vectors": False, "differential/records": True}
# the program reads blocks of this length; no call goes over a block's end, and the second part begins with a block
BLOCK = 65536
MOST_BLOCKS = 64
SECOND = "calls of the second implementation\n"


def padded(text, room):
    """With a blank line to the block's end, if fewer bytes are left in it."""
    left = -len(text) % BLOCK
    return text + " " * (left - 1) + "\n" if 0 < left < room else text


def first_part(worked_out, records):
    given, expected, counts = "", "", []
    for script, calls in worked_out:
        calls = [(line, answer) for line, answer in calls if line.startswith("%d " % RECORDS) == records]
        if calls:
            counts.append("%s %d" % (script, len(calls)))
        for line, answer in calls:
            given = padded(given, len(line) + 1) + line + "\n"
            expected += answer + "\n"
    return padded(given, BLOCK), expected, counts


def store(folder, given, expected, check):
    stored = [(ROOT / folder / name).read_text() for name in ("stdin", "stdout")]
    held, _, rest = stored[0].partition(SECOND)
    lines = sum(not line.isspace() for line in held.splitlines())
    answers = stored[1].splitlines(keepends=True)
    assert len(given + SECOND + rest) <= MOST_BLOCKS * BLOCK, "more than the program reads"
    if not check:
        (ROOT / folder / "stdin").write_text(given + SECOND + rest)
        (ROOT / folder / "stdout").write_text(expected + "".join(answers[lines:]))
    elif (given, expected) != (held, "".join(answers[:lines])):
        sys.exit("the first part of %s is not what the scripts work out" % folder)


def main():
    worked_out = [(script.__name__, list(script.calls())) for script in SCRIPTS]
    for folder, records in FOLDERS.items():
        given, expected, counts = first_part(worked_out, records)
        store(folder, given, expected, sys.argv[1:] == ["--check"])
        print("%s: %s" % (folder, ", ".join(counts)))


if __name__ == "__main__":
    main()
