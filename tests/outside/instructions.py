#!/usr/bin/env python3
"""Counts the instructions of a few commands with callgrind: `instructions.py PROGRAM`.

Some faults make the program slow and leave its answers right: a table that is searched past a free place, a shape that is counted by
columns and has few rows, a product by the slower of two ways, a polynomial that is computed again in a batch. No clause of a contract
excludes these. Each command may take a quarter more instructions than when its number was written here; unlike times, the numbers do
not depend on the load."""
import re
import subprocess
import sys
import tempfile

from common import SECONDS

SCHUBERT = "schubert 1 5 4 8 3 2 7 6\n"

# The words of a command, its standard input, and its instructions in millions.
COUNTED = [
    ("mult 6 5 4 3 2 1 - 6 5 4 3 2 1", "", 131),
    ("mult 200 200 - 200 200", "", 34),
    ("coef 180 150 110 72 - 120 80 40 16 - 110 80 46 20", "", 20),
    ("expand m s[5,4,3,2,1]", "", 4.1),
    ("dschubmult 5 4 3 2 1 - 5 4 3 2 1", "", 34.7),
    ("batch", 20 * SCHUBERT, 17.0),
]


def counted(words, given):
    """The instructions of a run, in millions; None if it has not ended with status 0 after `SECONDS` seconds."""
    with tempfile.NamedTemporaryFile() as log:
        counting = ["valgrind", "--tool=callgrind", "--callgrind-out-file=/dev/null", f"--log-file={log.name}"]
        try:
            done = subprocess.run([*counting, *words], input=given.encode(), stdout=subprocess.DEVNULL, stderr=subprocess.DEVNULL, timeout=SECONDS)
        except subprocess.TimeoutExpired:
            return None
        return None if done.returncode else int(re.search(rb"Collected : (\d+)", log.read())[1]) / 1e6


def main():
    if counted(["true"], "") is None:
        return 77  # callgrind runs no program here
    failed = 0
    for typed, given, written in COUNTED:
        found = counted([sys.argv[1], *typed.split()], given)
        if found is None:
            print(f"{typed}: no end with status 0 after {SECONDS} seconds, and {written} million instructions are expected")
            failed = 1
        elif found > 1.25 * written:
            print(f"{typed}: {found:.1f} million instructions, more than 1.25 times {written}")
            failed = 1
    return failed


if __name__ == "__main__":
    sys.exit(main())
