#!/usr/bin/env python3
"""Compares the numbers of semistandard tableaux of some skew shapes with some contents with Debian's `lrcalc`: `skew_kostka.py`.

A skew Schur polynomial is expanded in Schur polynomials by `lrcalc skew`, and the coefficient of each in the product of
the rows of the content is counted by `lrcalc mult`. The order of the content does not count. The lines that `library_rows` prints
for `Fillings::with_content` must be these."""
import os
import re
import sys

from common import printed, terms
from kostka import rows_of

CASES = [
    ((3, 2, 1), (1,), (2, 2, 1)),
    ((4, 3, 2), (2, 1), (1, 2, 3)),
    ((4, 3, 2), (2, 1), (0, 3, 0, 2, 1)),
    ((4, 4, 3), (2,), (3, 3, 3)),
    ((5, 4, 3, 2, 1), (3, 2, 1), (2, 1, 2, 1, 2, 1)),
    ((2, 2), (2, 2), ()),
]


def number(outer, inner, content):
    schur = terms(printed("lrcalc", "skew", *outer, "/", *(inner or (0,))))
    if sum(outer) == sum(inner):
        schur = {(): 1}
    rows = rows_of(tuple(sorted((a for a in content if a), reverse=True)))
    return sum(ways * rows[label] for label, ways in schur.items())


def main():
    top = os.path.join(os.path.dirname(os.path.abspath(__file__)), "..", "..")
    with open(f"{top}/crates/library_rows/stdout", encoding="utf-8") as file:
        stored = [line for line in file.read().splitlines() if re.match("tableaux of .* with content", line)]
    expected = []
    for outer, inner, content in CASES:
        text = " / ".join("(" + ",".join(map(str, shape)) + ")" for shape in (outer, inner))
        expected.append(f"tableaux of {text} with content ({','.join(map(str, content))}): {number(outer, inner, content)}")
    for line in sorted(set(stored) ^ set(expected)):
        print(f"skew_kostka.py: only one of the two has: {line}")
    sys.exit(stored != expected)


if __name__ == "__main__":
    main()
