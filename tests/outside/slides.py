#!/usr/bin/env python3
"""Compares `rect` with row insertion: `slides.py PROGRAM`.

For skew tableaux made with a fixed seed it inserts the letters of the reading word, the rows from the bottom up and each
from left to right, into an empty tableau: that is the tableau which slides end in. It does no slides itself."""
import bisect
import random
import sys

from common import Differences, printed, tableau


def skew_tableau(rng):
    """A random skew tableau: its outer and inner partitions and its rows. Ties in rows are common."""
    outer = sorted((rng.randint(1, 9) for _ in range(rng.randint(0, 6))), reverse=True)
    inner = sorted((rng.randint(0, a) * rng.randint(0, 1) for a in outer), reverse=True)
    inner = [min(a, b) for a, b in zip(outer, inner)]
    least = rng.choice([1, 1, 1, 20000])
    rows = []
    for i, (a, b) in enumerate(zip(outer, inner)):
        row = []
        for j in range(b, a):
            left = row[-1] if row else least
            above = rows[i - 1][j - inner[i - 1]] + 1 if i and inner[i - 1] <= j < outer[i - 1] else least
            row.append(max(left, above) + rng.choice([0, 0, 0, 1, 2]))
        rows.append(row)
    return outer, [a for a in inner if a], rows


def insert(rows, letter):
    """Row insertion, with bumped letters going on into the next row."""
    for row in rows:
        at = bisect.bisect_right(row, letter)
        if at == len(row):
            row.append(letter)
            return
        row[at], letter = letter, row[at]
    rows.append([letter])


def main():
    program, rng, differences = sys.argv[1], random.Random(10), Differences()
    for _ in range(100):
        outer, inner, rows = skew_tableau(rng)
        inserted = []
        for row in reversed(rows):
            for letter in row:
                insert(inserted, letter)
        words = ["rect", *outer, "/", *inner, "-", *tableau(rows).split()]
        differences.compare(words, printed(program, *words), tableau(inserted) + "\n")
    return differences.status("rect against row insertion")


if __name__ == "__main__":
    sys.exit(main())
