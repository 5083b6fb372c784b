#!/usr/bin/env python3
"""Compares `growth` with row insertion: `growth.py PROGRAM`.

For permutations made with a fixed seed the shape at (i, j) is that of the tableau into which those of the first i letters
that are at most j are inserted. No shape is found from its neighbours here."""
import bisect
import random
import sys

from common import Differences, printed, random_permutation


def shape(word):
    """The numbers of letters in the rows of the insertion tableau of a word."""
    rows = []
    for letter in word:
        for row in rows:
            at = bisect.bisect_right(row, letter)
            if at == len(row):
                row.append(letter)
                break
            row[at], letter = letter, row[at]
        else:
            rows.append([letter])
    return [len(row) for row in rows]


def grid(word):
    """The lines that the program should print, without the fixed letters at the end."""
    word = list(word)
    while len(word) > 1 and word[-1] == len(word):
        word.pop()
    places = range(len(word) + 1)
    lines = []
    for i in places:
        shapes = [shape([a for a in word[:i] if a <= j]) for j in places]
        lines.append(" ".join("(" + ",".join(map(str, parts)) + ")" for parts in shapes))
    return "".join(line + "\n" for line in lines)


def permutations_to_try():
    rng = random.Random(1986)
    yield range(1, 17)
    yield range(16, 0, -1)
    for _ in range(298):
        yield random_permutation(rng, rng.choice([4, 8, 12, 16, 16]))


def main():
    program, differences = sys.argv[1], Differences()
    for word in permutations_to_try():
        differences.compare(f"growth {list(word)}", printed(program, "growth", *word), grid(word))
    return differences.status("growth grids against row insertion")


if __name__ == "__main__":
    sys.exit(main())
