#!/usr/bin/env python3
"""Compares `rsk` and `unrsk` with slides: `insertion.py PROGRAM`.

For words made with a fixed seed it finds the insertion tableau by slides alone: the letters stand on a diagonal of a skew
shape, each row's letter right of and above that of the row below, and every inner corner is slid away. The recording tableau is the
same for the inverse of the word's standardization (Schuetzenberger). The length of the first row and the number of rows
are compared with the longest weakly rising and the longest strictly falling subsequence (Schensted). `unrsk` of the pair must give
the word back. Nothing is inserted here."""
import random
import sys

from common import Differences, printed, tableau


def rectified(word):
    """The rows of the straight tableau that slides make of the word on a diagonal."""
    n = len(word)
    cells = {(i, n - 1 - i): word[n - 1 - i] for i in range(n)}
    inner = [n - 1 - i for i in range(n)]
    while any(inner):
        row = max(i for i in range(n) if inner[i] and (i + 1 == n or inner[i + 1] < inner[i]))
        inner[row] -= 1
        empty = (row, inner[row])
        while True:
            right, below = (empty[0], empty[1] + 1), (empty[0] + 1, empty[1])
            if right not in cells and below not in cells:
                break
            if below in cells and (right not in cells or cells[below] <= cells[right]):
                step = below
            else:
                step = right
            cells[empty] = cells.pop(step)
            empty = step
    rows = []
    for i, j in sorted(cells):
        if j == 0:
            rows.append([])
        rows[i].append(cells[i, j])
    return rows


def inverse_of_standard(word):
    """The places of the letters, from the smallest letter to the greatest, equal ones from left to right."""
    return [place + 1 for place in sorted(range(len(word)), key=lambda place: (word[place], place))]


def longest(word, goes_on):
    """The length of a longest subsequence in which each letter goes on from the one before."""
    lengths = []
    for place, letter in enumerate(word):
        lengths.append(1 + max((lengths[k] for k in range(place) if goes_on(word[k], letter)), default=0))
    return max(lengths, default=0)


def words_to_try():
    rng = random.Random(1961)
    yield []
    yield [7] * 20
    yield list(range(1, 41))
    yield list(range(40, 0, -1))
    yield [65535, 1, 65535, 1]
    for _ in range(295):
        greatest = rng.choice([2, 3, 5, 9, 20, 60, 1000, 65535])
        yield [rng.randint(1, greatest) for _ in range(rng.randint(0, 60))]


def main():
    program, differences = sys.argv[1], Differences()
    for word in words_to_try():
        p, q = rectified(word), rectified(inverse_of_standard(word))
        subsequences = [longest(word, lambda a, b: a <= b), longest(word, lambda a, b: a > b)]
        differences.compare(f"the shape by slides of {word}", [len(p[0]) if p else 0, len(p)], subsequences)
        differences.compare(f"rsk {word}", printed(program, "rsk", *word), f"P {tableau(p)}\nQ {tableau(q)}\n")
        pair = [*tableau(p).split(), "-", *tableau(q).split()]
        differences.compare(f"unrsk {pair}", printed(program, "unrsk", *pair), " ".join(map(str, word)) + "\n")
    return differences.status("row insertion against slides")


if __name__ == "__main__":
    sys.exit(main())
