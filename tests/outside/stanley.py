#!/usr/bin/env python3
"""Compares `stanley` with reduced words and with `schubert`: `stanley.py PROGRAM`.

For permutations made with a fixed seed it finds the insertion tableaux of all reduced words by the insertion of Edelman and
Greene: the coefficient of a partition is how many of them have its shape. The reduced words of a permutation end at a
descent, so the tableaux of a permutation come of those of the permutations below it, a letter at a time. And for small ones
`schubert` of the permutation behind fixed letters, in the variables of these alone, must be the sum of the Schur polynomials,
which are multiplied out by listing tableaux. No transition is made here. Where many equal permutations meet, the Stanley
polynomial of k falling letters, as often as they fit one after another, must be that power of the Schur polynomial of a staircase,
by `mult`."""
import itertools
import random
import re
import sys
from collections import Counter
from functools import cache

from common import Differences, printed, random_permutation, terms


def inserted(rows, letter):
    """The rows of a tableau after a letter is inserted, by the rule of Edelman and Greene."""
    rows = list(rows)
    for i, row in enumerate(rows):
        greater = [at for at, other in enumerate(row) if other > letter]
        if not greater:
            rows[i] = (*row, letter)
            return tuple(rows)
        bumped = row[greater[0]]
        if not (bumped == letter + 1 and letter in row):
            rows[i] = (*row[: greater[0]], letter, *row[greater[0] + 1 :])
        letter = bumped
    return (*rows, (letter,))


@cache
def tableaux(w):
    """The insertion tableaux of the reduced words of a permutation."""
    descents = [i for i in range(1, len(w)) if w[i - 1] > w[i]]
    if not descents:
        return frozenset([()])
    below = [(i, (*w[: i - 1], w[i], w[i - 1], *w[i + 1 :])) for i in descents]
    return frozenset(inserted(rows, i) for i, v in below for rows in tableaux(v))


def coefficients(w, rows):
    """The Schur coefficients of the Stanley polynomial, by reduced words read from the right: those of the inverse."""
    inverse = tuple(place for place, letter in sorted(enumerate(w, 1), key=lambda pair: pair[1]))
    shapes = Counter(tuple(map(len, tableau)) for tableau in tableaux(inverse))
    return {shape: count for shape, count in shapes.items() if len(shape) <= rows}


def block(found):
    """The printed lines: the labels in decreasing lexicographic order."""
    lines = [f"{c}  ({','.join(map(str, label))})\n" for label, c in sorted(found.items(), reverse=True)]
    return "".join(lines) or "0\n"


def fillings(shape, n, above=None):
    """The exponents of all tableaux of a shape with letters from 1 to n."""
    if not shape:
        return Counter([(0,) * n])
    found = Counter()
    for row in itertools.combinations_with_replacement(range(1, n + 1), shape[0]):
        if above is None or all(a < b for a, b in zip(above, row)):
            for rest, count in fillings(shape[1:], n, row).items():
                found[tuple(e + row.count(k) for k, e in enumerate(rest, 1))] += count
    return found


def exponents(label):
    """The exponents of a monomial, without zeros at the end."""
    found = [int(a) for a in re.findall(r"\d+", label)]
    while found and found[-1] == 0:
        found.pop()
    return tuple(found)


def in_front(program, w, rows):
    """The Schubert polynomial of 1^M × w, without the terms of later variables."""
    behind = [*range(1, rows + 1), *(letter + rows for letter in w)]
    found = terms(printed(program, "schubert", *behind), exponents)
    return {e + (0,) * (rows - len(e)): c for e, c in found.items() if len(e) <= rows}


def multiplied_out(schurs, rows):
    found = Counter()
    for shape, c in schurs.items():
        for e, count in fillings(shape, rows).items():
            found[e] += c * count
    return dict(found)


def powers():
    """The direct sums of `count` copies of the longest permutation of `size` letters, with the staircase of one copy and `count`."""
    for size, most in ((2, 6), (3, 5), (4, 4), (5, 3), (6, 2), (7, 2)):
        for count in range(2, most + 1):
            yield [block * size + letter for block in range(count) for letter in range(size, 0, -1)], list(range(size - 1, 0, -1)), count


def main():
    program, rng, differences = sys.argv[1], random.Random(1984), Differences()
    for _ in range(200):
        w, rows = random_permutation(rng, 7), rng.randint(1, 9)
        ours = printed(program, "stanley", "-r", rows, *w)
        differences.compare(f"stanley -r {rows} {w}", ours, block(coefficients(w, rows)))
    for _ in range(60):
        w, rows = random_permutation(rng, 5), rng.randint(1, 4)
        schurs = terms(printed(program, "stanley", "-r", rows, *w))
        differences.compare(f"stanley -r {rows} {w} as a polynomial", multiplied_out(schurs, rows), in_front(program, w, rows))
    for w, staircase, count in powers():
        for rows in (len(staircase), 8, 16):
            factors = staircase + (count - 1) * ["-", *staircase]
            product = printed(program, "mult", "-r", rows, *factors)
            differences.compare(f"stanley -r {rows} {w}", printed(program, "stanley", "-r", rows, *w), product)
    return differences.status("Stanley polynomials against reduced words")


if __name__ == "__main__":
    sys.exit(main())
