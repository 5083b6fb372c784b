#!/usr/bin/env python3
"""Compares products of equal factors in four variables with Weyl's formula: `many_factors.py PROGRAM`.

The Schur polynomial of (3m, 2m, m) in x_1, .., x_4 is the product over i < j of (x_i^M - x_j^M)/(x_i - x_j), where M = m + 1. So the f-th power of
it, times the alternant of (3, 2, 1, 0), is the product over i < j of (x_i^M - x_j^M) and f - 1 times x_i^(M-1) + .. + x_j^(M-1), and its
coefficient at x^(ν + (3, 2, 1, 0)) is that of s_ν in the power. The program computes it by fillings. For m = 11 and f = 8 some coefficient is 2^127
or more, and the program must say so: it takes a minute or more, so that is tried if YORQANISH_LONG=1 is in the environment."""
import os
import random
import sys

from common import Differences, printed, run, terms


def of_a_pair(m, f):
    """The coefficients of (x^M - 1) (1 + x + .. + x^(M-1))^(f-1)."""
    row = [1]
    for _ in range(f - 1):
        row = [sum(row[max(0, e - m) : e + 1]) for e in range(len(row) + m)]
    return [(row[e - m - 1] if e > m else 0) - (row[e] if e < len(row) else 0) for e in range(len(row) + m + 1)]


def coefficient(m, f, nu):
    """The coefficient of s_ν in the f-th power of s_(3m, 2m, m), by the exponents of x_1 and x_2 in their three factors each."""
    row = of_a_pair(m, f)
    degree = len(row) - 1
    a, b, c, _ = (part + extra for part, extra in zip(nu, (3, 2, 1, 0)))
    total = 0
    for first in range(degree + 1):
        for second in range(max(0, a - first - degree), min(degree, a - first) + 1):
            third, inside = a - first - second, 0
            for e in range(degree + 1):
                # x_2 has the exponents degree - first, e and the rest of b; x_3 has degree - second, degree - e and the rest of c
                left, right = b - (degree - first) - e, c - (degree - second) - (degree - e)
                if 0 <= left <= degree and 0 <= right <= degree:
                    inside += row[e] * row[left] * row[right]
            total += row[first] * row[second] * row[third] * inside
    return total


def words_of(m, f):
    factor = [3 * m, 2 * m, m]
    return ["mult", "-r", 4, *factor, *(word for _ in range(f - 1) for word in ("-", *factor))]


def main():
    program, rng, differences = sys.argv[1], random.Random(5), Differences()
    for m, f in [(1, 2), (1, 5), (1, 8), (2, 4), (2, 8), (3, 6)]:
        answer = terms(printed(program, *words_of(m, f)))
        for nu in rng.sample(sorted(answer), min(8, len(answer))):
            four = (*nu, 0, 0, 0, 0)[:4]
            differences.compare([*words_of(m, f), nu], answer[nu], coefficient(m, f, four))
    middle = (165, 143, 121, 99)
    differences.compare(["the coefficient of", middle], coefficient(11, 8, middle) >= 2**127, True)
    if os.environ.get("YORQANISH_LONG"):
        refused = run(program, *words_of(11, 8))
        differences.compare(words_of(11, 8), (refused.stdout, refused.returncode), ("! Large\n", 4))
    return differences.status("products of equal factors against Weyl's formula")


if __name__ == "__main__":
    sys.exit(main())
