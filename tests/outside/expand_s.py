#!/usr/bin/env python3
"""Compares `expand s` of each monomial symmetric polynomial of degree up to 7 with its Schur coefficients: `expand_s.py PROGRAM`.

The Schur coefficient of f at a partition is the coefficient of x^(partition + rho) in a_rho·f, in as many variables as the
degree; it is added up over all orders of rho, with their signs. Nothing is straightened."""
import itertools
import sys
from collections import Counter

from common import Differences, atom, partitions, printed


def sign(order):
    return (-1) ** sum(a > b for a, b in itertools.combinations(order, 2))


def schur_coefficients(d):
    """For each partition of d the Schur coefficients of its monomial symmetric polynomial."""
    rho = tuple(range(d - 1, -1, -1))
    orders = [(sign(order), [rho[i] for i in order]) for order in itertools.permutations(range(d))]
    found = {parts: Counter() for parts in partitions(d)}
    for label in found:
        padded = [a + b for a, b in zip(label + (0,) * (d - len(label)), rho)]
        for s, order in orders:
            left = [a - b for a, b in zip(padded, order)]
            if min(left, default=0) >= 0:
                found[tuple(sorted((a for a in left if a > 0), reverse=True))][label] += s
    return found


def block(coefficients):
    """The printed lines: the labels in decreasing lexicographic order."""
    lines = [f"{c}  ({','.join(map(str, label))})\n" for label, c in sorted(coefficients.items(), reverse=True) if c]
    return "".join(lines) or "0\n"


def main():
    program, differences = sys.argv[1], Differences()
    for d in range(8):
        for parts, coefficients in schur_coefficients(d).items():
            word = atom("m", parts)
            differences.compare(f"expand s {word}", printed(program, "expand", "s", word), block(coefficients))
    return differences.status("expand s against Schur coefficients")


if __name__ == "__main__":
    sys.exit(main())
