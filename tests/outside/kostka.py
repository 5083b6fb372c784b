#!/usr/bin/env python3
"""Compares Schur polynomials in the monomial basis with products of one-row partitions by Debian's `lrcalc`:
`kostka.py PROGRAM`.

The coefficient of m_mu in s_lambda is that of s_lambda in the product of the rows of mu. All partitions up to a size are
compared, and a few larger shapes."""
import functools
import sys
from collections import Counter

from common import Differences, atom, partitions, printed, terms


@functools.lru_cache(maxsize=None)
def with_row(shape, row):
    """The product of a partition with one row."""
    return terms(printed("lrcalc", "mult", *(shape or (0,)), "-", row))


@functools.lru_cache(maxsize=None)
def rows_of(content):
    """The product of the rows, in Schur polynomials."""
    if not content:
        return Counter({(): 1})
    product = Counter()
    for shape, ways in rows_of(content[1:]).items():
        for larger, once in with_row(shape, content[0]).items():
            product[larger] += ways * once
    return product


def expected(shape):
    kostka = {content: rows_of(content)[shape] for content in partitions(sum(shape))}
    return Counter({content: number for content, number in kostka.items() if number})


def main():
    calc, differences = sys.argv[1], Differences()
    shapes = [shape for size in range(9) for shape in partitions(size)]
    shapes += [(4, 3, 2, 1), (5, 5), (2, 2, 2, 2, 2), (6, 1, 1, 1, 1), (3, 3, 2, 2)]
    for shape in shapes:
        word = atom("s", shape)
        differences.compare(f"expand m {word}", terms(printed(calc, "expand", "m", word)), expected(shape))
    return differences.status("Schur polynomials by products of rows with lrcalc")


if __name__ == "__main__":
    sys.exit(main())
