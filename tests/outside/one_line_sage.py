#!/usr/bin/env python3
"""Pastes one-line forms into Sage: `sage -python one_line_sage.py PROGRAM`.

For expressions with a fixed seed and each basis the line of `expand -m`, with its atoms read as Sage's symmetric functions, must be
the sum of the terms of the block. Python itself has no empty index, so that `s[]` is pasted as `s[[]]`, and a fraction as one
of Sage. The status is 77 too where this is no Sage."""
import random
import re
import sys

try:
    from sage.all import QQ, SymmetricFunctions
except ImportError:
    sys.exit(77)

from common import Differences, numbers, printed
from one_line import expression


def main():
    calc, rng, differences = sys.argv[1], random.Random(18), Differences()
    functions = SymmetricFunctions(QQ)
    bases = {letter: getattr(functions, letter)() for letter in "mehps"}
    for _ in range(60):
        word = expression(rng, rng.randint(0, 6), 3)
        for letter, basis in bases.items():
            line = printed(calc, "expand", "-m", letter, word).strip().replace("[]", "[[]]")
            line = re.sub(r"(\d+)/(\d+)", r"QQ((\1, \2))", line)
            pasted = basis(eval(line, {"QQ": QQ, **bases}))
            listed = basis.zero()
            for row in printed(calc, "expand", letter, word).splitlines():
                if row != "0":
                    coefficient, label = row.split("  ")
                    listed += QQ(coefficient) * basis(list(numbers(label)))
            differences.compare(f"expand -m {letter} {word}", pasted, listed)
    return differences.status("one-line forms pasted into Sage")


if __name__ == "__main__":
    sys.exit(main())
