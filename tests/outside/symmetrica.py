#!/usr/bin/env python3
"""Compares Schubert polynomials with Symmetrica (Debian's libsymmetrica2-dev): `symmetrica.py PROGRAM`.

It builds the driver beside it and asks both for 200 permutations of up to 9 letters, made with a fixed seed."""
import random
import re
import sys

from common import Differences, printed, random_permutation, symmetrica, terms


def exponents(label):
    """The exponents of a monomial, without zeros at the end."""
    found = [int(a) for a in re.findall(r"\d+", label)]
    while found and found[-1] == 0:
        found.pop()
    return tuple(found)


def main():
    calc, rng, differences = sys.argv[1], random.Random(8), Differences()
    permutations = [random_permutation(rng, 9) for _ in range(200)]
    answers = symmetrica(["schubert " + " ".join(map(str, w)) for w in permutations])
    if answers is None:
        return 77
    for w, answer in zip(permutations, answers):
        ours = terms(printed(calc, "schubert", *w), exponents)
        differences.compare(f"schubert {w}", ours, terms(answer, exponents))
    return differences.status("Schubert polynomials of Symmetrica")


if __name__ == "__main__":
    sys.exit(main())
