#!/usr/bin/env python3
"""Compares plethysms with Symmetrica (Debian's libsymmetrica2-dev): `plethysm.py PROGRAM`.

It builds the driver beside it and asks both for 150 plethysms, made with a fixed seed. The formulas are sums of up to three atoms
with coefficients, of one degree or of several; Symmetrica goes from m to m, and from there into the target."""
import random
import sys

from common import Differences, atom, printed, random_partition, symmetrica, terms

LIMIT = 10


def random_sum(rng, greatest, coefficients):
    """Up to three terms of at most this degree: a coefficient, a basis and a partition for each."""
    return [
        (rng.choice(coefficients), rng.choice("mehps"), random_partition(rng, rng.randint(1, greatest)))
        for _ in range(rng.randint(1, 3))
    ]


def degree(terms_of_sum):
    return max(sum(parts) for _, _, parts in terms_of_sum)


def random_plethysm(rng):
    """A target and two sums whose degrees have a product of at most 10."""
    while True:
        greatest = rng.choice([1, 2, 2, 3, 3, 4, 5, 10])
        outer = random_sum(rng, greatest, [1, 1, 2, 3, -1, -2])
        inner = random_sum(rng, LIMIT // degree(outer), [1, 1, 2, 3])
        if degree(outer) * degree(inner) <= LIMIT:
            return rng.choice("mehps"), outer, inner


def formula(terms_of_sum):
    """The sum as the program reads it."""
    signs = "".join(f"{'-' if c < 0 else '+'}{abs(c)}*{atom(basis, parts)}" for c, basis, parts in terms_of_sum)
    return signs.removeprefix("+")


def request(target, *sums):
    """The plethysm as the driver reads it."""
    words = ["+".join(f"{c}{basis}{','.join(map(str, parts))}" for c, basis, parts in found) for found in sums]
    return " ".join(["plethysm", target, *words])


def main():
    program, rng, differences = sys.argv[1], random.Random(19), Differences()
    plethysms = [random_plethysm(rng) for _ in range(150)]
    answers = symmetrica([request(*words) for words in plethysms])
    if answers is None:
        return 77
    for (target, outer, inner), answer in zip(plethysms, answers):
        words = ["plethysm", target, formula(outer), formula(inner)]
        ours = terms(printed(program, *words))
        differences.compare(" ".join(words), ours, terms(answer))
    return differences.status("plethysms of Symmetrica")


if __name__ == "__main__":
    sys.exit(main())
