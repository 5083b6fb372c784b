#!/usr/bin/env python3
"""Compares `expand m` with polynomials multiplied out: `expand_m.py PROGRAM`.

For expressions made with a fixed seed it evaluates the atoms by listing exponents in as many variables as the degree,
multiplies the polynomials out, and reads the coefficient of each partition off the monomial with these exponents.
It knows nothing of products in the monomial basis."""
import itertools
import random
import sys
from collections import Counter
from fractions import Fraction

from common import Differences, atom, partitions, printed


def exponents(degree, n):
    """All lists of n exponents with this sum."""
    if n == 0:
        return [()] if degree == 0 else []
    return [(a, *rest) for a in range(degree + 1) for rest in exponents(degree - a, n - 1)]


def times(f, g):
    product = Counter()
    for a, c in f.items():
        for b, d in g.items():
            product[tuple(map(sum, zip(a, b)))] += c * d
    return product


def factor(letter, k, n):
    """e_k, h_k or p_k in n variables."""
    keeps = {"e": lambda a: max(a, default=0) <= 1, "h": lambda a: True, "p": lambda a: k in a}[letter]
    return Counter({a: 1 for a in exponents(k, n) if keeps(a)})


def polynomial(letter, parts, n):
    """The polynomial of an atom in n variables."""
    if letter == "m":
        wanted = parts + (0,) * (n - len(parts))
        return Counter({a: 1 for a in set(itertools.permutations(wanted))}) if len(parts) <= n else Counter()
    f = Counter({(0,) * n: 1})
    for k in parts:
        f = times(f, factor(letter, k, n))
    return f


def random_expression(rng, degree, depth, n):
    """An expression of at most this degree: its word and its polynomial."""
    kind = rng.choice(["number", "fraction", "atom", "atom", "sum", "difference", "product", "negation"]) if depth else "atom"
    if kind == "number":
        a = rng.randint(0, 20)
        return str(a), Counter({(0,) * n: Fraction(a)})
    if kind == "fraction":
        a, b = rng.randint(0, 20), rng.randint(1, 9)
        return f"{a}/{b}", Counter({(0,) * n: Fraction(a, b)})
    if kind == "atom":
        parts = rng.choice(partitions(rng.randint(0, degree)))
        letter = rng.choice("mehp")
        return atom(letter, parts), polynomial(letter, parts, n)
    if kind == "negation":
        word, f = random_expression(rng, degree, depth - 1, n)
        return f"(-({word}))", Counter({a: -c for a, c in f.items()})
    if kind == "product":
        low = rng.randint(0, degree)
        (left, f), (right, g) = random_expression(rng, low, depth - 1, n), random_expression(rng, degree - low, depth - 1, n)
        return f"({left})*({right})", times(f, g)
    (left, f), (right, g) = (random_expression(rng, degree, depth - 1, n) for _ in "12")
    sign = 1 if kind == "sum" else -1
    total = Counter(f)
    for a, c in g.items():
        total[a] += sign * c
    return f"({left}){'+' if sign == 1 else '-'}({right})", total


def text(f, degree, n):
    """The lines that the expansion in m must have."""
    lines = []
    for d in range(degree, -1, -1):
        for parts in partitions(d):
            c = Fraction(f.get(parts + (0,) * (n - len(parts)), 0))
            if c:
                lines.append(f"{c}  ({','.join(map(str, parts))})\n")
    return "".join(lines) or "0\n"


def main():
    program, rng, differences = sys.argv[1], random.Random(20), Differences()
    for _ in range(300):
        degree = rng.randint(0, 5)
        word, f = random_expression(rng, degree, 3, degree)
        differences.compare(f"expand m {word}", printed(program, "expand", "m", word), text(f, degree, degree))
    return differences.status("expand m against polynomials multiplied out")


if __name__ == "__main__":
    sys.exit(main())
