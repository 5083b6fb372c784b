#!/usr/bin/env python3
"""Compares `dschubmult` with polynomials multiplied out: `double.py PROGRAM`.

For 200 pairs of permutations made with a fixed seed it makes the double Schubert polynomials of the definition, by divided
differences of the product of the x_i - y_j, multiplies them, and reads off the coefficient of each double Schubert
polynomial S_w: it is the divided difference for w of the product, at x = y (Newton's interpolation in several variables, by
Lascoux and Schuetzenberger). It uses neither Monk's rule nor the transition rule. The terms without a y must be those of
`schubmult`, which is what becomes of the product where each y is 0."""
import functools
import random
import sys
from collections import Counter

from common import Differences, printed


def trimmed(exponents):
    exponents = list(exponents)
    while exponents and exponents[-1] == 0:
        exponents.pop()
    return tuple(exponents)


def joined(first, second):
    length = max(len(first), len(second))
    return tuple(a + b for a, b in zip(first + (0,) * (length - len(first)), second + (0,) * (length - len(second))))


def collected(terms):
    """A polynomial: from the exponents of the x and those of the y to the coefficient."""
    f = Counter()
    for x, y, c in terms:
        f[trimmed(x), trimmed(y)] += c
    return {label: c for label, c in f.items() if c}


def times(f, g):
    return collected((joined(x, a), joined(y, b), c * d) for (x, y), c in f.items() for (a, b), d in g.items())


def divided(i, f):
    """(f - s_i f)/(x_i - x_(i+1)), term by term."""
    terms = []
    for (x, y), c in f.items():
        padded = x + (0,) * (i + 1 - len(x))
        before, a, b, after = padded[: i - 1], padded[i - 1], padded[i], padded[i + 1 :]
        sign = c if a > b else -c
        low, high = min(a, b), max(a, b)
        terms += [(before + (k, a + b - 1 - k) + after, y, sign) for k in range(low, high)]
    return collected(terms)


def variable(i):
    return (0,) * (i - 1) + (1,)


@functools.lru_cache(maxsize=None)
def double_schubert(w):
    """The polynomial of a tuple of letters: without an ascent the product of all x_i - y_j with i + j at most their number."""
    for i in range(1, len(w)):
        if w[i - 1] < w[i]:
            return divided(i, double_schubert(w[: i - 1] + (w[i], w[i - 1]) + w[i + 1 :]))
    f = {((), ()): 1}
    for i in range(1, len(w)):
        for j in range(1, len(w) - i + 1):
            f = times(f, {(variable(i), ()): 1, ((), variable(j)): -1})
    return f


def expansion(f):
    """From each permutation w with a divided difference other than 0 to that of f, at x = y."""
    found, level = {}, {(): f}
    while level:
        following = {}
        for w, g in level.items():
            found[w] = collected(((), joined(x, y), c) for (x, y), c in g.items())
            places = {letter: place for place, letter in enumerate(w)}
            for i in range(1, max(len(x) for x, _ in g) + 1):
                first, second = places.get(i, i - 1), places.get(i + 1, i)
                if first < second:
                    longer = list(w) + list(range(len(w) + 1, i + 2))
                    longer[first], longer[second] = i + 1, i
                    if tuple(longer) not in following:
                        following[tuple(longer)] = divided(i, g)
        level = {w: g for w, g in following.items() if g}
    return found


def inversions(w):
    return sum(a > b for i, a in enumerate(w) for b in w[i + 1 :])


def block(found):
    """The printed lines: fewer inversions first, then by the letters; of monomials the greater degree first."""
    lines = []
    for w in sorted(found, key=lambda w: (inversions(w), w + tuple(range(len(w) + 1, 100)))):
        labels = sorted(found[w], key=lambda l: (-sum(l[1]), [-a for a in l[1]] + [0] * (100 - len(l[1]))))
        lines += [f"{found[w][l]}  {label(w or (1,))} {label(l[1])}\n" for l in labels]
    return "".join(lines) or "0\n"


def label(numbers):
    return f"({','.join(map(str, numbers))})"


def product(u, v):
    """The lines of the product of two permutations, by the definition."""
    return block(expansion(times(double_schubert(u), double_schubert(v))))


def at_no_y(text):
    """The lines without a y: the product with each y set to 0."""
    return "".join(line.removesuffix(" ()\n") + "\n" for line in text.splitlines(True) if line.endswith(" ()\n")) or "0\n"


def random_permutation(rng):
    """A permutation of at most 6 letters with at most 5 inversions: more make the polynomials of the definition long."""
    while True:
        letters = rng.choice([1, 2, 3, 4, 4, 5, 5, 6])
        w = tuple(rng.sample(range(1, letters + 1), letters))
        if inversions(w) <= 5:
            return w


def main():
    program, rng, differences = sys.argv[1], random.Random(8), Differences()
    for _ in range(200):
        u, v = random_permutation(rng), random_permutation(rng)
        words = [*u, "-", *v]
        ours = printed(program, "dschubmult", *words)
        differences.compare(("dschubmult", *words), ours, product(u, v))
        differences.compare(("schubmult", *words), at_no_y(ours), printed(program, "schubmult", *words))
    return differences.status("double Schubert products against polynomials multiplied out")


if __name__ == "__main__":
    sys.exit(main())
