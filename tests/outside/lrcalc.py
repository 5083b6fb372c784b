#!/usr/bin/env python3
"""Compares products, skews, coproducts, coefficients, tableaux, quantum and fusion products and products of Schubert
polynomials with Debian's `lrcalc` and `schubmult`: `lrcalc.py PROGRAM [KIND ..]`.

The inputs are made with fixed seeds. An empty partition is written 0 there, and a skew shape is asked for only where the
inner partition is contained in the outer one."""
import functools
import random
import re
import sys
from collections import Counter

from common import Differences, numbers, printed, random_partition, random_permutation, terms


def written_there(parts):
    return parts or (0,)


def pair(label):
    """The two partitions of a pair."""
    first, second = re.findall(r"\([^)]*\)", label)
    return numbers(first), numbers(second)


def with_power(label):
    """The power of q and the partition."""
    power, shape = label.split("  ")
    return int(power[2:]), numbers(shape)


def inside(rng, outer):
    """A partition that is contained in the outer one."""
    parts = []
    for a in outer:
        parts.append(rng.randint(0, min([a, *parts[-1:]])))
    return tuple(a for a in parts if a)


def staircase(k):
    return tuple(range(k, 0, -1))


def products(calc, rng):
    for i in range(100):
        left, right = ((random_partition(rng, rng.randint(0, 12)), random_partition(rng, rng.randint(0, 12))) if i % 3 else
                       (inside(rng, staircase(5)), inside(rng, staircase(5))))
        rows = ["-r", rng.randint(max(1, len(left), len(right)), 8)] if i % 3 == 1 and max(len(left), len(right)) <= 8 else []
        ours = terms(printed(calc, "mult", *rows, *left, "-", *right))
        theirs = terms(printed("lrcalc", "mult", *rows, *written_there(left), "-", *written_there(right)))
        yield f"mult {rows} {left} - {right}", ours, theirs
        if theirs and not rows:
            outer = rng.choice(sorted(theirs))
            ours = printed(calc, "coef", *outer, "-", *left, "-", *right)
            yield f"coef {outer} - {left} - {right}", ours, f"{theirs[outer]}\n"


def rows_and_columns(calc, rng):
    """Products, skews and coefficients of shapes with about three times as many columns as rows, and of five and six rows: those with fewer
    rows or more columns are counted by rows, the others by columns."""
    for i in range(60):
        rows = rng.randint(1, 4)
        left, right = (tuple([rng.randint(rows, 2 * rows + 1)] * rng.randint(1, rows)) for _ in range(2))
        ours = terms(printed(calc, "mult", *left, "-", *right))
        theirs = terms(printed("lrcalc", "mult", *written_there(left), "-", *written_there(right)))
        yield f"mult {left} - {right}", ours, theirs
        outer = tuple(sorted((rng.randint(1, 3 * rows + 2) for _ in range(rows)), reverse=True))
        inner = inside(rng, outer)
        ours = terms(printed(calc, "skew", *outer, "/", *inner))
        yield f"skew {outer} / {inner}", ours, terms(printed("lrcalc", "skew", *written_there(outer), "/", *written_there(inner)))
        tall = [shape for shape in sorted(theirs) if len(shape) in (5, 6)] or sorted(theirs)
        outer = rng.choice(tall)
        yield f"coef {outer} - {left} - {right}", printed(calc, "coef", *outer, "-", *left, "-", *right), f"{theirs[outer]}\n"


def rows_of_labels(calc, rng):
    """Large products of two factors, which are listed by the rows of their labels, and like ones that are counted by columns; the factor with fewer
    parts has 9 to 16 of them in the last ones."""
    factors = [(staircase(5), (width, width)) for width in (5, 6)]
    factors += [(staircase(6), (width, 3, 1)) for width in (6, 8, 10)]
    factors += [((*shape, *[1] * (rows - len(shape))), (2,) * rows) for shape in (staircase(8), staircase(9)) for rows in (9, 12, 16)]
    for left, right in factors:
        words = [*left, "-", *right]
        yield f"mult {left} - {right}", terms(printed(calc, "mult", *words)), terms(printed("lrcalc", "mult", *words))


def skews(calc, rng):
    for i in range(100):
        outer = random_partition(rng, rng.randint(1, 24)) if i % 3 else staircase(rng.randint(3, 6))
        inner = inside(rng, outer)
        rows = rng.randint(1, 6) if i % 3 == 1 else None
        asked = ["-r", rows] if rows else []
        ours = terms(printed(calc, "skew", *asked, *outer, "/", *inner))
        # with fewer rows than a column has cells lrcalc fails, so its labels of more rows are left out here
        theirs = terms(printed("lrcalc", "skew", *written_there(outer), "/", *written_there(inner)))
        if rows:
            theirs = Counter({shape: c for shape, c in theirs.items() if len(shape) <= rows})
        yield f"skew {asked} {outer} / {inner}", ours, theirs


def coproducts(calc, rng):
    for i in range(100):
        # of the empty partition lrcalc prints the one pair twice
        shape = random_partition(rng, rng.randint(1, 14)) if i % 3 else inside(rng, staircase(5)) or (1,)
        theirs = terms(printed("lrcalc", "coprod", "-a", *written_there(shape)), pair)
        yield f"coprod {shape}", terms(printed(calc, "coprod", *shape), pair), theirs


def tableaux(calc, rng):
    for _ in range(10):
        outer = random_partition(rng, rng.randint(4, 20))
        inner = inside(rng, outer)
        ours = printed(calc, "tab", *outer, "/", *inner).count("\n")
        words = [*written_there(outer), "/", *written_there(inner)]
        listed = sum(terms(printed("lrcalc", "skew", *words)).values())
        blocks = [block for block in printed("lrcalc", "lrtab", *words).split("\n\n") if block.strip()]
        yield f"tab {outer} / {inner}", (ours, listed), (listed, max(len(blocks), 1) if sum(outer) > sum(inner) else listed)


def reductions(calc, rng):
    for i in range(200):
        rows, bound = rng.randint(1, 4), rng.randint(1, 4)
        limit = bound + (2 if i % 5 == 0 else 0)
        left, right = ([tuple(sorted((rng.randint(0, limit) for _ in range(rows)), reverse=True)) for _ in range(2)])
        left, right = (tuple(a for a in parts if a) for parts in (left, right))
        name, flag = ("quantum", "-q") if i % 2 else ("fusion", "-f")
        what = f"{name} {rows} {bound} {left} - {right}"
        ours = printed(calc, name, rows, bound, *left, "-", *right)
        theirs = terms(printed("lrcalc", "mult", flag, f"{rows},{bound}", *written_there(left), "-", *written_there(right)))
        if name == "quantum":
            size = sum(left) + sum(right)
            reduced = Counter({((size - sum(shape)) // (rows + bound), shape): c for shape, c in theirs.items()})
            yield what, terms(ours, with_power), reduced
        else:
            yield what, terms(ours), theirs


def permutations(calc, rng):
    for _ in range(300):
        u, v = random_permutation(rng, 7), random_permutation(rng, 7)
        words = [*u, "-", *v]
        yield f"schubmult {u} - {v}", terms(printed(calc, "schubmult", *words)), terms(printed("schubmult", *words))


@functools.lru_cache(maxsize=None)
def step(kind, rows, bound, shape, factor):
    """The terms of lrcalc's product of two partitions, by rows where these are asked for, or reduced."""
    flags = {"mult": [], "rows": ["-r", rows], "quantum": ["-q", f"{rows},{bound}"], "fusion": ["-f", f"{rows},{bound}"]}[kind]
    return terms(printed("lrcalc", "mult", *flags, *written_there(shape), "-", *written_there(factor)))


def several_factors(calc, rng):
    """Products of three to five factors, one factor after another with lrcalc."""
    for i in range(200):
        kind = ("mult", "rows", "quantum", "fusion")[i % 4]
        rows, bound = rng.randint(2, 4), rng.randint(1, 4)
        factors = [random_partition(rng, rng.randint(0, 4)) for _ in range(rng.randint(3, 5))]
        if kind != "mult":
            factors = [tuple(min(a, bound) for a in factor[:rows]) for factor in factors]
        found = Counter({(0, factors[0]): 1})
        for factor in factors[1:]:
            next_found = Counter()
            for (power, before), c in found.items():
                for shape, d in step(kind, rows, bound, before, factor).items():
                    fall = (sum(before) + sum(factor) - sum(shape)) // (rows + bound)
                    next_found[power + fall if kind == "quantum" else 0, shape] += c * d
            found = Counter({key: c for key, c in next_found.items() if c})
        name = {"mult": ["mult"], "rows": ["mult", "-r", rows]}.get(kind, [kind, rows, bound])
        words = [word for factor in factors for word in (*factor, "-")][:-1]
        label = with_power if kind == "quantum" else lambda text: (0, numbers(text))
        yield f"{name} {factors}", terms(printed(calc, *name, *words), label), found


KINDS = {"products": products, "rows_and_columns": rows_and_columns, "skews": skews, "coproducts": coproducts, "tableaux": tableaux,
         "reductions": reductions, "permutations": permutations, "several_factors": several_factors,
         "rows_of_labels": rows_of_labels}


def main():
    calc, *chosen = sys.argv[1:]
    differences = Differences()
    for seed, kind in enumerate(KINDS):
        if kind in chosen or not chosen:
            for what, ours, theirs in KINDS[kind](calc, random.Random(seed)):
                differences.compare(what, ours, theirs)
    return differences.status("answers of lrcalc")


if __name__ == "__main__":
    sys.exit(main())
