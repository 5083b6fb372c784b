#!/usr/bin/env python3
"""Pastes one-line forms back into the program: `one_line.py PROGRAM`.

For 300 expressions with a fixed seed and each basis the line of `expand -m` is expanded into the same basis, and must give
the block of the expression itself. And the line in m is expanded into s, which takes each of its terms from m to s, and must
give what the expression gives, whose products, strips and hooks are taken in s."""
import random
import sys

from common import Differences, atom, printed, random_partition


def expression(rng, degree, depth):
    """An expression of at most this degree."""
    kind = rng.choice(["atom", "atom", "number", "negation", "sum", "difference", "product", "product", "product"]) if depth else "atom"
    if kind == "number":
        return rng.choice([str(rng.randint(0, 9)), f"{rng.randint(0, 9)}/{rng.randint(1, 9)}"])
    if kind == "atom":
        return atom(rng.choice("mehps"), random_partition(rng, rng.randint(0, degree)))
    if kind == "negation":
        return f"(-({expression(rng, degree, depth - 1)}))"
    if kind == "product":
        low = rng.randint(0, degree)
        return f"({expression(rng, low, depth - 1)})*({expression(rng, degree - low, depth - 1)})"
    sign = "+" if kind == "sum" else "-"
    return f"({expression(rng, degree, depth - 1)}){sign}({expression(rng, degree, depth - 1)})"


def main():
    program, rng, differences = sys.argv[1], random.Random(17), Differences()
    for _ in range(300):
        word = expression(rng, rng.randint(0, 8), 4)
        for basis in "mehps":
            line = printed(program, "expand", "-m", basis, word)
            differences.compare(f"lines of expand -m {basis} {word}", line.count("\n"), 1)
            again = printed(program, "expand", basis, line[:-1])
            differences.compare(f"expand {basis} {line}", again, printed(program, "expand", basis, word))
        line = printed(program, "expand", "-m", "m", word)
        again = printed(program, "expand", "s", line[:-1])
        differences.compare(f"expand s {word} by way of m", again, printed(program, "expand", "s", word))
    return differences.status("one-line forms pasted back, and s by way of m")


if __name__ == "__main__":
    sys.exit(main())
