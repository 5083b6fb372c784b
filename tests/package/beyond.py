"""Values that the package builds from the answers: rings, sums over terms, pictures, tables; and other ways to call the program."""
import copy
import itertools
import json
import math
import os
import pickle
import random
import subprocess
import sys
import xml.dom.minidom
from fractions import Fraction

from common import PROGRAM, main, printed, raises, same, terms

import yorqanish
from yorqanish import Calculator, Expansion, NoCalculator, Tableau, diagram, rothe_diagram

CALC = Calculator(program=PROGRAM)


def partitions(n, most=None):
    """The partitions of n."""
    most = n if most is None else most
    return [()] if n == 0 else [(k, *rest) for k in range(min(n, most), 0, -1) for rest in partitions(n - k, k)]


def standard(shape):
    """The number of standard tableaux of a shape, by the hooks of its boxes."""
    n, hooks = sum(shape), 1
    for i, part in enumerate(shape):
        for j in range(part):
            hooks *= part - j + sum(it > j for it in shape[i + 1 :])
    return math.factorial(n) // hooks


def test_kostka_numbers_and_dimensions():
    for n in range(7):
        for shape in partitions(n):
            same(CALC.dimension(shape), standard(shape))
            same([CALC.kostka(shape, shape), CALC.kostka(shape, [n] if n else [])], [1, int(len(shape) < 2)])
    # (tableaux with content in another order, with zeros, and of another size)
    same([CALC.kostka([3, 1], it) for it in ([1, 2, 1], [1, 0, 1, 2], [1, 1, 1, 1], [2, 1])], [2, 2, 3, 0])


def test_associativity():
    """Of products of three sums in each ring, which is proved of none of the terms by itself."""
    draw = random.Random(3)
    rings = [(CALC.quantum_ring(2, 3), [it for n in range(7) for it in partitions(n, 3) if len(it) < 3]),
             (CALC.cohomology(2, 5), [it for n in range(7) for it in partitions(n, 3) if len(it) < 3]),
             (CALC.fusion_ring(3, 2), [it for n in range(7) for it in partitions(n, 4) if len(it) < 4 and it[:1] <= (2 + sum(it[2:]),)]),
             *((getattr(CALC, letter), [it for n in range(4) for it in partitions(n)]) for letter in "sphem"),
             (CALC.s.in_variables(2), [it for n in range(4) for it in partitions(n) if len(it) < 3]),
             (CALC.monomials, list(itertools.product(range(3), repeat=3))),
             (CALC.X, list(itertools.permutations(range(1, 5)))),
             (CALC.schubert_ring(double=True), list(itertools.permutations(range(1, 4))))]
    for ring, labels in rings:
        for _ in range(4):
            a, b, c = (sum((draw.randint(-3, 3) * ring(draw.choice(labels)) for _ in range(3)), ring(0)) for _ in range(3))
            same((a * b) * c, a * (b * c))
            same((a + b) * c, a * c + b * c)
            same((a * b, a * 1, 1 * a, a * 0, a ** 2, a ** 0), (b * a, a, a, 0, a * a, 1))


def test_products_in_rings():
    """They are those of the commands."""
    ring = CALC.quantum_ring(2, 3)
    same(ring([2, 1]) * ring([3, 1]), CALC.quantum(2, 3, [2, 1], [3, 1]))
    same(ring([2, 1]) * ring([3, 1]) * ring([3, 3]), CALC.quantum(2, 3, [2, 1], [3, 1], [3, 3]))
    same(CALC.fusion_ring(2, 1)([1]) ** 3, CALC.fusion(2, 1, [1], [1], [1]))
    same(CALC.X([1, 3, 2]) ** 2, CALC.schubmult([1, 3, 2], [1, 3, 2]))
    same(CALC.schubert_ring(double=True)([2, 1]) ** 2, CALC.dschubmult([2, 1], [2, 1]))
    same(CALC.mult([1], [1]) * CALC.s([1]), CALC.mult([1], [1], [1]))
    same(str(Fraction(1, 2) * ring([1]) - 3), "1/2*s[1]-3*s[]")
    one, two = CALC.mult([2, 1], []), CALC.mult([3], [1])
    same(((one + two) * (one - 2 * two), one * one - one * two - 2 * (two * two)), ((one - 2 * two) * (one + two), (one + two) * (one - 2 * two)))
    same((CALC.expand("s", "1/2*p[2]") * one, one * CALC.skew([2, 1], [])), (CALC.expand("s", "1/2*p[2]*s[2,1]"), CALC.expand("s", "s[2,1]*s[2,1]")))
    same((one.omega() * two.omega(), (one * two).omega(), (one - one) * two), ((one * two).omega(), one.omega() * two.omega(), 0))


def test_a_product_of_a_closed_calculator():
    with Calculator(program=PROGRAM) as calc:
        one = calc.s[2, 1]
    with raises(NoCalculator, "closed"):
        one * one
    with raises(TypeError, "no product"):
        CALC.coprod([1]) * CALC.coprod([1])


def test_sums_are_in_order():
    a, b = CALC.mult([2, 1], [2, 1]), CALC.mult([3], [2, 1])
    for total in (a + b, b + a, sum([a, b]), sum([b, a])):
        same(list(total.support()), sorted(total.support(), key=lambda it: (-sum(it), tuple(-n for n in it))))
    same((+a is a, a + 0, 0 + a, a - 0, 0 - a, sum([])), (True, a, a, a, -a, 0))
    lines = ["coprod 3 2 1", "quantum 2 3 2 1 - 3 1", "schubert 3 1 5 2 4", "schubmult 1 3 2 4 - 2 4 1 3", "dschubmult 2 1 - 1 3 2", "mult 3 1 - 2 1"]
    for block in CALC.batch(lines):
        shuffled = list(block.answer.items())
        random.Random(1).shuffle(shuffled)
        same(list(Expansion.from_pairs(block.answer.parent, shuffled)), list(block.answer))
        same(str(block.answer.parent(dict(shuffled))), str(block.answer))


def test_sums_over_terms():
    for n in range(1, 6):
        for shape in partitions(n):
            one = CALC.s[shape]
            h, e = (CALC.expand("s", f"{letter}[{','.join(map(str, shape))}]") for letter in "he")
            same((h.omega(), e.omega()), (e, h))
            same((one.omega().omega(), one.scalar(one), one.degree()), (one, 1, n))
    same(CALC.mult([2, 1], [2, 1]).scalar(CALC.mult([3], [2, 1])), sum(terms(printed(["mult 2 1 - 2 1"])[0]).get(label, 0) * c for label, c in
                                                                  terms(printed(["mult 3 - 2 1"])[0]).items()))
    same((CALC.X[3, 1, 2].degree(), CALC.schubert([3, 1, 2]).degree(), (CALC.quantum_ring(2, 3).q * CALC.quantum_ring(2, 3)[1]).degree(), CALC.coprod([2, 1]).degree()), (2, 2, 6, 3))
    for wrong in (lambda: CALC.X[1].omega(), lambda: CALC.coprod([1]).scalar(CALC.coprod([1])), lambda: CALC.s[1].scalar(1)):
        with raises(TypeError):
            wrong()
    with raises(ValueError, "degree"):
        CALC.s.zero().degree()


def test_texts_and_back():
    for it in (CALC.expand("p", "s[3,1]"), CALC.coprod([2, 1]), CALC.dschubmult([2, 1], [2, 1]), CALC.s.zero(), CALC.s({(1,): 2**127 - 1, (2,): Fraction(-1, 10**20)})):
        same(Expansion.from_json(it.to_json()), it)
        same(json.loads(it.to_json())["parent"], [it.parent.name])


def test_pictures():
    def count(picture, name):
        return len(xml.dom.minidom.parseString(picture).getElementsByTagName(name))

    same([count(it.svg, "rect") for it in (diagram([4, 2, 1]), diagram([3, 2], [1, 1]), diagram([]), diagram([2, 2], (2, 2)))], [7, 3, 0, 0])
    # (the frame, and a box for each inversion)
    same([(count(rothe_diagram(it).svg, "rect") - 1, count(rothe_diagram(it).svg, "circle")) for it in ([1], [2, 1, 4, 3], [3, 2, 1])], [(0, 1), (2, 4), (3, 3)])
    same(count(CALC.growth([2, 1])._repr_svg_(), "rect"), 9 + 1 + 1 + 2)
    for wrong in (lambda: diagram([1, 2]), lambda: diagram([1], [2]), lambda: diagram([2], [1, 1]), lambda: rothe_diagram([2, 2])):
        with raises(ValueError):
            wrong()


def test_the_package_in_a_shell():
    for words in (["mult", "2", "1", "-", "2", "1"], ["mult", "1", "2", "-", "1"], [], ["expand", "p", "s[2,1]"], ["batch"]):
        given = "mult 1 - 1\n# x\nmult 1 2 - 1\n"
        done = [subprocess.run([*it, *words], input=given, capture_output=True, text=True) for it in ([PROGRAM], [sys.executable, "-m", "yorqanish"])]
        same((done[1].stdout, done[1].stderr, done[1].returncode), (done[0].stdout, done[0].stderr, done[0].returncode))
    done = subprocess.run([sys.executable, "-m", "yorqanish", "mult"], capture_output=True, text=True, env={**os.environ, "YORQANISH_CALC": "/nowhere"})
    assert done.returncode == 1 and "/nowhere" in done.stderr and not done.stdout, done


def test_an_import_of_all_hides_nothing():
    before = {"Partition": 1, "Permutation": 2, "Tableau": 3, "Expansion": 4, "Grid": 5}
    names = dict(before)
    exec("from yorqanish import *", names)
    same({it: names[it] for it in ("Partition", "Permutation", "Tableau", "Grid")}, {"Partition": 1, "Permutation": 2, "Tableau": 3, "Grid": 5})
    same((names["Calculator"], names["Expansion"]), (Calculator, Expansion))
    for name in ("Partition", "Permutation", "Exponents", "Tableau", "Pair", "Grid", "Block", "Number"):
        assert hasattr(yorqanish, name), name


if __name__ == "__main__":
    main(globals())
