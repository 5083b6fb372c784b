"""Sage's numbers, partitions and permutations as arguments, and its elements from and to expansions. It is run by Sage's Python."""
from common import PROGRAM, main, need, raises, same

need("sage.all")
from sage.all import (
    GF,
    QQ,
    RR,
    ZZ,
    Composition,
    Integer,
    Partition,
    Partitions,
    PartitionTuple,
    Permutation,
    SchubertPolynomialRing,
    Sequence,
    Set,
    SkewTableau,
    Subsets,
    SymmetricFunctions,
    SymmetricGroup,
    Tableau,
    Word,
    Zmod,
    latex,
    matrix,
    vector,
)

from yorqanish import Calculator

CALC = Calculator(program=PROGRAM)
FUNCTIONS = SymmetricFunctions(QQ)
s, p, h, e, m = (getattr(FUNCTIONS, it)() for it in "sphem")


def test_arguments():
    product = CALC.mult(Partition([2, 1]), [Integer(2), Integer(1)], rows=Integer(2))
    same(product, {(4, 2): 1, (3, 3): 1})
    same((product[Partition([4, 2])], product[Integer(4), 2]), (1, 1))
    same(CALC.schubmult(Permutation([2, 1]), Permutation([2, 1])), {(3, 1, 2): 1})
    same(CALC.quantum(ZZ(2), ZZ(2), Partition([1]), Partition([2, 1])), {(0, (2, 2)): 1, (1, ()): 1})
    for wrong in (QQ(1) / 2, "2 1"):
        with raises(TypeError, "factor 1"):
            CALC.mult([wrong], [1])
    same((2 * product)[4, 2], 2)
    same((product * Integer(2))[4, 2], 2)
    same(str(product * (QQ(1) / 2)), "1/2*s[4,2]+1/2*s[3,3]")


def test_to_sage():
    same(CALC.mult([2, 1], [2, 1]).to_sage(), s[2, 1] * s[2, 1])
    same(CALC.expand("p", "s[2,1]").to_sage(), p(s[2, 1]))
    same(CALC.coprod([2, 1]).to_sage(), s[2, 1].coproduct())
    X = SchubertPolynomialRing(ZZ)
    same(CALC.schubmult([1, 3, 2], [1, 3, 2]).to_sage(), X([1, 3, 2]) * X([1, 3, 2]))
    same(CALC.mult([1], [1]).to_sage(ZZ).parent().base_ring(), ZZ)
    with raises(TypeError):
        CALC.expand("p", "s[2,1]").to_sage(ZZ)
    with raises(TypeError, "no ring"):
        CALC.dschubmult([2, 1], [2, 1]).to_sage()


def test_elements_are_expressions():
    same(CALC.expand("p", s[2, 1]).to_sage(), p(s[2, 1]))
    same(CALC.expand("s", p[2] / 2 + p[1, 1] / 2), {(2,): 1})
    same(CALC.expand("h", s.zero()), {})
    same(CALC.expand("m", e[2, 1] - h[3]).to_sage(), m(e[2, 1] - h[3]))
    same(CALC.plethysm("s", h[2], h[2]), {(4,): 1, (2, 2): 1})
    with raises(TypeError, "expression"):
        CALC.expand("s", FUNCTIONS.forgotten()[2])


def test_a_residue_is_no_number():
    """Neither as a part nor as a coefficient: over GF(5) is -s[3] not 4*s[3] over the integers."""
    for wrong in (GF(5)(7), Zmod(10)(12), GF(4).one()):
        with raises(TypeError, "factor 1"):
            CALC.mult([wrong], [1])
        with raises(TypeError, "exact"):
            CALC.s({(2,): wrong})
        with raises(TypeError, "exact"):
            CALC.mult([1], [1]) * wrong
    for ring in (GF(5), Zmod(6)):
        with raises(TypeError, "exact"):
            CALC.expand("e", -SymmetricFunctions(ring).s()[3])
    with raises(TypeError, "rows"):
        CALC.stanley([2, 1], GF(2)(3))


def test_a_set_is_no_list():
    with raises(TypeError, "letters"):
        CALC.rsk(Set([3, 1, 2]))


def test_shapes_of_sage():
    """The elements of Sage that are lists of numbers are shapes; other iterables are not."""
    for shape in (Partition([2, 1]), Composition([2, 1]), vector(ZZ, [2, 1]), Word([2, 1]), Permutation([2, 1]), Sequence([2, 1])):
        same(CALC.coef([3, 2, 1], shape, shape), 2)
    same(CALC.rsk(Word([3, 1, 2])).insertion, ((1, 2), (3,)))
    same(CALC.rect([2, 2], [], Tableau([[1, 1], [2, 2]])), ((1, 1), (2, 2)))
    wrong = [Set([2, 1]), PartitionTuple([[2], [1]]), matrix(ZZ, [[2, 1]]), matrix(ZZ, 0, 3), SymmetricGroup(3)([2, 1, 3]), s[2, 1], ZZ["x"]([2, 1]),
             Tableau([[2, 1]]), SkewTableau([[None, 1], [1, 2]]), vector(QQ, [1 / QQ(2)]), vector(GF(5), [2, 1]), Subsets(2), Partitions(2)]
    for it in wrong:
        with raises(TypeError, "factor 1"):
            CALC.mult(it, [1])


def test_a_time_of_sage():
    same(CALC.coef([2], [1], [1], timeout=RR(0.5)), 1)
    same(Calculator(program=PROGRAM, timeout=QQ(1) / 2).coef([2], [1], [1], timeout=ZZ(20)), 1)
    with raises(TimeoutError):
        CALC.mult(range(13, 0, -1), range(13, 0, -1), timeout=RR(0.2))


def test_polynomials_are_in_one_ring():
    """All in x0, x1, .., as Sage has them, so that sums are in it, too."""
    X = SchubertPolynomialRing(ZZ)
    one, other = CALC.schubert([2, 1]).to_sage(), CALC.schubert([1, 4, 3, 2]).to_sage()
    same((str(one), one + other, one), ("x0", X([2, 1]).expand() + X([1, 4, 3, 2]).expand(), X([2, 1]).expand()))
    same((CALC.schubert([1]).to_sage() + one, str(CALC.schubert([1]).to_sage())), (one + 1, "1"))


def test_an_expansion_among_elements():
    """An operation with an element has Sage's own answer, and none has an expansion as a coefficient."""
    product, element = CALC.mult([1], [1]), s[2] + s[1, 1]
    for got in (s[1] * product, product * s[1]):
        same((got, got.parent()), (s[1] * element, s))
    same((s[1] + product, product + s[1], product - s[1], p[1] * product), (s[1] + element, s[1] + element, element - s[1], p[1] * element))
    same((product == element, element == product, product == p[1, 1], p[1, 1] == product, product == s[2]), (True, True, True, True, False))
    same((ZZ(2) * product == 2 * product, product * ZZ(2), sum([product, product], ZZ(0)) == 2 * product), (True, 2 * product, True))
    for ring in (ZZ, GF(5)):
        with raises(TypeError):
            SymmetricFunctions(ring).s()[1] * product
    with raises(TypeError):
        CALC.dschubmult([2, 1], [2, 1]) * s[1]
    same((SymmetricFunctions(ZZ).s()[2] + SymmetricFunctions(ZZ).s()[1, 1] == product, product != element), (True, False))


def test_an_element_is_an_expansion():
    same((CALC.p(p[2, 1] / 2), CALC.s(p[2]).parent), (CALC.p({(2, 1): QQ(1) / 2}), CALC.s))
    same((CALC.s(p[2]), CALC.s(Partition([2, 1])), CALC.s[Partition([2, 1])], CALC.X(Permutation([2, 1]))), (CALC.s(CALC.p[2]), CALC.s[2, 1], CALC.s[2, 1], CALC.X[2, 1]))
    for wrong in (SymmetricFunctions(QQ).forgotten()[2], s[1].tensor(s[1]), ZZ["x"]([2, 1]), SchubertPolynomialRing(ZZ)([2, 1])):
        with raises(TypeError):
            CALC.s(wrong)
    for wrong in (CALC.mult([1], [1], rows=2), CALC.fusion(2, 1, [1], [1]), CALC.cohomology(2, 4)[1]):
        with raises(TypeError, "no ring"):
            wrong.to_sage()


def test_latex():
    same(str(latex(CALC.mult([1], [1]))), "s_{2}+s_{1,1}")


if __name__ == "__main__":
    main(globals())
