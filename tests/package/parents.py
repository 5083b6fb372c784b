"""Elements know where they live: no sum, product, comparison, copy or conversion gives an element of another ring, or another element, without a
word."""
import copy
import dataclasses
import json
import os
import pickle
import random
import subprocess
import sys
import traceback
from fractions import Fraction

from common import PROGRAM, main, need, printed, pythons, raises, same, terms

from yorqanish import Calculator, Expansion, Refusal, Tableau

CALC = Calculator(program=PROGRAM)


def parents():
    """Each parent, and an element of it."""
    c = CALC
    return [
        (c.s, c.s[2, 1] - c.s[3] / 2), (c.p, c.p[2, 1] / 3), (c.h, c.h[2] + 1), (c.e, c.e[2, 2]), (c.m, c.m[3, 1]),
        (c.s.in_variables(2), c.mult([2, 1], [1], rows=2)), (c.s.in_variables(3), c.stanley([2, 1, 4, 3], 3)),
        (c.quantum_ring(2, 3), c.quantum(2, 3, [2, 1], [3, 1])), (c.quantum_ring(3, 2), c.quantum(3, 2, [2, 1], [2, 1])),
        (c.cohomology(2, 5), c.cohomology(2, 5)[2, 1]), (c.fusion_ring(2, 1), c.fusion(2, 1, [1], [1])), (c.X, c.schubmult([1, 3, 2], [2, 1])),
        (c.schubert_ring(double=True), c.dschubmult([2, 1], [2, 1])), (c.monomials, c.schubert([2, 1, 4, 3])), (c.s.tensor_square(), c.coprod([2, 1])),
    ]


# ---- labels and pairs

def test_a_list_of_labels_is_no_list_of_pairs():
    """[(2, 1)] was read as the term s[2] with the coefficient 1."""
    for wrong in (lambda: Expansion([(2, 1)]), lambda: Expansion(CALC.s, [(2, 1)]), lambda: Expansion(CALC.s, [(2, 1), (3, 2)]), lambda: CALC.s([(2, 1)]),
                  lambda: Expansion(list(CALC.mult([1], [1]))), lambda: Expansion(CALC.s, iter([((2, 1), 1)]))):
        with raises((TypeError, ValueError)):
            wrong()
    pairs = [((2, 1), 1), ((3,), Fraction(1, 2))]
    same(str(Expansion.from_pairs(CALC.s, pairs)), "1/2*s[3]+s[2,1]")
    same(Expansion.from_pairs(CALC.s, iter(pairs)), Expansion(CALC.s, dict(pairs)))
    with raises(ValueError, "twice"):
        Expansion.from_pairs(CALC.s, [((2,), 1), ((2, 0), 1)])


def test_an_integer_is_no_label():
    """e[321] was 0, and `random.choice(e)` always 0."""
    product = CALC.mult([2, 1], [2, 1])
    for wrong in (lambda: product[321], lambda: product[3], lambda: product.coefficient(6), lambda: 6 in product, lambda: random.choice(product),
                  lambda: CALC.schubert([2, 1])[1], lambda: CALC.schubmult([2, 1], [2, 1])[312]):
        with raises((TypeError, IndexError)):
            wrong()
    same((CALC.mult([1], [1])[(2,)], CALC.mult([1], [1])[[2]], CALC.s[2], CALC.s[2][2, 0]), (1, 1, CALC.mult([2], []), 1))


def test_what_is_iterated():
    """Pairs of a label and a coefficient, as Sage has them."""
    product = CALC.mult([2, 1], [1])
    same(list(product), list(product.items()))
    same([(label, c) for label, c in product], [((3, 1), 1), ((2, 2), 1), ((2, 1, 1), 1)])
    same((dict(product), list(product.support()), list(product.values()), len(product)), ({(3, 1): 1, (2, 2): 1, (2, 1, 1): 1}, [(3, 1), (2, 2), (2, 1, 1)], [1] * 3, 3))
    same({(3, 1), (9,)} & product.support(), {(3, 1)})


def test_what_needs_no_look_at_the_labels():
    """The views are those of the dictionary, and sums of what has the same labels are in their order as they are."""
    product = CALC.mult([2, 1], [2, 1])
    same([type(it) for it in (product.items(), product.support(), product.values())], [type(it) for it in ({}.items(), {}.keys(), {}.values())])
    kind, looked = CALC.s.kind, []
    object.__setattr__(CALC.s, "kind", kind._replace(order=lambda it: looked.append(it) or kind.order(it), find=lambda it: looked.append(it) or kind.find(it)))
    got = [-product, 2 * product, product + product, product - product / 2, product - product, product + CALC.mult([2, 1], [2, 1]), list(product.items())]
    same(looked, [])
    object.__setattr__(CALC.s, "kind", kind)
    terms = dict(product)
    for it, factor in zip(got, (-1, 2, 2, Fraction(1, 2), 0, 2, 1)):
        same(list(it), [(label, c * factor) for label, c in terms.items() if factor])
    some = CALC.s({label: c for label, c in product if len(label) == 3})
    same((list(product + some), list(some + product), list(product - some)), ([(label, c + some[label]) for label, c in terms.items()],) * 2 + ([it for it in terms.items() if len(it[0]) != 3],))


# ---- rings

def test_rings_do_not_mix():
    """An operation between two parents is an error that names both, but for the bases of symmetric functions."""
    bases = "sphem"
    them = parents()
    for a, x in them:
        for b, y in them:
            if a == b or {repr(a)[-1], repr(b)[-1]} <= set(bases) and len(repr(a)) == len(repr(b)) == 6:
                continue
            for wrong in (lambda: x + y, lambda: x - y, lambda: x * y, lambda: x == y, lambda: x != y, lambda: x.scalar(y), lambda: sum([x, y])):
                with raises(TypeError, repr(a), repr(b)):
                    wrong()


def test_what_was_silent_between_rings():
    for wrong in (lambda: CALC.quantum(2, 3, [2, 1], [1]) + CALC.quantum(3, 2, [2, 1], [1]), lambda: CALC.same_function(CALC.fusion(2, 1, [1], [1]), "e[2]"),
                  lambda: CALC.mult([2, 1], [1], rows=2) + CALC.mult([2, 1], [1]), lambda: CALC.mult([1], [1], rows=1) == CALC.mult([2], []),
                  lambda: CALC.expand("p", CALC.mult([1], [1], rows=1)), lambda: CALC.plethysm("s", CALC.fusion(2, 1, [1], [1]), "h[2]")):
        with raises(TypeError):
            wrong()
    for wrong in (lambda: CALC.mult([2, 1], [2, 1], rows=2).omega(), lambda: CALC.fusion(2, 1, [1], [1]).omega(), lambda: CALC.mult([2], [], rows=1).to("p")):
        with raises(TypeError):
            wrong()
    same(CALC.quantum(2, 3, [2, 1], [1]) * CALC.quantum_ring(2, 3)[1], CALC.quantum(2, 3, [2, 1], [1], [1]))
    same(CALC.mult([2, 1], [1], rows=2) * CALC.mult([1], [], rows=2), CALC.mult([2, 1], [1], [1], rows=2))


def test_coercion_between_bases_is_exact():
    s, p, h, e, m = CALC.s, CALC.p, CALC.h, CALC.e, CALC.m
    x = s[2, 1] * p[2]
    same((x.parent, x), (s, CALC.expand("s", "s[2,1]*p[2]")))
    same(((p[2] * s[2, 1]).parent, s(p[2] * s[2, 1])), (p, x))
    same((h[2] + e[2], (h[2] + e[2]).parent), (CALC.expand("h", "h[2]+e[2]"), h))
    same((m[1] * m[1] - s[2], p(m[1, 1]) * 2), (CALC.expand("m", "m[1]*m[1]-s[2]"), CALC.expand("p", "2*m[1,1]")))
    with raises(TypeError, "calc.s", "calc.p", "to("):
        s[1] == p[1]
    same(CALC.same_function(s[1], p[1]), True)


def test_numbers_are_multiples_of_one():
    for parent, x in parents():
        one = parent.one()
        same((one == 1, parent(3) == 3, parent(0) == 0, parent.zero() == 0, x - x == 0, hash(parent(3)) == hash(3), hash(x - x) == 0), (True,) * 7)
        same((x + 1 - 1, 1 + x - one, 2 * x - x, x * 1, x / 2 * 2, x == 1), (x,) * 5 + (False,))
        with raises(TypeError):
            x * 0.5
        with raises(TypeError):
            x + 0.5


def test_products_are_those_of_the_commands():
    c = CALC
    same((c.s[2, 1] * c.s[2, 1], c.s[1] ** 4, c.s[2] ** 0), (c.mult([2, 1], [2, 1]), c.mult([1], [1], [1], [1]), 1))
    same(c.p[2, 1] * c.p[3], c.p[3, 2, 1])
    same((c.e[2] * c.e[2, 1], c.h[1] ** 3, c.m[2, 1] * c.m[1]), (c.e[2, 2, 1], c.h[1, 1, 1], c.expand("m", "m[2,1]*m[1]")))
    same(c.schubert([1, 3, 2]) * c.schubert([2, 1]), {(2,): 1, (1, 1): 1})
    ring = c.cohomology(2, 5)
    for a in ([1], [2, 1], [3, 1], [3, 3]):
        for b in ([2], [1, 1], [3, 2]):
            wanted = {label: k for label, k in terms(printed([f"mult -r 2 {' '.join(map(str, a))} - {' '.join(map(str, b))}"])[0]).items() if max(label, default=0) < 4}
            same(ring(a) * ring(b), wanted)
    q = c.quantum_ring(2, 3)
    same((q[2, 1] * q[3, 3], str(q.q * q[1]), q.q ** 2), (c.quantum(2, 3, [2, 1], [3, 3]), "q*s[1]", {(2, ()): 1}))
    for wrong in (lambda: q[4], lambda: q[1, 1, 1], lambda: ring[4], lambda: c.fusion_ring(2, 1)[2], lambda: c.quantum_ring(2, 3)({(0, (4,)): 1})):
        with raises(ValueError):
            wrong()
    same((c.s.in_variables(2)(c.s[1, 1, 1] + c.s[2]), c.s.in_variables(2)(c.p[3])), (c.s.in_variables(2)[2], {(3,): 1, (2, 1): -1}))


def test_methods_that_sage_has():
    s, p = CALC.s, CALC.p
    x = s[2, 1] + 2 * s[3]
    same((x.coefficient([2, 1]), x.coefficient((3,)), x.coefficient([1, 1, 1])), (1, 2, 0))
    same((list(x.support()), list(x.coefficients()), x.degree()), ([(3,), (2, 1)], [2, 1], 3))
    same((x.to("p"), p(x), s(p(x))), (CALC.expand("p", x), CALC.expand("p", x), x))
    for n in range(1, 5):
        for letter in "phem":
            one = getattr(CALC, letter)[n]
            same((one.omega().parent, s(one.omega())), (one.parent, s(one).omega()))
    same((p[2].scalar(p[2]), p[2, 1].scalar(s[2, 1]), CALC.h[2, 1].scalar(CALC.m[2, 1])), (2, 0, 1))


# ---- copies

@dataclasses.dataclass
class Held:
    it: object


def test_a_copy_is_of_the_same_parent():
    """A pickled expansion lost its product."""
    for parent, x in parents():
        copies = [copy.copy(x), copy.deepcopy(x), Expansion(x), type(x)(x), dataclasses.asdict(Held(x))["it"], parent(x), parent(dict(x.items())),
                  Expansion(parent, dict(x)), Expansion.from_pairs(parent, list(x)), Expansion.from_json(x.to_json())]
        copies += [pickle.loads(pickle.dumps(x, version)) for version in range(2, 6)]
        copies.append(eval(repr(x), {"calc": CALC, "Expansion": Expansion, "Fraction": Fraction}))
        for it in copies:
            same((it.parent, it, repr(it), hash(it), str(it)), (parent, x, repr(x), hash(x), str(x)))
            if parent != CALC.s.tensor_square():
                same(it * it, x * x)
        same((pickle.loads(pickle.dumps(parent)), copy.deepcopy(parent), hash(pickle.loads(pickle.dumps(parent)))), (parent, parent, hash(parent)))


def test_a_record_with_tableaux_is_copied():
    """(dataclasses make a tuple of a generator)"""
    for it in (CALC.rsk([3, 1, 2]), *CALC.tab([2, 1], [1]), Tableau(), CALC.growth([2, 1])):
        for made in (dataclasses.asdict(Held(it))["it"], dataclasses.astuple(Held([it]))[0][0]):
            same((made, type(made), repr(made), getattr(made, "inner", None)), (it, type(it), repr(it), getattr(it, "inner", None)))
    with raises(TypeError, "rows"):
        Tableau({(1,), (2,)})


def test_pickles_name_the_package():
    for it in (CALC.s[1], CALC.s, CALC.rsk([1]), CALC, CALC.growth([1]), Expansion, Tableau, Calculator):
        assert b"yorqanish._" not in pickle.dumps(it, 2), pickle.dumps(it, 2)
    same((Expansion.__module__, Calculator.__module__, type(CALC.s).__module__), ("yorqanish",) * 3)
    try:
        CALC.mult([1, 2], [1])
    except Refusal as refusal:
        told = traceback.format_exception_only(type(refusal), refusal)[0]
    assert told.startswith("yorqanish.ShapeRefusal: part 2"), told


def test_pickles_are_read_by_other_pythons():
    with open("/tmp/yorqanish_pickle_%d" % os.getpid(), "wb") as file:
        pickle.dump([x for _, x in parents()], file, 4)
    script = f"import pickle; them = pickle.load(open({file.name!r}, 'rb')); print(*them, *[it * it for it in them[:-1]], sep='\\n')"
    wanted = "\n".join(map(str, [*(x for _, x in parents()), *(x * x for _, x in parents()[:-1])])) + "\n"
    try:
        for version, name in pythons((3, 8)).items():
            done = subprocess.run([name, "-c", script], capture_output=True, text=True)
            same((version, done.stdout, done.stderr), (version, wanted, ""))
    finally:
        os.remove(file.name)


def test_a_skew_tableau_is_its_rows():
    """`type(t)(list(t))` lost the inner shape."""
    for it in CALC.tab([3, 2, 1], [2, 1]):
        for again in (type(it)(list(it)), type(it)(it), copy.deepcopy(it), pickle.loads(pickle.dumps(it)), Tableau(json.loads(json.dumps(it))), eval(repr(it))):
            same((again, again.inner, str(again), type(again)), (it, (2, 1), str(it), Tableau))
    skew = Tableau([[None, 1], [2]])
    same((skew, skew.inner, str(skew)), (Tableau([[1], [2]], inner=[1]), (1,), "1 / 2"))
    same(CALC.rect([2, 1], [1], [[None, 1], [2]]), CALC.rect([2, 1], [1], [[1], [2]]))
    for wrong in ([[1, None]], [[1], [None, 2]], [[None, 1], [None, None, 2]]):
        with raises((TypeError, ValueError)):
            Tableau(wrong)


# ---- other packages

def test_numpy_compares_elements():
    """Comparisons of arrays were False."""
    numpy = need("numpy")
    x, y = CALC.mult([1], [1]), CALC.s[3]
    them = numpy.array([x, y, x])
    same(((them == x).tolist(), (x == them).tolist(), (them != y).tolist(), numpy.where(them == x)[0].tolist()), ([True, False, True],) * 2 + ([True, False, True], [0, 2]))
    same((x in them, CALC.s[4] in them, (them * 2)[1], (2 * them)[0], (them + them)[1], numpy.sum(them)), (True, False, 2 * y, 2 * x, 2 * y, 2 * x + y))
    same((numpy.int64(2) * x, x * numpy.int64(2), numpy.int64(0) == x - x, (x * numpy.array([1, 2])).tolist()), (2 * x, 2 * x, True, [x, 2 * x]))
    for wrong in (lambda: numpy.float64(2) * x, lambda: x * numpy.float64(2), lambda: x / numpy.float64(2), lambda: them == CALC.X[1], lambda: numpy.array([CALC.p[1]]) == x):
        with raises(TypeError):
            wrong()


def test_pandas_maps_and_compares():
    pandas = need("pandas")
    x, y = CALC.mult([1], [1]), CALC.s[3]
    column = pandas.Series([x, y, x])
    same(((column == x).tolist(), (column * 2).tolist(), column.sum(), len(column[column == y])), ([True, False, True], [2 * x, 2 * y, 2 * x], 2 * x + y, 1))
    labels = pandas.Series([(2,), (1, 1), (3,)])
    same(labels.map(x.coefficient).tolist(), [1, 1, 0])
    same(labels.replace(x).tolist(), labels.tolist())
    for wrong in (lambda: labels.map(x), lambda: pandas.Series([2, 1]).map(x)):
        with raises(TypeError):
            wrong()
    table = x.to_pandas()
    same((table["label"].map(x.coefficient) == table["coefficient"]).all(), True)
    same(pandas.Series([x]).where(pandas.Series([x]) == x)[0], x)
    for held in (pandas.Series([x])[0], pandas.Series({"a": x})["a"], pandas.DataFrame({"x": [x]}).loc[0, "x"]):
        same((held, held.parent), (x, CALC.s))


def test_a_column_is_no_element():
    """The coefficients of a column with labels were read as the parts of one label."""
    pandas = need("pandas")
    column = pandas.Series({(2, 1): 1, (1, 1): 2})
    for wrong in (column, pandas.Series({(2, 1): 1}), pandas.Series([2, 1])):
        with raises(TypeError, "keys"):
            CALC.s(wrong)
    same((CALC.s(dict(column)), CALC.s(list(pandas.Series([2, 1]))), CALC.s[pandas.Series([2, 1])]), ({(2, 1): 1, (1, 1): 2}, CALC.s[2, 1], CALC.s[2, 1]))


def test_sympy_reads_polynomials_alone():
    """`sympify` of a list of labels was another function."""
    sympy = need("sympy")
    x1, x2, x3, t = sympy.symbols("x1 x2 x3 t")
    same(sympy.expand(sympy.sympify(CALC.schubert([2, 1, 4, 3])) - (x1**2 + x1 * x2 + x1 * x3)), 0)
    for it in (CALC.mult([1], [1]), CALC.coprod([1]), CALC.quantum(2, 2, [1], [2, 1]), CALC.X[2, 1], CALC.s[1] - CALC.s[1], CALC.p[2]):
        for wrong in (lambda: sympy.sympify(it), lambda: it * t, lambda: t * it, lambda: it + t, lambda: sympy.Matrix([it]) * t):
            with raises((TypeError, ValueError, AttributeError)):
                wrong()
    product = CALC.mult([1], [1])
    same((product * sympy.Integer(2), sympy.Integer(2) * product, product / sympy.Rational(2), product == sympy.Integer(1)), (2 * product, 2 * product, product / 2, False))


def test_json_is_right_or_an_error():
    for _, x in parents():
        with raises(TypeError):
            json.dumps(x)
        same(Expansion.from_json(x.to_json()).parent, x.parent)
    for wrong in ('{"parent": ["t"], "terms": []}', '{"parent": ["quantum_ring", 2], "terms": []}', '{"parent": ["s"], "terms": [[[1], 0.1]]}',
                  '{"parent": ["s"], "terms": [[[1, 2], "1"]]}', '{"parent": ["s"], "terms": [[[1], "1"], [[1, 0], "2"]]}', '{"terms": []}', "[]"):
        with raises((TypeError, ValueError, KeyError)):
            Expansion.from_json(wrong)


def test_positions_are_no_times():
    """A number too many was a time limit."""
    for wrong in (lambda: CALC.coef([2], [1], [1], 1), lambda: CALC.skew([2, 1], [1], 2), lambda: CALC.coprod([1], 1), lambda: CALC.expand("s", "s[1]", 1), lambda: CALC.rsk([1], 5),
                  lambda: CALC.schubmult([2, 1], [2, 1], 3), lambda: CALC.kostka([2], [1, 1], 3), lambda: CALC.tab([2, 1], [1], None, 5), lambda: CALC.same_function("s[1]", "s[1]", 1)):
        with raises(TypeError, "positional"):
            wrong()


def test_a_dimension_beyond_the_limit():
    same(CALC.dimension([10, 10]), 16796)
    for wrong in (lambda: CALC.dimension([11, 10]), lambda: CALC.kostka([21], [1] * 21)):
        with raises(ValueError, "20"):
            wrong()


if __name__ == "__main__":
    main(globals())
