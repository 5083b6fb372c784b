"""The texts of answers and refusals, and the values that the next command takes."""
import pickle
from fractions import Fraction

from common import PROGRAM, main, raises, same

from yorqanish import Calculator, Expansion, Pair, Refusal, Tableau, TooLarge

CALC = Calculator(program=PROGRAM)

# Refused lines, and what their messages say.
REASONS = {
    "mult 1 2 - 1": "part 2 of factor 1 is greater than the one before it, or than that of the outer partition, in mult 1 [2] - 1",
    "mult 1 - 3 1 2": "part 3 of factor 2 is greater than the one before it, or than that of the outer partition, in mult 1 - 3 1 [2]",
    "coprod" + " 1" * 65: "a partition at most 64 parts and 512 cells",
    "coprod 300 213": "a partition at most 64 parts and 512 cells, in coprod 300 [213]",
    "mult - - - - - - - - ": "at most 8 factors",
    "mult -r 65 1 - 1": "rows is between 1 and 64, in mult -r [65] 1 - 1",
    "quantum 2 0 1 - 1": "cols is between 1 and 64, in quantum 2 [0] 1 - 1",
    "fusion 2 65 1 - 1": "level is between 1 and 64",
    "mult 1": "a product has two to eight factors, in mult 1 []",
    "quantum 2 2": "a product has two to eight factors",
    "quantum 2": "the command ends too early",
    "schubert 01 1": "letter 2 of perm occurs twice, or is not between 1 and the number of letters, in schubert 01 [1]",
    "schubert 2 002": "letter 2 of perm occurs twice",
    "mult 1 -1": "this word is not allowed here, in mult 1 [-1]",
    "product 1 - 1": "there is no such command, in [product] 1 - 1",
    "coprod 170141183460469231731687303715884105728": "a number is at most 2^127 - 1",
    "schubert 1 17": "at most 16 letters, and 8 of dschubmult, in schubert 1 [17]",
    "schubert 1 5": "letter 2 of perm occurs twice, or is not between 1 and the number of letters, in schubert 1 [5]",
    "schubmult 2 1 - 1 2 2": "letter 3 of right occurs twice, or is not between 1 and the number of letters, in schubmult 2 1 - 1 2 [2]",
    "dschubmult 1 - 9 1 2 3 4 5 6 7 8": "at most 16 letters, and 8 of dschubmult",
    "stanley -r 0 2 1": "rows is between 1 and 64",
    "rsk 0": "at most 256 letters, each between 1 and 65,535, in rsk [0]",
    "rsk" + " 1" * 257: "at most 256 letters",
    "rect 1 / 2 - .": "part 1 of inner is greater than the one before it, or than that of the outer partition, in rect 1 / [2] - .",
    "unrsk 1 2 / 3 - 1 2": "recording is not a tableau of its shape from here on, in unrsk 1 2 / 3 - 1 2 []",
    "unrsk 1 / 2 3 - 1 / 2 3": "insertion is not a tableau of its shape from here on",
    "unrsk 65536 - 1": "at most 256 entries, each between 1 and 65,535",
    "tab 3 2 1 / 2 1 -from 1 / 2 / 2": "the tableau after -from is not in the list",
    "expand s s[1,2]": ", in expand s [s[1,2]], at byte 4 of word 2",
    "expand s 1/0": "a denominator is 0",
    "expand p s[16]": "the degree is at most 20 into m and s, 15 into p, h and e",
    "plethysm s h[11] h[1]": "and 10 in a plethysm",
    "plethysm s h[2] h[2]-h[1]": "the inner expression of a plethysm has a minus sign or a fraction",
    "plethysm s h[2] 1/2*h[1]": "the inner expression of a plethysm has a minus sign or a fraction",
    "expand s s[2,1": "the expression ends too early",
    "expand s s[2,,1]": "the expression cannot continue like this",
    "expand q s[1]": "this word is not allowed here, in expand [q] s[1]",
    "expand m " + "(" * 65 + "1" + ")" * 65: "64 parentheses can be open",
    "expand m m[" + ",".join(["0"] * 65) + "]": "an atom has at most 64 numbers",
    "x" * 5000: "a line has at most 4,096 bytes",
    "# x": "there is no such command",
    "": "there is no command",
}


def test_refusals_say_why():
    for line, words in REASONS.items():
        with raises(Refusal, words):
            CALC.text(line)
    with raises(TooLarge, "2^127 - 1", "expand m"):
        CALC.text("expand m 170141183460469231731687303715884105727+1")
    with raises(OverflowError):
        CALC.expand("m", "170141183460469231731687303715884105727+1")
    same(next(CALC.batch(["x" * 5000])).refusal.args[0].split(",")[0], "a line has at most 4")


def test_refusals_have_their_place():
    try:
        CALC.mult([1, 2], [1])
    except Refusal as refusal:
        same((refusal.kind, refusal.word, refusal.byte, refusal.line), ("Shape", 2, 0, "mult 1 2 - 1"))
        again = pickle.loads(pickle.dumps(refusal))
        same((again.kind, again.word, again.byte, again.line, str(again)), ("Shape", 2, 0, "mult 1 2 - 1", str(refusal)))


def test_the_one_line_form_is_the_programs():
    for line in ("expand -m p s[2,1]", "expand -m s h[2]*p[1]", "expand -m p 3+p[2]", "expand -m s -s[]", "expand -m m h[2]-s[2]", "mult -m 2 1 - 2 1"):
        plain = next(CALC.batch([line.replace("-m ", "")])).answer
        same(f"{plain}\n", CALC.text(line))


def test_other_kinds_on_one_line():
    same(str(CALC.coprod([1])), "s[1]#s[]+s[]#s[1]")
    same(str(CALC.quantum(2, 2, [1], [2, 1])), "s[2,2]+q*s[]")
    same(str(CALC.schubert([2, 1, 4, 3])), "x1^2+x1*x2+x1*x3")
    same(str(CALC.schubert([1])), "1")
    same(str(CALC.schubmult([1, 3, 2], [1, 3, 2])), "X[1,4,2,3]+X[2,3,1]")
    same(str(CALC.dschubmult([2, 1], [2, 1])), "-y1*X[2,1]+y2*X[2,1]+X[3,1,2]")


def test_answers_go_on():
    product = CALC.mult([2, 1], [1])
    same(CALC.expand("p", product), CALC.expand("p", "s[2,1]*s[1]"))
    same(CALC.expand("s", CALC.expand("p", product)), product)
    same(CALC.plethysm("s", CALC.expand("h", "h[2]"), "h[2]"), CALC.plethysm("s", "h[2]", "h[2]"))
    same(CALC.expand("s", product - product), 0)
    with raises(TypeError, "expression"):
        CALC.expand("p", CALC.coprod([1]))
    with raises(TypeError, "expression"):
        CALC.expand("p", 3.5)
    with raises(ValueError, "target"):
        CALC.expand("q", "s[1]")


def test_sums_and_multiples():
    a, b = CALC.mult([1], [1]), CALC.skew([2, 1], [1])
    same((a == b, a != b, a - b == CALC.s.zero(), len(a - b)), (True, False, True, 0))
    same((a + b, 2 * a, a * 2, -a, a / 2 * 2), ({(2,): 2, (1, 1): 2}, a + b, a + b, {(2,): -1, (1, 1): -1}, a))
    half = a / 2
    same((half[[2]], type((half + half)[[2]]), str(half)), (Fraction(1, 2), int, "1/2*s[2]+1/2*s[1,1]"))
    same(Fraction(1, 3) * a, {(2,): Fraction(1, 3), (1, 1): Fraction(1, 3)})
    for wrong in (lambda: a - CALC.coprod([1]), lambda: a * 0.5, lambda: a / 0.5, lambda: a + 1.0, lambda: 1.0 - a, lambda: a + None, lambda: a * {(1,): 1}, lambda: a / a):
        with raises(TypeError):
            wrong()
    with raises(ZeroDivisionError):
        a / 0


def test_the_parent_is_kept():
    a = CALC.expand("p", "h[2]")
    for it in (a.copy(), a + a, -a, +a, a / 3, a * 2, a - a, a**3, a.omega()):
        same((type(it), it.parent), (Expansion, CALC.p))
    same(CALC.s({(2, 0): 1, (1,): 2}), {(2,): 1, (1,): 2})
    same(hash(CALC.mult([1], [1])), hash(CALC.skew([2, 1], [1])))
    for terms in ({"spam": 1}, {(1, 2): 1}, {(2,): 0.5}, {2: 1}, {(2, 1): True}):
        with raises((TypeError, ValueError)):
            CALC.s(terms)


def test_no_coefficient_is_lost():
    """A label that is given twice, if only in two ways, is an error, and not the last of its coefficients."""
    with raises(ValueError, "(2,)", "twice"):
        CALC.s({(2,): 1, (2, 0): 5})
    with raises(ValueError, "(2, 1)", "twice"):
        CALC.X({(2, 1): 1, (2, 1, 3): 2})


def test_a_coefficient_0_is_no_term():
    same((CALC.s({(2,): 0}), len(CALC.s({(2,): 0, (1, 1): 1})), str(CALC.s({(2,): 0}))), (0, 1, "0"))


def test_latex():
    same(CALC.s({(2,): 1, (1, 1): -1}).latex(), "s_{2}-s_{1,1}")
    same(CALC.p({(2,): Fraction(1, 2), (): 3}).latex(), "\\frac{1}{2}p_{2}+3p_{\\emptyset}")
    same(CALC.monomials({(2, 1): 1, (): 2}).latex(), "x_{1}^{2} x_{2}+2")
    same(CALC.cohomology(2, 4)[1].latex(), "\\sigma_{1}")


def test_a_long_list_in_a_notebook():
    small, large = CALC.mult([1], [1]), CALC.mult([4, 3, 2, 1], [4, 3, 2, 1])
    same(small._repr_latex_(), "$s_{2}+s_{1,1}$")
    shown = large._repr_latex_()
    assert "\\cdots" in shown and f"({len(large):,} terms)" in shown and shown.count("s_") == 60, shown
    same(small._latex_(), small.latex())
    same(CALC.quantum(2, 2, [1], [2, 1]).latex(), "\\sigma_{2,2}+q \\sigma_{\\emptyset}")


def test_tableaux_are_shown():
    skew = list(CALC.tab((2, 1), (1,)))[1]
    same((skew, str(skew), skew.inner), (((None, 1), (2,)), "1 / 2", (1,)))
    same(skew.latex(), "\\begin{ytableau} \\none & 1 \\\\ 2 \\end{ytableau}")
    same(skew.latex("young"), "\\young(:1,2)")
    same(skew._repr_latex_(), "$\\begin{array}{cc}  & \\boxed{1} \\\\ \\boxed{2} \\end{array}$")
    pair = CALC.rsk([3, 1, 12])
    same(str(pair), "P 1 12 / 3\nQ 1 3 / 2")
    same(pair.insertion.latex("young"), "\\young(1{12},3)")
    same(pair.latex("young"), "\\left(\\young(1{12},3),\\ \\young(13,2)\\right)")
    assert pair._repr_latex_().startswith("$\\left(\\begin{array}")
    same((CALC.unrsk(*pair), pickle.loads(pickle.dumps(pair)), type(pair.insertion)), ((3, 1, 12), pair, Tableau))
    same((type(pair), str(Tableau()), Tableau().latex("array")), (Pair, ".", "\\emptyset"))
    again = pickle.loads(pickle.dumps(skew))
    same((again, again.inner, type(again)), (skew, (1,), Tableau))
    with raises(ValueError, "style"):
        skew.latex("boxes")


if __name__ == "__main__":
    main(globals())
