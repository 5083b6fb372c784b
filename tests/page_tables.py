"""The tables of tests/page: the lines, and the results that the page has to show for them."""

from manual import COMMANDS

# The examples of each command, a refused line, and the longest sum of a word.
LINES = [line for it in COMMANDS.values() for line in it["examples"]] + ["mult -m 2 1 - 2 1", "mult 1 2 - 1", "expand m " + "+".join(["1"] * 2048)]

# The lines that are refused: the line, the sentence, and the part that is marked.
REFUSALS = [
    ("mult 1 2 - 1", "Part 2 is greater than part 1: 2 after 1. The parts of a partition cannot increase.", "2"),
    ("multi 2 1 - 1", "There is no command multi. Is mult meant?", "multi"),
    ("frobnicate", "There is no command frobnicate. All commands are below, under Commands.", "frobnicate"),
    ("s[2,1]*s[2,1", "“s[2,1]*s[2,1” can be read, and something is missing after it: an exponent, a comma or ].", ""),
    ("s_{2,1} s_{1} ! s_{1}", "“s_{2,1} s_{1}” can be read. “!” cannot come after it; what can is an exponent, a times sign, + or - or a comma.", "!"),
    ("s_{2,1}#s_{2,1}", "Kronecker products and their coefficients are not computed here.", None),
    ("G_{132}", "Grothendieck polynomials are not computed here.", None),
    ("mult 2 1", "The command ends too early. Next comes a part (a number) or -.", ""),
    ("mult 2 1 -1", "-1 cannot come here: - and / are words of their own, with a blank on each side.", "-1"),
    ("expand s h[2] *h[3", "An expression is one word: take the blanks out.", "*h[3"),
    ("expand s h[2]**p[1]", "h[2]**p[1] is not an expression. At the marked place comes a number, an atom such as h[2,1], or (.", "*"),
    ("expand s h[2,1", "The expression h[2,1 ends too early. Next comes a digit, a comma or ].", ""),
    ("expand s h[1,2]", "2 is greater than 1, the number before it. The parts of a partition cannot increase.", "2"),
    ("expand p s[16]", "The degree of the expression is greater than 15, the greatest one for p.", ""),
    ("plethysm s h[2] h[2]-h[1]", "The second expression of a plethysm has no minus sign.", "-"),
    ("schubert 2143", "2143 is greater than 16, the most letters of a permutation here. If it is a permutation, type its letters apart: 2 1 4 3.", "2143"),
    ("schubert 1 3", "3 is not a letter of this permutation: with 2 letters, they are the numbers from 1 to 2.", "3"),
    ("schubert 1 1", "1 comes twice. A permutation has each letter once.", "1"),
    ("quantum 65 2 1 - 1", "65 is not a number of rows: it is from 1 to 64.", "65"),
    ("rect 2 2 / 1 - 1 / 3 2", "2 is smaller than its left neighbour 3. Rows increase weakly.", "2"),
    ("rect 2 2 / 1 - 1 / 1", "The tableau ends too early. Its shape has rows of 1 and 2.", ""),
    ("unrsk 1 2 - 2 1", "1 is not greater than its left neighbour 2. Rows of a standard tableau increase.", "1"),
    ("tab 3 2 1 / 2 1 -from 2 / 1 / 1", "What follows -from is not a lattice tableau of the shape 3 2 1 / 2 1.", "-from"),
    (f"expand m {2**127}", f"{2**127} is greater than 2^127 - 1, the greatest number that can be typed.", str(2**127)),
    (f"expand m {2**127 - 1}+1", "The answer is not computed: the bound for the numbers on the way is greater than 2^127 - 1.", None),
]

# The text that is typed, the line that is run, and what the page says that it left out.
TYPED = [
    ("$ calc mult 2 1 - 2 1", "mult 2 1 - 2 1", "the prompt and the name of the program"),
    ("./calc coef 3 2 1 - 2 1 - 2 1", "coef 3 2 1 - 2 1 - 2 1", "the name of the program"),
    ("expand p 's[2,1]'", "expand p s[2,1]", "the quotes"),
    ("expand p “s[2,1]”", "expand p s[2,1]", "the quotes"),
    ("mult (2,1) - (2, 1)", "mult 2 1 - 2 1", ""),
    ("skew 3,2,1/2,1", "skew 3 2 1 / 2 1", ""),
    ("mult () - (1)", "mult - 1", ""),
    ("mult(2,1)*s[2,1]", "mult 2 1 - 2 1", ""),
    ("coef (3,2,1), (2,1), (2,1)", "coef 3 2 1 - 2 1 - 2 1", ""),
    ("expand s h[2]·p[1]", "expand s h[2]*p[1]", ""),
    ("mult ∅ - [2 1]", "mult - 2 1", ""),
    ("mult 2 1 − 2 1", "mult 2 1 - 2 1", ""),
    ("mult 2 1 – 2 1", "mult 2 1 - 2 1", ""),
    ("expand p h[1]−e[1]", "expand p h[1]-e[1]", ""),
    ("mult 1\u00a0- 1", "mult 1 - 1", ""),
    ("mult 2 1 - 2 1 # the square", "mult 2 1 - 2 1", "the comment"),
]

# The texts that the help of a command contains.
HELP = {
    "mult": ["mult [-r K] [-m] λ - μ", "two blanks", "512", "Partitions are ordered by decreasing size"],
    "quantum": ["K", "C", "columns", "Powers of q"],
    "fusion": ["level L", "alcove"],
    "tab": ["column readings"],
    "expand": ["4,096", "20"],
}

# The limits of calc.1 that the help of no command has.
NO_LIMIT = []

# The number of terms or tableaux that the page reports for a line.
COUNTS = {
    "mult 2 1 - 2 1": "7 terms",
    "mult 1 -": "1 term",
    "mult -m 2 1 - 2 1": "7 terms",
    "tab 3 2 1 / 2 1": "4 tableaux",
    "mult -r 1 1 1 - 1": "0 terms",
}

# The sum beside the text of an answer, from the definitions.
SUMS = {
    "mult 1 - 1": "= s(2) + s(1,1)",
    "mult -r 1 1 1 - 1": "= 0",
    "quantum 2 2 2 1 - 2 1": "= q σ(2) + q σ(1,1)",
    "expand p s[2,1]": "= −1/3 p(3) + 1/3 p(1,1,1)",
    "expand h s[2,1]": "= −h(3) + h(2,1)",
    "schubert 1 3 2": "= x1 + x2",
    "coprod 1": "= s(1)(x) s∅(y) + s∅(x) s(1)(y)",
    "dschubmult 2 1 - 2 1": "= −y1 S21(x; y) + y2 S21(x; y) + S312(x; y)",
    "coef 3 2 1 - 2 1 - 2 1": "= 2",
}

# The copies: the line, the button, the text. An equation has its left side; in Python it is computed again.
S = "s = SymmetricFunctions(QQ).s()\n"
PY = "from yorqanish import Calculator\ncalc = Calculator()\nanswer = %s\nassert answer == %s\n"
COPIES = [
    ("mult 1 - 1", "Copy text", "1  (2)\n1  (1,1)\n"),
    ("mult 1 - 1", "Copy LaTeX", "s_{(1)} \\cdot s_{(1)} = s_{(2)} + s_{(1,1)}"),
    ("mult 1 - 1", "Copy for Sage", S + "s([1])*s([1]) == 1*s([2])+1*s([1,1])"),
    ("mult 1 - 1", "Copy for Python", PY % ("calc.s({(2,): 1, (1, 1): 1})", "calc.mult([1], [1])")),
    ("mult 1 - 1", "Copy CSV", "label,coefficient\r\n[2],1\r\n\"[1,1]\",1\r\n"),
    ("mult 1 - 1", "Copy TSV", "label\tcoefficient\n[2]\t1\n[1,1]\t1\n"),
    ("mult -m 1 - 1", "Copy LaTeX", "s_{(1)} \\cdot s_{(1)} = s_{(2)} + s_{(1,1)}"),
    ("mult -r 2 1 1 - 1", "Copy LaTeX", "s_{(1,1)} \\cdot s_{(1)} = s_{(2,1)}\\quad \\text{in}\\ 2\\ \\text{variables}"),
    ("mult -r 2 1 1 - 1", "Copy for Sage", S + "(s([1,1])*s([1])).restrict_partition_lengths(2, exact=False) == 1*s([2,1])"),
    ("mult -r 2 1 1 - 1", "Copy for Python", PY % ("calc.s.in_variables(2)({(2, 1): 1})", "calc.mult([1, 1], [1], rows=2)")),
    ("coef 3 2 1 - 2 1 - 2 1", "Copy LaTeX", "c_{(2,1),(2,1)}^{(3,2,1)} = 2"),
    ("coef 3 2 1 - 2 1 - 2 1", "Copy for Sage", S + "(s([2,1])*s([2,1])).coefficient([3,2,1]) == 2"),
    ("coef 3 2 1 - 2 1 - 2 1", "Copy for Python", PY % ("2", "calc.coef([3, 2, 1], [2, 1], [2, 1])")),
    ("coef 3 2 1 - 2 1 - 2 1", "Copy CSV", "coefficient\r\n2\r\n"),
    ("expand -m p s[2,1]", "Copy LaTeX", "s_{(2,1)} = -\\frac{1}{3} p_{(3)} + \\frac{1}{3} p_{(1,1,1)}"),
    ("expand -m p s[2,1]", "Copy for Sage", "p = SymmetricFunctions(QQ).p()\n" + S + "p(s([2,1])) == -1/3*p([3])+1/3*p([1,1,1])"),
    ("expand -m p s[2,1]", "Copy for Python", "from fractions import Fraction\n" + PY % ("calc.p({(3,): Fraction(-1, 3), (1, 1, 1): Fraction(1, 3)})", 'calc.expand("p", "s[2,1]")')),
    ("expand h 0", "Copy LaTeX", "0 = 0"),
    ("coprod 1", "Copy LaTeX", "s_{(1)}(x, y) = s_{(1)}(x) s_{\\emptyset}(y) + s_{\\emptyset}(x) s_{(1)}(y)"),
    ("coprod 1", "Copy for Sage", S + "s([1]).coproduct() == 1*tensor([s([1]), s([])])+1*tensor([s([]), s([1])])"),
    ("coprod 1", "Copy CSV", "label,second label,coefficient\r\n[1],[],1\r\n[],[1],1\r\n"),
    ("quantum 2 2 1 - 2 1", "Copy LaTeX", "\\sigma_{(1)} \\ast \\sigma_{(2,1)} = \\sigma_{(2,2)} + q \\sigma_{\\emptyset}\\quad \\text{in QH}^{\\ast}(\\text{Gr}(2,4))"),
    ("quantum 2 2 1 - 2 1", "Copy for Sage", "q = QQ['q'].gen(); s = SymmetricFunctions(q.parent()).s()\n1*q^0*s([2,2])+1*q^1*s([])"),
    ("quantum 2 2 1 - 2 1", "Copy TSV", "label\tpower of q\tcoefficient\n[2,2]\t0\t1\n[]\t1\t1\n"),
    ("schubert 1 3 2", "Copy LaTeX", "\\mathfrak{S}_{132} = x_{1} + x_{2}"),
    ("schubert 1 3 2", "Copy for Sage", "(x0,x1,) = PolynomialRing(ZZ, ['x0','x1']).gens()\nSchubertPolynomialRing(ZZ)([1,3,2]).expand() == 1*x0^1+1*x0^0*x1^1"),
    ("schubmult 1 3 2 - 1 3 2", "Copy for Sage", "X = SchubertPolynomialRing(ZZ)\nX([1,3,2])*X([1,3,2]) == 1*X([1,4,2,3])+1*X([2,3,1])"),
    ("dschubmult 2 1 - 2 1", "Copy LaTeX", "\\mathfrak{S}_{21}(x; y) \\cdot \\mathfrak{S}_{21}(x; y) = -y_{1} \\mathfrak{S}_{21}(x; y) + y_{2} \\mathfrak{S}_{21}(x; y) + \\mathfrak{S}_{312}(x; y)"),
    ("schubmult 10 1 2 3 4 5 6 7 8 9 - 1", "Copy LaTeX", "\\mathfrak{S}_{10,1,2,3,4,5,6,7,8,9} \\cdot \\mathfrak{S}_{1} = \\mathfrak{S}_{10,1,2,3,4,5,6,7,8,9}"),
    ("unrsk 1 12 - 1 2", "Copy CSV", "letter\r\n1\r\n12\r\n"),
    ("mult 12 -", "Copy LaTeX", "s_{(12)} \\cdot s_{\\emptyset} = s_{(12)}"),
    ("σ_{1} σ_{1} in Gr(2,4)", "Copy the value as LaTeX", "\\sigma_{(1)} \\cdot \\sigma_{(1)}\\ \\text{in}\\ H^{\\ast}(\\text{Gr}(2,4)) = \\sigma_{(2)} + \\sigma_{(1,1)}"),
    ("rsk 3 1 2", "Copy LaTeX", "% \\usepackage{ytableau}\nP = \\begin{ytableau} 1 & 2 \\\\ 3 \\end{ytableau},\n\\quad Q = \\begin{ytableau} 1 & 3 \\\\ 2 \\end{ytableau}\n\\quad \\text{for the word}\\ (3, 1, 2)"),
    ("rsk 3 1 2", "Copy for Sage", "P = Tableau([[1,2],[3]])\nQ = Tableau([[1,3],[2]])"),
    ("rsk 3 1 2", "Copy TSV", "number\ttableau\nP\t[[1,2],[3]]\nQ\t[[1,3],[2]]\n"),
    ("tab 2 1 / 1", "Copy LaTeX", "% \\usepackage{ytableau}\n\\text{the Littlewood--Richardson tableaux of shape}\\ (2,1)/(1) = \\{\\begin{ytableau} \\none & 1 \\\\ 1 \\end{ytableau},\n\\quad \\begin{ytableau} \\none & 1 \\\\ 2 \\end{ytableau}\\}"),
    ("tab 2 1 / 1", "Copy for Sage", "[SkewTableau([[None,1],[1]]),SkewTableau([[None,1],[2]])]"),
    ("K_{(3,1),(1^4)}", "Copy the value as LaTeX", "K_{(3,1),(1,1,1,1)} = 3"),
    ("growth 1", "Copy LaTeX", "\\text{the growth diagram of the permutation}\\ 1 = \\begin{array}{cc} \\emptyset & \\emptyset \\\\ \\emptyset & (1) \\end{array}"),
]

LONG = "mult 9 8 7 6 5 4 3 2 1 - 9 8 7 6 5 4 3 2 1 - 9 8 7 6 5 4 3 2 1"
