"""What the page copies of an answer, read back: LaTeX by pdflatex, Python by the package, Sage by a stand-in for the names that Sage has, and tables by
Python's csv. Each reader has to come to the list that the program printed; `tried` counts them for the scripts of a page."""
import csv
import io
import json
import os
import re
import shutil
import subprocess
import sys
import tempfile
from fractions import Fraction

TOP = os.path.join(os.path.dirname(os.path.abspath(__file__)), "..")

# Answers of all kinds: of each command some, with options, with the empty partition, with zero, fractions, signs, numbers of several digits.
LINES = """mult 2 1 - 2 1
mult -m 2 1 - 2 1
mult -r 2 2 1 - 2 1
mult 1 - 1 - 1
mult - 12
mult -r 1 1 1 - 1
mult 4 3 2 1 - 3 2 1
skew 3 2 1 / 2 1
skew -r 2 3 2 / 1
skew 5 5 / 5 5
coef 3 2 1 - 2 1 - 2 1
coef 2 - 1 1 - 1
coprod 2 1
coprod 11
quantum 2 2 2 1 - 2 1
quantum 2 3 1 - 1 - 1 - 1
fusion 3 2 2 1 - 2 1
schubert 2 1 4 3
schubert 1 2
schubert 1 4 3 2
schubert 1 2 3 4 5 6 7 8 9 11 10
schubmult 1 3 2 - 1 3 2
schubmult 10 1 2 3 4 5 6 7 8 9 - 1
dschubmult 2 1 - 2 1
dschubmult 1 3 2 - 1 3 2
stanley -r 2 2 1 4 3
stanley -r 4 4 3 2 1
expand p s[2,1]
expand -m p s[2,1]
expand h s[2,1]*h[2]-1/2*e[3,1]
expand s 3
expand s h[2]-h[2]
expand m s[3,1]
plethysm s h[2] h[3]
plethysm p p[2] h[2]+2*e[2]
tab 3 2 1 / 2 1
tab 2 2 / 1
tab 3 2 1 / 2 1 -from 1 / 1 / 2
tab 2 1 / 2 1
tab 2 1 / 2
rsk 3 1 2
rsk 12 3 3 1
unrsk 1 2 / 3 - 1 3 / 2
rect 2 2 / 1 - 1 / 1 2
growth 3 1 2
growth 1""".splitlines()


def copies_of(build, lines, printed):
    """The copies of the answers to these lines."""
    with tempfile.TemporaryDirectory() as room:
        with open(f"{room}/script.js", "w", encoding="utf-8") as file:
            file.write(build.script_of(build.READING))
        with open(f"{room}/answers.json", "w", encoding="utf-8") as file:
            json.dump([[line, printed(line)] for line in lines], file)
        done = subprocess.run(["node", f"{TOP}/tests/page_copies.mjs", f"{room}/script.js", f"{room}/answers.json"], capture_output=True, text=True)
    if done.returncode:
        raise SystemExit(done.stderr[-600:])
    return json.loads(done.stdout)


# ---- what the program printed


def label(text):
    return tuple(int(it) for it in text.strip("()").split(",") if it)


def printed_terms(text):
    """The terms of a block or of a line: of each the numbers of its labels and its power of q, and its coefficient."""
    if text == "0\n":
        return []
    if "  " not in text:
        found = re.findall(r"([+-]?)(?:([\d/]+)\*)?[a-z]\[([\d,]*)\]", text)
        return [((label(numbers),), Fraction((sign + size) if size else f"{sign}1")) for sign, size, numbers in found]
    terms = []
    for line in text.splitlines():
        coefficient, rest = line.split("  ", 1)
        power = re.match(r"q\^(\d+)  ", rest)
        labels = tuple(map(label, re.findall(r"\([\d,]*\)", rest)))
        terms.append((((int(power[1]),) if power else ()) + labels, Fraction(coefficient)))
    return terms


def is_of_terms(line):
    return line.split()[0] in ("mult", "skew", "coprod", "quantum", "fusion", "schubert", "schubmult", "dschubmult", "stanley", "expand", "plethysm")


# ---- Python


def by_python(copies, program):
    """The copied text for Python runs, with an assertion that the package computes the same; its terms are those that the program printed."""
    made = "import json, sys\nfound = []\n"
    for it in copies:
        made += it["python"] + "found.append([[repr(label), str(c)] for label, c in answer.items()] if hasattr(answer, 'items') else str(answer))\n"
    env = {**os.environ, "PYTHONPATH": f"{TOP}/python", "YORQANISH_CALC": program, "PYTHONDONTWRITEBYTECODE": "1"}
    done = subprocess.run([sys.executable, "-c", made + "print(json.dumps(found))"], capture_output=True, text=True, env=env)
    if done.returncode:
        return done.stderr[-600:]
    for it, found in zip(copies, json.loads(done.stdout)):
        if is_of_terms(it["line"]):
            got = [(eval(name, {}), Fraction(c)) for name, c in found]
            wanted = [(key if len(key) > 1 else key[0], c) for key, c in printed_terms(it["text"])]
            if got != wanted:
                return f"{it['line']}: {got}, not {wanted}"
        elif it["line"].startswith("coef") and found != it["text"].strip():
            return f"{it['line']}: {found}"
    return ""


# ---- Sage


class Formal:
    """A sum of terms as far as the right sides use it."""

    def __init__(self, terms):
        self.terms = terms

    def __add__(self, other):
        return Formal(self.terms + as_formal(other).terms)

    def __sub__(self, other):
        return self + -1 * as_formal(other)

    def __rmul__(self, number):
        return Formal([(key, c * number) for key, c in self.terms])

    def __neg__(self):
        return -1 * self


def as_formal(value):
    return value if isinstance(value, Formal) else Formal([((), Fraction(value))] if value else [])


class Power:
    """The variable q, and its powers with a coefficient."""

    def __init__(self, number=1, c=Fraction(1)):
        self.number, self.c = number, c

    def __pow__(self, number):
        return Power(number)

    def __rmul__(self, c):
        return Power(self.number, self.c * c)

    def __mul__(self, other):
        return Formal([((self.number,) + key, self.c * c) for key, c in other.terms])


class Known:
    """What a left side calls: everything, with any result. Sage computes it."""

    def __call__(self, *_, **__):
        return self

    __add__ = __sub__ = __mul__ = __rmul__ = __radd__ = __rsub__ = __neg__ = __call__

    def __getattr__(self, name):
        if name not in ("skew_by", "coproduct", "coefficient", "plethysm", "restrict_partition_lengths"):
            raise AttributeError(name)
        return self


def evaluated(text, names):
    return eval(re.sub(r"(\d+)/(\d+)", r"Fraction(\1,\2)", text).replace("^", "**"), {"__builtins__": {}}, {**names, "Fraction": Fraction})


def one(labels):
    return Formal([(tuple(map(tuple, labels)), Fraction(1))])


def polynomial(text):
    """The terms of a polynomial in x0, x1, .. as they are written."""
    terms = re.findall(r"([+-]?\d+)\*(1|x[^+-]+)", text)
    return [((tuple(trimmed(int(it.split("^")[1]) for it in monomial.split("*") if "^" in it)),), Fraction(c)) for c, monomial in terms]


def by_sage(copies):
    """The right side of the text for Sage, with names that stand for Sage's, is the list that was printed; its left side can be read."""
    for it in copies:
        if it["sage"] is None or not is_of_terms(it["line"]):
            continue
        *names, last = it["sage"].split("\n")
        left, _, right = last.rpartition(" == ")
        if it["line"].startswith("schubert "):
            got = polynomial(right)
        else:
            evaluated(left or "0", {**dict.fromkeys("mehpsX", Known()), "tensor": Known()})
            known = {name: lambda parts: one([parts]) for name in "mehpsX"}
            got = as_formal(evaluated(right, {**known, "tensor": lambda pair: one([of.terms[0][0][0] for of in pair]), "q": Power()})).terms
            unnamed = [name for name in re.findall(r"\b([mehpsX])\(", last) if not any(re.search(rf"\b{name} = ", of) for of in names)]
            if unnamed:
                return f"{it['line']}: {unnamed} in {it['sage']}"
        if got != printed_terms(it["text"]):
            return f"{it['line']}: {got}, not {printed_terms(it['text'])}"
    return ""


# What Sage says of each text: of an equation whether both sides are equal, of terms their list, and nothing of other values.
ASKED_OF_SAGE = """
import json, sys
from sage.all import *
from sage.repl.preparse import preparse
def terms(value, line):
    found = value.dict() if line.startswith("schubert ") and hasattr(value, "dict") else getattr(value, "monomial_coefficients", dict)()
    if line.startswith("quantum "):
        return sorted([[int(power), *map(int, key)], str(c)] for key, all_ in found.items() for power, c in all_.dict().items())
    return sorted([list(map(int, key)), str(c)] for key, c in found.items())
said = []
for line, text, is_of_terms in json.load(open(sys.argv[1])):
    *names, last = text.split("\\n")
    room = dict(globals())
    for name in names:
        exec(preparse(name), room)
    if " == " in last:
        said.append(bool(eval(preparse(last), room)))
    elif is_of_terms:
        said.append(terms(eval(preparse(last), room), line))
    else:
        exec(preparse(last), room)
        said.append(None)
print(json.dumps(said))
"""


def by_sage_itself(copies):
    """Sage reads each text: of an equation both sides are equal by its own computing, and of others the terms are those that were printed."""
    copies = [it for it in copies if it["sage"] is not None]
    with tempfile.TemporaryDirectory() as room:
        with open(f"{room}/texts.json", "w", encoding="utf-8") as file:
            json.dump([[it["line"], it["sage"], is_of_terms(it["line"])] for it in copies], file)
        done = subprocess.run(["sage", "-python", "-c", ASKED_OF_SAGE, f"{room}/texts.json"], capture_output=True, text=True, stdin=subprocess.DEVNULL)
    if done.returncode:
        return done.stderr[-600:]
    for it, said in zip(copies, json.loads(done.stdout.splitlines()[-1])):
        if isinstance(said, list):
            # (a label has the numbers of its power of q and of its partition)
            wanted = sorted([[*([key[0], *key[1]] if it["line"].startswith("quantum") else key[0])], str(c)] for key, c in printed_terms(it["text"]))
            if sorted([trimmed(key) if it["line"].startswith("schubert") else key, c] for key, c in said) != wanted:
                return f"{it['line']}: {said}, not {wanted}"
        elif said is False:
            return f"{it['line']}: its sides are not equal"
    return ""


def trimmed(numbers):
    numbers = list(numbers)
    while numbers and numbers[-1] == 0:
        numbers.pop()
    return numbers


# ---- tables


def by_csv(copies):
    """A table has the labels and coefficients that were printed, each term in a row."""
    for it in copies:
        if not is_of_terms(it["line"]):
            continue
        head, *rows = csv.reader(io.StringIO(it["csv"], newline=""))
        labels, power = [i for i, name in enumerate(head) if "label" in name], head.index("power of q") if "power of q" in head else None
        got = [((((int(row[power]),) if power is not None else ()) + tuple(label(row[i].strip("[]")) for i in labels)), Fraction(row[head.index("coefficient")])) for row in rows]
        if got != printed_terms(it["text"]):
            return f"{it['line']}: {got}"
    return ""


# ---- LaTeX

DOCUMENT = r"""\documentclass{article}
\usepackage{amsmath,amssymb,ytableau,tikz}
\usetikzlibrary{svg.path}
\begin{document}
%s
\end{document}
"""


def has_latex():
    """Whether pdflatex is here with the packages that the copies name."""
    packages = ("amsmath.sty", "ytableau.sty", "tikz.sty")
    found = subprocess.run(["kpsewhich", *packages], capture_output=True, text=True).stdout.split() if shutil.which("pdflatex") else []
    return len(found) == len(packages)


def compiled(bodies):
    """What pdflatex says of a document with these pieces; nothing, if it makes one."""
    with tempfile.TemporaryDirectory() as room:
        with open(f"{room}/copied.tex", "w", encoding="utf-8") as file:
            file.write(DOCUMENT % "\n\n".join(bodies))
        done = subprocess.run(["pdflatex", "-halt-on-error", "-interaction=nonstopmode", "copied.tex"], cwd=room, capture_output=True, text=True, errors="replace")
        return "" if done.returncode == 0 and os.path.exists(f"{room}/copied.pdf") else done.stdout[-900:]


def by_latex(copies):
    """The copied LaTeX of all these answers is compiled."""
    return compiled([f"\\[\n{it['latex']}\n\\]" for it in copies])


def examples(build, printed):
    """Each command has a text on what is proved, and its example, which is written by hand, is the equation of its line."""
    theorems = build.command_help.theorems()
    missing = set(build.command_help.manual.COMMANDS) - set(theorems) - {"batch", "work"}
    lines = [it["example"][0] for it in theorems.values() if "example" in it]
    for it, copies in zip((it for it in theorems.values() if "example" in it), copies_of(build, lines, printed)):
        if copies["equation"] != it["example"][1]:
            return f"{it['example']}: {copies['equation']}"
    return str(missing or "")


def latex_label(text):
    """The numbers of the labels of a term in LaTeX, with its power of q, if it has one."""
    indices = [label(it.replace("\\emptyset", "()")) for it in re.findall(r"(?:[mehps]|\\sigma)_\{(\([\d,]*\)|\\emptyset)\}", text)]
    letters = [tuple(map(int, it.split(",") if "," in it else it)) for it in re.findall(r"\\mathfrak\{S\}_\{([\d,]+)\}", text)]
    powers = {int(i): int(e or 1) for i, e in re.findall(r"[xy]_\{(\d+)\}(?:\^\{(\d+)\})?", text)}
    monomial = tuple(powers.get(i, 0) for i in range(1, max(powers, default=0) + 1))
    return tuple(indices or letters), monomial


def by_latex_read(copies):
    """The right side of the copied LaTeX, read by another reader, is the list that was printed."""
    for it in copies:
        if not is_of_terms(it["line"]):
            continue
        name, right = it["line"].split()[0], it["latex"].split(" = ", 1)[1].split("\\quad")[0].replace("\n", " ")
        got = []
        for sign, text in re.findall(r"(?:^|\s)([+-]?)\s*((?:[^\s+-]|\s+(?![+-]))+)", right):
            number = re.match(r"\\frac\{(\d+)\}\{(\d+)\}|(\d+)", text)
            size = Fraction(1) if not number else Fraction(int(number[1]), int(number[2])) if number[1] else Fraction(number[3])
            labels, monomial = latex_label(text)
            power = re.search(r"(?<![a-z\\])q(?:\^\{(\d+)\})?", text)
            key = (monomial,) if name == "schubert" else (*labels, monomial) if name == "dschubmult" else labels
            key = ((int(power[1] or 1) if power else 0,) if name == "quantum" else ()) + key
            got += [(key, -size if sign == "-" else size)] if text.strip() != "0" else []
        if got != printed_terms(it["text"]):
            return f"{it['line']}: {got}, not {printed_terms(it['text'])}"
    return ""


def tried(tally, build, printed, program):
    """All readers, counted."""
    copies = copies_of(build, LINES, printed)
    tally.count("copies: all answers have them", "" if all(copies) and len(copies) >= 40 else str([line for line, it in zip(LINES, copies) if not it]))
    copies = [it for it in copies if it]
    tally.count("copies: the examples of the theorems", examples(build, printed))
    tally.count("copies: read back by the package", by_python(copies, program))
    tally.count("copies: read back as Sage's names", by_sage(copies))
    if os.path.exists("/usr/bin/sage"):
        tally.count("copies: computed by Sage", by_sage_itself(copies))
    else:
        tally.skip("copies, computed by Sage", "/usr/bin/sage")
    tally.count("copies: tables", by_csv(copies))
    tally.count("copies: LaTeX read back", by_latex_read(copies))
    if has_latex():
        tally.count("copies: LaTeX", by_latex(copies))
    else:
        tally.skip("the LaTeX of answers", "pdflatex (texlive-science, texlive-pictures)")
