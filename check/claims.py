"""The commands of calc, as check/table reads them: their words, partitions, permutations, tableaux and expressions. An expression such as
2*s[2,1]-1/3*h[3] is read as a tree, with the names of `Phrase` of the definitions: ("numeral", "2"), ("ratio", "1", "3"),
("label", ("schurs",), ["2", "1"]), ("brackets", e), ("minus_first", e), ("operation", ("plus",), e, f)."""
import math
import operator
import re
from fractions import Fraction

BASES = {"m": "monomials", "e": "elementaries", "h": "completes", "p": "power_sums", "s": "schurs"}
SIGNS = {"+": "plus", "-": "minus", "*": "times"}
WORD = re.compile(r"[mehps]\[(?:[0-9]+(?:,[0-9]+)*)?\]|[0-9]+(?:/[0-9]+)?|.", re.S)


class Unreadable(Exception):
    """A text that is no table, or words that are no command."""


class Undecided(Exception):
    """What would take too long, or is not there, or cannot be read or computed; the text says what."""


class Wrong(Exception):
    """The table is not that of the command; the text gives the reason."""


def shown(label):
    """A label as calc prints it."""
    if label and isinstance(label[-1], tuple):
        return f"q^{label[0]}  {shown(label[1])}" if isinstance(label[0], int) else " ".join(map(shown, label))
    return "(" + ",".join(map(str, label)) + ")"


def numbers(words):
    for it in words:
        if not re.fullmatch("[0-9]{1,4000}", it):
            raise Unreadable(f"`{it[:20]}` is no number")
    return tuple(map(int, words))


def without_zeros(items):
    """The list without the zeros at its end."""
    return items[:max((at for at, it in enumerate(items, 1) if it), default=0)]


def partition(items):
    if any(a < b for a, b in zip(items, items[1:])):
        raise Unreadable(f"{shown(items)} is no partition")
    return without_zeros(items)


def permutation(items):
    """A permutation without fixed letters at its end, but with the letter 1."""
    if sorted(items) != list(range(1, len(items) + 1)) or not items:
        raise Unreadable(f"{shown(items)} is no permutation")
    return items[:max((at for at, it in enumerate(items, 1) if it != at), default=1)]


def inversions(items):
    return sum(a > b for i, a in enumerate(items) for b in items[i + 1:])


def split(words, mark):
    """The lists of words between the marks."""
    ends = [at for at, it in enumerate(words) if it == mark] + [len(words)]
    return [words[start + 1:end] for start, end in zip([-1, *ends], ends)]


def rows_of(words):
    """The rows of a tableau; one that is skew may have empty rows."""
    parts = split(words, "/")
    if not all(parts):
        raise Unreadable("a row of a tableau is missing")
    return tuple(() if it == ["."] else numbers(it) for it in parts) if parts != [["."]] else ()


def tree_of(text):
    """The tree of an expression; Unreadable says where the text is none."""
    words = WORD.findall(text)[::-1]

    def fail():
        raise Unreadable(f"the expression {text} cannot be read {len(''.join(words).encode())} bytes before its end")

    def joined(signs, read, found):
        while words and words[-1] in signs:
            found = "operation", (SIGNS[words.pop()],), found, read()
        return found

    def sum_here():
        is_minus = words[-1:] == ["-"] and words.pop()
        return joined("+-", product, ("minus_first", product()) if is_minus else product())

    def product():
        return joined("*", factor, factor())

    def factor():
        word = words.pop() if words and re.match(r"[(0-9]|.\[", words[-1]) and not re.search("/0+$", words[-1]) else fail()
        if word == "(":
            found = "brackets", sum_here()
            return found if words[-1:] == [")"] and words.pop() else fail()
        if word[-1] == "]":
            return "label", (BASES[word[0]],), re.findall("[0-9]+", word)
        return ("ratio", *word.split("/")) if "/" in word else ("numeral", word)
    found = sum_here()
    return fail() if words else found


def fold(tree, of_number, of_label, plus, minus, times=operator.mul):
    """The value of an expression, from those of its numbers and labels and the functions of +, - and *."""
    kind, *parts = tree
    if kind in ("numeral", "ratio"):
        return of_number(Fraction(*numbers(parts)))
    if kind == "label":
        return of_label(next(letter for letter, name in BASES.items() if name == parts[0][0]), partition(numbers(parts[1])))
    values = [fold(it, of_number, of_label, plus, minus, times) for it in parts if len(it) > 1]
    if kind == "brackets":
        return values[0]
    return minus(of_number(Fraction(0)), values[0]) if kind == "minus_first" else {"plus": plus, "minus": minus, "times": times}[parts[0][0]](*values)


def degree(tree):
    return fold(tree, lambda it: 0, lambda basis, parts: sum(parts), max, max, operator.add)


PARTITION, PERMUTATION, EXPRESSION = (lambda it: partition(numbers(it))), (lambda it: permutation(numbers(it))), (lambda it: tree_of(it[0]))
# the name of a command: the kind of its labels, the sign between its parts, the least and the greatest number of these, and what reads a part
COMMANDS = {
    "mult": ("partition", "-", 2, 8, PARTITION), "skew": ("partition", "/", 2, 2, PARTITION),
    "coef": ("number", "-", 3, 3, PARTITION), "coprod": ("pair", "-", 1, 1, PARTITION),
    "quantum": ("power", "-", 2, 8, PARTITION), "fusion": ("partition", "-", 2, 8, PARTITION),
    "schubert": ("monomial", "-", 1, 1, PERMUTATION), "schubmult": ("permutation", "-", 2, 2, PERMUTATION),
    "dschubmult": ("shift", "-", 2, 2, PERMUTATION), "stanley": ("partition", "-", 1, 1, PERMUTATION),
    "expand": ("partition", None, 1, 1, EXPRESSION), "plethysm": ("partition", None, 2, 2, EXPRESSION),
    "tab": ("text", "-from", 2, 3, rows_of), "rect": ("text", "-", 3, 3, rows_of), "unrsk": ("text", "-", 2, 2, rows_of),
    "rsk": ("text", "-", 1, 1, numbers), "growth": ("text", "-", 1, 1, PERMUTATION),
}


class Claim:
    """A command: what a table is said to be. `data` are its partitions, permutations, expressions or tableaux, `kind` that of the labels."""

    def __init__(self, words):
        if not words or words[0] not in COMMANDS:
            raise Unreadable("which command is this the answer to? For example: check/table 'mult 2 1 - 2 1' FILE")
        self.words, self.name, rest = words, words[0], words[1:]
        self.kind, sign, least, most, read = COMMANDS[self.name]
        self.basis, self.sizes, self.variables, self.is_line = "s", (), None, False
        if self.name in ("mult", "skew", "stanley") and rest[:1] == ["-r"]:
            self.variables, rest = numbers(rest[1:2])[0] if rest[1:] else 0, rest[2:]
        if self.name in ("mult", "skew", "expand") and rest[:1] == ["-m"]:
            self.is_line, rest = True, rest[1:]
        if self.name in ("quantum", "fusion"):
            self.sizes, rest = numbers(rest[:2]), rest[2:]
        if self.name in ("expand", "plethysm"):
            self.basis, rest = (rest or [""])[0], rest[1:]
        parts = split(rest, sign) if sign else [[it] for it in rest]
        shape = [partition(numbers(it)) for it in split(parts.pop(0), "/")] if self.name in ("tab", "rect") else []
        self.data = shape + [read(it) for it in parts]
        if not least <= len(self.data) <= most or self.basis not in BASES or 0 in self.sizes or self.variables == 0 or len(shape) not in (0, 2) \
                or len(self.sizes) != 2 * (self.name in ("quantum", "fusion")) or self.name == "stanley" and not self.variables:
            raise Unreadable(f"`{' '.join(words)}` is no command")

    def degree(self):
        """The degree of both sides, or a bound for it."""
        if self.name in ("expand", "plethysm"):
            return math.prod(map(degree, self.data))
        if self.name in ("schubert", "schubmult", "dschubmult"):
            return sum(len(it) ** 2 for it in self.data)
        if self.name == "stanley":
            return inversions(self.data[0])
        return sum(self.data[0]) - sum(self.data[1]) if self.name == "skew" else sum(map(sum, self.data))
