"""Parents and their elements. A parent has its labels and its product, which is asked of `calc`; an element is a parent and terms, also as one of Sage."""
from __future__ import annotations

import json
import sys
import weakref
from collections import Counter
from collections.abc import Mapping as AnyMapping
from contextlib import suppress
from fractions import Fraction
from functools import lru_cache, reduce
from numbers import Rational
from operator import mul
from typing import Any, Callable, Dict, Generic, ItemsView, Iterable, Iterator, KeysView, List, Mapping, NamedTuple, Optional, SupportsIndex, Tuple, Union, ValuesView, cast

from ._arguments import Coefficient, Fixed, Label, Numbers, integer, ratio, whole
from ._commands import TABLE, typed
from ._kinds import DOUBLE, MONOMIALS, PAIRS, PERMUTATIONS, QUANTUM, SYMMETRIC, Kind, Number, added, atom, term

# The bases of the ring of symmetric functions, between which elements are converted.
BASES = ("s", "p", "h", "e", "m")
# Sage's names of them, and the number of variables of its ring for Schubert polynomials of `calc`, which have at most so many.
OF_SAGE, VARIABLES = dict(zip(("Schur", "powersum", "homogeneous", "elementary", "monomial"), BASES)), 16
# What an element can be multiplied by: exact numbers of any package.
Scalar = Union[SupportsIndex, Rational]
# A list of more terms is shown by its first and last ones in a notebook.
MOST_SHOWN, SHOWN_AT_END = 60, 5


class Form(NamedTuple):
    """What is known of a parent by its name. By its numbers one knows the command of its products, and whether a label is one of its basis."""

    written: str
    kind: Kind
    letter: str
    command: Callable[..., str] = "".format
    numbers: Tuple[str, ...] = ()
    fits: Callable[..., Any] = lambda label: True


FORMS: Dict[str, Form] = {
    **{letter: Form(f"calc.{letter}", SYMMETRIC, letter) for letter in "phe"},
    "s": Form("calc.s", SYMMETRIC, "s", "mult".format),
    "m": Form("calc.m", SYMMETRIC, "m", "expand m".format),
    "in_variables": Form("calc.s.in_variables({})", SYMMETRIC, "s", "mult -r {}".format, ("rows",), lambda rows, it: len(it) <= rows),
    "quantum_ring": Form("calc.quantum_ring({}, {})", QUANTUM, "s", "quantum {} {}".format, ("rows", "cols"), lambda rows, cols, it: len(it[1]) <= rows and sum(it[1][:1]) <= cols),
    "cohomology": Form("calc.cohomology({}, {})", SYMMETRIC, "s", lambda rows, n: f"quantum {rows} {n - rows}", ("rows", "dimension"), lambda rows, n, it: len(it) <= rows and sum(it[:1]) <= n - rows),
    "fusion_ring": Form("calc.fusion_ring({}, {})", SYMMETRIC, "s", "fusion {} {}".format, ("rows", "level"), lambda rows, level, it: len(it) <= rows and sum(it[:1]) - sum(it[rows - 1 :]) <= level),
    "X": Form("calc.X", PERMUTATIONS, "X", "schubmult".format),
    "double_X": Form("calc.schubert_ring(double=True)", DOUBLE, "X", "dschubmult".format),
    "monomials": Form("calc.monomials", MONOMIALS, "x"),
    "tensor_square": Form("calc.s.tensor_square()", PAIRS, "s"),
}


class Home:
    """The Calculator of parents, or, if nobody has it any more, one like it. (Elements do not keep the Calculator, whose processes end with it.)"""

    def __init__(self, arguments: Any = (None, None, None, None), calculator: Any = None) -> None:
        self.arguments, self._calculator = arguments, weakref.ref(calculator) if calculator else None
        self.known: Dict[Any, Parent[Any]] = {}

    def __call__(self) -> Any:
        from ._calculator import Calculator

        return self._calculator and self._calculator() or Calculator._opened(*self.arguments)

    def parent(self, name: str, *numbers: Any) -> Parent[Any]:
        if name not in FORMS or len(numbers) != len(FORMS[name].numbers):
            raise ValueError(f"{(name, *numbers)!r} is no parent")
        key = name, tuple(map(whole, numbers, FORMS[name].numbers))
        return self.known.get(key) or self.known.setdefault(key, Parent(self, *key))


# The home of what was pickled, and of the answers of a batch.
home_of = lru_cache(None)(Home)


class Parent(Fixed, Generic[Label]):
    """Where elements live. Its elements are made of a label, as in `calc.s[2, 1]`, of a number, of a mapping from labels to coefficients, and of elements
    of other parents if that is exact: as python/README.md says, and else a TypeError that names both.
    >>> s, p = Calculator().s, Calculator().p
    >>> s[2, 1] * s[1], s([2, 1]) == s[2, 1], s(3) == 3 * s[()]
    (Expansion(calc.s, {(3, 1): 1, (2, 2): 1, (2, 1, 1): 1}), True, True)
    >>> p(s[2]), s.in_variables(1)(s[1, 1] + s[2])
    (Expansion(calc.p, {(2,): Fraction(1, 2), (1, 1): Fraction(1, 2)}), Expansion(calc.s.in_variables(1), {(2,): 1}))"""

    __slots__ = ("name", "numbers", "home", "form", "kind", "__weakref__")

    name: str
    numbers: Numbers
    home: Home
    form: Form
    kind: Kind

    def __init__(self, home: Home, name: str, numbers: Numbers = ()) -> None:
        if hasattr(self, "name"):
            raise AttributeError("a parent does not change")
        if name == "cohomology" and numbers[1] <= numbers[0]:
            raise ValueError(f"cohomology: in Gr(K, N), N = {numbers[1]} is not greater than K = {numbers[0]}")
        for slot, value in zip(self.__slots__, (name, numbers, home, FORMS[name], FORMS[name].kind)):
            object.__setattr__(self, slot, value)

    def __reduce__(self) -> Tuple[Any, ...]:
        return Parent._of, (self.home.arguments, self.name, *self.numbers)

    @classmethod
    def _of(cls, arguments: Any, name: str, *numbers: int) -> Parent[Any]:
        return home_of(arguments).parent(name, *numbers)

    def __repr__(self) -> str:
        return self.form.written.format(*self.numbers)

    def __eq__(self, other: object) -> bool:
        return self is other or isinstance(other, Parent) and (self.name, self.numbers) == (other.name, other.numbers)

    def __hash__(self) -> int:
        return hash((self.name, self.numbers))

    def __getitem__(self, label: Any) -> Expansion[Label, int]:
        return Expansion.from_pairs(self, [(self.kind.of(label if integer(label) is None else (label,)), 1)])

    def __call__(self, value: Any) -> Expansion[Label, Any]:
        if isinstance(value, Expansion):
            return self._converted(value)
        if ratio(value):
            return Expansion._made({self.kind.one: exact(value)} if exact(value) else {}, self)
        if basis_of(value):
            return self._converted(Expansion(self.home.parent(str(basis_of(value))), value.monomial_coefficients()))
        if hasattr(value, "keys") and not isinstance(value, AnyMapping):
            # (a column of pandas could be the parts of a label, or coefficients by their labels)
            raise TypeError(f"{self}: {value!r} has keys, but is no mapping; a list of it is a label, and a dict of it has terms")
        return Expansion(self, value) if isinstance(value, AnyMapping) else self[value]

    def _converted(self, x: Expansion[Any, Any]) -> Expansion[Label, Any]:
        if x.parent == self:
            return Expansion._made(x._terms, self)
        if self.name in BASES and x.parent.name in BASES:
            return cast("Expansion[Label, Any]", self.home().expand(self.name, x))
        if self.name == "in_variables" and x.parent.name in BASES:
            return Expansion._made({label: c for label, c in x.to("s") if self.form.fits(*self.numbers, label)}, self)
        if self.name == "cohomology" and x.parent.name == "quantum_ring" and x.parent.command == self.command:
            return Expansion._made({label: c for (power, label), c in x if not power}, self)
        raise TypeError(f"an element of {x.parent} is none of {self}, which is another ring")

    def zero(self) -> Expansion[Label, int]:
        return self(0)

    def one(self) -> Expansion[Label, int]:
        return self(1)

    @property
    def q(self) -> Expansion[Label, int]:
        """The variable q of a quantum cohomology."""
        if self.name != "quantum_ring":
            raise AttributeError(f"{self} has no q")
        return Expansion(self, {(1, ()): 1})

    def in_variables(self, rows: SupportsIndex) -> Parent[Numbers]:
        """Symmetric polynomials in K variables, in Schur polynomials: the parent of answers with `rows=K`."""
        return self._beside("in_variables", rows)

    def tensor_square(self) -> Parent[Tuple[Numbers, Numbers]]:
        """Where coproducts live. It has no product here."""
        return self._beside("tensor_square")

    def _beside(self, name: str, *numbers: Any) -> Parent[Any]:
        if self.name != "s":
            raise TypeError(f"{name} is of calc.s, and not of {self}")
        return self.home.parent(name, *numbers)

    def given(self, pairs: Iterable[Tuple[Any, Any]]) -> Dict[Any, Number]:
        """The terms of pairs of a label and a coefficient, without those whose coefficient is 0. A label is given once."""
        found: Dict[Any, Number] = {}
        for given_as, c in pairs:
            label = self.kind.find(given_as)
            if label in found:
                raise ValueError(f"the label {label!r} is given twice")
            if not self.form.fits(*self.numbers, label):
                raise ValueError(f"the label: {given_as!r} is none of {self}")
            found[label] = exact(c)
        return {label: c for label, c in found.items() if c}

    @property
    def command(self) -> str:
        """The words before the factors."""
        return self.form.command(*self.numbers)

    def product(self, left: Dict[Any, Number], right: Dict[Any, Number]) -> Dict[Any, Number]:
        """The product of the terms of two elements."""
        if self.name in ("p", "h", "e", "monomials"):
            # (by definition; all else is asked)
            factors = [((a, b), c * d) for a, c in left.items() for b, d in right.items()]
            return summed((added(a, b) if self.name == "monomials" else tuple(sorted(a + b, reverse=True)), c) for (a, b), c in factors)
        if not self.command:
            raise TypeError(f"{self} has no product here")
        return summed(self._asked(left, right))

    def _asked(self, left: Dict[Any, Number], right: Dict[Any, Number]) -> Iterator[Tuple[Any, Number]]:
        """The terms of the products of basis elements, each of which is asked once; with them is multiplied what is beside their factors. Lines are
        counted before they are read, since most of them come again and again."""
        words, apart, in_m = self.command, self.kind.apart, self.name == "m"
        rights = [(*apart(b), d) for b, d in right.items()]
        weights: Dict[Tuple[Any, Any], Number] = {}
        for (first, before), c in ((apart(a), c) for a, c in left.items()):
            for second, behind, d in rights:
                beside = added(before, behind) if isinstance(before, tuple) else before + behind
                key = (first, second) if first <= second else (second, first), beside
                weights[key] = weights.get(key, 0) + c * d
        pairs = list(dict.fromkeys(pair for pair, _ in weights))
        lines = [f"{words} {atom('m', a)}*{atom('m', b)}" if in_m else typed((words, *a, "-", *b)) for a, b in pairs]
        texts, together = dict(zip(pairs, self.home()._desk(None).texts(lines))), cast("Dict[Any, List[str]]", {})
        for (pair, beside), weight in weights.items():
            together.setdefault((beside, weight), []).append(texts[pair])
        for (beside, weight), them in together.items():
            for line, count in Counter("".join(them).splitlines()).items():
                if line != "0":
                    label, c = term(line)
                    if self.name == "cohomology":
                        c, label = 0 if label[0] else c, label[1]
                    yield self.kind.times(label, beside) if beside else label, c * weight * count


def summed(pairs: Iterable[Tuple[Any, Any]], start: Any = ()) -> Dict[Any, Any]:
    """The sums of the numbers at each label."""
    table = dict(start)
    for label, c in pairs:
        table[label] = table.get(label, 0) + c
    return table


def parent_of(home: Home, line: List[Any]) -> Parent[Any]:
    """The parent of the answer to the words of a command that answers with a list of terms."""
    name, numbers = ANSWERS[line[0]] or line[1], line[1:3]
    if line[1:2] == ["-r"]:
        name, numbers = "in_variables", line[2:3]
    key = name, tuple(map(int, numbers)) if FORMS[name].numbers else ()
    return home.known.get(key) or home.parent(name, *key[1])


# The parents of these lists; those of `expand` and `plethysm` are named by the next word.
ANSWERS = {name: row["parent"] for name, row in TABLE["commands"].items() if "parent" in row}


def is_element(value: Any) -> bool:
    """Whether a value is an element of one of Sage's parents; there is none where Sage is not loaded."""
    structure = sys.modules.get("sage.structure.element")
    return structure is not None and isinstance(value, structure.Element)


def basis_of(value: Any) -> Optional[str]:
    """The basis that an element is in, if it is one of Sage's symmetric functions in a basis of `calc`."""
    name = getattr(value.parent(), "basis_name", None) if is_element(value) else None
    return OF_SAGE.get(name()) if callable(name) else None


def exact(value: Any) -> Number:
    """A coefficient of any exact type: an `int` if it is whole."""
    if type(value) is int:
        return value
    parts = ratio(value)
    if parts is None:
        raise TypeError(f"{value!r} is not an exact number")
    return parts[0] // parts[1] if parts[0] % parts[1] == 0 else Fraction(*parts)


def _scalar(value: Any) -> Optional[Number]:
    """The exact number that a value is; nothing, if it is numpy, pandas or Sage that does the operation, and has a number that is exact."""
    if ratio(value):
        return exact(value)
    base = getattr(value.parent(), "base_ring", None) if is_element(value) else None
    is_exact = getattr(base(), "characteristic", int)() == 0 if callable(base) else is_element(value) or hasattr(type(value), "__array_ufunc__")
    if not is_exact:
        raise TypeError(f"{value!r} is not an exact number")
    return None


class Expansion(Fixed, Generic[Label, Coefficient]):
    """An element of a parent: labels and their coefficients, in the order in which `calc` prints them. It does not change.

    A label is a tuple of numbers; in a coproduct a pair of partitions, in a quantum product the exponent of q and a partition, in a product of double
    Schubert polynomials a permutation and the exponents of y. One that is not in the list has the coefficient 0; what is no label is an error.
    >>> s = Calculator().s
    >>> a = Expansion(s, {(2,): 1, (1, 1): 1})
    >>> a, a == s[1] ** 2, list(a)
    (Expansion(calc.s, {(2,): 1, (1, 1): 1}), True, [((2,), 1), ((1, 1), 1)])
    >>> print(2 * a - s[2] / 3 + 1)
    5/3*s[2]+2*s[1,1]+s[]

    Elements of one parent are added, multiplied and compared, also with numbers and mappings, and those of two bases added and multiplied in the left
    one. Between other parents there is no operation: it is a TypeError."""

    __slots__ = ("parent", "_terms", "__weakref__")

    parent: Parent[Label]
    _terms: Dict[Any, Any]

    def __new__(cls, parent: Union[Parent[Label], Expansion[Label, Any]], terms: Optional[Mapping[Any, Any]] = None) -> Expansion[Label, Any]:
        if isinstance(parent, Expansion) and terms is None:
            return parent
        if not isinstance(parent, Parent) or not isinstance(terms, (AnyMapping, Expansion)):
            raise TypeError("an element is made of a parent and a mapping, as in Expansion(calc.s, {(2, 1): 1}), or by from_pairs")
        return parent(terms) if isinstance(terms, Expansion) else cls.from_pairs(parent, terms.items())

    @staticmethod
    def from_pairs(parent: Parent[Label], pairs: Iterable[Tuple[Any, Any]]) -> Expansion[Label, Any]:
        """The element of pairs of a label and a coefficient. A label that is given twice is an error."""
        return Expansion._ordered(parent.given(pairs), parent)

    @classmethod
    def _made(cls, terms: Dict[Any, Any], parent: Parent[Any]) -> Expansion[Any, Any]:
        """An element of terms that are known to be of this parent and in its order."""
        made, put = object.__new__(cls), object.__setattr__
        put(made, "_terms", terms)
        put(made, "parent", parent)
        return made

    @staticmethod
    def _ordered(terms: Dict[Any, Any], parent: Parent[Any]) -> Expansion[Any, Any]:
        """An element of terms in any order."""
        labels = sorted([label for label, c in terms.items() if c], key=parent.kind.order)
        return Expansion._made({label: exact(terms[label]) for label in labels}, parent)

    @staticmethod
    def _read(text: str, parent: Parent[Any]) -> Expansion[Any, Any]:
        """The element of a list of terms that `calc` has printed."""
        lines = text.splitlines() if text != "0\n" else []
        terms = dict(map(term, lines))
        if not text or len(terms) != len(lines):
            raise ValueError(f"{text!r} is not a list of terms")
        return Expansion._made(terms, parent)

    def __reduce__(self) -> Tuple[Any, ...]:
        return Expansion, (self.parent, dict(self._terms))

    def __array__(self, dtype: Any = None, copy: Any = None) -> Any:
        """What numpy takes for the element: one object."""
        one = sys.modules["numpy"].empty((), dtype=object)
        one[()] = self
        return one

    def __getitem__(self, label: Any) -> Coefficient:
        """The coefficient of a label."""
        found: Coefficient = self._terms.get(self.parent.kind.find(label), 0)
        return found

    coefficient = __getitem__

    def __contains__(self, label: object) -> bool:
        return self.parent.kind.find(label) in self._terms

    def __iter__(self) -> Iterator[Tuple[Label, Coefficient]]:
        return iter(self._terms.items())

    def items(self) -> ItemsView[Label, Coefficient]:
        """The pairs of a label and its coefficient."""
        return self._terms.items()

    def support(self) -> KeysView[Label]:
        """The labels."""
        return self._terms.keys()

    def coefficients(self) -> ValuesView[Coefficient]:
        """The coefficients."""
        return self._terms.values()

    values = coefficients

    def __len__(self) -> int:
        return len(self._terms)

    def degree(self) -> int:
        """The largest degree of a term, where q has that of the quantum cohomology; 0 has none."""
        if not self._terms:
            raise ValueError("0 has no degree")
        of_q = sum(self.parent.numbers) if self.parent.kind is QUANTUM else 0
        return max(self.parent.kind.size(it) + (of_q and of_q * it[0]) for it in self._terms)

    def __eq__(self, other: object) -> Any:
        if isinstance(other, Expansion):
            if self.parent == other.parent:
                return self._terms == other._terms
            advice = f'; x.to("{self.parent.name}") is in {self.parent}, and same_function compares' if self._is_in_basis(other) else ""
            raise TypeError(f"{self.parent} and {other.parent}: elements of two parents are not compared{advice}")
        if isinstance(other, AnyMapping):
            with suppress(TypeError, ValueError):
                return self._terms == self.parent.given(other.items())
            return False
        if ratio(other):
            # (Sage makes an expansion the coefficient of an element that is multiplied by it and has no ring in common with it. Before it does so it
            # compares it with Python's 1, which is not what somebody types in Sage; there is no other place to say no.)
            if type(other) is int and other == 1 and "sage.data_structures.blas_dict" in sys.modules:
                raise TypeError("an expansion is compared with 1, or multiplied by an element of Sage over another ring: use to_sage(ring)")
            return self._terms == self.parent(other)._terms
        numpy: Any = sys.modules.get("numpy")
        if numpy and isinstance(other, numpy.ndarray):
            # (numpy would say False if its own comparison is an error)
            return numpy.array([self == it for it in other.flat], dtype=bool).reshape(other.shape)
        if not is_element(other):
            return NotImplemented
        # (as Sage compares elements: of one function also in two bases)
        with suppress(AttributeError, TypeError, ValueError):
            return bool(self.to_sage(cast(Any, other).parent().base_ring() if self.parent.name in BASES else None) == other)
        return False

    def __ne__(self, other: object) -> Any:
        same = self == other
        return ~same if hasattr(same, "shape") else not same

    def __hash__(self) -> int:
        # (one that equals a number has its hash)
        one = self.parent.kind.one
        return hash((self.parent, frozenset(self._terms.items()))) if self._terms.keys() - {one} else hash(self._terms.get(one, 0))

    def _is_in_basis(self, other: Expansion[Any, Any]) -> bool:
        """Whether both are symmetric functions in a basis."""
        return self.parent.name in BASES and other.parent.name in BASES

    def _other(self, other: Any, operation: str) -> Any:
        """The other one of two that are added or multiplied as an element of this one's parent; nothing, if it is to be asked."""
        if isinstance(other, Expansion) and self.parent != other.parent and not self._is_in_basis(other):
            raise TypeError(f"{self.parent} {operation} {other.parent}: these are two rings")
        return self.parent(other) if isinstance(other, Expansion) or _scalar(other) is not None else None

    def __add__(self, other: Union[Expansion[Any, Any], Scalar]) -> Expansion[Label, Coefficient]:
        value = self._other(other, "+")
        if value is None:
            return NotImplemented
        terms = summed(value, self._terms)
        if len(terms) > len(self._terms):
            return Expansion._ordered(terms, self.parent)
        # (of the same labels the order is known)
        return Expansion._made({label: exact(c) for label, c in terms.items() if c}, self.parent)

    __radd__ = __add__

    def __sub__(self, other: Union[Expansion[Any, Any], Scalar]) -> Expansion[Label, Coefficient]:
        return -(-self + other)

    def __rsub__(self, other: Scalar) -> Expansion[Label, Coefficient]:
        return -self + other

    __pos__ = Fixed.copy

    def __neg__(self) -> Expansion[Label, Coefficient]:
        return self * -1

    def __mul__(self, other: Union[Expansion[Any, Any], Scalar]) -> Expansion[Label, Coefficient]:
        if isinstance(other, Expansion):
            return Expansion._ordered(self.parent.product(self._terms, self._other(other, "*")._terms), self.parent)
        by = _scalar(other)
        if by is None:
            return NotImplemented
        return Expansion._made({label: exact(c * by) for label, c in self} if by else {}, self.parent)

    __rmul__ = __mul__

    def __truediv__(self, scalar: Scalar) -> Expansion[Label, Union[int, Fraction]]:
        by = _scalar(scalar)
        if by is None:
            return NotImplemented
        return self * (1 / Fraction(by))

    def __pow__(self, exponent: int) -> Expansion[Label, Coefficient]:
        count = integer(exponent)
        if count is None or count < 0:
            raise ValueError(f"the exponent {exponent!r} is not a number that is at least 0")
        return cast("Expansion[Label, Coefficient]", reduce(mul, [self] * count) if count else self.parent.one())

    def to(self, basis: str) -> Expansion[Any, Any]:
        """A symmetric function in another basis: s, p, h, e or m."""
        if self.parent.name not in BASES:
            raise TypeError(f"to and omega are of symmetric functions in a basis, and not of {self.parent}")
        return cast("Expansion[Any, Any]", self.parent.home().expand(basis, self))

    def omega(self) -> Expansion[Label, Any]:
        """The image of a symmetric function under the involution that takes s of a partition to s of its conjugate, in the same basis."""
        if self.parent.name == "p":
            return Expansion._made({it: -c if (sum(it) - len(it)) % 2 else c for it, c in self._terms.items()}, self.parent)
        if self.parent.name != "s":
            return self.parent(self.to("s").omega())
        return Expansion._ordered({tuple(sum(it > i for it in label) for i in range(sum(label[:1]))): c for label, c in self._terms.items()}, self.parent)

    def scalar(self, other: Expansion[Any, Any]) -> Number:
        """The scalar product of two symmetric functions, for which the Schur functions are orthonormal."""
        if not isinstance(other, Expansion) or not self._is_in_basis(other):
            raise TypeError(f"scalar is of symmetric functions in bases, and not of {self.parent} and {getattr(other, 'parent', other)!r}")
        left, right = self.to("s")._terms, other.to("s")._terms
        return exact(sum(c * right.get(label, 0) for label, c in left.items()))

    def __repr__(self) -> str:
        return f"Expansion({self.parent!r}, {self._terms!r})"

    def _written(self, terms: Iterable[Tuple[Any, Number]], in_latex: bool = False) -> str:
        """Terms with their signs, the coefficient 1 left out if a label follows."""
        letter = "\\sigma" if in_latex and self.parent.name in ("cohomology", "quantum_ring") else self.parent.form.letter
        write, sign, texts = (self.parent.kind.latex, "", []) if in_latex else (self.parent.kind.plain, "*", [])  # type: Any, str, List[str]
        for label, c in terms:
            written, size = write(letter, label), c if c > 0 else -c
            number = f"\\frac{{{size.numerator}}}{{{size.denominator}}}" if in_latex and size.denominator > 1 else str(size)
            texts.append(("-" if c < 0 else "+" if texts else "") + ("" if size == 1 and written else number + (written and sign)) + written)
        return "".join(texts) or "0"

    def __str__(self) -> str:
        """The element on one line, as `calc` prints it with `-m`, and `expand` reads a symmetric function. (Sage has `s[[]]` for `s[]`.)"""
        return self._written(self)

    def latex(self) -> str:
        """The element as LaTeX."""
        return self._written(self, True)

    _latex_ = latex

    def _repr_latex_(self) -> str:
        """What a notebook shows. A long list is shown by its first and last terms and the number of terms."""
        if len(self) <= MOST_SHOWN:
            return f"${self.latex()}$"
        terms = list(self)
        first, last = self._written(terms[: MOST_SHOWN - SHOWN_AT_END], True), self._written(terms[-SHOWN_AT_END:], True)
        return f"${first}+\\cdots{'' if last.startswith('-') else '+'}{last}$ ({len(self):,} terms)"

    def to_sage(self, ring: Any = None) -> Any:
        """The element of Sage: of `SymmetricFunctions(QQ)`, of its tensor square for a coproduct, of `SymmetricFunctions` over QQ[q] for a
        quantum product, of a polynomial ring in x0, x1, .. for monomials, of `SchubertPolynomialRing(ZZ)` for permutations. For other parents
        it is a TypeError. `ring` is the ring of coefficients if it is not QQ; it is an error if a coefficient is not in it."""
        from sage import all as sage  # type: ignore

        ring, name = sage.QQ if ring is None else ring, self.parent.name
        scalars: Dict[Any, Any] = {label: ring(sage.QQ((int(c.numerator), int(c.denominator)))) for label, c in self}
        functions = sage.SymmetricFunctions(ring)
        s = functions.s()
        if name in BASES:
            return getattr(functions, name)().sum_of_terms((sage.Partition(list(label)), c) for label, c in scalars.items())
        if name == "tensor_square":
            return sum((c * s(list(a)).tensor(s(list(b))) for (a, b), c in scalars.items()), s.tensor_square().zero())
        if name == "quantum_ring":
            over = sage.PolynomialRing(ring, "q")
            table = summed((label, over(c) * over.gen() ** power) for (power, label), c in scalars.items())
            return sage.SymmetricFunctions(over).s().sum_of_terms((sage.Partition(list(label)), c) for label, c in table.items())
        if name == "monomials":
            count = max([VARIABLES, *map(len, scalars)])
            x = sage.PolynomialRing(ring, [f"x{i}" for i in range(count)]).gens()
            return sum((c * sage.prod(v**e for v, e in zip(x, label)) for label, c in scalars.items()), x[0].parent().zero())
        if name == "X":
            schubert = sage.SchubertPolynomialRing(sage.ZZ if ring is sage.QQ else ring)
            return sum((schubert.base_ring()(c) * schubert(list(label)) for label, c in scalars.items()), schubert.zero())
        raise TypeError(f"Sage has no ring for elements of {self.parent}")

    # (it takes part in an operation with one of Sage's elements, whose answer is Sage's)
    _sage_ = to_sage

    def _sympy_(self) -> Any:
        """The polynomial of sympy in x1, x2, .. that a polynomial is; other elements are none of sympy's."""
        sympy: Any = __import__("sympy")
        if self.parent.name != "monomials":
            raise sympy.SympifyError(f"{self} of {self.parent}")
        return sympy.Add(*(sympy.Mul(sympy.sympify(c), *(sympy.Symbol(f"x{i}") ** e for i, e in enumerate(label, 1))) for label, c in self._terms.items()))

    def to_pandas(self) -> Any:
        """The element as a table of pandas with the columns `label` and `coefficient`, of Python's tuples and numbers."""
        import pandas  # type: ignore

        return pandas.DataFrame({name: pandas.Series(list(it), dtype=object) for name, it in (("label", self.support()), ("coefficient", self.values()))})

    def to_json(self) -> str:
        """The element as JSON, which `from_json` reads. Coefficients are texts, since a number of JSON may be rounded by who reads it."""
        return json.dumps({"parent": [self.parent.name, *self.parent.numbers], "terms": [(label, str(c)) for label, c in self]})

    @staticmethod
    def from_json(text: str) -> Expansion[Any, Any]:
        """The element that `to_json` has written; its products are asked of `Calculator()`."""
        read = json.loads(text)
        return Expansion.from_pairs(Home().parent(*read["parent"]), ((label, Fraction(c) if isinstance(c, str) else c) for label, c in read["terms"]))
