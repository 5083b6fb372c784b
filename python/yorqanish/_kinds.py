"""The kinds of labels: how those of each are read, looked up, ordered and written, and what of one is a factor of a command."""
from __future__ import annotations

from fractions import Fraction
from functools import lru_cache, partial
from itertools import zip_longest
from typing import Any, Callable, NamedTuple, Tuple, Union

from ._arguments import Numbers, numbers, partition, whole, without_zeros

Number = Union[int, Fraction]


class Kind(NamedTuple):
    """`find` makes a label of what is asked for, `order` is the key by which `calc` sorts labels, `size` is the degree of one, `plain` and `latex` write
    one by the letter of the basis. `one` is the label of 1, and `of` makes a label of a list. `apart` gives the list that is a factor of a command
    and what is beside it, and `times` multiplies a label by the latter."""

    find: Callable[[Any], Any]
    order: Callable[[Any], Any]
    size: Callable[[Any], int]
    plain: Callable[[str, Any], str]
    latex: Callable[[str, Any], str]
    one: Any = ()
    of: Callable[[Any], Any] = lambda it: it
    apart: Callable[[Any], Tuple[Numbers, Any]] = lambda it: (it, ())
    times: Callable[[Any, Any], Any] = lambda label, beside: label


@lru_cache(1 << 16)
def listed(label: str) -> Numbers:
    """The numbers of a list: `(2,1)` is (2, 1)."""
    if label[:1] != "(" or label[-1:] != ")":
        raise ValueError(f"{label!r} is not a label")
    return tuple(map(int, label[1:-1].split(","))) if label != "()" else ()


@lru_cache(1 << 16)
def term(line: str) -> Tuple[Any, Number]:
    """The label and the coefficient of a printed term, as `2  (2,1)`, `2  (2,1) (1)` or `2  q^1  (2,1)`. (They come again and again.)"""
    coefficient, *words = line.split()
    label = tuple(int(it[2:]) if it[:2] == "q^" else listed(it) for it in words)
    return label[0] if len(label) == 1 else label, Fraction(coefficient) if "/" in coefficient else int(coefficient)


def a_partition(label: Any) -> Numbers:
    parts = partition(label, "the label")
    if list(parts) != sorted(parts, reverse=True):
        raise ValueError(f"the label: {label!r} is not a partition")
    return parts


def a_permutation(label: Any) -> Numbers:
    letters = numbers(label, "the label")
    end = len(letters)
    if not end or sorted(letters) != list(range(1, end + 1)):
        raise ValueError(f"the label: {label!r} is not a permutation")
    while end > 1 and letters[end - 1] == end:
        end -= 1
    return letters[:end]


def added(*exponents: Numbers) -> Numbers:
    return without_zeros(tuple(map(sum, zip_longest(*exponents, fillvalue=0))))


def by_degree(label: Numbers) -> Any:
    """By decreasing size, then in decreasing lexicographic order."""
    return -sum(label), tuple(-it for it in label)


def inversions(perm: Numbers) -> int:
    return sum(a > b for i, a in enumerate(perm) for b in perm[i + 1 :])


def atom(letter: str, label: Numbers) -> str:
    return f"{letter}[{','.join(map(str, label))}]"


def powers_of(letter: str, label: Numbers, index: str = "{}", power: str = "^{}", between: str = "*") -> str:
    """A monomial by its exponents; nothing if they are all 0."""
    return between.join(letter + index.format(i) + (power.format(e) if e > 1 else "") for i, e in enumerate(label, 1) if e)


product = partial(powers_of, index="_{{{}}}", power="^{{{}}}", between=" ")


def both(first: Kind, second: Kind, signs: Tuple[str, str] = ("*", " "), order: Tuple[int, int] = (0, 1), **more: Any) -> Kind:
    """The kind of labels that have two parts, which are written in this order, with a sign between them if both are there: in a line, and in LaTeX."""
    parts = first, second

    def find(label: Any) -> Any:
        if not isinstance(label, (tuple, list)) or len(label) != 2:
            raise (ValueError if isinstance(label, (tuple, list)) else TypeError)(f"the label: {label!r} is not a pair")
        return first.find(label[0]), second.find(label[1])

    def written(how: str) -> Callable[[str, Any], str]:
        return lambda letter, label: signs[how == "latex"].join(filter(None, (getattr(parts[i], how)(letter, label[i]) for i in order)))

    by_both, sizes = lambda it: (first.order(it[0]), second.order(it[1])), lambda it: first.size(it[0]) + second.size(it[1])
    return Kind(find, by_both, sizes, written("plain"), written("latex"), (first.one, second.one), **more)


SYMMETRIC = Kind(a_partition, by_degree, sum, atom, lambda letter, it: f"{letter}_{{{','.join(map(str, it)) or chr(92) + 'emptyset'}}}")
MONOMIALS = Kind(lambda it: without_zeros(numbers(it, "the label")), by_degree, sum, powers_of, product)
# (By increasing number of inversions, then in increasing lexicographic order. LaTeX drops blanks between letters, so that one over 9 needs commas.)
IN_S: Callable[[str, Any], str] = lambda letter, it: f"\\mathfrak{{S}}_{{{('' if max(it) < 10 else ',').join(map(str, it))}}}"
PERMUTATIONS = Kind(a_permutation, lambda it: (inversions(it), it), inversions, atom, IN_S, (1,))
PAIRS = both(SYMMETRIC, SYMMETRIC, ("#", " \\otimes "))
# (the exponent of q, whose degree depends on the ring)
IN_Q = (lambda letter, it: powers_of("q", (it,), index="")), (lambda letter, it: product("q", (it,), index=""))
OF_Q = Kind(lambda it: whole(it, "the power of q"), int, lambda it: 0, *IN_Q, 0)
QUANTUM = both(OF_Q, SYMMETRIC, of=lambda it: (0, it), apart=lambda it: (it[1], it[0]), times=lambda label, beside: (label[0] + beside, label[1]))
IN_Y = MONOMIALS._replace(plain=lambda letter, it: powers_of("y", it), latex=lambda letter, it: product("y", it))
DOUBLE = both(PERMUTATIONS, IN_Y, order=(1, 0), of=lambda it: (it, ()), apart=lambda it: it, times=lambda label, beside: (label[0], added(label[1], beside)))
