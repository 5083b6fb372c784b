"""What is taken for a number, a list of numbers, a tableau and a time: it is decided here alone, and all else is refused."""
from __future__ import annotations

import math
from collections import UserString
from collections.abc import Sequence as AnySequence
from contextlib import suppress
from fractions import Fraction
from numbers import Integral, Rational
from operator import index
from typing import Any, List, NoReturn, Optional, Protocol, Sequence, Set, Sized, SupportsFloat, SupportsIndex, Tuple, TypeVar, Union, cast

Numbers = Tuple[int, ...]
Partition = Numbers
Permutation = Numbers
Exponents = Numbers
# A row of a skew tableau, with None for each cell of the inner partition.
Row = Tuple[Optional[int], ...]


class Array(Sized, Protocol):
    """An array of numpy, or a column of pandas: what mypy knows of them. (Sets and dictionaries have no such method.)"""

    def tolist(self) -> Any: ...


# What is taken for a partition, a permutation or a word: sequences (tuples, lists, ranges, ..) and the types of LISTS.
Shape = Union[Sequence[SupportsIndex], Array]
# What is taken for a tableau: its rows from the top, or one of the types of TABLES. Those of a skew one may have None for the cells of the inner partition.
Rows = Union[Sequence[Union[Shape, Sequence[Optional[SupportsIndex]]]], Array]

Self = TypeVar("Self")
Label = TypeVar("Label")
Coefficient = TypeVar("Coefficient", bound=Union[int, Fraction], covariant=True)
# The types of other packages that are lists of numbers, beside sequences. They are known by their names, so that no package is imported.
LISTS = set(
    """array.array numpy.ndarray pandas.core.indexes.base.Index pandas.core.series.Series
    sage.combinat.composition.Composition sage.combinat.partition.Partition sage.combinat.permutation.Permutation
    sage.combinat.words.finite_word.FiniteWord_class sage.modules.free_module_element.FreeModuleElement
    sympy.core.containers.Tuple sympy.tensor.array.ndim_array.NDimArray""".split()
)
# Those that are lists of rows.
TABLES = {"numpy.ndarray", "sage.combinat.tableau.Tableau"}
# Sequences of characters are no lists of numbers, even if they are empty.
TEXTS = (str, bytes, bytearray, memoryview, UserString)

# More numbers than a line of `calc` holds.
MOST_NUMBERS = 4096


class Fixed:
    """What does not change once it is made, and is its own copy."""

    __slots__ = ()

    def copy(self: Self, memo: Any = None) -> Self:
        return self

    __copy__ = __deepcopy__ = copy

    def __setattr__(self, name: str, *value: object) -> NoReturn:
        raise AttributeError(f"{type(self).__name__} does not change, and neither does its {name}")

    __delattr__ = __setattr__


def integer(value: object) -> Optional[int]:
    """The number that a value is whose type is registered as integral: an `int`. A truth value is none, nor is a residue class."""
    if type(value) is int:
        return value
    # (numpy's spans of time are registered, and have no index)
    with suppress(TypeError):
        return int(index(value)) if isinstance(value, Integral) and not isinstance(value, bool) else None
    return None


def ratio(value: Any) -> Optional[Tuple[int, int]]:
    """Numerator and denominator of a number whose type is registered as rational: those above, and fractions of Python, Sage and sympy."""
    number = integer(value)
    if number is not None:
        return number, 1
    if not isinstance(value, Rational) or isinstance(value, bool):
        return None
    # (Sage's numbers have methods where Python's have attributes)
    top, bottom = (integer(it() if callable(it) else it) for it in (value.numerator, value.denominator))
    return None if top is None or not bottom else (top, bottom)


def whole(value: SupportsIndex, name: str) -> int:
    """A number that is at least 0."""
    number = integer(value)
    if number is None:
        raise TypeError(f"{name}: {value!r} is not an integer")
    if number < 0:
        raise ValueError(f"{name}: {number} is negative")
    return number


def seconds(value: Optional[SupportsFloat]) -> Optional[float]:
    """A time in seconds; nothing, and what is infinite, is no limit."""
    if value is None:
        return None
    if isinstance(value, TEXTS) or type(value).__name__.startswith(("bool", "complex")) or not hasattr(value, "__float__"):
        raise TypeError(f"timeout: {value!r} is not a number of seconds")
    number = float(value)
    if not number >= 0:
        raise ValueError(f"timeout: {value!r} is not a number of seconds that is at least 0")
    return None if math.isinf(number) else number


def items_of(values: Any, name: str, what: str, names: Set[str], dimensions: int) -> Tuple[Any, ...]:
    """The items of a sequence, or of a value of one of the named types or a type derived from one. What can be gone through once only, or has no
    order or another number of dimensions, is none of them."""
    is_named = any(f"{it.__module__}.{it.__qualname__}" in names for it in type(values).__mro__)
    # (Sage's tableaux and permutations have a method of this name)
    shape: Any = getattr(values, "shape", None)
    is_other = hasattr(shape, "__len__") and (len(shape) != dimensions or dimensions > 1 and 0 in shape)
    is_list = (isinstance(values, AnySequence) and not isinstance(values, TEXTS) or is_named) and not is_other
    if is_list and len(values) > MOST_NUMBERS:
        raise ValueError(f"{name}: a list of more than {MOST_NUMBERS} items is too long to be sent")
    items = tuple(values) if is_list else ()
    if not is_list or len(items) != len(values):
        raise TypeError(f"{name}: {values!r} is not {what}")
    return items


def numbers(values: Shape, name: str) -> Numbers:
    """The numbers of a list in their order."""
    if type(values) is tuple or type(values) is list:
        plain: Tuple[Any, ...] = tuple(values)
        for it in plain:
            # (a number of Python's own type needs no other look)
            if type(it) is not int or it < 0:
                break
        else:
            if len(plain) <= MOST_NUMBERS:
                return plain
    return tuple(whole(it, name) for it in items_of(values, name, "a list of numbers", LISTS, 1))


def without_zeros(values: Numbers) -> Numbers:
    """The numbers without the zeros at their end."""
    while values and not values[-1]:
        values = values[:-1]
    return values


def partition(values: Shape, name: str) -> Numbers:
    """The parts of a partition, without zeros at the end."""
    parts = numbers(values, name)
    return parts if parts and parts[-1] else without_zeros(parts)


def skew_tableau(rows: Rows, name: str) -> Tuple[Tuple[Numbers, ...], Numbers]:
    """The rows of the entries of a tableau, and its inner partition, for whose cells there is None."""
    entries, inner = cast("List[Numbers]", []), cast("List[int]", [])
    for i, row in enumerate(items_of(rows, name, "a list of rows", TABLES, 2), 1):
        empty = 0
        if isinstance(row, (tuple, list)):
            while empty < len(row) and row[empty] is None:
                empty += 1
        entries.append(numbers(row[empty:] if empty else row, f"row {i} of {name}"))
        inner.append(empty)
    if inner != sorted(inner, reverse=True):
        raise ValueError(f"{name}: the empty cells of {rows!r} are no partition")
    return tuple(entries), without_zeros(tuple(inner))


def spoken(rows: Rows, name: str, inner: Numbers = ()) -> str:
    """A tableau with this inner partition as it is typed: `1 1 / 2`. A list may have the entries alone."""
    entries, found = skew_tableau(rows, name)
    if found != inner and (found or isinstance(rows, Fixed)):
        raise ValueError(f"{name}: {rows!r} is not a tableau with the inner partition {inner!r}")
    return " / ".join(" ".join(map(str, row)) or "." for row in entries) or "."


def text_of(value: str) -> str:
    """The characters of a string, also of a type that is derived from `str` and shows itself in another way."""
    return value if type(value) is str else str.__str__(value)
