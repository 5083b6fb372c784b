"""Tableaux, pairs of them, and growth grids; and pictures as SVG, which a notebook shows."""
from __future__ import annotations

import re
from types import GeneratorType
from typing import Any, Iterable, NamedTuple, Optional, Tuple

from ._arguments import Fixed, Numbers, Row, Rows, Shape, partition, skew_tableau, without_zeros
from ._kinds import a_partition, a_permutation

# The side of a box, and that of a box of a small shape.
SIDE, SMALL = 24, 6


class Picture:
    """A picture: `svg` is the text of an SVG file, which a notebook shows."""

    def __init__(self, parts: Iterable[str], width: int, height: int) -> None:
        size = f'width="{width + 2}" height="{height + 2}" viewBox="-1 -1 {width + 2} {height + 2}"'
        self.svg = f'<svg xmlns="http://www.w3.org/2000/svg" {size} fill="none" stroke="black">{"".join(parts)}</svg>'

    def _repr_svg_(self) -> str:
        return self.svg


def square(x: int, y: int, side: int, more: str = "") -> str:
    return f'<rect x="{x}" y="{y}" width="{side}" height="{side}"{more}/>'


def diagram(outer: Shape, inner: Shape = ()) -> Picture:
    """The diagram of a partition, or of a skew shape."""
    parts, holes = a_partition(outer), a_partition(inner)
    if len(holes) > len(parts) or any(a > b for a, b in zip(holes, parts)):
        raise ValueError(f"{holes!r} is not in {parts!r}")
    cells = [square(SIDE * j, SIDE * i, SIDE) for i, part in enumerate(parts) for j in range(sum(holes[i : i + 1]), part)]
    return Picture(cells, SIDE * max(parts, default=0), SIDE * len(parts))


def rothe_diagram(perm: Shape) -> Picture:
    """The diagram of a permutation: a dot in row i and column w(i), and a box wherever no dot is to the left or above."""
    letters = a_permutation(perm)
    size = SIDE * len(letters)
    parts = [square(0, 0, size, ' stroke="lightgray"')]
    for i, letter in enumerate(letters):
        parts.append(f'<circle cx="{SIDE * letter - SIDE // 2}" cy="{SIDE * i + SIDE // 2}" r="4" fill="black"/>')
        parts += [square(SIDE * (it - 1), SIDE * i, SIDE) for it in letters[i + 1 :] if it < letter]
    return Picture(parts, size, size)


class Grid(Tuple[Tuple[Numbers, ...], ...]):
    """A growth grid: a tuple of rows 0 to n, of which row i has the shapes at (i, 0) to (i, n)."""

    __slots__ = ()

    def _repr_svg_(self) -> str:
        side, parts = SMALL * (2 + max((max(len(it), *it) for row in self for it in row if it), default=0)), []
        for i, row in enumerate(self):
            for j, shape in enumerate(row):
                parts.append(square(side * j, side * i, side, ' stroke="lightgray"'))
                parts += [square(side * j + SMALL * b, side * i + SMALL * a, SMALL) for a, part in enumerate(shape, 1) for b in range(1, part + 1)]
        return Picture(parts, side * max(map(len, self), default=0), side * len(self)).svg


class Tableau(Fixed, Tuple[Row, ...]):
    """A tableau: the tuple of its rows from the top, in which None stands for a cell of the inner partition, as in Sage. `inner` is the inner
    partition, which can also be given beside the rows of the entries. A tableau does not change, and equals the tuple of its rows.
    >>> skew = Tableau([[None, 1], [12]])
    >>> skew, skew.inner, skew == Tableau([[1], [12]], inner=[1])
    (Tableau(((None, 1), (12,))), (1,), True)
    >>> print(skew, skew.latex("young"))
    1 / 12 \\young(:1,{12})"""

    __slots__ = ()

    def __new__(cls, rows: Rows = (), *, inner: Optional[Shape] = None) -> Tableau:
        if isinstance(rows, Tableau) and inner is None:
            return rows
        # (dataclasses copy a tuple by a generator of its items)
        entries, found = skew_tableau(tuple(rows) if isinstance(rows, GeneratorType) else rows, "rows")
        holes = found if inner is None else partition(inner, "inner")
        if found not in ((), holes):
            raise ValueError(f"{rows!r} is not a tableau with the inner partition {holes!r}")
        return cls._made(entries, holes)

    @classmethod
    def _made(cls, entries: Tuple[Numbers, ...], inner: Numbers) -> Tableau:
        """A tableau of the rows of its entries and an inner partition."""
        offsets = (*inner, *[0] * len(entries)) if inner else (0,) * len(entries)
        return tuple.__new__(cls, ((None,) * offset + row for offset, row in zip(offsets, entries)) if inner else entries)

    @property
    def inner(self) -> Numbers:
        return without_zeros(tuple(row.count(None) for row in self))

    def __repr__(self) -> str:
        return f"Tableau({tuple(self)!r})"

    def __reduce__(self) -> Tuple[Any, ...]:
        return Tableau, (tuple(self),)

    def __str__(self) -> str:
        """The tableau as `calc` prints it."""
        return " / ".join(" ".join(map(str, filter(None, row))) or "." for row in self) or "."

    def latex(self, style: str = "ytableau") -> str:
        """The tableau as LaTeX. `style` is `ytableau` (the package of this name), `young` (the packages young and youngtab) or `array` (no
        package)."""
        if style == "ytableau":
            lines = (" & ".join("\\none" if it is None else str(it) for it in row) for row in self)
            return "\\begin{ytableau} " + " \\\\ ".join(lines) + " \\end{ytableau}"
        if style == "young":
            entries = ("".join(":" if it is None else str(it) if it < 10 else f"{{{it}}}" for it in row) for row in self)
            return f"\\young({','.join(entries)})"
        if style != "array":
            raise ValueError(f"style: {style!r} is not ytableau, young or array")
        if not any(self):
            return "\\emptyset"
        lines = (" & ".join("" if it is None else f"\\boxed{{{it}}}" for it in row) for row in self)
        return f"\\begin{{array}}{{{'c' * max(map(len, self))}}} " + " \\\\ ".join(lines) + " \\end{array}"

    def _latex_(self) -> str:
        return self.latex("array")

    def _repr_latex_(self) -> str:
        return f"${self._latex_()}$"


class Pair(NamedTuple):
    """The insertion tableau and the recording tableau of a word."""

    insertion: Tableau
    recording: Tableau

    def __str__(self) -> str:
        """The pair as `calc` prints it."""
        return f"P {self.insertion}\nQ {self.recording}"

    def latex(self, style: str = "ytableau") -> str:
        """The pair as LaTeX, in the styles of `Tableau.latex`."""
        return f"\\left({self.insertion.latex(style)},\\ {self.recording.latex(style)}\\right)"

    def _latex_(self) -> str:
        return self.latex("array")

    def _repr_latex_(self) -> str:
        return f"${self._latex_()}$"


def tableau_of(line: str, inner: Numbers = ()) -> Tableau:
    """The tableau of a printed line: `1 1 / 2`."""
    rows = line.split(" / ") if line != "." else []
    return Tableau._made(tuple(() if row == "." else tuple(map(int, row.split(" "))) for row in rows), inner)


def pair_of(text: str) -> Pair:
    """The pair that `rsk` prints."""
    found = re.fullmatch("P (.*)\nQ (.*)\n", text)
    if not found:
        raise ValueError(f"{text!r} is not a pair of tableaux")
    return Pair(*map(tableau_of, found.groups()))
