"""The functions of the Python module `lrcalc`, and of Sage's `sage.libs.lrcalc.lrcalc`, over `calc`: a script changes its import.

    >>> from yorqanish import lrcalc
    >>> lrcalc.mult([2, 1], [1])
    {(3, 1): 1, (2, 2): 1, (2, 1, 1): 1}

The answers are dictionaries from tuples to `int`. What lrcalc leaves open is: labels come in `calc`'s order, and numbers are exact, or the error
`TooLarge`. In Sage the labels are tuples too, where Sage's own module has partitions. A number of rows of None or -1 is no limit; 0, which was none in
older releases and is one in newer ones, is an error."""
from __future__ import annotations

from typing import Any, Dict, Iterator, Optional, SupportsIndex, Tuple, cast

from ._arguments import Numbers, Shape, integer, partition, without_zeros
from ._calculator import Calculator
from ._tableaux import Tableau

_found: Dict[str, Calculator] = {}


def calculator() -> Calculator:
    """The Calculator that is asked, opened at the first question."""
    if "calc" not in _found:
        _found["calc"] = Calculator()
    return _found["calc"]


def _rows(rows: Optional[SupportsIndex], name: str) -> Optional[SupportsIndex]:
    if rows is None or integer(rows) == -1:
        return None
    if integer(rows) == 0:
        raise ValueError(f"{name}: 0 is no limit in some releases of lrcalc, and one in others: None is no limit")
    return rows


def lrcoef(outer: Shape, inner1: Shape, inner2: Shape) -> int:
    """The Littlewood-Richardson coefficient of `outer` in the product of the two others."""
    return calculator().coef(outer, inner1, inner2)


def mult(part1: Shape, part2: Shape, rows: Optional[SupportsIndex] = None, level: Optional[SupportsIndex] = None, quantum: Any = None, *,
         maxrows: Optional[SupportsIndex] = None) -> Dict[Numbers, Any]:
    """The product of two Schur functions; with `rows` (in Sage `maxrows`) the terms with at most so many rows, with `level` the fusion product.
    With `quantum`, a variable of any ring, the quantum product for `rows` and `level` columns, whose coefficients are polynomials in it."""
    most = _rows(rows if maxrows is None else maxrows, "rows")
    if most is None and (level is not None or quantum is not None):
        raise ValueError("rows: a level needs a number of rows")
    if quantum is None:
        product = calculator().mult(part1, part2, rows=most) if level is None else calculator().fusion(cast(int, most), level, part1, part2)
        return dict(product)
    if level is None:
        raise ValueError("level: a quantum product needs a number of columns")
    table: Dict[Numbers, Any] = {}
    for (label, power), c in mult_quantum(part1, part2, cast(int, most), level, degrees=True).items():
        table[label] = table.get(label, 0) + c * quantum**power
    return table


def mult_fusion(part1: Shape, part2: Shape, rows: SupportsIndex, level: SupportsIndex) -> Dict[Numbers, int]:
    """The fusion product for su(rows) at this level."""
    return dict(calculator().fusion(rows, level, part1, part2))


def mult_quantum(part1: Shape, part2: Shape, rows: SupportsIndex, cols: SupportsIndex, degrees: bool = False) -> Dict[Any, int]:
    """The quantum product in the Grassmannian of `rows` and `cols`. With `degrees` a label is a partition and the power of q; without, its size says
    which power it is."""
    product = calculator().quantum(rows, cols, part1, part2)
    return {((label, power) if degrees else label): c for (power, label), c in product}


def skew(outer: Shape, inner: Shape, rows: Optional[SupportsIndex] = None, *, maxrows: Optional[SupportsIndex] = None) -> Dict[Numbers, int]:
    """The skew Schur function of outer/inner in Schur functions."""
    return dict(calculator().skew(outer, inner, rows=_rows(rows if maxrows is None else maxrows, "rows")))


def coprod(part: Shape, all: bool = False) -> Dict[Tuple[Numbers, Numbers], int]:
    """The coproduct of a Schur function: with `all` each pair of partitions; without, of two that differ in their order the one whose first is
    larger, or, if both are of one size, comes later in `calc`'s order, which lrcalc leaves open."""
    pairs = calculator().coprod(part)
    return {(a, b): c for (a, b), c in pairs if all or (sum(a), b) >= (sum(b), a)}


def schubmult(w1: Shape, w2: Shape, rank: SupportsIndex = 0) -> Dict[Numbers, int]:
    """The product of two Schubert polynomials; with `rank` the terms with at most so many letters. Letters that are fixed at the end are dropped."""
    most = integer(rank) or 0
    return {label: c for label, c in calculator().schubmult(w1, w2) if most <= 0 or len(label) <= most}


mult_schubert = schubmult


def lrskew(outer: Shape, inner: Shape, weight: Optional[Shape] = None, maxrows: SupportsIndex = -1) -> Iterator[Tableau]:
    """The Littlewood-Richardson tableaux of a skew shape, of this weight, and with entries of at most `maxrows`."""
    most, wanted = _rows(maxrows, "maxrows"), None if weight is None else partition(weight, "weight")
    for it in calculator().tab(outer, inner):
        entries = [entry for row in it for entry in row if entry]
        content = without_zeros(tuple(entries.count(i) for i in range(1, max(entries, default=0) + 1)))
        if (most is None or len(content) <= (integer(most) or 0)) and wanted in (None, content):
            yield it
