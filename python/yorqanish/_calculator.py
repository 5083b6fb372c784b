"""The commands of `calc` as methods."""
from __future__ import annotations

import os
from functools import partial
from typing import Any, Callable, Dict, Iterable, Iterator, List, Optional, SupportsFloat, SupportsIndex, Tuple, Type, TypeVar, Union, cast

from . import _arguments, _family
from ._arguments import Exponents, Numbers, Partition, Permutation, Rows, Shape, numbers, partition, text_of, whole, without_zeros
from ._commands import typed, words_for
from ._elements import BASES, Expansion, Home, Parent, basis_of
from ._kinds import Number, atom
from ._lines import Block, Desk, Lanes, Result, Task, answer_of, blocks, own
from ._tableaux import Grid, Pair, Tableau, tableau_of
from ._ways import IS_WINDOWS, LONGEST, Library, NoCalculator, Way, program as program_at

Words = Union[str, SupportsIndex, Shape]
Seconds = Optional[SupportsFloat]
Answer = TypeVar("Answer")
# An expression: its text, an element of a basis of symmetric functions, or one of Sage's.
Expression = Union[str, Expansion[Partition, Any]]
# The largest degree of an expression that is expanded in s, and the bytes that a term of an expression has at most.
LARGEST_DEGREE, LONGEST_TERM = 20, 160


class Calculator:
    """`calc`: the program `calc` in a separate process, or with `library=True` its C library in this process.

    Ctrl-C ends the program, and so does a call that takes longer than `timeout` seconds; the next call starts it again. The library is faster for many
    small calls, but cannot be stopped. `program` and `library` can be paths; python/README.md says where they are looked for otherwise. A Calculator
    can be shared by threads, used after a fork, and pickled, as its methods can.

    `s`, `p`, `h`, `e`, `m` are the symmetric functions in a basis, `X` the Schubert polynomials, `monomials` the polynomials in x1, x2, ..
    >>> calc = Calculator()
    >>> calc.s[1] * calc.s[1] == calc.mult([1], [1])
    True"""

    # The copies of pickled Calculators that this process has opened.
    _kept: Dict[Any, Calculator] = {}

    def __init__(self, *, program: Optional[str] = None, library: Union[bool, str, None] = None, timeout: Seconds = None) -> None:
        given: List[Any] = [library, program]
        if all(given):
            raise ValueError("a Calculator has either a program or the library")
        # (a path means the same file in another folder)
        given = [it if it in (True, False, None) else os.path.abspath(it) for it in given]
        self._library, self._seconds = bool(library), _arguments.seconds(timeout)
        self._way: Way = Library(given[0]) if library or IS_WINDOWS else program_at(given[1])
        self._arguments = *given, self._way.digest, self._seconds
        self._own = Desk(self._way, self._arguments, None)
        self._own = self._desk(timeout)
        self._home = Home(self._arguments, self)
        parents: List[Parent[Numbers]] = [self._home.parent(it) for it in (*BASES, "X", "monomials")]
        self.s, self.p, self.h, self.e, self.m, self.X, self.monomials = parents

    @classmethod
    def _opened(cls, *arguments: Any) -> Calculator:
        """The Calculator of this process for one that was pickled."""
        kept = cls._kept.get(arguments)
        if kept is None or kept._way.is_over():
            library, program, digest, seconds = arguments
            kept = cls(program=program, library=library, timeout=seconds)
            if digest and kept._way.digest and kept._way.digest != digest:
                raise NoCalculator(f"{kept._way.path} is not the program that the Calculator had where it was made")
            cls._kept[arguments] = kept
        return kept

    def __reduce__(self) -> Tuple[Any, ...]:
        return Calculator._opened, self._arguments

    def __repr__(self) -> str:
        time = "" if self._seconds is None else f", timeout={self._seconds}"
        return f"Calculator({'library' if self._library else 'program'}={self._way.path!r}{time})"

    def __enter__(self) -> Calculator:
        return self

    def __exit__(self, *error: Any) -> None:
        self.close()

    def close(self) -> None:
        """Ends the program, even if other threads are using it. A call that comes later is refused."""
        self._way.close()

    def _desk(self, timeout: Seconds) -> Desk:
        """How lines are asked that may take so many seconds."""
        if timeout is None:
            return self._own
        seconds = _arguments.seconds(timeout)
        if seconds is not None and self._library:
            raise ValueError("timeout: a command of the library cannot be stopped")
        return Desk(self._way, self._arguments, seconds)

    def _asked(self, kind: Type[Answer], command: str, *values: Any, rows: Any = None, timeout: Seconds) -> Answer:
        """The answer of a command to these arguments."""
        words, desk = words_for(command, values, rows), self._own if timeout is None else self._desk(timeout)
        answer: Answer = answer_of(words, desk.texts([typed(words)])[0], self._home)
        return answer

    def text(self, *parts: Words, timeout: Seconds = None) -> str:
        """The text that `calc` prints for these arguments: strings, numbers and shapes. An error of `calc` is raised.
        >>> Calculator().text("coef", (3, 2, 1), "-", (2, 1), "-", (2, 1))
        '2\\n'"""
        lists: Iterable[Any] = (it if isinstance(it, str) or _arguments.integer(it) is None else (it,) for it in cast("Tuple[Any, ...]", parts))
        words = [text_of(it) if isinstance(it, str) else typed(numbers(it, "a word")) for it in lists]
        return self._desk(timeout).texts([" ".join(filter(None, words))])[0]

    def mult(self, *shapes: Shape, rows: Optional[SupportsIndex] = None, timeout: Seconds = None) -> Expansion[Partition, int]:
        """The product of two to eight Schur functions, in Schur functions; with `rows=K`, in K variables.
        >>> Calculator().mult([2, 1], [2, 1], rows=2)
        Expansion(calc.s.in_variables(2), {(4, 2): 1, (3, 3): 1})"""
        return self._asked(Expansion, "mult", *shapes, rows=rows, timeout=timeout)

    def skew(self, outer: Shape, inner: Shape, *, rows: Optional[SupportsIndex] = None, timeout: Seconds = None) -> Expansion[Partition, int]:
        """The skew Schur function of outer/inner, in Schur functions; with `rows=K`, in K variables.
        >>> Calculator().skew([2, 1], [1])
        Expansion(calc.s, {(2,): 1, (1, 1): 1})"""
        return self._asked(Expansion, "skew", outer, inner, rows=rows, timeout=timeout)

    def coef(self, outer: Shape, left: Shape, right: Shape, *, timeout: Seconds = None) -> int:
        """A Littlewood-Richardson coefficient: that of the Schur function of `outer` in the product of those of `left` and `right`.
        >>> Calculator().coef([3, 2, 1], [2, 1], [2, 1])
        2"""
        return self._asked(int, "coef", outer, left, right, timeout=timeout)

    def coprod(self, shape: Shape, *, timeout: Seconds = None) -> Expansion[Tuple[Partition, Partition], int]:
        """The coproduct of a Schur function. Labels are pairs of partitions.
        >>> Calculator().coprod([1])
        Expansion(calc.s.tensor_square(), {((1,), ()): 1, ((), (1,)): 1})"""
        return self._asked(Expansion, "coprod", shape, timeout=timeout)

    def quantum(self, rows: SupportsIndex, cols: SupportsIndex, *shapes: Shape, timeout: Seconds = None) -> Expansion[Tuple[int, Partition], int]:
        """The product of two to eight classes in the quantum cohomology of Gr(rows, rows + cols). A label is the exponent of q and a partition.
        >>> Calculator().quantum(2, 2, [1], [2, 1])
        Expansion(calc.quantum_ring(2, 2), {(0, (2, 2)): 1, (1, ()): 1})"""
        return self._asked(Expansion, "quantum", rows, cols, *shapes, timeout=timeout)

    def fusion(self, rows: SupportsIndex, level: SupportsIndex, *shapes: Shape, timeout: Seconds = None) -> Expansion[Partition, int]:
        """The fusion product of two to eight factors for su(rows) at this level. Columns of length `rows` are not removed.
        >>> Calculator().fusion(2, 1, [1], [1])
        Expansion(calc.fusion_ring(2, 1), {(1, 1): 1})"""
        return self._asked(Expansion, "fusion", rows, level, *shapes, timeout=timeout)

    def schubert(self, perm: Shape, *, timeout: Seconds = None) -> Expansion[Exponents, int]:
        """The Schubert polynomial of a permutation. Labels are the exponents of monomials.
        >>> Calculator().schubert([1, 3, 2])
        Expansion(calc.monomials, {(1,): 1, (0, 1): 1})"""
        return self._asked(Expansion, "schubert", perm, timeout=timeout)

    def schubmult(self, left: Shape, right: Shape, *, timeout: Seconds = None) -> Expansion[Permutation, int]:
        """The product of two Schubert polynomials, in Schubert polynomials.
        >>> Calculator().schubmult([2, 1], [2, 1])
        Expansion(calc.X, {(3, 1, 2): 1})"""
        return self._asked(Expansion, "schubmult", left, right, timeout=timeout)

    def dschubmult(self, left: Shape, right: Shape, *, timeout: Seconds = None) -> Expansion[Tuple[Permutation, Exponents], int]:
        """The product of two double Schubert polynomials, in such ones. A label is a permutation and the exponents of a monomial in y.
        >>> Calculator().dschubmult([1], [2, 1])
        Expansion(calc.schubert_ring(double=True), {((2, 1), ()): 1})"""
        return self._asked(Expansion, "dschubmult", left, right, timeout=timeout)

    def stanley(self, perm: Shape, rows: SupportsIndex, *, timeout: Seconds = None) -> Expansion[Partition, int]:
        """The Stanley symmetric function of a permutation in K variables, where K is `rows`, in Schur functions.
        >>> Calculator().stanley([2, 1, 4, 3], rows=2)
        Expansion(calc.s.in_variables(2), {(2,): 1, (1, 1): 1})"""
        return self._asked(Expansion, "stanley", perm, rows=whole(rows, "rows"), timeout=timeout)

    def expand(self, target: str, expression: Expression, *, timeout: Seconds = None) -> Expansion[Partition, Number]:
        """An expression in the basis `target`: m, e, h, p or s. It is a string without blanks, or an element of one of these bases, or of Sage's.
        >>> Calculator().expand("p", "s[2,1]")
        Expansion(calc.p, {(3,): Fraction(-1, 3), (1, 1, 1): Fraction(1, 3)})"""
        return self._sum("expand", target, expression, "expression", "", timeout)

    def plethysm(self, target: str, outer: Expression, inner: Expression, *, timeout: Seconds = None) -> Expansion[Partition, Number]:
        """The plethysm outer[inner] of two expressions, in the basis `target`: the monomials of `inner` take the place of the variables of `outer`.
        >>> Calculator().plethysm("s", "h[2]", "h[2]")
        Expansion(calc.s, {(4,): 1, (2, 2): 1})"""
        return self._sum("plethysm", target, outer, "outer", self._expressions(inner, "inner", None)[0], timeout)

    def _sum(self, command: str, target: str, expression: Any, name: str, inner: str, timeout: Any) -> Expansion[Partition, Number]:
        """The answer of a command that is linear in an expression: if that is too long for a line, the sum of those to its parts."""
        if not isinstance(target, str) or target not in BASES:
            raise ValueError(f"target: {target!r} is not m, e, h, p or s")
        head, parent = f"{command} {text_of(target)} ", self._home.parent(text_of(target))
        lines = [f"{head}{it} {inner}".rstrip(" ") for it in self._expressions(expression, name, LONGEST - len(head) - len(inner) - 1)]
        first, *others = [Expansion._read(it, parent) for it in self._desk(timeout).texts(lines)]
        return sum(others, first)

    def _expressions(self, value: Any, name: str, most: Optional[int]) -> List[str]:
        """The texts of an expression: one, or of an element that has more bytes than this those of its parts."""
        if isinstance(value, str):
            if not value.strip():
                raise ValueError(f"{name}: a text without a word is not an expression")
            return [text_of(value)]
        basis = value.parent.name if isinstance(value, Expansion) else basis_of(value)
        if basis not in BASES:
            what = f"an element of {value.parent}" if isinstance(value, Expansion) else repr(value)
            raise TypeError(f"{name}: an expression is a string or a symmetric function in one of the bases s, p, h, e, m, and {what} is none")
        element = self._home.parent(basis)(value)
        terms, text = list(element), str(element)
        count = max(1, len(terms) if most is None or len(text) <= most else most // LONGEST_TERM)
        return [element._written(terms[at : at + count]) for at in range(0, len(terms), count)] or [text]

    def kostka(self, shape: Shape, content: Shape, *, timeout: Seconds = None) -> int:
        """The number of semistandard tableaux of a shape with this content: the coefficient of s_shape in h_content. A shape has at most 20 cells."""
        parts, letters = partition(shape, "shape"), sorted(without_zeros(numbers(content, "content")), reverse=True)
        if sum(letters) > LARGEST_DEGREE:
            raise ValueError(f"kostka and dimension are of shapes of at most {LARGEST_DEGREE} cells, to which calc expands in s, and not of {sum(letters)}")
        return cast(int, self.expand("s", atom("h", tuple(letters)), timeout=timeout)[parts])

    def dimension(self, shape: Shape, *, timeout: Seconds = None) -> int:
        """The number of standard tableaux of a shape of at most 20 cells: the dimension of its representation of the symmetric group."""
        parts = partition(shape, "shape")
        return self.kostka(parts, [1] * min(sum(parts), LARGEST_DEGREE + 1), timeout=timeout)

    def same_function(self, left: Expression, right: Expression, *, timeout: Seconds = None) -> bool:
        """Whether two expressions are the same symmetric function: both are expanded in s."""
        return bool(self.expand("s", left, timeout=timeout) == self.expand("s", right, timeout=timeout))

    def quantum_ring(self, rows: SupportsIndex, cols: SupportsIndex) -> Parent[Tuple[int, Partition]]:
        """The quantum cohomology of the Grassmannian Gr(rows, rows + cols), with the products of `quantum`."""
        return self._home.parent("quantum_ring", rows, cols)

    def cohomology(self, rows: SupportsIndex, dimension: SupportsIndex) -> Parent[Partition]:
        """The cohomology of the Grassmannian Gr(rows, dimension): the products of `quantum` without the terms with q."""
        return self._home.parent("cohomology", rows, dimension)

    def fusion_ring(self, rows: SupportsIndex, level: SupportsIndex) -> Parent[Partition]:
        """The fusion ring of su(rows) at this level, with the products of `fusion`. Columns of length `rows` are not removed."""
        return self._home.parent("fusion_ring", rows, level)

    def schubert_ring(self, *, double: bool = False) -> Parent[Any]:
        """`X`: Schubert polynomials with the products of `schubmult`; or double ones with those of `dschubmult`."""
        return self._home.parent("double_X" if double else "X")

    def tab(self, outer: Shape, inner: Shape, *, after: Optional[Rows] = None, timeout: Seconds = None) -> Iterator[Tableau]:
        """The Littlewood-Richardson tableaux of a skew shape, each as soon as it is listed; with `after`, those after this one. `timeout`
        is the time for each. They come from the program also with `library=True`.
        >>> list(Calculator().tab([2, 1], [1]))
        [Tableau(((None, 1), (1,))), Tableau(((None, 1), (2,)))]"""
        line = typed(words_for("tab", (outer, inner) if after is None else (outer, inner, after)))
        desk = self._own if timeout is None else self._own._replace(seconds=_arguments.seconds(timeout))
        return own(map(partial(tableau_of, inner=partition(inner, "inner")), desk.listed(line)), self._way.check)

    def rsk(self, letters: Shape, *, timeout: Seconds = None) -> Pair:
        """The insertion tableau and the recording tableau of a word, by RSK row insertion.
        >>> Calculator().rsk([3, 1, 2])
        Pair(insertion=Tableau(((1, 2), (3,))), recording=Tableau(((1, 3), (2,))))"""
        return self._asked(Pair, "rsk", letters, timeout=timeout)

    def unrsk(self, insertion: Rows, recording: Rows, *, timeout: Seconds = None) -> Numbers:
        """The inverse of `rsk`: the word with this insertion tableau and this recording tableau.
        >>> Calculator().unrsk(((1, 2), (3,)), ((1, 3), (2,)))
        (3, 1, 2)"""
        return self._asked(tuple, "unrsk", insertion, recording, timeout=timeout)

    def rect(self, outer: Shape, inner: Shape, tableau: Rows, *, timeout: Seconds = None) -> Tableau:
        """The rectification of a skew tableau by jeu de taquin. The tableau is given by its shape and its rows.
        >>> Calculator().rect([2, 2], [1], ((1,), (1, 2)))
        Tableau(((1, 1), (2,)))"""
        return self._asked(Tableau, "rect", outer, inner, tableau, timeout=timeout)

    def growth(self, perm: Shape, *, timeout: Seconds = None) -> Grid:
        """The growth diagram of a permutation of n letters: a tuple of rows 0 to n, where row i has the partitions at (i, 0) to (i, n).
        >>> Calculator().growth([1])
        (((), ()), ((), (1,)))"""
        return self._asked(Grid, "growth", perm, timeout=timeout)

    def batch(
        self, lines: Iterable[str], *, progress: Union[bool, Callable[[int], None]] = False, workers: Optional[int] = None, timeout: Seconds = None
    ) -> Iterator[Block]:
        """An iterator over the outcomes of lines, in their order. An error in one does not stop the others. Blank lines and comments are skipped.
        `progress=True` shows a bar, and a function is called with the number of lines done so far. `workers=N` distributes the lines over N processes.
        `timeout` is the time for each line. `lines` can be any iterable, even an endless one; it is read some way ahead of the outcomes.
        >>> [it.text or it.refusal.kind for it in Calculator().batch(["mult 1 - 1", "# a comment", "mult 1 2 - 1"])]
        ['1  (2)\\n1  (1,1)\\n', 'Shape']"""
        if isinstance(lines, (str, bytes)):
            raise TypeError("lines: a string is not a list of lines; use splitlines()")
        count = 1 if workers is None else whole(workers, "workers")
        if count == 0:
            raise ValueError("workers: at least 1")
        self._way.check()
        desk = self._desk(timeout)
        outcomes = Lanes(desk._replace(way=self._way.apart(False)) if count > 1 else desk, count, lines).outcomes()
        return own(blocks(outcomes, progress, len(lines) if isinstance(lines, (list, tuple)) else None), self._way.check)

    family = _family.family

    def block(self, line: str, *, timeout: Seconds = None) -> Block:
        """The outcome of one line, as `batch` has it: for an executor, as in `executor.map(calc.block, lines)`."""
        return self._desk(timeout).one(line)

    def submit(self, method: Callable[..., Result], *arguments: Any, **options: Any) -> Task[Result]:
        """A call of a method of this Calculator in a thread: `calc.submit(calc.mult, [2, 1], [1])` is a Future, which can be awaited, too. If it is
        cancelled, its command stops."""
        if getattr(method, "__self__", None) is not self:
            raise TypeError(f"submit: {method!r} is not a method of this Calculator")
        calculator = object.__new__(Calculator)
        way = self._way.apart(True)
        calculator.__dict__.update(self.__dict__, _way=way, _own=self._own._replace(way=way))
        return Task(partial(getattr(calculator, method.__name__), *arguments, **options), calculator._way.close)
