"""Families: a line whose words have names, once for each of their values, and the table of the answers."""
from __future__ import annotations

import re
from importlib import import_module
from itertools import product
from typing import Any, Callable, Dict, Iterable, Iterator, List, NamedTuple, Optional, Sequence, SupportsFloat, Tuple, Union, overload

from ._arguments import integer, numbers, text_of, whole
from ._commands import COMMANDS, EXPRESSION, words_of
from ._lines import Block

Values = Dict[str, Any]
Made = Callable[[Values], str]
NAME = r"[A-Za-z]{1,20}|[\u0370-\u03ff]"
FACTOR = re.compile(rf"([0-9]{{0,30}})({NAME})?")
# The pieces of an expression: the list of an atom, a number or word, or one sign.
PIECE = re.compile(r"\[([^\[\]]*)\]|[^\W_]+|.", re.DOTALL)


class Row(NamedTuple):
    """A row of a family: the values of the names, and the outcome of the line, as `batch` has it."""

    values: Values
    block: Block

    @property
    def line(self) -> str:
        return self.block.line

    @property
    def answer(self) -> Any:
        """The value that the command's method returns. If the line was refused, the refusal is raised."""
        return self.block.answer


class Family(Sequence[Row]):
    """The table of a family: its rows in turn, and the names that they have values of."""

    def __init__(self, names: Iterable[str], rows: Iterable[Row]) -> None:
        self.names, self._rows = tuple(names), tuple(rows)

    @overload
    def __getitem__(self, at: int) -> Row: ...

    @overload
    def __getitem__(self, at: slice) -> Sequence[Row]: ...

    def __getitem__(self, at: Union[int, slice]) -> Union[Row, Sequence[Row]]:
        return self._rows[at]

    def __len__(self) -> int:
        return len(self._rows)

    def __repr__(self) -> str:
        return f"<Family of {len(self)} rows, by {', '.join(self.names)}>"

    @property
    def answers(self) -> List[Any]:
        """The answers in turn, None if a line was refused."""
        return [None if it.block.refusal else it.answer for it in self]

    def frame(self) -> Any:
        """A DataFrame of pandas: a column for each name, the line, the answer and the refusal, one of which is None."""
        pandas: Any = import_module("pandas")
        columns = {name: [it.values[name] for it in self] for name in self.names}
        made = {"line": [it.line for it in self], "answer": self.answers, "refusal": [it.block.refusal for it in self]}
        twice = sorted(set(columns) & set(made))
        if twice:
            raise ValueError(f"a column of the frame has the name {twice[0]}, too")
        return pandas.DataFrame({name: pandas.Series(column, dtype=_dtype(column)) for name, column in {**columns, **made}.items()})


def family(
    self: Any,
    template: str,
    *,
    progress: Union[bool, Callable[[int], None]] = False,
    workers: Optional[int] = None,
    timeout: Optional[SupportsFloat] = None,
    **names: Iterable[Any],
) -> Family:
    """The table of a line whose words have names, with a row for each choice of their values, which are numbers or lists; the last name
    changes first. A name is a word of the line, in a number such as `3n`, `n+1`, `(n-1)` or `2*n*k`, or in an atom such as `s[n,1]`. A row whose
    line is refused has the refusal. `progress`, `workers` and `timeout` are those of `batch`.
    >>> from yorqanish import Calculator
    >>> table = Calculator().family("coef 3n 2n n - 2n n - 2n n", n=range(1, 11))
    >>> table.answers
    [2, 3, 4, 5, 6, 7, 8, 9, 10, 11]
    >>> table[1].line
    'coef 6 4 2 - 4 2 - 4 2'
    """
    rows, lines = rows_of(template, names)
    outcomes = list(self.batch(lines, progress=progress, workers=workers, timeout=timeout))
    if [it.line for it in outcomes] != lines:
        raise ValueError(f"template: {template!r} is not a line")
    return Family(names, map(Row, rows, outcomes))


def _dtype(column: List[Any]) -> Optional[str]:
    """That of a column: pandas chooses it for small whole numbers; a list or a large number stays what it is."""
    return None if column and all(type(it) is int and abs(it) < 1 << 63 for it in column) else "object"


def rows_of(template: str, names: Dict[str, Iterable[Any]]) -> Tuple[List[Values], List[str]]:
    """The values of all rows, and their lines."""
    given = {name: [_value(it, name) for it in them] for name, them in names.items()}
    lists = {name for name, them in given.items() if any(isinstance(it, tuple) for it in them)}
    for name, them in given.items():
        if not re.fullmatch(NAME, name):
            raise ValueError(f"{name} is not a name of a family: that is a word of letters, or a Greek letter")
        if name in lists and not all(isinstance(it, tuple) for it in them):
            raise TypeError(f"{name}: the values of a name are all numbers, or all lists")
    made = list(_words(text_of(template), given, lists))
    rows = [dict(zip(given, them)) for them in product(*given.values())]
    return rows, [" ".join(filter(None, (it if isinstance(it, str) else it(values) for it in made))) for values in rows]


def _value(value: Any, name: str) -> Any:
    """A number, or a list as a tuple."""
    return whole(value, name) if integer(value) is not None else tuple(numbers(value, name))


def _words(template: str, given: Dict[str, Any], lists: Iterable[str]) -> Iterator[Union[str, Made]]:
    """The words of a template, of which some are made of the values of a row."""
    words, used = words_of(template), set(re.findall(NAME, template))
    if not words or words[0] not in COMMANDS or re.search(r"[^\S \t]", template):
        raise ValueError(f"template: {template!r} is not a line with a command of calc")
    idle = [name for name in given if name not in used]
    if idle or not given:
        raise ValueError(f"template: {idle[0] if idle else 'no name'} is not in {template!r}" if given else "a family has names, as in n=range(1, 11)")
    names = _Names(frozenset(given) - set(lists), frozenset(lists), words[0])
    yield words[0]
    for word in words[1:]:
        yield names.word(word)


class _Names(NamedTuple):
    """The names that stand for numbers and those for lists, and the command of a template."""

    numbers: frozenset[str]
    lists: frozenset[str]
    command: str

    def refused(self, word: str, why: str = "") -> ValueError:
        return ValueError(f"template: {word!r} {why or 'is no number or list made of ' + ', '.join(sorted(self.numbers | self.lists))}")

    def number(self, text: str) -> Optional[Made]:
        """A number made of numbers and names, as `3n+1` or `2*n*m`."""
        terms = [(-1 if it[0] == "-" else 1, [FACTOR.fullmatch(part) for part in it.lstrip("+-").split("*")]) for it in re.split(r"(?=[-+])", text) if it]
        if not re.fullmatch(r"[^-+*]+(?:[-+*][^-+*]+)*", text) or not all(it and it[0] and it[2] in (None, *self.numbers) for _, them in terms for it in them):
            return None

        def made(values: Values) -> str:
            total = 0
            for sign, factors in terms:
                for it in factors:
                    sign *= int(it[1] or 1) * (values[it[2]] if it[2] else 1)  # type: ignore[index]
                total += sign
            return str(total)

        return made

    def part(self, text: str, joint: str) -> Made:
        """A list with a joint between its parts, or a number."""
        if text in self.lists:
            return lambda values: joint.join(map(str, values[text]))
        made = self.number(text)
        if not made:
            raise self.refused(text)
        return made

    def word(self, word: str) -> Union[str, Made]:
        """A word of the line, or how it is made of the values of a row."""
        if word[:1] == "-" and word[1:] in self.numbers | self.lists:
            raise self.refused(word, "is an option, and a name of the family: take another name")
        if not re.search(r"[^\W\d_]", word) or word in ("-m", "-r", "-from"):
            return word
        if any(sort == EXPRESSION for _, sort, _ in COMMANDS[self.command]):
            return self.expression(word)
        inner = re.fullmatch(r"\((.*)\)", word)
        if not inner and "-" in word:
            raise self.refused(word, f"has two readings: ({word}), or {word.replace('-', ' - ')}")
        return self.part(inner[1] if inner else word, " ")

    def expression(self, word: str) -> Union[str, Made]:
        """The word of an expression: names are in its atoms, and numbers between its signs."""
        basis = sorted(set("mehps") & (self.numbers | self.lists))
        if basis:
            raise self.refused(basis[0], "is the name of a basis: take another name")
        if re.fullmatch("[mehps]", word):
            return word
        made = [self.piece(word, found) for found in PIECE.finditer(word)]
        return lambda values: "".join(it if isinstance(it, str) else it(values) for it in made)

    def piece(self, word: str, found: re.Match[str]) -> Union[str, Made]:
        text, after = found[0], word[found.end() : found.end() + 1]
        if found[1] is not None:
            return self.atom(found[1])
        if not re.search(r"[^\W\d_]", text) or (after == "[" and re.fullmatch("[mehps]", text)):
            return text
        # (1/2n has two readings)
        made = None if after == "[" or (text[0].isdigit() and word[: found.start()].endswith("/")) else self.number(text)
        if not made:
            raise self.refused(text)
        return made

    def atom(self, inside: str) -> Made:
        """The list of an atom: numbers and lists, one after another."""
        parts: List[Tuple[bool, Union[str, Made]]] = [(it in self.lists, self.part(it, ",") if re.search(r"[^\W\d_]", it) else it) for it in inside.split(",")]

        def made(values: Values) -> str:
            texts = [(is_list, it if isinstance(it, str) else it(values)) for is_list, it in parts]
            return f"[{','.join(text for is_list, text in texts if text or not is_list)}]"

        return made
