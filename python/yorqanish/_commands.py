"""The commands of `calc`: their arguments, the line of a call, and why a line was refused, in words: from what `calc` prints, and the line, alone."""
from __future__ import annotations

import json
import os
import re
from itertools import takewhile
from typing import Any, Dict, Iterable, List, Optional, Sequence, Tuple, Type

from ._arguments import Numbers, numbers, partition, spoken, whole, without_zeros

# The one table of commands, beside this file.
with open(os.path.join(os.path.dirname(__file__), "commands.json"), encoding="utf-8") as file:
    TABLE: Dict[str, Any] = json.load(file)
# What an argument can be, and the roles of the table that are this; the others are expressions. Numbers and expressions are one word each, all else lists.
PARTITION, PERMUTATION, LETTERS, TABLEAU, NUMBER, EXPRESSION = "partition", "permutation", "letters", "tableau", "number", "expression"
SORTS = {it: it for it in (PARTITION, PERMUTATION, LETTERS, TABLEAU)}
SORTS.update(recording=TABLEAU, filling=TABLEAU, rows=NUMBER, columns=NUMBER, level=NUMBER)
# An argument of a command: its name, what it is, and the word in front of it. (Plain tuples are unpacked the fastest.)
Argument = Tuple[str, str, str]


def arguments_of(words: Iterable[Any]) -> List[Argument]:
    """The arguments that the words of a command of the table have here; factors are numbered, and there is one more than `calc` takes, which it then refuses."""
    found: List[Argument] = []
    sign = ""
    for it in (slot for it in words for slot in (it.get("optional") or 7 * it["more"] if isinstance(it, dict) else [it])):
        if isinstance(it, str):
            # (what is an option of calls is in front of no argument)
            sign = it if it not in ("-r", "-m") else ""
        elif it[2:]:
            found.append((it[2].format(1 + sum(sort == PARTITION for _, sort, _ in found)), SORTS.get(it[0], EXPRESSION), sign))
    return found


COMMANDS: Dict[str, List[Argument]] = {name: arguments_of(row["words"]) for name, row in TABLE["commands"].items() if row["answer"]}


def typed(words: Sequence[Any]) -> str:
    """Words and numbers as they are typed. (One format is quicker than a text of each.)"""
    return ("%s " * len(words) % tuple(words))[:-1]


def words_for(command: str, values: Iterable[Any], rows: Any = None) -> List[Any]:
    """The words and numbers of a call with these arguments, and with this number of variables; those of a tableau are in one piece."""
    them: List[Any] = [command] if rows is None else [command, "-r", whole(rows, "rows")]
    inner: Numbers = ()
    for (name, sort, sign), value in zip(COMMANDS[command], values):
        if sign:
            them.append(sign)
        if sort == PARTITION:
            # (the last one before a tableau is the inner one of its shape)
            inner = partition(value, name)
            them += inner
        elif sort == NUMBER:
            them.append(whole(value, name))
        else:
            them += (spoken(value, name, inner),) if sort == TABLEAU else numbers(value, name)
    return them


def inner_of(words: List[str]) -> Numbers:
    """The inner partition of the shape that a line begins with."""
    after = words[words.index("/") + 1 :] if "/" in words else []
    return without_zeros(tuple(map(int, takewhile(str.isdigit, after))))


def words_of(line: str) -> List[str]:
    """The words of a line, between blanks and tabs."""
    return [it for it in line.rstrip("\r\n").replace("\t", " ").split(" ") if it]


def place_of(words: List[str], word: int) -> Tuple[str, str, int]:
    """The name of the argument that a word of the line is in, what that is, and the word at which it begins. (Of a word that is in none it is the command.)"""
    at, found = 1, (words[0], EXPRESSION, 0)
    while words[at : at + 1] in (["-r"], ["-m"]):
        if words[at] == "-r" and word == at + 1:
            return "rows", NUMBER, word
        at += 2 if words[at] == "-r" else 1
    for name, sort, sign in COMMANDS.get(words[0], []):
        if sign:
            signs = [i for i, it in enumerate(words[: word + 1]) if i >= at and it == sign]
            if not signs:
                break
            at = signs[0] + 1
        if sort not in (NUMBER, EXPRESSION):
            found = name, sort, at
        elif at == word:
            return name, sort, at
        else:
            at += 1
    return found


# The greatest number of each limit, and why a word of an argument is refused that is of the right form, by the kind of the refusal and by what the argument is.
MOST = {f"most {name}": said.split(" to ")[-1] for name, (_, said) in TABLE["limits"].items()}
WHY: Dict[Tuple[str, str], str] = {(kind, sort): said for kind, sort, said, _ in TABLE["refusals"]}


def why(kind: str, words: List[str], word: int, byte: int) -> str:
    """Why the words were refused at this place."""
    if word == 0:
        return f"a line has at most {MOST['most batch']} bytes" if kind == "Range" else "there is no such command" if words else "there is no command"
    name, sort, start = place_of(words, word)
    if kind == "Literal":
        return f"a number is at most {MOST['most number']}"
    if kind == "Shape" and words[word : word + 1] == ["-from"]:
        return "the tableau after -from is not in the list"
    if kind != "Syntax":
        return WHY[kind, sort].format(name=name, number=word - start + 1, **MOST)
    if word == len(words):
        return "a product has two to eight factors" if name[:6] == "factor" and "-" not in words else "the command ends too early"
    if sort != EXPRESSION or name == "target" or not start:
        return "this word is not allowed here"
    return "the expression cannot continue like this" if words[word][byte:] else "the expression ends too early"


def shown(words: List[str], word: int) -> str:
    """The line with its refused word in brackets; of a long one the words around it."""
    marked = [f"[{it}]" if i == word else it for i, it in enumerate(words + [""] * (word == len(words)))]
    marked = [it if len(it) <= 60 else f"{it[:28]}..{it[-28:]}" for it in marked]
    if len(" ".join(marked)) <= 160:
        return " ".join(marked)
    return " ".join([*marked[:1], *[".."] * (word > 9), *marked[max(1, word - 8) : word + 9], *[".."] * (word + 9 < len(marked))])


# The classes of refusals, by the names that `calc` prints.
REFUSALS: Dict[str, Type[Refusal]] = {}


class Refusal(ValueError):
    """Raised for a command that `calc` refuses. The message says why, and at which word of the line.

    `kind` is the name that `calc` prints (`Syntax`, `Literal`, `Range`, `Shape` or `Large`), `line` is the command, and `word` and `byte`
    are the place in it, both counted from 0. For `Large` they are None."""

    kind = ""

    def __init_subclass__(cls, kind: str = "") -> None:
        cls.kind = kind or cls.kind
        REFUSALS.setdefault(cls.kind, cls)

    def __init__(self, line: str, word: Optional[int] = None, byte: Optional[int] = None) -> None:
        self.line, self.word, self.byte, words = line, word, byte, words_of(line)
        if word is None or byte is None:
            told = f"a number of the answer, or a bound for the intermediate ones, is greater than 2^127 - 1, in {shown(words, -1)}"
        else:
            told = f"{why(self.kind, words, word, byte)}, in {shown(words, word)}{f', at byte {byte} of word {word}' if byte else ''}"
        super().__init__(told)

    def __reduce__(self) -> Tuple[Any, ...]:
        return type(self), (self.line, self.word, self.byte)

    @staticmethod
    def of(text: str, line: str) -> Refusal:
        """The refusal of this line that `calc` has printed."""
        found = re.fullmatch(r"! (\w+)(?: (\d+):(\d+))?\n", text)
        if not found or found[1] not in REFUSALS or (found[1] == "Large") != (found[2] is None):
            raise ValueError(f"{text!r} is not an answer of calc")
        return REFUSALS[found[1]](line, *map(int, filter(None, found.groups()[1:])))


class SyntaxRefusal(Refusal, kind="Syntax"):
    """The line is not a command. `word` and `byte` are the first place at which it is wrong."""


class LiteralRefusal(Refusal, kind="Literal"):
    """A number in the command is greater than 2^127 - 1."""


class RangeRefusal(Refusal, kind="Range"):
    """A limit of `calc` is exceeded."""


class ShapeRefusal(Refusal, kind="Shape"):
    """A list is no partition or permutation, rows are no tableau of the shape, a denominator is 0, or an inner expression has a minus sign or a fraction."""


class TooLarge(Refusal, OverflowError, kind="Large"):
    """A coefficient of the answer, or a bound for the intermediate numbers, is greater than 2^127 - 1."""
