"""The values that are tried for what propositions say of all values, or of some value. Where the definitions bound these by what they say of them, all
that can fit are tried; what is tried otherwise is noted, to be printed."""
import itertools
import re
import types

import words
from claims import BASES, Undecided, Unreadable, shown, tree_of
from meaning import Definitions
from source import fields

def readings(form, given):
    """The values that the first words may denote by a form, each with the words that are left."""
    kind, *parts = form
    if kind == "empty":
        yield ("tt",), given
    elif kind == "word":
        yield from ((value, given[1:]) for value in (values_of_word(parts[0], given[0]) if given else ()))
    elif kind == "sequence":
        yield from (((first, second), left) for first, rest in readings(parts[0], given) for second, left in readings(parts[1], rest))
    elif kind == "either":
        yield from (((name, value), rest) for name, part in zip(("inl", "inr"), parts) for value, rest in readings(part, given))
    elif kind == "many":
        yield from (((first, *more), left) for first, rest in readings(parts[0], given) if len(rest) < len(given)
                    for more, left in readings(form, rest))
        yield (), given


def values_of_word(kind, word):
    """The values that a word of a class may denote."""
    text = bytes(word).decode("utf-8", "replace")
    if kind[0] in ("exact", "number"):
        return [word] if kind[0] == "number" else [("tt",)] if kind[1] == word else []
    if kind[0] == "target":
        return [(BASES[text],)] if text in BASES else []
    try:
        return [phrase(tree_of(text))]
    except Unreadable:
        return []


def phrase(it):
    """The value of the definitions for a tree of an expression."""
    return tuple(it.encode()) if isinstance(it, str) else tuple(map(phrase, it)) if isinstance(it, list) else (it[0], *map(phrase, it[1:]))


def inside(shape, cells=None):
    """The partitions inside a shape, with this number of cells."""
    return [tuple(a for a in it if a) for it in itertools.product(*(range(a, -1, -1) for a in shape))
            if (cells is None or sum(it) == cells) and all(a >= b for a, b in zip(it, it[1:]))]


def path(cells, start, end):
    """A shortest path between two cells, without the first of them, if there is one."""
    came, queue = {start: ()}, [start]
    for i, j in queue:
        for it in {(i, j + 1), (i, j - 1), (i + 1, j), (i - 1, j)}.intersection(cells).difference(came):
            came[it] = (*came[i, j], it)
            queue.append(it)
    return [came[end]] if end in came else []


REMOVAL = ("each partition inside the shape, with n cells less", lambda trial, of: inside(of.shape, sum(of.shape) - of.n))
ELEMENTS = ("", lambda trial, of: of.terms)
SIGNS = ("", lambda trial, of: (1, -1))
# a definition and a name in it: what is tried for it, as text and by a function of the values of other names
TRIED = {
    "IsCoproductOf.n": ("0 to {} together", lambda trial, of: [it for it in trial.numbers(2) if sum(it) <= trial.most]),
    "ExpandsInSchurs.t": ELEMENTS, "AreCollected.u": ELEMENTS,
    "Has.written": ("", lambda trial, of: [value for value, rest in readings(of.f, of.words) if not rest]),
    "ReadsBack.kind": ("", lambda trial, of: trial.kinds()),
    "GoesTo.left": REMOVAL, "HasNoRemoval.left": REMOVAL, "GoesTo.t": SIGNS, "ReducesTo.sign": SIGNS,
    "ReducesTo.end": ("each partition inside the shape", lambda trial, of: inside(of.shape)),
    "IsRimHookReduction.reductions": ("", lambda trial, of: trial.reductions(of.k, of.n, of.classical)),
    "IsQuantumStep.reductions": ("", lambda trial, of: itertools.product(*(trial.reductions(
        of.k, of.n, trial.of("Products.classical_product", of.k, (t[0][1], of.factor))) for t in of.terms))),
    "HasNoSquare.i": ("", lambda trial, of: trial.cells(of)),
    "IsConnected.i": ("", lambda trial, of: (a + b for a, b in itertools.product(trial.cells(of), repeat=2))),
    "IsConnected.path": ("a shortest path of cells", lambda trial, of: path(trial.cells(of), (of.i, of.j), (of.k, of.l))),
    "StepsLead.next": ("the last list, after the last factor",
                        lambda trial, of: trial.nothing("StepsLead", "next") if of.factors else [of.last]),
    "PrintsWord.word": ("the word that the text shows", lambda trial, of: [tuple(map(int, re.findall(rb"\d+", bytes(of.text))))]),
    "PrintsRectified.straight": ("what all slides lead to", lambda trial, of: {end: 0 for _, end in trial.slides(of.filling)}),
    "IsReached.chosen": ("", lambda trial, of: [rows for rows, _ in trial.slides(of.t)]),
}


class Trial:
    """What is tried for one answer: numbers up to `most`."""

    def __init__(self, top):
        scope = {name: getattr(self, name) for name in ("values", "for_all", "equal_at_labels")}
        self.definitions = Definitions(top, scope, TRIED)
        self.begin(0)

    def begin(self, most):
        """Forgets what was found for an earlier answer."""
        self.most, self.notes, self.reason = most, {}, ""
        for it in self.definitions.decided:  # (what propositions gave depends on what was tried)
            it.cache_clear()

    def of(self, path, *arguments):
        """The value of a definition."""
        return self.definitions.function("sym_model.specs." + path)(*arguments)

    # ---- what is tried

    def numbers(self, count):
        return itertools.product(range(self.most + 1), repeat=count)

    def kinds(self):
        return [(name,) for name in fields(*self.definitions.resolve("Rattle.sym_model.specs.Kind.Kind")[:2])]

    def cells(self, of):
        return [it for it in self.numbers(2) if self.of("Partition.IsCell", of.outer, of.inner, *it)]

    def reductions(self, k, n, terms):
        """The lists of a reduction of each term."""
        some = lambda shape: (("Some", it) for it in itertools.product(inside(shape), (1, -1), range(self.most + 1)))
        found = ([it for it in (words.NONE, *some(label)) if self.of("RimHookReduction.ReducesTo", k, n, label, it)] for label, _ in terms)
        return itertools.product(*found)

    def slides(self, filling):
        """The rows at which slides begin, and the tableau to which they lead, as often as one can begin."""
        inner = filling["inner"]
        rows = [row for row in range(len(inner) + 1) if self.of("Slide.HasInnerCorner", row, inner)]
        return [((row, *more), end) for row in rows for more, end in self.slides(self.of("Slide.slide", row, filling))] or [((), filling)]

    # ---- all and some

    def values(self, where, names, is_number, given):
        """The values that are tried for some names in a definition."""
        note, found = TRIED.get(f"{where}.{names[0]}") or ("0 to {}", None if is_number else self.nothing(where, names[0]))
        if note:
            self.notes[f"{' and '.join(names)} in {where}"] = note.format(self.most)
        found = found(self, types.SimpleNamespace(**given)) if found else self.numbers(len(names))
        return found if len(names) > 1 or note == "0 to {}" else ((it,) for it in found)

    def nothing(self, where, name):
        raise Undecided(f"{where} speaks of all `{name}`, and nothing bounds these")

    def for_all(self, names, values, holds):
        for it in values:
            self.reason = ""
            if not holds(*it):
                self.reason = self.reason and f"{' and '.join(names)} = {' and '.join(map(str, it))}: {self.reason}"
                return False
        return True

    def equal_at_labels(self, where, sides, sums):
        """Whether two sides are equal at each label of the formal sums that are arguments in them: at others both have the coefficient 0."""
        sums = [it for it in sums if not callable(it)]
        for label in dict.fromkeys(label for it in sums for label, _ in it) if len(sums) > 1 else self.nothing(where, "labels"):
            left, right = sides(label)
            if left != right:
                self.reason = f"at {shown(label)} the answer gives {left}, the definition {right} ({where})"
                return False
        return True
