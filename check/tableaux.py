"""The counts of check/table: Littlewood–Richardson coefficients, lattice tableaux, and the shapes of words by Greene's theorem."""
import functools
import itertools
import re
from collections import Counter

from claims import Undecided, Unreadable, Wrong, numbers, partition, rows_of, shown, without_zeros

MOST_STEPS, MOST_LETTERS = 500000, 40


# ---- numbers

def signed_contents(outer, inner):
    """The contents in the Jacobi–Trudi determinant of outer/inner, each with its sign: s is the sum of the signed h of them."""
    n, states = len(outer), {((), ()): 1}  # (columns that are taken, and the parts)
    for i, b in enumerate(inner + (0,) * (n - len(inner))):
        found = Counter()
        for ((taken, parts), sign), j in itertools.product(states.items(), range(n)):
            part = outer[j] - j - b + i
            if j not in taken and part >= 0:
                larger = tuple(sorted((*parts, *[part] * (part > 0)), reverse=True))
                found[tuple(sorted((*taken, j))), larger] += -sign if sum(it > j for it in taken) % 2 else sign
        states = found
        if len(states) > MOST_STEPS // 20:
            raise Undecided("the count has too many steps")
    return {parts: c for (_, parts), c in states.items()}


@functools.lru_cache(None)
def tableaux(content, most):
    """The numbers of semistandard tableaux with a content, by their shapes, as far as these lie inside the shape `most`, if it is given."""
    found = Counter({(): 1} if not content else {})
    for shape, count in tableaux(content[:-1], most).items() if content else ():
        for lower in itertools.product(*(range(b, a + 1) for a, b in zip(shape, (*shape[1:], 0)))):
            first = sum(shape) + content[-1] - sum(lower)
            larger = without_zeros((first, *lower))
            if first >= sum(shape[:1]) and (most is None or len(larger) <= len(most) and all(a <= b for a, b in zip(larger, most))):
                found[larger] += count
        if len(found) > MOST_STEPS // 20:
            raise Undecided("the count has too many steps")
    return found


def coefficient(outer, left, right):
    """The coefficient of s_outer in the product of two Schur functions: a signed sum of Kostka numbers."""
    left, right = sorted((left, right), key=sum)
    return sum(c * tableaux(content, left)[left] for content, c in signed_contents(outer, right).items())


def count_lattice_tableaux(outer, inner):
    """The number of lattice tableaux of a skew shape: a signed sum of the numbers of tableaux of any shape with a content."""
    return sum(c * sum(tableaux(content, None).values()) for content, c in signed_contents(outer, inner).items())


# ---- texts of tableaux and words

def greene(word):
    """The shape of a word: the first k rows have as many cells as k weakly increasing subsequences without a common place can have places
    (Greene). They are found as flows of greatest gain in the graph of the places: each i has an edge from 2i to 2i + 1, whose gain is 1."""
    n, shape = len(word), []
    if n > MOST_LETTERS:
        raise Undecided(f"words of more than {MOST_LETTERS} letters are not checked")
    edges = {(2 * i + 1, 2 * j): 0 for i in range(n) for j in range(i + 1, n) if word[i] <= word[j]}
    for i in range(n):
        edges.update({("start", 2 * i): 0, (2 * i, 2 * i + 1): 1, (2 * i + 1, "end"): 0})
    while sum(shape) < n:
        gains, came, better = {"start": 0}, {}, True
        while better:
            better = [(one, other) for (one, other), gain in edges.items() if one in gains and gains[one] + gain > gains.get(other, -n)]
            gains.update({other: gains[one] + edges[one, other] for one, other in better})
            came.update({other: one for one, other in better})
        at = "end"
        while at != "start":
            one, at = at, came[at]
            edges[one, at] = -edges.pop((at, one))  # (an edge that is taken can be given back)
        shape.append(gains["end"])
    return tuple(shape)


def is_tableau(rows, outer, inner=()):
    """Whether the rows are a semistandard tableau of a skew shape; one without a cell has no rows."""
    inner += (0,) * (len(outer) - len(inner))
    lengths = [a - b for a, b in zip(outer, inner)]
    if len(inner) > len(outer) or min(lengths, default=0) < 0 or [len(it) for it in rows] != lengths and (rows or any(lengths)):
        return False
    cells = {(i, inner[i] + j): a for i, row in enumerate(rows) for j, a in enumerate(row)}
    return all(cells.get((i, j - 1), 0) <= a and cells.get((i - 1, j), 0) < a for (i, j), a in cells.items())


def must_be_pair(word, p, q=None):
    """p is the insertion tableau and q, if there is one, the recording tableau of the word: their entries up to each number have the shapes of the
    letters up to it, and of the word up to it."""
    pairs = [("P", p, word, lambda most: [a for a in word if a <= most]), ("Q", q, range(1, len(word) + 1), lambda most: word[:most])]
    for name, rows, entries, part in pairs[:1 if q is None else 2]:
        if not all(rows) or not is_tableau(rows, tuple(map(len, rows))) or sorted(entries) != sorted(a for row in rows for a in row):
            raise Wrong(f"{name} is no tableau of the letters that it must have")
        for most in sorted(set(entries)):
            if greene(part(most)) != tuple(it for it in (sum(a <= most for a in row) for row in rows) if it):
                raise Wrong(f"the entries up to {most} have another shape in {name}")


def lines_in(text, count):
    lines = text.rstrip("\n").split("\n") if text else []
    if len(lines) != count:
        raise Unreadable(f"{count} line{'s' * (count > 1)} must be here, and there are {len(lines)}")
    return lines


def check_text(claim, text):
    """Checks the text of a number, of tableaux or of a word; the result says how."""
    data = claim.data
    if claim.name == "coef":
        if not re.fullmatch(r"\s*(-(?=0*[1-9]))?[0-9]{1,4000}\s*", text):
            raise Unreadable("a single number is wanted")
        if int(text) != coefficient(*data):
            raise Wrong(f"the number is {coefficient(*data)}, a signed sum of Kostka numbers")
        return "a signed sum of Kostka numbers"
    if claim.name == "tab":
        return check_tableaux(*data[:2], text, data[2:])
    if claim.name == "rsk":
        lines = lines_in(text, 2)
        if [it[:2] for it in lines] != ["P ", "Q "]:
            raise Unreadable("a line `P ..` and a line `Q ..` are wanted")
        must_be_pair(data[0], *(rows_of(it[2:].split()) for it in lines))
    elif claim.name == "unrsk":
        must_be_pair(numbers(lines_in(text, 1)[0].split()), *data)
    elif claim.name == "rect":
        outer, inner, rows = data
        if not is_tableau(rows, outer, inner):
            raise Unreadable("the tableau of the command is not semistandard, or not of the shape")
        must_be_pair([a for row in reversed(rows) for a in row], rows_of(lines_in(text, 1)[0].split()))
    else:
        for i, line in enumerate(lines_in(text, len(data[0]) + 1)):
            shapes = [partition(numbers(re.findall("[0-9]+", it))) for it in line.split(" ")]
            if len(shapes) != len(data[0]) + 1 or " ".join(map(shown, shapes)) != line:
                raise Unreadable(f"line {i + 1} has no {len(data[0]) + 1} shapes")
            for j, shape in enumerate(shapes):
                if greene([a for a in data[0][:i] if a <= j]) != shape:
                    raise Wrong(f"the shape at ({i}, {j}) is another one")
    return "each shape is that of Greene's theorem"


def check_tableaux(outer, inner, text, last):
    """Checks the lines of `tab`: lattice tableaux, in their order, and their number."""
    readings, starts = [], inner + (0,) * len(outer)
    for at, line in enumerate([] if text == "0\n" else text.rstrip("\n").split("\n"), 1):
        rows = rows_of(line.split())
        if not is_tableau(rows, outer, inner):
            raise Wrong(f"line {at} is no tableau of the shape")
        reading = [a for _, _, a in sorted((-starts[i] - j, i, a) for i, row in enumerate(rows) for j, a in enumerate(row))]
        if any(a > 1 and reading[:i].count(a) >= reading[:i].count(a - 1) for i, a in enumerate(reading)):
            raise Wrong(f"line {at} is no lattice tableau")
        readings.append(reading)
    if any(a >= b for a, b in zip(readings, readings[1:])):
        raise Wrong("the tableaux are not in the order of their column readings, or one stands twice")
    if last:
        raise Undecided("each line is a lattice tableau, but how many come after a given one is not counted")
    count = count_lattice_tableaux(outer, inner)
    if len(readings) != count:
        raise Wrong(f"there are {count} lattice tableaux")
    return "each line is a lattice tableau, and so many there are"
