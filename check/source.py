"""Reads the declarations of a file of definitions (.antt), which lint/statements.py takes apart, as trees.

A tree is a tuple whose first entry says what it is: ("name", n, path), ("number", n), ("text", bytes), ("apply", f, arguments), also for an
operator, ("tuple", parts), ("project", e, field), ("lambda", names, body), ("let", name, value, body), ("record", base, fields), and
("all" or "some", names, type, body) for `(x : T) → body` and `(x : T) × body`."""
import functools
import itertools
import os
import sys

sys.path.insert(1, os.path.join(os.path.dirname(os.path.abspath(__file__)), "..", "lint"))
from claims import Undecided
from statements import File, PAIRS, blocks, closing, split, telescope

# the strength with which an operator binds; those of RIGHT group to the right
OPERATORS = {"→": 25, "⊎": 30, "||": 30, "×": 35, "&&": 35, "≡": 50, "≢": 50, "≤": 50, "<": 50, "≤ℤ": 50, "==": 50, "+": 65, "-": 65, "+ℤ": 65,
             "++": 65, "∷": 67, "*": 70, "*ℤ": 70, "/": 70, "%": 70, "^": 75}
RIGHT = {"→", "⊎", "||", "×", "&&", "++", "∷", "^"}
NO_NAMES = {"", ".", "=", ";", ",", ")", "}", ":", "in", *PAIRS, *OPERATORS}


@functools.lru_cache(None)
def clauses(declaration, file):
    """The clauses of a definition, each as its patterns and its body."""
    heads = [split(words, "=")[0] for words in declaration.clauses]
    return [(arguments_of(tree(head, file)), tree(words[len(head) + 1:], file)) for head, words in zip(heads, declaration.clauses)]


@functools.lru_cache(None)
def fields(declaration, file):
    """The fields of a record or the constructors of a data type, each with its type, and for a constructor the number of its arguments."""
    (start, end), = declaration.lines
    lines = file.lines[start:end]
    body = next((at for at, it in enumerate(lines) if it.rstrip().endswith("where")), 0) + 1
    found = [[it for it in words if it != "pub"] for _, _, words in blocks(lines[body:])]
    return {words[0]: (tree(words[2:], file), sum(is_shown for *_, is_shown in telescope(words[2:])) - 1) for words in found}


def head_of(it):
    """The name at the head of an expression, or None."""
    it = it[1] if it[0] == "apply" else it
    return it[1] if it[0] == "name" else None


def arguments_of(it):
    return it[2] if it[0] == "apply" else ()


def items(words):
    """The words and brackets of a text, each with the place where it begins."""
    at = 0
    while at < len(words):
        end = closing(words, at) + 1
        yield at, words[at:end]
        at = end


def is_binder(item):
    """Whether this begins what extends to the end: `λ`, `let`, or a bracket as in `(x y : T) → body`."""
    typed = item.index(":") if ":" in item[1:] else 0
    return item[0] in ("λ", "let") or typed > 1 and item[0] in PAIRS and not NO_NAMES.intersection(item[1:typed])


def names_in(words):
    """The names in `x y (z : T) {u : T} ..`, without those in braces."""
    return tuple(name for _, it in items(words) if it[0] != "{" for name in (it[1:it.index(":")] if it[1:] else it))


def bound(words):
    """What `λ` binds: a name, or for a pair as in `λ (x, (y, z)).` a tuple of what its parts bind."""
    pair = lambda it: tuple(map(pair, split(it[1:-1], ","))) if it[0] == "(" else it[0]
    return tuple(it for _, item in items(words) for it in ([pair(item)] if "," in item else names_in(item)))


def tree(words, file):
    """The tree of a type, a pattern or an expression. What stands in braces is left out."""
    found, parts = [], list(items(words))
    bound = next((at for at, it in parts if is_binder(it)), len(words))
    signs = [at for at, it in parts if at < bound and it[0] in OPERATORS]
    if signs:
        at = min(signs, key=lambda it: (OPERATORS[words[it]], it if words[it] in RIGHT else -it))
        return "apply", ("name", words[at], words[at]), (tree(words[:at], file), tree(words[at + 1:], file))
    at = 0
    while at < len(words):
        if at == bound:
            found.append(bound_tree(words[at:], file))
            break
        at = put_atom(found, words, at, file)
    if not found:
        raise Undecided("an expression is missing")
    return ("apply", found[0], tuple(found[1:])) if found[1:] else found[0]


def put_atom(found, words, at, file):
    """Adds the tree of the atom that begins at a place, or puts its field in the place of the last one; the result is the place after it."""
    word, end = words[at], closing(words, at) + 1
    if word == "(":
        parts = tuple(tree(it, file) for it in split(words[at + 1:end - 1], ","))
        found.append(parts[0] if len(parts) == 1 else ("tuple", parts))
    elif word == "." and found:
        found.append(("project", found.pop(), int(words[end]) if words[end].isdigit() else words[end]))
        end += 1
    elif word == "record":
        start = words.index("{", at)
        base, end = words[at + 1:start], closing(words, start) + 1
        given = [(it[0], tree(it[2:], file)) for it in split(words[start + 1:end - 1], ";") if it]
        found.append(("record", tree(base, file) if base else None, tuple(given)))
    elif word[0] == '"':
        found.append(("text", word[1:-1].replace("\\n", "\n").replace('\\"', '"').encode()))
    elif word.isdigit():
        found.append(("number", int(word)))
    elif word != "{":
        if word in NO_NAMES:
            raise Undecided(f"`{word}` where an expression is wanted: {' '.join(words[at:at + 8])}")
        path, count = file.full(words, at)
        found.append(("name", word, path))
        end = at + count
    return end


def bound_tree(words, file):
    """The tree of `λ x. body`, `λ (x, y). body`, `let x = value in body`, `(x y : T) → body`, `(x : T) × body` or `{x : T} → body`."""
    (_, first), *parts = items(words)
    if first == ["λ"]:
        at = next(at for at, it in parts if it == ["."])
        return "lambda", bound(words[1:at]), tree(words[at + 1:], file)
    if first == ["let"]:
        depths = itertools.accumulate((it == ["let"]) - (it == ["in"]) for _, it in parts)
        at = next(at for (at, _), depth in zip(parts, depths) if depth < 0)
        return "let", words[1], tree(words[3:at], file), tree(words[at + 1:], file)
    sign = words[len(first)]
    body = tree(words[len(first) + (sign in ("→", "×")):], file)
    return ("some" if sign == "×" else "all", names_in(first), tree(first[first.index(":") + 1:-1], file), body) if first[0] == "(" else body
