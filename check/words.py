"""The words of the Rattle kit that the definitions use: all that check/definitions takes for granted. docs/DEFINITIONS.md says what each means.

A list is a tuple, and so are a pair and a value of a data type: the name of its constructor and the arguments. An integer or natural number is
Python's, a record is a `Record`, and a proposition is something that is true or false."""


class Record(dict):
    """A record: its fields by name."""

    def __hash__(self):
        return hash(tuple(self.items()))


def entry_or(items, i, default):
    return items[i] if i < len(items) else default


NONE, LESS, EQUAL, GREATER = ("None",), ("Less",), ("Equal",), ("Greater",)
# name: (number of arguments, function)
WORDS = {
    "codes": (1, tuple),
    "decimal": (1, lambda n: tuple(str(n).encode())),
    "signed_decimal": (1, lambda n: tuple(str(n).encode())),
    "not": (1, lambda a: not a),
    "min": (2, min),
    "max": (2, max),
    "nat_le": (2, lambda a, b: a <= b),
    "nat_lt": (2, lambda a, b: a < b),
    "nat_abs": (1, abs),
    "neg_ℤ": (1, lambda a: -a),
    "nat_cmp": (2, lambda a, b: LESS if a < b else EQUAL if a == b else GREATER),
    "ordering_then": (2, lambda a, b: b if a == EQUAL else a),
    "is_lt": (1, lambda a: a == LESS),
    "length": (1, len),
    "map": (2, lambda f, items: tuple(map(f, items))),
    "filter": (2, lambda test, items: tuple(filter(test, items))),
    "flat_map": (2, lambda f, items: tuple(it for x in items for it in f(x))),
    "reverse": (1, lambda items: items[::-1]),
    "replicate": (2, lambda n, it: (it,) * n),
    "take": (2, lambda n, items: items[:n]),
    "drop": (2, lambda n, items: items[n:]),
    # (the list with two entries exchanged; after the end is the first entry)
    "swap": (3, lambda items, i, j: tuple(entry_or(items, {i: j, j: i}.get(at, at), items[0]) for at in range(len(items)))),
    "slice_index": (2, lambda items, i: entry_or(items, i, 0)),
    "slice_index_or": (3, entry_or),
    "slice_get": (2, lambda items, i: ("Some", items[i]) if i < len(items) else NONE),
    "range_with_len": (2, lambda a, n: tuple(range(a, a + n))),
    "join_with_byte": (2, lambda byte, texts: tuple(b for text in texts for b in (byte, *text))[1:]),
    "option_map": (2, lambda f, it: it if it == NONE else ("Some", f(it[1]))),
    "option_map_or": (3, lambda f, it, d: d if it == NONE else f(it[1])),
    "IsTrue": (1, bool),
}
# sign: the code of its value. `&&`, `||`, `×`, `⊎`, `→` and `cond` look at a side only if they must
SIGNS = {"+": "({} + {})", "*": "({} * {})", "^": "({} ** {})", "-": "max({} - {}, 0)", "/": "quotient({}, {})", "%": "rest({}, {})",
         "+ℤ": "({} + {})", "*ℤ": "({} * {})", "==": "({} == {})", "++": "({} + {})", "&&": "({} and {})", "||": "({} or {})",
         "≡": "({} == {})", "≢": "({} != {})", "≤": "({} <= {})", "<": "({} < {})", "×": "({} and {})", "⊎": "({} or {})",
         "→": "(not {} or {})", "cond": "({1} if {0} else {2})"}
SCOPE = {"quotient": lambda a, b: a // b if b else 0, "rest": lambda a, b: a % b if b else a, "Record": Record,
         **{f"word_{at}": function for at, (_, function) in enumerate(WORDS.values())}}


def call(place, count):
    """The number of arguments of a function, and the code of its value."""
    return count, f"{place}({', '.join(['{}'] * count)})"


CODES = {**{name: (code.count("{"), code) for name, code in SIGNS.items()},
         **{name: call(f"word_{at}", count) for at, (name, (count, _)) in enumerate(WORDS.items())}}


def constructor(name, arity):
    """The code of a constructor: a test whether a value is made by it, its arguments in such a value, and the value."""
    return f"{{}}[0] == {name!r}", tuple(f"{{}}[{at}]" for at in range(1, arity + 1)), f"({', '.join([repr(name)] + ['{}'] * arity)},)"


CONSTRUCTORS = {
    "zero": ("{} == 0", (), "0"), "suc": ("{} > 0", ("({} - 1)",), "({} + 1)"),
    "pos": ("{} >= 0", ("{}",), "{}"), "negsuc": ("{} < 0", ("(-1 - {})",), "(-1 - {})"),
    "[]": ("not {}", (), "()"), "∷": ("{}", ("{}[0]", "{}[1:]"), "({}, *{})"),
    "true": ("{}", (), "True"), "false": ("not {}", (), "False"), "tt": ("True", (), "('tt',)"),
    "Unit": ("{}", (), "True"), "⊥": ("not {}", (), "False"),
    **{name: constructor(name, name in ("Some", "inl", "inr")) for name in ("None", "Some", "inl", "inr", "Less", "Equal", "Greater")},
}
