"""Reads files of specs/ and proofs/, and statements as terms. `lemmas` in this folder uses it, and check/source.py."""
import itertools
import re

TOKEN = re.compile(r'--[^\n]*|\{-.*?-\}|"(?:[^"\\]|\\.)*"|«[^»]*»|[(){}.;,@]|[^\s(){}.;,@"«»]+', re.S)
MARKS = {"pattern", "unfoldable", "abbrev", "axiom", "pub"}
KINDS = {"data", "record", "ruleset"}
PAIRS = {"(": ")", "{": "}", "[": "]"}
CONSTRUCTORS = {"zero", "suc", "true", "false", "∷", "inl", "inr", "tt", "refl", "pos", "negsuc", ",", "_", "."}
# the beginning of the result of a function that is not a lemma
DATA = {"ℕ", "ℤ", "Bool", "List", "Option", "Result", "Ordering", "Type"}
# how strongly an operator binds, by its first sign; those of RIGHT to the right
STRENGTH = dict.fromkeys("=;|↦", 1) | dict.fromkeys(",", 2) | dict.fromkeys("→", 25) | dict.fromkeys("⊎↔∙", 30) | dict.fromkeys("×&", 35)
STRENGTH |= dict.fromkeys("≡≤<≢", 50) | dict.fromkeys("+-", 65) | dict.fromkeys("∷", 67) | dict.fromkeys("*/%", 70) | dict.fromkeys("^", 75)
RIGHT = "→×⊎∷,&^"
NOT_NAMES = {"→", ",", "=", ";", "(", "λ", ".", "∷", "≡"}


def tokens(text):
    """The words of a text, without its comments."""
    return [it for it in TOKEN.findall(text) if not it.startswith(("--", "{-"))]


def closing(words, at):
    """The place of the bracket that closes the one at a place."""
    depth = 0
    for here in range(at, len(words)):
        depth += (words[here] in PAIRS) - (words[here] in PAIRS.values())
        if depth == 0:
            return here
    return len(words)


def split(words, mark):
    """The parts of a text between the marks that are in no bracket."""
    parts, at = [[]], 0
    while at < len(words):
        end = closing(words, at) if words[at] in PAIRS else at
        if words[at] == mark:
            parts.append([])
        else:
            parts[-1] += words[at : end + 1]
        at = end + 1
    return parts


def blocks(lines):
    """The statements of a text: the lines from and to, and the words. A statement is a line, and the deeper ones below it."""
    starts = [at for at, it in enumerate(lines) if it.strip() and not it.strip().startswith(("--", ")", "}", "]"))]
    depth = min((len(lines[at]) - len(lines[at].lstrip()) for at in starts), default=0)
    starts = [at for at in starts if len(lines[at]) - len(lines[at].lstrip()) == depth]
    for start, end in zip(starts, starts[1:] + [len(lines)]):
        while end > start + 1 and (not lines[end - 1].strip() or lines[end - 1].strip().startswith("--")):
            end -= 1
        yield start, end, tokens("\n".join(lines[start:end]))


def helpers(lines):
    """The helpers in the `where` block of a clause."""
    body = next((at for at, it in enumerate(lines) if it.strip() == "where"), len(lines)) + 1
    found = []
    for start, end, words in blocks(lines[body:]):
        if words[1:2] == [":"]:
            found.append(Declaration(words[0], [], "lemma", words[1:], []))
        elif found:
            found[-1].clauses.append(words)
            found[-1].helpers.append((words, helpers(lines[body + start : body + end])))
    return found


def bare(words):
    """A text without the brackets round the whole."""
    while words and words[0] == "(" and closing(words, 0) == len(words) - 1:
        words = words[1:-1]
    return words


def telescope(words):
    """The arguments of a type: the name if it has one, the type, and whether a clause has a pattern for it."""
    for part in split(words, "→"):
        at = 0
        while at < len(part) and part[at] in ("(", "{"):
            inner = part[at + 1 : closing(part, at)]
            typed = inner.index(":") if ":" in inner else 0
            if part[at] == "(" and set(inner[:typed] or "=") & NOT_NAMES:
                break
            yield from ((name, inner[typed + 1 :], part[at] == "(") for name in inner[:typed])
            at += len(inner) + 2
        if part[at:]:
            yield None, part[at:], True


def typed(pattern, kind):
    """The variables of a pattern with their types: `_` if it is not clear from the pattern."""
    pattern, kind = bare(pattern), bare(kind)
    if len(pattern) == 1:
        return {pattern[0]: kind}
    for mark in ("∷", ","):
        parts = split(pattern, mark)
        if len(parts) > 1:
            kinds = [kind[1:]] * (len(parts) - 1) + [kind] if mark == "∷" and kind[:1] == ["List"] else split(kind, "×")
            kinds = kinds if len(kinds) == len(parts) else [["_"]] * len(parts)
            return {name: it for pair in zip(parts, kinds) for name, it in typed(*pair).items()}
    return dict.fromkeys(pattern, ["ℕ"] if pattern[:1] == ["suc"] else ["_"])


class Declaration:
    """A lemma, a definition, a type or a set of rules, with the lines of the file that it takes (from 0)."""

    def __init__(self, name, marks, kind, words, section):
        self.name, self.marks, self.kind, self.words, self.section = name, marks, kind, words, section
        self.clauses, self.lines, self.opens, self.constructors = [], [], False, []
        self.helpers = []  # each clause with the helpers of its `where` block

    def context(self, clause, outer):
        """The variables that the helpers of a clause may use, with their types."""
        patterns, at = [], 1
        while at < len(clause) and clause[at] != "=":
            end = closing(clause, at) if clause[at] in PAIRS else at
            patterns.append(clause[at : end + 1])
            at = end + 1
        shown = [it for it in patterns if it[0] != "{"]
        named = {it[1]: it[3:-1] if "=" in it else [it[1]] for it in patterns if it[0] == "{"}
        found, renamed = dict(outer), {}
        words = [*self.section, *("→" for _ in self.section[:1]), *self.type()]
        for name, kind, explicit in telescope(words):
            kind = [it for word in kind for it in renamed.get(word, [word])]
            explicit = explicit and name not in self.section
            if explicit and not shown:
                break
            pattern = shown.pop(0) if explicit else named.get(name, [name])
            found |= typed(pattern, kind)
            if name:
                renamed[name] = pattern if len(pattern) < 2 or pattern[0] == "(" else ["(", *pattern, ")"]
        return found

    def type(self):
        """Its type, without the levels before it."""
        return self.words[self.words.index(":") + 1 :]

    def free_words(self):
        """The words of its type, and those of its clauses that their patterns do not bind."""
        found = set(self.words)
        for clause in self.clauses:
            found |= set(clause[clause.index("=") :]) - set(clause[: clause.index("=")]) if "=" in clause else set()
        return found

    def is_lemma(self):
        """Whether it is a statement with its proof: nothing unfolds it, and its result is no data."""
        parts = split(self.words, "→")[-1]
        return self.kind == "lemma" and not self.opens and not parts[parts[0] == ":" :][0].strip("(") in DATA


class File:
    """A file of specs/ or proofs/, taken apart into its imports and its declarations."""

    def __init__(self, path, module, block=False):
        self.path, self.module = path, module
        with open(path, encoding="utf-8") as it:
            self.lines = it.read().split("\n")
        if block:  # a page of the kit: what is between the marks of a text, with no line deeper than another
            marks = [at for at, it in enumerate(self.lines) if it.startswith("```")]
            first = next((at for at in marks if self.lines[at] == "```text"), len(self.lines))
            self.lines = [it.strip() for it in self.lines[first + 1 : next((at for at in marks if at > first), 0)]]
        self.imports, self.passed, self.modules, self.own, self.constructors = {}, set(), {}, {}, {}
        self.read(self.lines, 0, [])
        self.scope = dict(self.imports) | {name: f"{module}.{name}" for name in [*self.own, *self.constructors]}
        self.scope |= {name.strip("◌"): path for name, path in self.scope.items()}

    def read(self, lines, first, section):
        """Reads the statements of a file or of a section."""
        last = None
        for start, end, words in blocks(lines):
            marks = list(itertools.takewhile(MARKS.__contains__, words))
            words = words[len(marks) :]
            if words[0] == "use":
                self.read_use(words[1:], "pub" in marks)
            elif words[0] == "module":
                body = next(at for at in range(start, end) if lines[at].rstrip().endswith("where")) + 1
                self.read(lines[body:end], first + body, section + words[2 : words.index("where")])
            elif words[0] in KINDS or words[1:2] == [":"] or words[1:2] == ["{"] and words[closing(words, 1) + 1 :][:1] == [":"]:
                skip = words[0] in KINDS
                last = Declaration(words[skip], marks, words[0] if skip else "lemma", words[1 + skip :], section)
                last.opens = bool({"abbrev", "unfoldable", "pattern"} & set(marks))
                if last.kind == "data":
                    last.constructors = [it[0] for it in map(tokens, lines[start + 1 : end]) if it[1:2] == [":"]]
                self.own[last.name] = last
                self.constructors |= dict.fromkeys(last.constructors, last.name)
            elif words[0] == "unfolding":
                for name in words[1:]:
                    if name in self.own:
                        self.own[name].opens = True
            if last and words[0] not in ("use", "mod", "module"):
                last.lines.append((first + start, first + end))
                if len(last.lines) > 1:
                    last.clauses.append(words)
                    last.helpers.append((words, helpers(lines[start:end])))

    def read_use(self, words, public):
        """An import: `A.B.{c, d as e}`, `A.B` or `A.B as c`."""
        if "{" not in words:
            self.modules[words[-1]] = "".join(words[: words.index("as")] if "as" in words else words)
            return
        module = "".join(words[: words.index("{") - 1])
        for item in split(words[words.index("{") + 1 : words.index("}")], ","):
            if item:
                self.imports[item[-1]] = module + "." + "".join(item[: item.index("as")] if "as" in item else item)
                self.passed |= {item[-1]} if public else set()

    def full(self, words, at):
        """The declaration or import that the word at a place means, as a path, and the number of words that name it."""
        word, far = words[at], at + 1
        if words[far : far + 1] == ["."] and word in self.modules:
            return f"{self.modules[word]}.{words[at + 2]}", 3
        if words[far : far + 1] == ["."] and word == "Rattle":
            while words[far : far + 1] == ["."]:
                far += 2
            return "".join(words[at:far]), far - at
        return self.scope.get(word, word), 1

    def paths(self, words):
        """The meanings of the words of a text, each once."""
        found, at = set(), 0
        while at < len(words):
            path, taken = self.full(words, at)
            found.add(path)
            at += taken
        return found


def strength(word):
    """How strongly a word binds as an operator; 0 for a name."""
    return STRENGTH.get(word.rpartition(".")[2].strip("◌")[:1], 0)


def swapped(term, found):
    """A term with others for its variables."""
    return found.get(term, term) if isinstance(term, str) else applied([swapped(it, found) for it in term[1:]], term[0])


def applied(parts, head="@"):
    """A node of a term; an application of an application is one, and `λ x. f x` is `f`."""
    if head == "λ" and len(parts) == 2 and parts[1][0] == "@" and parts[1][-1] == parts[0] not in names_of(parts[1][:-1]):
        return applied(parts[1][1:-1])
    if head != "@":
        return (head, *parts)
    if parts[0][0] == "@":
        parts = [*parts[0][1:], *parts[1:]]
    return parts[0] if len(parts) == 1 or parts[0] == "Type" else ("@", *parts)


def head_of(term):
    """The function of an application, or the term itself."""
    return term[1] if term[0] == "@" else term


def names_of(term):
    """The words of a term."""
    return {term} if isinstance(term, str) else set().union(*map(names_of, term))


def written(term, numbers, fresh):
    """A term as text, the lesser side of an equation first; variables that have no number get one if `fresh`."""
    if isinstance(term, str):
        if fresh and term[0] == "#":
            numbers.setdefault(term, f"#{len(numbers)}")
        return numbers.get(term, "?") if term[0] == "#" else term
    parts = sorted(term[1:], key=lambda it: written(it, {}, False)) if term[0] == "≡" else term[1:]
    return f"({term[0]} {' '.join(written(it, numbers, fresh) for it in parts)})"


def matches(pattern, term, found, free, types=()):
    """The ways to put variables and constants for the free variables of a pattern, and terms for `types`, so that it becomes a term."""
    if isinstance(pattern, str):
        if pattern[0] != "#":
            fits = pattern == term
        elif pattern in found:
            fits = found[pattern] == term
        else:
            fits = pattern in types or isinstance(term, str) and (pattern in free or term[0] == "#")
        return [found | {pattern: term} if pattern[0] == "#" else found] if fits else []
    if isinstance(term, str) or pattern[0] != term[0]:
        return []
    if pattern[0] == "@" and pattern[1] in free:  # a function variable may be a name with its first arguments
        start = len(term) - len(pattern) + 2
        head = applied(term[1:start]) if start > 1 else None
        if head is None or found.get(pattern[1], head) != head:
            return []
        found, pattern, term = found | {pattern[1]: head}, ("@", *pattern[2:]), ("@", *term[start:])
    ways = []
    for order in (term[1:], term[:0:-1])[: 2 if term[0] == "≡" else 1]:
        part = [found] if len(pattern) == len(term) else []
        for one, other in zip(pattern[1:], order):
            part = [more for way in part for more in matches(one, other, way, free, types)]
        ways += part
    return ways


class Statement:
    """A statement as a term: its variables with their types, its premises and its conclusion."""

    def __init__(self, place, term, proof):
        self.place, self.variables, self.premises, self.proof = place, {}, [], proof
        self.crate, self.name, self.is_helper = place.split(".")[0], re.split("[./]", place)[-1], "/" in place
        while term[0] in ("Π", "→"):
            if term[0] == "Π" and term[1] in names_of(term[3]):
                self.variables[term[1]] = term[2]
            elif head_of(term[-2]) not in DATA and term[-2][0] != "#":
                self.premises.append(term[-2])
            term = term[-1]
        self.conclusion, self.is_lemma = term, head_of(term) not in DATA
        self.put_sums()
        self.constants = {it for it in names_of(self.conclusion) if it[0] not in "#@≡λΠ→"}

    def put_sums(self):
        """Puts sums in for variables that a premise says to be equal to them, such as `j ≡ i + 1`."""
        left, self.premises = self.premises, []
        while left:
            it = left.pop(0)
            sides = (it[1:], it[:0:-1]) if it[0] == "≡" else ()
            found = {name: term for name, term in sides if name in self.variables and term[0] == "+" and name not in names_of(term)}
            left, self.premises = ([swapped(other, found) for other in them] for them in (left, self.premises))
            self.premises += [] if found else [it]
            self.conclusion = swapped(self.conclusion, found)

    def __str__(self):
        return self.place

    def key(self):
        """What statements have in common that are the same."""
        numbers = {}
        parts = [written(self.conclusion, numbers, True)]
        for it in sorted(self.premises, key=lambda it: written(it, numbers, False)):
            parts.append(written(it, numbers, True))
        for name in self.variables:
            if name in numbers:
                parts.append(written(self.variables[name], numbers, True))
        return tuple(parts)

    def cites(self, other):
        """Whether it is a helper whose proof uses another statement: a line of a proof, and no lemma of its own."""
        return self.is_helper and other is not self and other.name in self.proof

    def says(self, other):
        """How another statement is this one at constants or variables, perhaps with further premises; nothing if it is not."""
        if self is other or other.cites(self):
            return ""
        ways = matches(self.conclusion, other.conclusion, {}, self.variables)
        types = {name for name, kind in self.variables.items() if kind == "Type"}
        for premise in self.premises:
            ways = [more for way in ways for it in other.premises for more in matches(premise, it, way, self.variables, types)]
        if not ways:
            return ""
        return "is" if any(self.has_types(other, way, types) for way in ways) else "is, at another type,"

    def has_types(self, other, way, types):
        """Whether the variables that another statement puts for this one's have such types; those that are not known do."""
        for name, kind in self.variables.items():
            given = other.variables.get(way.get(name), "_")
            if "_" not in names_of(given):
                way = next(iter(matches(kind, given, way, self.variables, types)), None)
                if way is None:
                    return False
        return True
