"""The values of definitions, and whether propositions hold. Each definition becomes a function of Python with the same clauses; its values are
kept by their arguments. What is said of all x, or of some x, is tried for the x that trying.py gives. There is no other algorithm here."""
import functools
import os

import source
import words
from claims import Undecided
from source import arguments_of, clauses, fields, head_of, names_in, split

# types of which values are not kept, and the length of lists from which on values are not kept by them
SMALL, MOST_KEPT = ("ℕ", "ℤ", "Bool", "List ℕ"), 80


def kept(function, saved):
    """The function, or the one that keeps its values, if the arguments are no functions and no long lists."""
    def answered(*arguments):
        is_long = any(callable(it) or it.__class__ is tuple and len(it) > MOST_KEPT for it in arguments)
        return (function if is_long else saved)(*arguments)
    return answered


def missing(why, *_arguments):
    raise Undecided(why)


def conjuncts(tree):
    return [tree[2][0], *conjuncts(tree[2][1])] if head_of(tree) == "×" else [tree]


def has_name(name, tree):
    return tree[:2] == ("name", name) or any(has_name(name, it) for it in tree if isinstance(it, tuple))


def places_in(name, place):
    """A name with its place in the code, or each name in a pair."""
    return [(name, place)] if isinstance(name, str) else [it for at, part in enumerate(name) for it in places_in(part, f"{place}[{at}]")]


class Definitions:
    """All definitions of the folder `crates` of a repository, read when they are used. The meaning of a path is a triple: the declaration and its
    file, or None twice for a word of the kit, and the name, which may be that of a constructor."""

    def __init__(self, top, scope, tried):
        self.top, self.names, self.queue, self.fresh, self.where, self.tried = top, {}, [], 0, "", tried
        self.scope = {"partial": functools.partial, "missing": missing, **words.SCOPE, **scope}
        self.decided = []  # (the propositions whose values are kept)

    # ---- names

    @functools.lru_cache(None)
    def file(self, module):
        """The file of a module such as Rattle.sym_model.specs.Schur; None for one of the kit."""
        path = os.path.join(self.top, "crates", *module.split(".")[1:]) + ".antt"
        return source.File(path, module) if os.path.exists(path) else None

    @functools.lru_cache(None)
    def resolve(self, path):
        """The meaning of a path."""
        module, _, name = path.rpartition(".")
        file = self.file(module)
        if file and (name in file.own or name in file.constructors):
            return file.own[file.constructors.get(name, name)], file, name
        if file and name in file.imports:
            return self.resolve(file.imports[name])
        if file or module and not module.startswith(("Rattle.std", "Rattle.core")):
            raise Undecided(f"`{name}` is not in {module}")
        return None, None, name

    def constructor(self, path):
        """The codes of a constructor; None for any other name."""
        declaration, file, name = self.resolve(path)
        if declaration:
            return words.constructor(name, fields(declaration, file)[name][1]) if declaration.name != name else None
        return words.CONSTRUCTORS.get(name)

    def code(self, path):
        """The number of arguments of a definition, a constructor or a word of the kit, and its code. A definition that is new is written later."""
        meaning, made = self.resolve(path), self.constructor(path)
        declaration, file, name = meaning
        if made:
            return len(made[1]), made[2]
        if not declaration:
            return words.CODES.get(name) or missing(f"`{name}` is not defined, and is no word of the kit that is known here")
        if meaning not in self.names:
            self.names[meaning] = f"d{len(self.names)}"
            self.queue.append(meaning)
        return words.call(self.names[meaning], len(self.parameters(declaration, file)))

    def parameters(self, declaration, file):
        return names_in(split(declaration.words, ":")[0]) if declaration.kind == "record" else clauses(declaration, file)[0][0]

    # ---- functions

    def function(self, path):
        """The function of the definition or record with a path."""
        self.code("Rattle." + path)
        return self.built(self.names[self.resolve("Rattle." + path)])

    def parts(self, path):
        """The function of the parts of a proposition, each with its name, so that each can be decided by itself."""
        declaration, file, self.where = self.resolve("Rattle." + path)
        named = lambda it: ("tuple", (("text", head_of(it) or "a part"), ("lambda", (), it)))
        found = [(patterns, ("tuple", tuple(map(named, conjuncts(body))))) for patterns, body in clauses(declaration, file)]
        self.compile("parts", self.clauses(found))
        return self.built("parts")

    def built(self, place):
        """The function with a name in the code, once all definitions that were named are compiled."""
        while self.queue:
            declaration, file, self.where = meaning = self.queue.pop()
            name = self.names[meaning]
            try:
                self.compile(name, self.record(declaration, file) if declaration.kind == "record" else self.clauses(clauses(declaration, file)))
            except Undecided as why:
                self.scope[name] = functools.partial(missing, f"{self.where}: {why}")
            result = " ".join(split(declaration.words, "→")[-1])
            if result not in SMALL or not clauses(declaration, file)[0][0]:
                saved = functools.lru_cache(None)(self.scope[name])
                self.scope[name] = kept(self.scope[name], saved)
                self.decided += [saved] if declaration.kind == "record" or result == "Type 0" else []
        return self.scope[place]

    def compile(self, place, code):
        text = f"def {place}{code}\n    missing('no clause of {self.where} fits')\n"
        exec(compile(text, self.where, "exec"), self.scope)  # pylint: disable=exec-used

    def clauses(self, found):
        """The code of a definition: the first clause that fits applies."""
        names = [f"a{at}" for at in range(len(found[0][0]))] if found else missing("it has no clause")
        lines = [f"({', '.join(names)}):"]
        for patterns, body in found:
            tests, places = [], {}
            self.fit(patterns, names, tests, places)
            local = {name: f"v{at}" for at, name in enumerate(places)}
            lines.append(f"    if {' and '.join(tests) or 'True'}:")
            lines += [f"        {local[name]} = {place}" for name, place in places.items()]
            lines += self.loop(patterns, body, local) or [f"        return {self.write(body, local)}"]
        return "\n".join(lines)

    def loop(self, patterns, body, local):
        """The code of a clause `f a (x ∷ xs) = e + f a xs` as a loop from the last element of the list on, since lists may be long; or nothing."""
        if not patterns or head_of(patterns[-1]) != "∷" or head_of(body) not in ("+", "+ℤ"):
            return []
        (first, rest), (item, again) = patterns[-1][2], body[2]
        if again[0] != "apply" or head_of(again) != self.where or again[2] != (*patterns[:-1], rest) \
                or {it[0] for it in (*again[2], first)} != {"name"} or has_name(rest[1], item):
            return []
        x, call = local[first[1]], self.write(("apply", again[1], (*patterns[:-1], ("tuple", ()))), local)
        return [f"        found, items = {call}, ({x}, *{local[rest[1]]})", f"        for {x} in reversed(items):",
                f"            found = {self.write(item, local)} + found", "        return found"]

    def fit(self, patterns, values, tests, places):
        """The tests whether patterns fit the values at places of the code, and the places of their variables."""
        if len(patterns) != len(values):
            raise Undecided("a pattern with another number of arguments than there are")
        for pattern, place in zip(patterns, values):
            made = self.constructor((pattern[1] if pattern[0] == "apply" else pattern)[2]) if head_of(pattern) else None
            if pattern[0] == "number":
                tests.append(f"{place} == {pattern[1]}")
            elif pattern[0] == "tuple":
                self.fit(pattern[1], [f"{place}[{at}]" for at in range(len(pattern[1]))], tests, places)
            elif made:
                tests.append(made[0].format(place))
                self.fit(arguments_of(pattern), [it.format(place) for it in made[1]], tests, places)
            elif pattern[0] != "name":
                raise Undecided(f"a pattern that is no value: {pattern}")
            elif pattern[1] != "_":
                places[pattern[1]] = place

    def record(self, declaration, file):
        """The code of a record of propositions: the list of its values, each with those fields that later ones name."""
        local = {name: f"a{at}" for at, name in enumerate(self.parameters(declaration, file))}
        head, loops, shown = ", ".join(local.values()), [], []
        left = [(name, kind) for name, (kind, _) in fields(declaration, file).items()]
        while left:
            (name, kind), *left = left
            if not any(has_name(name, it) for _, it in left):
                loops.append(f"if {self.write(kind, local)}")
                continue
            meaning = self.resolve((kind[1] if kind[0] == "apply" else kind)[2]) if head_of(kind) else (None,)
            if head_of(left[0][1]) == "≡" and head_of(left[0][1][2][1]) == "Some":
                loops.append(f"for w_{name} in {self.write(left[0][1][2][0], local)}[1:]")  # (`.. ≡ Some x` says what x is)
            elif f"{declaration.name}.{name}" not in self.tried and meaning[0] and meaning[0].kind == "record":
                loops.append(f"for w_{name} in {self.write(kind, local)}")
            else:
                loops.append(f"for w_{name}, in {self.values((name,), kind, local)}")
            local[name] = f"w_{name}"
            shown.append(f"{name}=w_{name}")
        return f"({head}):\n    return [Record({', '.join(shown)}) for _ in [0] {' '.join(loops)}]"

    # ---- expressions

    def write(self, tree, local):
        """The code of an expression or a proposition; `local` has the code of each variable."""
        kind, *parts = tree
        write = lambda it: self.write(it, local)
        if kind in ("number", "text"):
            return repr(parts[0])
        if kind == "tuple":
            return f"({''.join(write(it) + ', ' for it in parts[0])})"
        if kind == "project":
            return f"{write(parts[0])}[{parts[1]!r}]"
        if kind == "record":
            return f"Record({f'**{write(parts[0])}, ' if parts[0] else ''}{', '.join(f'{name}={write(it)}' for name, it in parts[1])})"
        if kind == "lambda":
            return self.function_of(parts[0], parts[1], local)
        if kind == "let":
            return f"{self.function_of(parts[:1], parts[2], local)}({write(parts[1])})"
        return self.quantified(kind, *parts, local) if kind in ("all", "some") else self.called(tree, local)

    def function_of(self, names, body, local):
        """The code of a function of variables, or of pairs of them."""
        self.fresh += 1
        given = [(name, f"w{self.fresh}_{at}") for at, name in enumerate(names)]
        more = dict(it for name, place in given for it in places_in(name, place))
        return f"(lambda {', '.join(place for _, place in given)}: {self.write(body, {**local, **more})})"

    def values(self, names, kind, local):
        """The code of the values that are tried for names of a type."""
        given = ", ".join(f"{name!r}: {it}" for name, it in local.items())
        return f"values({self.where!r}, {names!r}, {kind[:2] == ('name', 'ℕ')}, {{{given}}})"

    def quantified(self, kind, names, of, body, local):
        """The code of what is said of all or some values. For labels in an equation these are the ones in the formal sums of the two sides."""
        function = self.function_of(names, body, local)
        if kind == "all" and head_of(body) == "≡" and of[:2] != ("name", "ℕ"):
            sums = [self.write(it, local) for side in body[2] for it in arguments_of(side) if not has_name(names[0], it)]
            sides = self.function_of(names, ("tuple", body[2]), local)
            return f"equal_at_labels({self.where!r}, {sides}, [{', '.join(sums)}])"
        values = self.values(names, of, local)
        return f"for_all({names!r}, {values}, {function})" if kind == "all" else f"any({function}(*it) for it in {values})"

    def called(self, tree, local):
        """A variable, a definition, a constructor or a word of the kit, with as many arguments as it takes, or fewer, or more."""
        head, arguments = tree[1] if tree[0] == "apply" else tree, [self.write(it, local) for it in arguments_of(tree)]
        if head[0] != "name" or head[1] in local:
            count, text = 0, local[head[1]] if head[0] == "name" else self.write(head, local)
        else:
            count, text = self.code(head[2])
            names = [f"c{at}" for at in range(count)]
            if len(arguments) < count:
                return f"partial(lambda {', '.join(names)}: {', '.join([text.format(*names), *arguments])})"
            text = text.format(*arguments)
        return text + (f"({', '.join(arguments[count:])})" if arguments[count:] else "")
