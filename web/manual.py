"""The table of commands, python/yorqanish/commands.json, as the manual page calc.1 and the page have it: the words of each command, its description, and
the limits. `web/manual.py` writes these parts of calc.1 anew."""
import html
import json
import os
import re
import shlex

TOP = os.path.abspath(os.path.join(os.path.dirname(__file__), ".."))


def text_of(name):
    with open(os.path.join(TOP, name), encoding="utf-8") as document:
        return document.read()


TABLE = json.loads(text_of("python/yorqanish/commands.json"))
COMMANDS, LIMITS = TABLE["commands"], TABLE["limits"]


def missing(what):
    raise SystemExit(f"web/manual.py: {what} is not found in calc.1")


def forms_of_answers():
    """The lines of calc.1 on the forms of answers."""
    return text_of("calc.1").split(".Sh FORMS OF ANSWERS\n")[1].split("\n.Sh ")[0].splitlines()


# ---- as HTML

GREEK = {"lambda": "λ", "mu": "μ", "nu": "ν"}
MACROS = ["Cm", "Fl", "Ar", "Ql", "Sq", "Pq", "Op", "No", "Ns", "Em", "Nm"]
STYLES = {
    "Cm": "<code>{}</code>",
    "Fl": "<code>-{}</code>",
    "Ar": "<var>{}</var>",
    "Ql": "<code>{}</code>",
    "Em": "<em>{}</em>",
    "Sq": "‘{}’",
}


def plain(word):
    """A word of the manual page without its escapes."""
    word = word.replace(r"\(:u", "ü").replace(r"\(en", "–").replace(r"\&", "").replace(r"\-", "-")
    return html.escape(word, quote=False)


def macro(words):
    """A line of macros as HTML: each word by the macro before it. `Op` and `Pq` have the rest of the line in brackets."""
    if words[0] in ("Op", "Pq"):
        return ("[{}]" if words[0] == "Op" else "({})").format(macro(words[1:]))
    out, style, is_glued = [], "No", True
    for word in words:
        if word == "Ns":
            is_glued = True
        elif word in MACROS and word != "Nm":
            style = word
        else:
            is_sign = word in (".", ",", ";", ":", ")")
            form_of = "{}" if is_sign else "<code>calc</code>" if word == "Nm" else STYLES.get(style, "{}")
            out.append(("" if is_glued or is_sign else " ") + form_of.format(plain(GREEK.get(word, word))))
            is_glued = False
    return "".join(out)


def paragraph(lines):
    """Lines of the manual page as HTML."""
    texts = [macro(shlex.split(line[1:])) if line.startswith(".") else plain(line) for line in lines if line and line != ".Pp"]
    return re.sub(r" ([.,;:])(?= |$)", r"\1", " ".join(texts))


def macros(slots):
    """Words of a command on a line of the manual page: each after its macro, but for those that have the one of the word before."""
    out = [""]
    for it in slots:
        if isinstance(it, list):
            name = "expression" if it[0] in ("outer", "inner") else it[1]
            macro, text = "Cm" if it[0] == "basis" else "Ar", next((word for word, letter in GREEK.items() if letter == name), name)
        else:
            text = it if isinstance(it, str) else f'{it["more"][0]} ...'
            macro, text = ("Fl", text[1:]) if text[1:].isalpha() else ("No", text)
        out += [text] if macro == out[0] else [macro, text]
        out[0] = macro
    return " ".join(out[1:])


def synopsis(name):
    """The lines of the synopsis of a command after its name. What is optional has a line of its own; so have the variables, and the basis."""
    lines, is_over = [], True
    for it in COMMANDS[name]["words"]:
        is_optional = "optional" in it
        if is_over or is_optional:
            lines.append((".Op " if is_optional else ".", []))
        lines[-1][1].extend(it["optional"] if is_optional else [it])
        is_over = is_optional or "variables" in it or "basis" in it
    return [begin + macros(words) for begin, words in lines]


def form(name):
    """The words of a command, as HTML."""
    return f"{name} {paragraph(synopsis(name))}".strip()


def has_label(label):
    return label in " ".join(forms_of_answers())


def clause(begin):
    """The part of the text on the order of lines that begins so, up to the next semicolon or the end of the sentence."""
    found = re.search(rf"(?:^|[.;] ){begin}\b[^;.]*", paragraph(forms_of_answers()))
    if not found:
        missing(f"the order of {begin!r}")
    said = found[0].lstrip(".; ").strip()
    return f"{said[0].upper()}{said[1:]}."


def numbers_of(limit):
    """The numbers of a limit: its least and greatest one, or its greatest one alone."""
    return [int(it.replace(",", "")) for it in re.findall(r"\d[\d,]*", LIMITS[limit][1])]


def slots(words):
    """The words of a command after its name, in turn:

    {"sign": "-r"}                           a word that is typed as it is,
    {"role": "partition", "name": "λ"}       an argument: its role, which says what it can be, and its name in the synopsis,
    {"optional": [slot, ..]}                 slots that can be left out together,
    {"more": [slot, ..]}                     slots that can be repeated, up to the limit of the factors.

    Of the roles `partition`, `permutation`, `letters`, `tableau`, `recording` and `filling` are lists, of no, one or many words each; the others are one
    word each.
    """
    def slot(it):
        if isinstance(it, list):
            return {"role": it[0], "name": it[1]}
        return {"sign": it} if isinstance(it, str) else {key: slots(them) for key, them in it.items()}

    return list(map(slot, words))


# ---- the manual page


def made(page):
    """The manual page with the parts of it that are made of the table."""
    parts = {
        r"\.Sh SYNOPSIS\n": [line for name in COMMANDS for line in (".Nm", f".Cm {name}", *synopsis(name))],
        r"\.Bl -tag -width dschubmult\n": [line for name, it in COMMANDS.items() for line in (f".It Cm {name}", *it["meaning"])],
        r"\.Sh LIMITS\n.*\n": [line for name, said in LIMITS.values() for line in (f".It {name}", said)],
    }
    for begin, lines in parts.items():
        page = re.sub(rf"({begin})(?:(?!\.Sh |\.El).*\n)*", lambda found, lines=lines: "\n".join([found[1].rstrip(), *lines, ""]), page, count=1)
    return page


if __name__ == "__main__":
    text = made(text_of("calc.1"))
    with open(f"{TOP}/calc.1", "w", encoding="utf-8") as file:
        file.write(text)
