"""Reads the formulas that the page prints, by another hand than the page's own reader: regular expressions over the text with `_{..}` and `^{..}`."""
import re

PARTITION = r"(?:\((?:\d+,)*\d+,?\)|∅)"
INDEX = rf"_\{{(?:{PARTITION})\}}"


def normal(line):
    """A line without zeros in front of its numbers and at the end of its partitions."""
    name, *words = re.sub(r"(?<![\d/])0+(?=\d)", "", line).split()
    if name not in ("mult", "skew", "coef", "coprod", "quantum", "fusion", "tab"):
        return re.sub(r"(\[[1-9][\d,]*?|\[)(?:,?\b0)+\]", r"\1]", " ".join([name, *words]))
    kept = []
    for word in [*words, ""]:
        while word in ("-", "/", "-from", "") and kept and kept[-1] == "0":
            kept.pop()
        kept.append(word)
    return " ".join([name, *kept]).strip()


def numbers(text):
    """The numbers of a partition or a permutation as words."""
    found = re.findall(r"\d+", text)
    return " ".join(found)


def letters(text):
    """The letters of an index of a permutation."""
    inside = text.strip("{}_")
    return " ".join(inside.split(",") if "," in inside else inside)


def indices(text, letter):
    """The partitions in a product of functions with this letter, or None if it is no such product."""
    signs = r" (?:·|\*|⊗) "
    if not re.fullmatch(rf"{letter}{INDEX}(?:{signs}{letter}{INDEX})*", text):
        return None
    return [numbers(it) for it in re.findall(rf"{letter}_\{{({PARTITION})\}}", text)]


def expression(text):
    """An expression in the notation of the program."""
    atoms = re.sub(r"([mehps])_\{(∅|\d|\([\d,]*\))\}", lambda it: f"{it[1]}[{','.join(re.findall(chr(92) + 'd+', it[2]))}]", text)
    return atoms.replace(" · ", "*").replace(" + ", "+").replace(" − ", "-").replace("−", "-")


def joined(name, lists, sign="-", *before):
    return " ".join(" ".join([name, *before, f" {sign} ".join(lists)]).split())


def asked_words(formula, asked):
    """The words of the command of which something is asked for."""
    if asked == "K":
        return f"expand m s[{','.join(re.findall(r'[0-9]+', re.match(r'K_.(' + PARTITION + ')', formula)[1]))}]"
    if asked == "f":
        return f"expand m s[{','.join(re.findall(r'[0-9]+', formula))}]"
    if asked == "χ":
        return f"expand s p[{','.join(re.findall(r'[0-9]+', formula.split('_')[1]))}]"
    if asked == "degree":
        k, n = map(int, re.findall(r"\d+", formula))
        return f"expand m s[{','.join([str(n - k)] * k)}]"
    if asked == "c":
        family, whole = re.fullmatch(rf"the coefficient of ([mehps]){INDEX} in (.*)", formula).groups()
        factors = indices(whole, "s")
        return joined("mult", factors) if factors else f"expand {family} {expression(whole)}"
    if asked == "H":
        product, k, n = re.fullmatch(r"(.*) in H\*\(Gr\((\d+),(\d+)\)\)", formula).groups()
        return joined("quantum", indices(product, "σ"), "-", k, str(int(n) - int(k)))
    if asked == "Fl":
        u, v = re.fullmatch(r"S_(\{[\d,]+\}) · S_(\{[\d,]+\}) in H\*\(Fl\(\d+\)\)", formula).groups()
        return f"schubmult {letters(u)} - {letters(v)}"
    return words_of(formula.replace("the number of ", "the "), "")


def words_of(formula, asked=""):
    """The words of the command that a formula names; "" for one that is not known here."""
    # (a Gr(1,n) is written as the projective space, and the identity of one letter in brackets)
    formula = re.sub(r"P\^(\d+)", lambda it: f"Gr(1,{int(it[1]) + 1})", formula).replace("{[1]}", "{1}")
    if asked:
        return asked_words(formula, asked)
    line = re.fullmatch(r"(.*), on one line", formula)
    if line:
        name, *rest = words_of(line[1]).split()
        return " ".join([name, *(rest[:2] if rest[0] == "-r" else []), "-m", *(rest[2:] if rest[0] == "-r" else rest)])
    for form, made in FORMS:
        found = re.fullmatch(form, formula)
        if found:
            return made(*found.groups())
    return ""


def rows(count):
    return ("-r", count) if count else ()


VARIABLES = r"(?: in (\d+) variables?)?"
FORMS = [
    (rf"(s{INDEX}(?: · s{INDEX})+){VARIABLES}", lambda it, count: joined("mult", indices(it, "s"), "-", *rows(count))),
    (rf"s_\{{({PARTITION})/({PARTITION})\}}{VARIABLES}", lambda a, b, count: joined("skew", [numbers(a), numbers(b)], "/", *rows(count))),
    (rf"the coefficient of (s{INDEX}) in (.*)", lambda a, b: joined("coef", indices(a, "s") + indices(b, "s"))),
    (rf"s_\{{({PARTITION})\}}\(x, y\), .*", lambda it: joined("coprod", [numbers(it)])),
    (r"(.*) in QH\*\(Gr\((\d+),(\d+)\)\)", lambda it, k, n: joined("quantum", indices(it, "σ"), "-", k, str(int(n) - int(k)))),
    (r"(.*) for su\((\d+)\) at level (\d+)", lambda it, k, level: joined("fusion", indices(it, "s"), "-", k, level)),
    (r"the Schubert polynomial S_(\{[\d,]+\})", lambda it: f"schubert {letters(it)}"),
    (r"the product of the Schubert polynomials S_(\{[\d,]+\}) and S_(\{[\d,]+\})", lambda u, v: f"schubmult {letters(u)} - {letters(v)}"),
    (r"S_(\{[\d,]+\})\(x; y\) · S_(\{[\d,]+\})\(x; y\)", lambda u, v: f"dschubmult {letters(u)} - {letters(v)}"),
    (r"the Stanley symmetric function F_(\{[\d,]+\}) in (\d+) variables?", lambda it, count: f"stanley -r {count} {letters(it)}"),
    (r"\((.*)\)\[(.*)\] in the basis ([mehps])", lambda f, g, basis: f"plethysm {basis} {expression(f)} {expression(g)}"),
    (r"([mehps]_\{[^}]*\})\[(.*)\] in the basis ([mehps])", lambda f, g, basis: f"plethysm {basis} {expression(f)} {expression(g)}"),
    (r"(.*) in the basis ([mehps])", lambda it, basis: f"expand {basis} {expression(it)}"),
    (rf"the Littlewood–Richardson tableaux of shape ({PARTITION})/({PARTITION})(?:, after (.*))?", lambda a, b, after: joined("tab", [numbers(a), numbers(b)], "/") + (f" -from {after}" if after else "")),
    (r"P and Q of the empty word", lambda: "rsk"),
    (r"P and Q of the word \((.*)\)", lambda it: f"rsk {numbers(it)}"),
    (r"the word with P = (.*) and Q = (.*)", lambda p, q: f"unrsk {p} - {q}"),
    (rf"the rectification of (.*) of shape ({PARTITION})/({PARTITION})", lambda it, a, b: joined("rect", [numbers(a), numbers(b)], "/") + f" - {it}"),
    (r"the growth diagram of the permutation (.*)", lambda it: f"growth {it}"),
]
