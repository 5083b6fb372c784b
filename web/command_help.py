"""The commands of the page, of the table python/yorqanish/commands.json (`manual.py` reads it): the rows of the help, and what the scripts know of them.

A further command takes a row of that table, which says in mathematics what is computed, too."""
import html
import sys

sys.dont_write_bytecode = True
import manual


def row(name, it):
    """The row of a command in the help, as HTML."""
    title = f"<h3><code>{name}</code> {html.escape(it['what'])}</h3>"
    formula = f"<p class=formula>{formulas(it['formula'])}</p>"
    examples = f"<p class=examples>{''.join(map(button, it['examples']))}</p>" if it["examples"] else ""
    summary = f"<summary>Words, answer, limits<span class=unseen> of {name}</span></summary>"
    details = f"<details>{summary}{details_of(name, it)}</details>"
    return f'<li id="help-{name}">{title}{formula}{examples}<div class=entry data-command={name}></div>{details}</li>'


def details_of(name, it):
    """The words of a command, its description, and what is said of its answer and its limits."""
    parts = [f"<p class=form><code>{manual.form(name)}</code></p>", f"<p>{manual.paragraph(it['meaning'])}</p>"]
    if "label" in it:
        if not manual.has_label(it["label"]):
            manual.missing(f"the label {it['label']!r}")
        parts.append(f"<p>A line of the answer is a coefficient, two blanks and a label, here {it['label']}.</p>")
    if "order" in it:
        parts.append(f"<p>{' '.join(map(manual.clause, it['order']))}</p>")
    limits = "".join("<tr><th scope=row>{}<td>{}".format(*map(html.escape, manual.LIMITS[limit])) for limit in it["limits"])
    return "".join([*parts, f"<table class=limits>{limits}</table>" if limits else ""])


def limits():
    """The greatest number that each limit allows by which the page explains a refusal."""
    return {name: manual.numbers_of(name)[-1] for name in manual.LIMITS if name not in ("batch", "number")}


def grammar():
    """What the scripts of the page know of the commands."""
    known = ("answer", "isExact", "computed", "equation", "sage")
    return {name: {"words": manual.slots(it["words"]), **{key: it[key] for key in known if key in it}} for name, it in manual.COMMANDS.items()}


def theorems():
    """What is proved of the answer of each command, and what it means."""
    return {name: it["theorem"] for name, it in manual.COMMANDS.items() if "theorem" in it}


# ---- as HTML


def formulas(text):
    """A text as HTML, with its indices and exponents set low and high: `_{..}`, `^{..}`, nested, or one sign after `_` or `^`."""
    out, at, open_ = [], 0, []
    while at < len(text):
        sign = text[at]
        if sign in "_^" and at + 1 < len(text):
            tag = "sub" if sign == "_" else "sup"
            if text[at + 1] == "{":
                open_.append(tag)
                out.append(f"<{tag}>")
            else:
                out.append(f"<{tag}>{html.escape(text[at + 1])}</{tag}>")
            at += 2
            continue
        out.append(f"</{open_.pop()}>" if sign == "}" and open_ else html.escape(sign))
        at += 1
    return "".join(out)


def button(line):
    """A button that runs the line."""
    return f"<button data-line>{html.escape(line)}</button>"


def rows():
    """The rows of all commands, as HTML."""
    return "\n".join(row(*it) for it in manual.COMMANDS.items())
