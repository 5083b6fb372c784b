"""The families of the page: which lines are families, their rows, and the table of their answers. The commands of the rows are made here anew, by
Python, and their answers are those of the program. `reading` tries the lines; `FAMILY_VISITS` are visits as those of page_visits.py."""
import csv
import io
import itertools
import json
import subprocess
import urllib.parse

from page_visits import Visit, fragment, reloaded, wrong
from transcripts import program


def printed(line):
    return subprocess.run([program(), *line.split()], capture_output=True, text=True).stdout


def partitions(n, most=None):
    most = n if most is None else most
    return [[]] if n == 0 else [[k, *rest] for k in range(min(n, most), 0, -1) for rest in partitions(n - k, k)]


def words(label):
    return " ".join(map(str, label))


def permutations(n):
    """Those of n letters, by inversions."""
    inversions = lambda w: sum(a > b for a, b in itertools.combinations(w, 2))
    return sorted(map(list, itertools.permutations(range(1, n + 1))), key=inversions)


def joined(*parts):
    return " ".join(it for it in parts if it)


BOX = [p for n in range(7) for p in partitions(n) if len(p) <= 2 and max(p, default=0) <= 3]

# Families, and the commands of their rows in turn.
FAMILIES = {
    "coef 3n 2n n - 2n n - 2n n for n = 1..10": [f"coef {3 * n} {2 * n} {n} - {2 * n} {n} - {2 * n} {n}" for n in range(1, 11)],
    "expand m s[λ] for λ of 6": [f"expand m s[{','.join(map(str, p))}]" for p in partitions(6)],
    "schubmult u - v for u, v in S_3": [f"schubmult {words(u)} - {words(v)}" for u in permutations(3) for v in permutations(3)],
    "growth w for all w ∈ S_{3}": [f"growth {words(w)}" for w in permutations(3)],
    "mult λ - μ for λ, μ in the 2 x 3 box": [joined("mult", words(a), "-", words(b)) for a in BOX for b in BOX],
    "mult -r 2 n+1 n - 1 for n = {1,2,5}": [f"mult -r 2 {n + 1} {n} - 1" for n in (1, 2, 5)],
    "mult (n-1) - n for n in 1..3": ["mult 0 - 1", "mult 1 - 2", "mult 2 - 3"],
    "coef n+k n - n - k for n = 1..3, k = 1..n": [f"coef {n + k} {n} - {n} - {k}" for n in range(1, 4) for k in range(1, n + 1)],
    "coef 2*n*k n - n - k for n = 1..2, k = {3}": ["coef 6 1 - 1 - 3", "coef 12 2 - 2 - 3"],
    "plethysm s h[n] e[k,1]+2*h[k] for n = 1..2, k = 1..2": [f"plethysm s h[{n}] e[{k},1]+2*h[{k}]" for n in (1, 2) for k in (1, 2)],
    "expand s n*h[lam,1]-h[2n] for n = 1..2, lam of n": [f"expand s {n}*h[{','.join(map(str, [*p, 1]))}]-h[{2 * n}]" for n in (1, 2) for p in partitions(n)],
    "$ calc coef 2n n - n - n n for n = 1..2  # a comment": ["coef 2 1 - 1 - 1 1", "coef 4 2 - 2 - 2 2"],
    "c^{(3n,2n,n)}_{(2n,n),(2n,n)} for n = 1..4": [f"coef {3 * n} {2 * n} {n} - {2 * n} {n} - {2 * n} {n}" for n in range(1, 5)],
    "K_{λ,(1^n)} for n = 1..3, λ of n": [f"expand m s[{','.join(map(str, p))}]" for n in range(1, 4) for p in partitions(n)],
    "σ_1^n in Gr(2,4) for n = 2..4": ["quantum 2 2 1 - 1", "quantum 2 2 1 - 1 - 1", "quantum 2 2 1 - 1 - 1 - 1"],
    "s_1 ⊗ s_1 for su(2) at level n for n = 1..3": [f"fusion 2 {n} 1 - 1" for n in range(1, 4)],
}

# Lines that are no family, though they look like one; none of them runs, and the page says where each stops.
HOSTILE = """coef 3n - n - n for n = 1..
coef 3n - n - n for n = 1...10
coef 3n - n - n for n = 1-10
coef 3n - n - n for n in range(1,11)
coef 3n - n - n for n = 1, 2, 5
coef 3n - n - n for n = 1..3..5
coef 3n - n - n for n = -1..3
coef 3k - n - n for n = 1..3
coef 3nm - n - m for n = 1..3, m = 1..3
coef n^2 - n - n for n = 1..3
coef n² - n - n for n = 1..3
coef n - n - 0 for n = 1..k
coef n - n - 0 for n = 3..1
coef n - n - 0 for n = 1..10001
coef n - n - 0 for n = 1..99999999999999999999999, k = 2..1, j = 1..k
coef n - k - 0 for n = 1..200, k = 1..200
coef n - n - 0 for n, n = 1..2
coef n - k - 0 for n, k = 1..2
coef n - n - 0 for n = 1..3, n = 1..3
coef n - n - 0 for n = 1..3 and k = 1..3
coef n - k - 0 for n = 1..3 for k = 1..3
coef 1 - 1 - 0 for n = 1..3
mult n-1 - n for n = 1..3
coef n-1 - 1 for n = 1..3
mult 1-n for n = 1..3
mult 3λ - μ for λ, μ of 3
mult -m 2 - m for m = 1..3
expand m s[m] for m = 1..3
expand m s[λ for λ of 3
expand m 1/2n*s[1] for n = 1..3
expand s λ for λ of 3
schubmult u - v for u, v in S_8
expand m s[λ] for λ of 40
s_{2n}*s_1 for n = 1..3
s_{21n} for n = 1..3
s_{(2n)}*s_{(1,)} for n = 1..2
K_{(n^2),(1,1)} for n = 1..2
K_{λμ} for λ, μ of 3
K_{(m,1),(1,1)} for m = 1..2
c^{(n1,1)}_{(1),(1)} for n = 1..2
S_u*S_v for u, v in S_3
mult 1 - n for n = {1,2,
mult 1 - n for n = {}
mult 1 - n for n = {1 2}
mult 1 - n for n in 2 x 3
mult 1 - n for n in S_
mult 1 - n for n = S_3
help n for n = 1..3
for n = 1..3
mult n - m for n = 1..3; mult m for m = 1..2""".split("\n")

# Lines with the word `for` that are no family: what they ran as before, they run as.
OTHERS = {"fusion 2 1 1 - 1 for su(2) at level 3": "fusion 2 3 2 1 1 - 1", "s_1 ⊗ s_1 for su(2) at level 1": "fusion 2 1 1 - 1"}

def reading(lines_read):
    """Each family has its rows, and no other line is one."""
    rows = lines_read([*FAMILIES, *HOSTILE, *OTHERS])
    if isinstance(rows, str):
        return rows
    wanted = [{"rows": it} for it in FAMILIES.values()]
    for typed, got, hoped in zip(FAMILIES, rows, wanted):
        if got.get("rows") != hoped["rows"]:
            return f"{typed}: {got}"
    for typed, got in zip(HOSTILE, rows[len(FAMILIES) :]):
        if "rows" in got or not got.get("said") or "undefined" in got["said"]:
            return f"{typed}: {got}"
    others = [it.get("line") if it.get("isRun") else None for it in rows[-len(OTHERS) :]]
    return wrong((others, list(OTHERS.values())))


# ---- in a browser

# What is on the page of the newest answer.
TABLE = """const it = document.querySelector('article'), texts = (form) => [...it.querySelectorAll(form)].map((one) => one.textContent);
const cells = [...it.querySelectorAll('tbody tr')].map((row) => [...row.querySelectorAll('td')].map((one) => one.textContent.replace('−', '-')));"""
COPIED = "globalThis.file = null; Object.defineProperty(navigator, 'clipboard', { value: { writeText: async (text) => { file = text; } }, configurable: true });"
COEFFICIENTS = "coef 3n 2n n - 2n n - 2n n for n = 1..10"


def copied(visit, name):
    """What a button of the newest answer copies."""
    return visit.ask(f"{COPIED} [...document.querySelectorAll('article:first-child button')].find((it) => it.textContent.replace('Copy Copy', 'Copy').startsWith({json.dumps(name)})).click(); await pause(50); return file")


def family_of_numbers(*where):
    """A family of coefficients: its commands are seen before it runs; its rows, sum and row of numbers, n + 1, are right; it is copied and looked up."""
    with Visit(*where) as visit:
        visit.ask(f"put({json.dumps(COEFFICIENTS)})")
        before = visit.ask("return at('preview').textContent")
        visit.run(COEFFICIENTS)
        cells, sums, numbers, link, title = visit.ask(f"{TABLE} return [cells, texts('.sums'), texts('.numbers code'), it.querySelector('a').href, document.title]")
        lines = FAMILIES[COEFFICIENTS]
        rows = list(csv.reader(io.StringIO(copied(visit, "Copy CSV"))))
        latex, row = copied(visit, "Copy LaTeX"), copied(visit, "Copy the numbers")
        outside = [it for it in visit.page.requests() if not it.startswith(("file://", "blob:", "data:", "about:"))]
    known = [str(n + 1) for n in range(1, 11)]
    wanted = [[str(n), line, printed(line).strip()] for n, line in enumerate(lines, 1)]
    return wrong(
        (before, f"10 rows: {lines[0]}; {lines[1]}; {lines[2]}; .. ; {lines[-1]}"),
        (cells, [[n, answer, line] for n, line, answer in wanted]),
        ([it[1] for it in cells], known),
        (sums, ["Sum: 65"]),
        (numbers, [", ".join(known)]),
        (row, ", ".join(known)),
        (link, "https://oeis.org/search?q=" + urllib.parse.quote(",".join(known), safe="")),
        (title, f"{COEFFICIENTS} – calc"),
        (rows, [["n", "command", "answer"], *wanted]),
        (latex.count(" \\\\\n"), 9),
        ("& c_{(4,2),(4,2)}^{(6,4,2)} = 3 \\\\" in latex and latex.startswith("\\begin{array}{r|l}\n"), True),
        (outside, []),
    )


def family_of_sums(*where):
    """A family of products: each row has the answer that the program prints, as a sum, and how many terms it has."""
    typed = "schubmult u - v for u, v in S_3"
    with Visit(*where) as visit:
        visit.run(typed)
        texts = visit.ask("return kept[kept.length - 1]")
        rows = list(csv.reader(io.StringIO(copied(visit, "Copy CSV"))))
    lines = FAMILIES[typed]
    answers = [printed(it).strip() for it in lines]
    return wrong(
        ([it[2] for it in rows[1:]], lines),
        ([it[4] for it in rows[1:]], [it.replace("\n", "; ") for it in answers]),
        ([it[3] for it in rows[1:]], [str(len(it.splitlines())) for it in answers]),
        (rows[1][:2], ["[1,2,3]", "[1,2,3]"]),
        (texts["text"], "".join(f"$ calc {line}\n{answer}\n" for line, answer in zip(lines, answers))[len(f"$ calc {lines[0]}\n") :]),
    )


def family_of_marked_lines(*where):
    """The number that is asked for of an answer is that of the row: Kostka numbers, that are sorted, filtered and added."""
    numbers = "[...document.querySelectorAll('article tbody td:nth-child(2)')].map((it) => it.textContent)"
    with Visit(*where) as visit:
        visit.run("K_{λ,(2,2)} for λ of 4")
        first = visit.ask(f"return [{numbers}, document.querySelector('.sums').textContent]")
        visit.ask("document.querySelector('article thead th:nth-child(2) button').click()")
        up = visit.ask(f"return [{numbers}, document.querySelector('article thead th:nth-child(2)').getAttribute('aria-sort')]")
        visit.ask("document.querySelector('article thead th:nth-child(2) button').click()")
        down = visit.ask(f"return {numbers}")
        visit.ask("document.querySelector('article thead th:first-child button').click()")
        labels = visit.ask("return [...document.querySelectorAll('article tbody td:first-child')].map((it) => it.textContent)")
        visit.ask("document.querySelector('article [type=checkbox]').click()")
        left = visit.ask(f"return [{numbers}, document.querySelector('.sums').textContent]")
    # (of shape (4), (3,1), (2,2) one tableau each has the content (2,2), of the others none)
    return wrong(
        (first, [["1", "1", "1", "0", "0"], "Sum: 3"]),
        (up, [["0", "0", "1", "1", "1"], "ascending"]),
        (down, ["1", "1", "1", "0", "0"]),
        (labels, ["(1,1,1,1)", "(2,1,1)", "(2,2)", "(3,1)", "(4)"]),
        (left, [["1", "1", "1"], "Sum in the 3 rows that are not 0: 3"]),
    )


def family_with_refusals(*where):
    """A row whose command is refused has the program's refusal, and does not stop the others."""
    lines = [f"coef 4 {n} - 2 - {n} 2" for n in range(1, 6)]
    with Visit(*where) as visit:
        visit.run("coef 4 n - 2 - n 2 for n = 1..5")
        cells, notes, numbers = visit.ask(f"{TABLE} return [cells.map((row) => row[1]), texts('.note'), texts('.numbers')]")
    texts = [printed(it).strip() for it in lines]
    refused = [it.startswith("! ") for it in texts]
    starts = [got.startswith(f"{text} ") and len(got) > len(text) + 10 if isOut else got == text for got, text, isOut in zip(cells, texts, refused)]
    return wrong((refused, [True, False, False, False, True]), (starts, [True] * 5), (notes[-1], "2 rows have no answer."), (numbers, []))


def family_stopped(*where):
    """Escape stops a family: it is seen how many of its rows are answered, and their table stays; the rest of the queue runs."""
    with Visit(*where) as visit:
        typed = "mult 7 5 4 3 2 1 - 5 4 3 2 1 - n for n = 1..200"
        visit.ask(f"document.getElementById('line').value = {json.dumps(typed)}; document.getElementById('run').click(); await until(() => running?.answered > 0); await pause(300)")
        shown = visit.ask("return [at('share').hidden, at('share').max, / of 200 rows$/.test(at('elapsed').textContent), at('progress').hidden]")
        visit.page.press("Escape")
        visit.ask("await quiet()")
        said, rows, state = visit.ask("const it = document.querySelector('article'); return [it.querySelector('header span').textContent, it.querySelectorAll('tbody tr').length, at('state').textContent]")
        visit.run("coef 2 - 1 - 1")
        after = visit.answers()[0]
    count = int(said.split(" of ")[0].split()[-1])
    return wrong(
        (shown, [False, 200, True, False]),
        (said.startswith(f"stopped, {count} of 200 rows"), True),
        (0 < count < 200 and rows == count, True),
        (state.endswith(f": stopped after {count} of 200 rows."), True),
        (after, ["coef 2 - 1 - 1", "1\n"]),
    )


def family_of_a_link(*where):
    """The link of a family opens its table, and so does a reload; a heavy one waits for Enter."""
    with Visit(*where, fragment(COEFFICIENTS)) as visit:
        first = visit.ask(f"{TABLE} return [cells.length, document.title]")
        link = copied(visit, "Copy l")
        reloaded(visit)
        again = visit.ask(f"{TABLE} return [cells.length, document.title]")
    with Visit(*where, fragment("mult n 40 30 - n 50 for n = 60..70")) as visit:
        waits = visit.ask("return [answers().length, at('line').value]")
    wanted = [10, f"{COEFFICIENTS} – calc"]
    return wrong((first, wanted), (again, wanted), (f"#{urllib.parse.quote(COEFFICIENTS)}&version=" in link, True), (waits, [0, "mult n 40 30 - n 50 for n = 60..70"]))


def family_of_ten_thousand(*where):
    """A family of ten thousand rows is answered, in turn with other lines; some rows are shown at once, and the rest when they are asked for."""
    typed = "coef n+k n - n - k for n = 1..100, k = 1..100; coef 2 - 1 - 1"
    with Visit(*where) as visit:
        visit.run(typed)
        other, rows, said, sums = visit.ask("const [last, it] = document.querySelectorAll('article'); return [last.querySelector('pre').textContent, it.querySelectorAll('tbody tr').length, it.querySelector('.part').textContent, it.querySelector('.sums').textContent]")
        more = visit.ask("const it = document.querySelectorAll('article')[1]; it.querySelector('.part button').click(); return it.querySelectorAll('tbody tr').length")
    # (the sizes are those of a product only where n = 0, so that all coefficients are 0)
    return wrong((other, "1\n"), (rows, 100), (said, "The first 100 of 10,000 rows are shown. Show more"), (sums, "Sum: 0"), (more, 1100))


def family_refused(*where):
    """A line that is no family says where it stops, marks it, and runs nothing."""
    with Visit(*where) as visit:
        visit.run("coef 3n - n - n for n = 1, 2, 5")
        marked, said = visit.ask("return [document.querySelector('article mark').textContent, document.querySelector('article .said').textContent]")
    return wrong((marked, ","), (said, "“coef 3n - n - n for n = 1” can be read. “,” cannot come after it; what can is ..."))


FAMILY_VISITS = [family_of_numbers, family_of_sums, family_of_marked_lines, family_with_refusals, family_stopped, family_of_a_link, family_of_ten_thousand, family_refused]
