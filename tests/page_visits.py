"""The visits of tests/page, each to a page of its own: addresses, reloads, lists of commands, and the limits of an address. A visit gets the
browser, the page's path, and its size, and returns a text of the faults that it found, "" if there are none. All pages are opened in one browser,
each with a storage of its own."""
import base64
import functools
import http.server
import json
import os
import threading
import urllib.parse
import xml.etree.ElementTree

from browse import WAITS
import page_copies

HEAVY = "mult 9 8 7 6 5 4 3 2 1 - 9 8 7 6 5 4 3 2 1 - 9 8 7 6 5 4 3 2 1"
LARGE = "mult 8 6 5 4 3 2 1 - 6 5 4 3 2 1"
# A line that needs more than 64 MiB.
LARGER = "coprod 10 7 5 4 3 2 1"
# A memory in pages of which some lines need nearly all.
LITTLE_PAGES = 360
TRANSCRIPT = """    $ ./calc mult 2 1 - 2 1
    1  (4,2)
    1  (4,1,1)

    # a coefficient
    $ ./calc coef 3 2 1 - 2 1 - 2 1   # it is 2
    2
    $ calc rsk 3 1 2
    P 1 2 / 3
    Q 1 3 / 2
"""

# Pastes a text into the field.
PASTE = "const it = new Event('paste', { cancelable: true }); it.clipboardData = { getData: () => %s }; document.getElementById('line').dispatchEvent(it)"

# Gives the page a module with so little memory that some lines need nearly all; functions of web/cases.mjs limit it.
LITTLE_MEMORY = """
const packed = Uint8Array.from(atob(document.getElementById("module").textContent), (byte) => byte.charCodeAt(0));
const whole = new Uint8Array(await new Response(new Blob([packed]).stream().pipeThrough(new DecompressionStream("gzip"))).arrayBuffer());
const Buffer = { from: (list) => Uint8Array.from(list), concat: (parts) => parts.reduce((all, it) => { const sum = new Uint8Array(all.length + it.length); sum.set(all); sum.set(it, all.length); return sum; }) };
%s
globalThis.little = await WebAssembly.compile(limited(whole, %d));
globalThis.boot = () => { isReady = false; worker = new Worker(URL.createObjectURL(new Blob([WORKER]))); worker.onmessage = ({ data }) => received(data); worker.postMessage({ module: little }); };
end(); boot(); await until(() => isReady)
"""

HELPERS = WAITS + """
globalThis.went = (action) => new Promise((next) => { addEventListener("hashchange", next, { once: true }); action(); });
globalThis.answers = () => [...document.querySelectorAll("article")].map((it) => [it.querySelector("h3").textContent, (it.querySelector("pre") || { textContent: "" }).textContent]);
globalThis.quiet = () => until(() => isReady && !running && waiting.length === 0, "the end of the queue");
"""


class Visit:
    """A page that is opened with a fragment and whose queue has become idle."""

    def __init__(self, browser, path, size, fragment=""):
        self.page = browser.page(path, fragment=fragment, **size)

    def __enter__(self):
        self.page.__enter__()
        self.helped()
        return self

    def __exit__(self, *_):
        self.page.__exit__()

    def helped(self):
        """Waits until the page is at rest."""
        self.page.run(HELPERS)
        self.ask("await quiet()")

    def ask(self, script):
        """The value of a script, which may wait, read from JSON."""
        value = self.page.run(f"(async () => {{ {script if 'return' in script else script + '; return null'} }})().then((it) => JSON.stringify(it ?? null))")
        return json.loads(value)

    def run(self, text):
        self.ask(f"document.getElementById('line').value = {json.dumps(text)}; document.getElementById('run').click(); await quiet()")

    def answers(self):
        return self.ask("return answers()")


def fragment(text):
    return "#" + urllib.parse.quote(text)


def wrong(*pairs):
    """The first of these pairs that is not of two equal things."""
    return next((f"{got!r:.500}, not {wanted!r:.500}" for got, wanted in pairs if got != wanted), "")


def back(*where):
    """Going to a section and back runs nothing again."""
    with Visit(*where, fragment("coef 2 - 1 - 1")) as visit:
        visit.ask("await went(() => document.querySelector('nav a').click()); await went(() => history.back()); await quiet()")
        first = visit.answers()
        visit.ask("await went(() => (location.hash = '#about')); await went(() => (location.hash = '#coef%202%20-%201%20-%201')); await quiet()")
        return wrong((first, [["coef 2 - 1 - 1", "1\n"]]), (visit.answers(), first))


def reloaded(visit):
    """Loads the page again."""
    visit.page.load()
    visit.helped()


def reload(*where):
    """A page that is loaded again has its answers again, each once, and the arrow keys bring its lines back."""
    with Visit(*where) as visit:
        for line in ("coef 1 - 1 -", "mult (1) - (1)", "coef 2 - 1 - 1; mult 1 2 - 1"):
            visit.run(line)
        before = visit.answers()
        reloaded(visit)
        after = visit.answers()
        kept = visit.ask("return [document.getElementById('history').hidden, asked.slice(-2)]")
        return wrong((after, before), (len(before), 4), (kept, [False, ["coef 2 - 1 - 1", "mult 1 2 - 1"]]))


def heavy_link(*where):
    """A link with a command that can take long shows it and waits for Enter."""
    with Visit(*where, fragment(HEAVY)) as visit:
        shown = visit.ask("return [document.getElementById('line').value, answers().length, document.getElementById('state').textContent]")
        wanted = [HEAVY, 0, "This link has a command that can take long. Press Enter to run it."]
        is_run = visit.ask("document.getElementById('run').click(); const is = running !== null; stop(); return is")
        return wrong((shown, wanted), (is_run, True))


def powers_link(*where):
    """Whether a command of a link can take long is decided by the words that run: here two partitions of 81 cells."""
    with Visit(*where, fragment("mult (5^9,4^9) - (5^9,4^9)")) as visit:
        got = visit.ask("return [answers().length, running, document.getElementById('state').textContent]")
        return wrong((got, [0, None, "This link has a command that can take long. Press Enter to run it."]))


def lines_link(*where):
    """A link with several lines shows them as they can be run."""
    with Visit(*where, fragment(f"coef 1 - 1 -\n{HEAVY}")) as visit:
        shown = visit.ask("return [document.getElementById('line').value, answers().length, document.getElementById('state').textContent]")
        return wrong((shown, [f"coef 1 - 1 -; {HEAVY}", 0, "This link has 2 commands that can take long. Press Enter to run them."]))


def next_links(*where):
    """A link that is opened in a page which has answered a part of it runs the rest, or shows that and waits for Enter; one that is answered runs nothing."""
    with Visit(*where, fragment("coef 1 - 1 -")) as visit:
        go = "await went(() => (location.hash = %s)); await quiet(); return [answers().map(([line]) => line), document.getElementById('line').value, document.getElementById('state').textContent]"
        light = visit.ask(go % json.dumps(fragment("coef 1 - 1 -\ncoef 2 - 1 - 1; rsk 1")))
        address = visit.ask("return decodeURIComponent(location.hash)")
        again = visit.ask(go % json.dumps(fragment("rsk 1; coef 1 - 1 -")))
        heavy = visit.ask(go % json.dumps(fragment(f"rsk 1; {HEAVY}")))
        lines = ["rsk 1", "coef 2 - 1 - 1", "coef 1 - 1 -"]
        wanted = [lines, HEAVY, "This link has a command that can take long. Press Enter to run it."]
        return wrong((light[0], lines), (address, f"#{'; '.join(lines[::-1])}"), (again[0], lines), (heavy, wanted))


def unseen_link(*where):
    """Characters of a link that turn the direction of a text, or that are invisible, are made visible."""
    with Visit(*where, fragment("mult 2 1 - \u202e1 2")) as visit:
        texts = visit.ask("return [document.getElementById('line').value, answers().length, document.body.innerText.includes('\\u202e')]")
        ran = visit.ask("ask('mult 2 1 - \\u202e1 2'); await quiet(); return [answers()[0][0].includes('\\u202e'), document.querySelectorAll('.offers button').length]")
        return wrong((texts, ["mult 2 1 - ⟨U+202E⟩1 2", 0, False]), (ran, [False, 0]))


def several_readings_link(*where):
    """A link whose line has several readings computes none of them."""
    with Visit(*where, fragment("mult 2(2,1) - 1")) as visit:
        got = visit.ask("return [answers().length, document.getElementById('line').value, document.getElementById('state').textContent]")
        return wrong((got, [0, "mult 2(2,1) - 1", "This link has a command that can be read in several ways. Press Enter to run it."]))


def draft(*where):
    """The arrow keys leave what is typed and did not run."""
    with Visit(*where) as visit:
        visit.run("coef 1 - 1 -")
        visit.run("coef 2 - 1 - 1")
        page = visit.page
        page.press("Tab") if page.run("document.activeElement.id") != "line" else None
        page.run("document.getElementById('line').focus(), document.getElementById('line').select()")
        page.press(*"mult 3", "ArrowUp", "ArrowUp")
        up = page.run("document.getElementById('line').value")
        page.press("ArrowDown", "ArrowDown")
        return wrong((up, "coef 1 - 1 -"), (page.run("document.getElementById('line').value"), "mult 3"))


def fresh_field(*where):
    """The field is empty at first, and what is typed or pasted after a command takes its place."""
    with Visit(*where) as visit:
        value = "document.getElementById('line').value"
        empty = visit.page.run(value)
        visit.page.run("document.getElementById('line').focus()")
        visit.page.press(*"coef 1 - 1 -", "Enter")
        visit.ask("await until(() => answers().length === 1)")
        visit.page.press(*"rsk 1")
        typed = visit.page.run(value)
        visit.page.press("Enter")
        visit.ask("await until(() => answers().length === 2)")
        visit.ask(PASTE % json.dumps("rsk 2\nrsk 3\n"))
        return wrong((empty, ""), (typed, "rsk 1"), (visit.page.run(value), "rsk 2; rsk 3"))


def transcript(*where):
    """When a transcript is pasted, its commands are run, and its comments are not."""
    with Visit(*where) as visit:
        visit.ask(PASTE % json.dumps(TRANSCRIPT))
        visit.ask("document.getElementById('run').click(); await quiet()")
        lines = [line for line, _ in visit.answers()]
        visit.run("# nothing; mult 1 - 1")
        said = visit.ask("return [answers().length, document.getElementById('state').textContent]")
        wanted = [3, "Nothing to run: type a command, such as mult 2 1 - 2 1."]
        return wrong((lines[::-1], ["mult 2 1 - 2 1", "coef 3 2 1 - 2 1 - 2 1", "rsk 3 1 2"]), (said, wanted))


def show_more(*where):
    """However often more is shown, it is a part that a browser can lay out; all of it can be downloaded."""
    with Visit(*where) as visit:
        visit.run(LARGE)
        script = """const article = document.querySelector("article"), more = () => [...article.querySelectorAll(".part button")].find((it) => it.textContent === "Show more");
        let count = 0; while (more() && count < 100) more().click(), count += 1;
        const pre = article.querySelector("pre"), save = [...article.querySelectorAll(".part button")].map((it) => it.textContent);
        return [count > 1, pre.textContent.split("\\n").length <= 20001, pre.textContent === kept[kept.length - 1].text.slice(0, pre.textContent.length), save]"""
        return wrong((visit.ask(script), [True, True, True, ["Download"]]))


def thousands(*where):
    """A list of two thousand commands is answered; the state speaks at its begin and its end; the last hundred answers are shown, and all are kept."""
    with Visit(*where) as visit:
        lines = [f"coef {n} 1 - {n} - 1" for n in range(1, 501)] * 4
        visit.ask("globalThis.said = []; new MutationObserver(() => said.push(document.getElementById('state').textContent)).observe(document.getElementById('state'), { childList: true })")
        visit.run("; ".join(lines))
        got = visit.ask("await pause(50); return [answers().length, kept.length, transcript().slice(0, 2), [...new Set(said)]]")
        said = ["2,000 commands are running.", "2,000 commands: 2,000 answered."]
        half = visit.ask("ask(%s.join('; ')); await until(() => kept.length > 2200); clearQueue(); await quiet(); return answers().length" % json.dumps(lines))
        if half != 100:
            return f"{half} answers are shown of a list that is cleared"
        return wrong((got, [100, 2000, ["$ calc coef 1 1 - 1 - 1\n1\n", "$ calc coef 2 1 - 2 - 1\n1\n"], said]))


def cleared(*where):
    """The answers can be cleared."""
    with Visit(*where) as visit:
        visit.run("coef 1 - 1 -; coef 2 - 1 - 1")
        gone = visit.ask("document.getElementById('clean').click(); return [answers().length, document.getElementById('given').hidden, kept.length]")
        visit.run("coef 1 - 1 -")
        return wrong((gone, [0, True, 0]), (visit.answers(), [["coef 1 - 1 -", "1\n"]]))


def help_asked(*where):
    """`help` and its like show the help, and run nothing."""
    with Visit(*where) as visit:
        found = []
        for line in ("help", "?", "help rsk", "mult --help", "quantum ?", "calc --help"):
            visit.run(line)
            found.append(visit.ask("const it = [...document.querySelectorAll('#commands details[open]')].map((it) => it.closest('li').id); document.querySelectorAll('#commands details').forEach((it) => (it.open = false)); return [it, document.getElementById('state').textContent]"))
        every = [[], "All commands are shown, each with its help."]
        one = [[[f"help-{name}"], f"The help of {name} is shown."] for name in ("rsk", "mult", "quantum")]
        return wrong((found, [every, every, *one, every]), (visit.answers(), []))


def forms(*where):
    """The form of a command makes its line, and runs it."""
    with Visit(*where) as visit:
        script = """const row = document.getElementById("help-quantum"); row.querySelector(".open-form").click();
        const form = row.querySelector("form"), [k, c, left, right] = form.querySelectorAll("input"); k.value = "2"; c.value = "2"; left.value = "(2,1)"; right.value = "2 1";
        form.dispatchEvent(new Event("input")); const said = form.querySelector(".note").textContent; form.requestSubmit(); await quiet();
        const all = [...document.querySelectorAll(".open-form")]; for (const it of all) if (it.getAttribute("aria-expanded") === "false") it.click();
        return [said, answers()[0], all.length, document.querySelectorAll(".fields").length, document.documentElement.scrollWidth <= WIDTH]"""
        got = visit.ask(script.replace("WIDTH", str(visit.page.width)))
        half = visit.ask('''const row = document.getElementById("help-plethysm"), form = row.querySelector("form"), before = answers().length;
        const [outer] = form.querySelectorAll("input"); outer.value = "s[2,1] s[1]"; form.requestSubmit(); await quiet(); return answers().length - before''')
        return wrong((half, 0), (got, ["quantum 2 2 2 1 - 2 1 σ(2,1) * σ(2,1) in QH*(Gr(2,4))", ["quantum 2 2 2 1 - 2 1", "1  q^1  (2)\n1  q^1  (1,1)\n"], 18, 18, True]))


# The characters of S_3, by cycle types (3), (2,1), (1,1,1); Kostka numbers of size 3 and their inverse; and products in Gr(1,3), the projective plane, without q and with it.
CHARACTERS = [["1", "1", "1"], ["-1", "0", "2"], ["1", "-1", "1"]]
KOSTKA = [["1", "1", "1"], ["0", "1", "2"], ["0", "0", "1"]]
INVERSE = [["1", "-1", "1"], ["0", "1", "-2"], ["0", "0", "1"]]
QUANTUM_PLANE = [["()", "(1)", "(2)"], ["(1)", "(2)", "q*()"], ["(2)", "q*()", "q*(1)"]]
PLANE = [["()", "(1)", "(2)"], ["(1)", "(2)", "0"], ["(2)", "0", "0"]]


def in_csv(rows):
    """The lines of a table of the projective plane in CSV: labels in brackets, since a spreadsheet reads (1) as -1."""
    return [",".join(["[]" if i == 0 else f"[{i}]", *row]).replace("(", "[").replace(")", "]") for i, row in enumerate(rows)]


def tables(*where):
    """A table has the right entries, on the page, in CSV and in JSON."""
    with Visit(*where) as visit:
        make = """const choose = async (kind, ...sizes) => { const select = document.getElementById("kind"); select.value = kind; select.dispatchEvent(new Event("change"));
          document.querySelectorAll("#sizes input").forEach((it, i) => (it.value = String(sizes[i]))); document.getElementById("made").replaceChildren();
          document.getElementById("making").requestSubmit(); await quiet(); await pause(50); };
        let file = ""; Object.defineProperty(navigator, "clipboard", { configurable: true, value: { writeText: async (text) => (file = text) } });
        const copied = async (name) => { [...document.querySelectorAll("#made button")].find((it) => it.textContent === name).click(); await pause(50); return file; };
        const cells = () => [...document.querySelectorAll(".made tr")].slice(1).map((row) => [...row.querySelectorAll("td")].map((it) => it.textContent.replace("−", "-")));
        const found = [];
        for (const given of [["characters", 3], ["classical", 1, 3]]) { await choose(...given); found.push(cells(), await copied("Copy CSV"), JSON.parse(await copied("Copy JSON"))); }
        await choose("quantum", 1, 3);
        found.push(cells(), await copied("Copy CSV"));
        for (const kind of ["kostka", "inverse"]) { await choose(kind, 3); found.push(cells()); }
        await choose("schubert", 2);
        found.push(cells());
        await choose("classical", 4, 2);
        return [...found, document.getElementById("said-of-table").textContent, document.documentElement.scrollWidth]"""
        first, csv, data, second, csv2, data2, third, csv3, kostka, inverse, products_of_two, said, width = visit.ask(make)
        labels = [[3], [2, 1], [1, 1, 1]]
        wanted_csv = ",[3],\"[2,1]\",\"[1,1,1]\"\r\n" + "".join(
            f"{label},{','.join(row)}\r\n" for label, row in zip(['[3]', '"[2,1]"', '"[1,1,1]"'], CHARACTERS)
        )
        wanted2 = [[f"σ{it}".replace("()", "∅") if it != "0" else "0" for it in row] for row in PLANE]
        products = [[[{"coefficient": 1, "label": [int(it[1])] if len(it) > 2 else []}] if it != "0" else [] for it in row] for row in PLANE]
        return wrong(
            (first, CHARACTERS), (csv, wanted_csv), (data["labels"], labels), (data["entries"], [[int(it) for it in row] for row in CHARACTERS]),
            (second, wanted2), (csv2.splitlines()[1:], in_csv(PLANE)),
            (data2["entries"], products), (third, [[f"{'q ' if '*' in it else ''}σ{it.replace('q*', '').replace('()', '∅')}" for it in row] for row in QUANTUM_PLANE]),
            (kostka, KOSTKA), (inverse, INVERSE), (products_of_two, [["S1", "S21"], ["S21", "S312"]]),
            (csv3.splitlines()[1:], in_csv(QUANTUM_PLANE)), (said, "n has to be greater than k."), (width <= visit.page.width, True),
        )


# The last step of a picture: the line, the beginning of the title, the number of steps, and the name of a drawing at that step. (The diagram of
# 2 1 4 3 has cells in rows 1 and 3, from the later and smaller letters 1 < 2 and 3 < 4.)
PICTURES = [
    ("rsk 3 1 2", "Row insertion", 4, "tableau P with the rows 1 2, 3"),
    ("rect 2 2 / 1 - 1 / 1 2", "Slides", 2, "tableau with the rows 1 1, 2"),
    ("tab 3 2 1 / 2 1", "The tableaux", 12, "partition 1,1,1"),
    ("schubert 1 4 3 2", "The pipe dreams", 5, "pipe dream with crosses in row 2 column 2, row 2 column 1, row 3 column 1"),
    ("schubert 3 1 2", "The pipe dreams", 1, None),
    ("schubert 2 3 1", "The pipe dreams", 1, None),
    ("schubert 2 1 4 3", "The pipe dreams", 3, None),
    ("schubert 2 1 4 3", "The diagram of 2 1 4 3", 4, "diagram of 2 1 4 3 with row 1 column 1, row 3 column 3"),
    ("schubert 3 1 4 2 5", "The diagram of 3 1 4 2", 4, "diagram of 3 1 4 2 with row 1 column 1, row 1 column 2, row 3 column 2"),
    ("schubert 1 2", "The diagram", 1, None),
]


def pictures(*where):
    """The pictures go step by step from the begin to the answer."""
    with Visit(*where) as visit:
        script = """await (async () => { document.getElementById("line").value = %s; document.getElementById("run").click(); await quiet(); })();
        const it = [...document.querySelector("article").querySelectorAll(".steps")].find((of) => of.querySelector(".step-title").textContent.startsWith(%s)); if (!it) return null;
        const press = (name) => [...it.querySelectorAll("button")].find((of) => of.textContent === name).click(), range = it.querySelector("input");
        const said = [it.querySelector(".step-caption").textContent]; for (let n = 1; n < Number(range.max); n += 1) press("Next"), said.push(it.querySelector(".step-caption").textContent);
        press("Next"); const names = [...it.querySelectorAll("[role=img]")].map((of) => of.getAttribute("aria-label")); press("Before");
        return [new Set(said).size, names, range.value]"""
        for line, title, count, name in PICTURES:
            got = visit.ask(script % (json.dumps(line), json.dumps(title)))
            if count == 1 and got is None:
                continue
            if got is None or got[0] != count or (name and name not in got[1]) or got[2] != str(max(count - 1, 1)):
                return f"{line}: {got}"
        return ""


def offers(*where):
    """A reading that is offered is shown in mathematics, and runs when it is pressed."""
    with Visit(*where) as visit:
        visit.run("s_{11}*s_{1}")
        script = "const it = document.querySelector('article .offers li'), said = it.textContent; it.querySelector('button').click(); await quiet(); return [said, answers()[0], document.getElementById('line').value]"
        return wrong((visit.ask(script), ["mult 1 1 - 1 s(1,1) · s(1)", ["mult 1 1 - 1", "1  (2,1)\n1  (1,1,1)\n"], "mult 1 1 - 1"]))


def memory(*where):
    """A line that needed much memory leaves none of it behind: the next ones run in a fresh module, and are answered as before."""
    with Visit(*where) as visit:
        visit.ask("globalThis.before = worker")
        visit.run("coef 1 - 1 -")
        same = visit.ask("return worker === before")
        visit.run(LARGER)
        fresh = visit.ask("return worker !== before")
        visit.run("coef 1 - 1 -")
        return wrong((same, True), (fresh, True), (visit.answers()[0], ["coef 1 - 1 -", "1\n"]))


def little_memory(browser, path, size):
    """With little memory a line has the answer of a fresh module, whatever ran before."""
    large, line = "tab 9 8 7 6 5 4 3 2 1 / 7 6 5 4 3 2 1", "dschubmult 5 4 3 2 1 - 5 4 3 2 1"
    with open(os.path.join(os.path.dirname(os.path.abspath(__file__)), "../web/cases.mjs"), encoding="utf-8") as file:
        limited = file.read().split("/** A number as bytes")[1].split("const bytes =")[0]
    with Visit(browser, path, size) as visit:
        visit.ask(LITTLE_MEMORY % (f"/** A number as bytes{limited}", LITTLE_PAGES))
        visit.run(line)
        visit.ask("restart(); await until(() => isReady)")
        visit.run(large)
        visit.run(line)
        after, _, before = visit.answers()
        return wrong((after, before), (before[1][:1], "1"))


class Quiet(http.server.SimpleHTTPRequestHandler):
    """A server of a folder that writes nothing of it."""

    def log_message(self, *_):
        pass


def installed(browser, path, size):
    """The page of an app, once it was opened from a server, works when that is gone."""
    folder = os.path.join(os.path.dirname(path), "app")
    server = http.server.ThreadingHTTPServer(("127.0.0.1", 0), functools.partial(Quiet, directory=folder))
    threading.Thread(target=server.serve_forever, daemon=True).start()
    with Visit(browser, f"http://127.0.0.1:{server.server_address[1]}/", size) as visit:
        named = visit.ask("return (await (await fetch('calc.webmanifest').catch(() => ({ json: () => null }))).json())")
        visit.ask("await navigator.serviceWorker.ready; await until(() => navigator.serviceWorker.controller)")
        server.shutdown()
        server.server_close()
        reloaded(visit)
        visit.run("coef 2 - 1 - 1")
        with open(os.path.join(folder, "calc.webmanifest"), encoding="utf-8") as file:
            manifest = json.load(file)
        # (the policy lets the script of the page itself ask for nothing)
        return wrong((visit.answers(), [["coef 2 - 1 - 1", "1\n"]]), (named, None), (manifest["display"], "standalone"))


# What is asked for of an answer: what is typed, the text of what is asked for, from the definitions, and the lines that are marked.
ASKED = [
    ("K_{(3,1),(1^4)}", "K(3,1),(1,1,1,1) = 3", ["3  (1,1,1,1)"]),
    ("K_{(2,2),(3,1)}", "K(2,2),(3,1) = 0", []),
    ("f^{(3,2,1)}", "f(3,2,1) = 16", ["16  (1,1,1,1,1,1)"]),
    ("χ^{(3,1)}(2,2)", "χ(3,1)(2,2) = −1", ["-1  (3,1)"]),
    ("degree of Gr(2,5)", "the degree of Gr(2,5) = 5", ["5  (1,1,1,1,1,1)"]),
    ("σ_{1}^4 in Gr(2,4)", "σ(1) · σ(1) · σ(1) · σ(1) in H*(Gr(2,4)) = 2 σ(2,2)", ["2  q^0  (2,2)"]),
    ("number of LR tableaux of shape (3,2,1)/(2,1)", "the number of Littlewood–Richardson tableaux of shape (3,2,1)/(2,1) = 4", []),
    ("coefficient of s_{2,1} in s_1 s_1 s_1", "the coefficient of s(2,1) in s(1) · s(1) · s(1) = 2", ["2  (2,1)"]),
    ("coefficient of σ_{2} in σ_{2,1}*σ_{2,1} in QH*(Gr(2,4))", "the coefficient of q σ(2) in σ(2,1) * σ(2,1) in QH*(Gr(2,4)) = 1", ["1  q^1  (2)"]),
    ("the coefficient of σ_{(2)} in σ_{(2,1)} · σ_{(2,1)} in H*(Gr(2,4))", "the coefficient of σ(2) in σ(2,1) · σ(2,1) in H*(Gr(2,4)) = 0", []),
    ("K_{(2,1);(1,1,1)}", "K(2,1),(1,1,1) = 2", ["2  (1,1,1)"]),
    ("𝔖_{132}^2 in Fl(3)", "S132 · S132 in H*(Fl(3)) = S231", ["1  (2,3,1)"]),
]


def asked_for(*where):
    """The line of an answer that was asked for is marked, and the whole answer stays."""
    with Visit(*where) as visit:
        for typed, said, marked in ASKED:
            visit.run(typed)
            script = "const it = document.querySelector('article'); it.querySelectorAll('.asked msubsup').forEach((of) => of.append(of.children[1])); return [it.querySelector('.asked').textContent, [...it.querySelectorAll('pre .asked-line')].map((of) => of.textContent.trim()), it.querySelector('pre').textContent === kept[kept.length - 1].text]"
            got = visit.ask(script)
            if got != [said, marked, True]:
                return f"{typed}: {got}"
        visit.run("σ_1 σ_1 in QH*(Gr(2,4))")
        raised = visit.ask("return [...document.querySelectorAll('article')[0].querySelectorAll('.computed msup')].map((it) => it.textContent)")
        return wrong((raised, ["QH*"]))


def first_reading(*where):
    """While a line with several readings is typed the page says so; Ctrl and Enter take the first one, Enter offers all, and one that is 0 by its sizes runs when it is pressed."""
    with Visit(*where) as visit:
        typing = "const field = document.getElementById('line'); field.value = 'c^{321}_{21,21}'; field.dispatchEvent(new Event('input')); "
        seen = visit.ask(typing + "return document.getElementById('preview').textContent.split(':')[0]")
        visit.ask(typing + "field.dispatchEvent(new KeyboardEvent('keydown', { key: 'Enter', ctrlKey: true, cancelable: true })); await quiet()")
        first = visit.answers()[0]
        visit.run("K_{2,11}")
        offers = visit.ask("const all = [...document.querySelectorAll('article')[0].querySelectorAll('.offers li')]; all[all.length - 1].querySelector('button').click(); await quiet(); return all.map((it) => it.textContent.includes('0 by its sizes'))")
        zero = visit.ask("return document.querySelector('article .asked').textContent")
        # (what is not computed, where a line stops, and which offers are 0 are said while one types, too)
        told = [visit.ask(typing.replace("c^{321}_{21,21}", it) + "return document.getElementById('preview').textContent") for it in ("g_{21,21,21}", "s_{21} ! s_{1}", "c^{321}_{21,2}")]
        parts = ["Kronecker products and their coefficients are not computed here.", "“!” cannot come after it", "(0 by its sizes)"]
        if not all(part in it for part, it in zip(parts, told)):
            return str(told)
        return wrong((seen, "2 readings"), (first, ["coef 3 2 1 - 2 1 - 2 1", "2\n"]), (offers, [False, True]), (zero, "K(2),(11,) = 0"))


def names_given(*where):
    """No part of a line runs if one that is not read gives something a name; and what a question to begin with says is not said of what was typed."""
    with Visit(*where) as visit:
        visit.run("S = schurRing(s,3); s_{2,1}*s_{2,1}")
        none = visit.answers()
        visit.run("nothing; coef 2 - 1 - 1; K_{(3,1),(2,1,1)}")
        said = visit.ask("return document.querySelectorAll('article .meaning').length")
        return wrong((none, [["S = schurRing(s,3); s_{2,1}*s_{2,1}", ""]]), ([line for line, _ in visit.answers()[:2]], ["expand m s[3,1]", "coef 2 - 1 - 1"]), (said, 0))


def early_enter(*where):
    """A line that is run before the module is ready is answered once it is."""
    with Visit(*where) as visit:
        got = visit.ask("end(); boot(); const is = isReady; at('line').value = 'coef 2 - 1 - 1'; at('run').click(); await quiet(); return [is, answers()[0]]")
        return wrong((got, [False, ["coef 2 - 1 - 1", "1\n"]]))


def late_failure(*where):
    """A worker that fails after its start is started anew, and what ran in it has no answer."""
    with Visit(*where) as visit:
        visit.ask(f"ask({json.dumps(HEAVY)}); await until(() => running); worker.onerror({{ message: 'it broke' }}); await quiet()")
        said = visit.ask("return document.querySelector('article .said').textContent")
        visit.run("coef 2 - 1 - 1")
        return wrong((said, "The module failed, and there is no answer. It was started anew. (it broke)"), (visit.answers()[0], ["coef 2 - 1 - 1", "1\n"]))


def forgotten(*where):
    """Commands that were forgotten do not come back with a reload."""
    with Visit(*where) as visit:
        visit.run("coef 1 - 1 -")
        visit.ask("document.getElementById('forget').click()")
        reloaded(visit)
        return wrong((visit.ask("return [asked, document.getElementById('history').hidden, answers().length]"), [[], True, 0]))


def other_tab(*where):
    """What another tab keeps stays, and what it forgets is forgotten here."""
    with Visit(*where) as visit:
        keeps = "localStorage.setItem('calc: lines', JSON.stringify(%s)); dispatchEvent(new StorageEvent('storage', { key: 'calc: lines' }))"
        visit.run("rsk 1")
        visit.ask(keeps % "['rsk 1', 'rsk 9']")
        visit.run("rsk 2")
        both = visit.ask("return JSON.parse(localStorage.getItem('calc: lines'))")
        return wrong((both, ["rsk 1", "rsk 9", "rsk 2"]), (visit.ask(keeps % "[]" + "; return asked"), []))


def half_typed(*where):
    """A half-typed line that an example takes the place of can be brought back."""
    with Visit(*where) as visit:
        script = """const field = at("line"), button = at("undo"); field.value = "mult 5 4 -"; const before = button.hidden;
        document.querySelector("#questions [data-line]").click(); await quiet(); const seen = !button.hidden && field.value !== "mult 5 4 -";
        button.click(); return [before, seen, field.value, button.hidden]"""
        return wrong((visit.ask(script), [True, True, "mult 5 4 -", True]))


def long_line(*where):
    """A line that is too long is not looked at, whatever it is made of."""
    with Visit(*where) as visit:
        script = "const began = performance.now(); at('line').value = %s.repeat(300000); at('line').dispatchEvent(new Event('input')); at('run').click(); await quiet(); return [performance.now() - began < 20000, document.querySelector('article .said').textContent]"
        got = [visit.ask(script % json.dumps(sign)) for sign in ("\\", "s_1 ", "\u202e")]
        return wrong((got, [[True, "The line has more than 65,536 characters, the most that are read here."]] * 3))


# What is marked of an answer, by a selector, and how it is copied.
MARKED = [
    ("schubert 2 1 4 3", ".equation", "S_2143 = x_1^2 + x_1 x_2 + x_1 x_3"),
    ("schubert 1 3 2", ".equation .sum math:last-child msub", "x_2"),
    ("quantum 2 2 2 1 - 2 1", ".equation .sum", "= q σ_(2) + q σ_(1,1)"),
    ("expand p s[2,1]", ".equation", "s_(2,1) = −1/3 p_(3) + 1/3 p_(1,1,1)"),
    ("coef 3 2 1 - 2 1 - 2 1", ".equation", "c_{(2,1),(2,1)}^(3,2,1) = 2"),
    ("K_{(3,1),(1^4)}", ".asked", "K_{(3,1),(1,1,1,1)} = 3"),
    ("mult 2 1 -", "pre", ""),
]


def marked(*where):
    """What is marked in a formula is copied as it looks; a copied left side is read again as the line."""
    with Visit(*where) as visit:
        copied = """globalThis.copied = (it) => { getSelection().selectAllChildren(it); if (it.localName.startsWith("m")) getSelection().setBaseAndExtent(it.parentNode, [...it.parentNode.childNodes].indexOf(it), it.parentNode, [...it.parentNode.childNodes].indexOf(it) + 1);
        const event = new ClipboardEvent("copy", { clipboardData: new DataTransfer(), bubbles: true, cancelable: true }); document.activeElement.blur(); document.querySelector("article").dispatchEvent(event); globalThis.rich = event.clipboardData.getData("text/html"); return event.clipboardData.getData("text/plain").replace(/\\s+/g, " ").trim(); }"""
        visit.ask(copied)
        for line, what, text in MARKED:
            visit.run(line)
            got = visit.ask(f"return copied(document.querySelector('article').querySelector({json.dumps(what)}))")
            if got != text or visit.ask("return /<m(ath|sub)/.test(rich)") != (text != ""):
                return f"{line}: {got!r}, not {text!r}, or no formula for a word processor"
        for line in ("mult 2 1 - 2 1", "schubmult 1 3 2 - 2 1 3", "skew 3 2 1 / 2 1", "stanley -r 2 2 1 4 3"):
            visit.run(line)
            back = visit.ask("const text = copied(document.querySelector('article .computed')); return [text, readTyped(text).line]")
            if back[1] != line:
                return f"{line}: {back}"
        return ""


def equations(browser, path, size):
    """An equation is MathML: its parts have the places of a formula, and a reader of the screen is told so. A long index can break."""
    with Visit(browser, path, size) as visit:
        visit.run("schubert 2 1 4 3")
        parts = "const it = document.querySelector('article .equation'); return [it.querySelectorAll('math').length, it.querySelectorAll('msub').length, it.querySelectorAll('msup, msubsup').length, it.querySelectorAll('sub, sup').length, it.querySelector('math').namespaceURI]"
        got = visit.ask(parts)
        low = visit.ask("const of = document.querySelector('article .equation msub'), [base, index] = [...of.children].map((it) => it.getBoundingClientRect()); return index.bottom > base.bottom && index.height < base.height * 1.2")
        told = []
        if browser.name == "chromium":
            nodes = visit.page.channel.ask("Accessibility.getFullAXTree")["nodes"]
            told = sorted({it["role"]["value"] for it in nodes if "Math" in it["role"]["value"]})
        visit.run("mult " + "1 " * 200 + "-")
        wide = visit.ask("const it = document.querySelector('article .equation'); return it.scrollWidth <= it.clientWidth + 1")
        return wrong((got, [4, 5, 1, 0, "http://www.w3.org/1998/Math/MathML"]), (low, True), (wide, True)) or ("" if not told or {"MathMLMath", "MathMLSub"} <= set(told) else str(told))


TITLE = "calc: Schubert calculus and symmetric functions"


def back_and_forward(*where):
    """Each answer is a step of the way back, has a title, and is shown again without being computed again."""
    with Visit(*where) as visit:
        for line in ("coef 1 - 1 -", "mult 1 - 1; rsk 2 1"):
            visit.run(line)
        state = "return [document.title, document.activeElement.dataset.of || '', answers().length]"
        steps = [visit.ask(state)[0]]
        for way in ("back", "forward"):
            steps.append(visit.ask(f"await went(() => history.{way}()); await quiet(); {state}"))
        steps.append(visit.ask(f"await went(() => history.back()); await went(() => history.back()); await quiet(); {state}")[::2])
        # (two questions whose answers are lines of one command)
        for line in ("K_{(3,2),(2,2,1)}", "f^{(3,2)}"):
            visit.run(line)
        asked = [visit.ask(f"await went(() => history.{way}()); await quiet(); return [document.title, answers().length]") for way in ("back", "forward")]
        wanted = ["rsk 2 1 – calc", ["coef 1 - 1 - – calc", "coef 1 - 1 -", 3], ["mult 1 - 1 – calc", "mult 1 - 1", 3], [TITLE, 3]]
        return wrong((steps, wanted), (asked, [["K_{(3,2),(2,2,1)} – calc", 5], ["f^{(3,2)} – calc", 5]]))


def origins(browser, path, size):
    """A link has the version and the sum of the module; what is shown of a link with others says so."""
    with Visit(browser, path, size, fragment("coef 1 - 1 -") + "&version=0.0.1&module=00ff00ff00ff") as visit:
        own, origin = visit.ask("return [linkTo('coef 1 - 1 -'), [at('origin').hidden, at('origin').textContent]]")
        version, sum = own.split("&version=")[1].split("&module=")
        said = f"This link was made with calc 0.0.1, module 00ff00ff00ff; what is shown here is computed by calc {version}, module {sum}."
        first = visit.answers()
        visit.run("rsk 1")
        after = visit.ask("return at('origin').hidden")
    with Visit(browser, path, size, fragment=fragment(HEAVY) + "&version=0.0.1&module=00ff00ff00ff") as visit:
        heavy = visit.ask("const waits = !at('origin').hidden; at('run').click(); await until(() => running); stop(); await quiet(); return [waits, !at('origin').hidden, answers().length]")
    with Visit(browser, path, size, "#" + own.split("#")[1]) as visit:
        same = visit.ask("return [at('origin').hidden, answers()]")
    return wrong((origin, [False, said]), (first, [["coef 1 - 1 -", "1\n"]]), (after, True), (heavy, [True, True, 1]), (same, [True, first]))


def links_of_files(browser, path, size):
    """A link that is copied from a file says that it is local; if the page has a copy on a server, it leads there."""
    press = """let copied; Object.defineProperty(navigator, "clipboard", { configurable: true, value: { writeText: async (text) => (copied = text) } });
    const it = [...document.querySelectorAll("article button")].find((of) => of.textContent.endsWith("link")); it.click(); await pause(50); return [it.textContent, copied.split("&")[0], at("state").textContent]"""
    served = os.path.join(os.path.dirname(path), "served.html")
    with open(path, encoding="utf-8") as file, open(served, "w", encoding="utf-8") as other:
        other.write(file.read().replace('data-base=""', 'data-base="https://example.org/calc.html"'))
    found = []
    for it in (path, served):
        with Visit(browser, it, size) as visit:
            visit.run("K_{(3,1),(1^4)}")
            found.append(visit.ask(press))
    typed = urllib.parse.quote("K_{(3,1),(1^4)}", safe="()!*'")
    local = ["Copy local link", f"file://{path}#{typed}", "A local link, which opens this file on this machine only, was copied."]
    return wrong((found, [local, ["Copy link", f"https://example.org/calc.html#{typed}", "Link copied."]]))


def linked_table(*where):
    """A table has an address and a title, and is made by its link; a link that asks for a table that is none runs nothing."""
    with Visit(*where, fragment("table characters 3") + "&version=x&module=0") as visit:
        got = visit.ask("return [document.querySelectorAll('.made tr').length, document.title, at('origin').hidden, at('kind').value]")
        link = visit.ask("return [...document.querySelectorAll('#made button')].some((it) => it.textContent.endsWith('link'))")
        visit.run("coef 1 - 1 -")
        back = visit.ask("await went(() => history.back()); await quiet(); return [document.title, decodeURIComponent(location.hash)]")
    with Visit(*where, fragment("table characters 10")) as visit:
        none = visit.ask("return document.querySelectorAll('.made tr').length")
    title = "Characters of the symmetric group S_n, n = 3 – calc"
    return wrong((got, [4, title, False, "characters"]), (link, True), (back, [title, "#table characters 3"]), (none, 0))


def undone(*where):
    """What was cleared, forgotten or removed comes back, the latest first."""
    with Visit(*where) as visit:
        visit.run("coef 1 - 1 -; coef 2 - 1 - 1")
        state = "[answers().map(([line]) => line), kept.length, [...asked], at('history').hidden, decodeURIComponent(location.hash)]"
        before = visit.ask(f"return {state}")
        gone = visit.ask(f"at('clean').click(); at('forget').click(); return {state}")
        titles = visit.ask("const seen = [at('undo').title]; at('undo').click(); seen.push(at('undo').title); at('undo').click(); return [...seen, at('undo').hidden]")
        after = visit.ask(f"return {state}")
        lists = visit.ask(f"""ask({json.dumps(HEAVY)}); ask("rsk 1; rsk 2; rsk 3"); await until(() => running); const lines = () => waiting.map((it) => it.line);
        document.querySelectorAll("#waiting button")[1].click(); const removed = lines(); at("undo").click(); const back = lines(); at("clear").click(); const none = lines();
        at("undo").click(); const all = lines(); stop(); await quiet(); return [removed, back, none, all, answers().length, at("state").textContent]""")
        visit.run("rsk 4")
        three = ["rsk 1", "rsk 2", "rsk 3"]
        return wrong(
            (gone, [[], 0, [], True, ""]), (titles, ["Brings back the earlier commands", "Brings back the answers", True]), (after, before),
            (lists, [["rsk 1", "rsk 3"], three, [], three, 6, "4 commands: 3 answered and 1 stopped."]), (visit.answers()[0][0], "rsk 4"),
        )


# What is seen of the open page: texts in elements of these kinds, others, and whether something is wider than the page.
SEEN = """const kinds = ".equation, .asked, .computed, .drawn, .wide", all = [...document.body.querySelectorAll("*")].filter((it) => it.checkVisibility() && [...it.childNodes].some((of) => of.nodeType === 3 && of.textContent.trim()));
return [all.filter((it) => !it.closest(kinds)).map((it) => it.localName + it.textContent.slice(0, 30)), all.filter((it) => it.getBoundingClientRect().right > innerWidth + 1).map((it) => it.textContent.slice(0, 30)), [...document.querySelectorAll(".equation .sum")].map((it) => it.textContent.split(/ [+−] /).length), getComputedStyle(document.body).color]"""


def printed_page(browser, path, size):
    """Printed are the equations, whole, in black, and nothing else: also of an answer that is too long to be shown as one; without answers the page."""
    if browser.name != "chromium":
        return ""
    with Visit(browser, path, size) as visit:
        ask = visit.page.channel.ask
        empty = ask("Page.printToPDF")["data"]
        for line in ("mult 2 1 - 2 1", "mult 1 2 - 1", "mult 5 4 3 2 1 - 4 3 2 1", "tab 2 1 / 1", "schubert " + " ".join(map(str, range(16, 0, -1))), "expand m s[5,4]"):
            visit.run(line)
        ask("Emulation.setEmulatedMedia", media="print", features=[{"name": "prefers-color-scheme", "value": "dark"}])
        ask("Emulation.setDeviceMetricsOverride", width=640, height=900, deviceScaleFactor=1, mobile=False)
        others, wide, terms, ink = visit.ask(f"dispatchEvent(new Event('beforeprint')); {SEEN}")
        left = visit.ask("dispatchEvent(new Event('afterprint')); return document.querySelectorAll('.equation.long').length")
        pages = base64.b64decode(ask("Page.printToPDF")["data"]).count(b"/Type /Page\n")
        return wrong((others, []), (wide, []), (sorted(terms), [1, 7, 23, 503]), (ink, "rgb(0, 0, 0)"), (left, 0)) or ("" if 1 < pages <= 6 and len(empty) > 40000 else f"{pages} pages, {len(empty)}")


# The lines whose drawings are taken along, with the number of sets of drawings: of the answer, and of each picture step by step.
TAKEN = [("growth 3 1 2", 2), ("mult 2 1 - 2 1", 1), ("coprod 2 1", 1), ("quantum 2 2 2 1 - 2 1", 1), ("expand p s[2,1]", 1), ("rsk 3 1 2", 2), ("tab 3 2 1 / 2 1", 2), ("rect 2 2 / 1 - 1 / 1 2", 2), ("schubert 2 1 4 3", 2), ("mult -", 1)]


def taken_along(*where):
    """Drawings are copied as SVG, which is XML with all their cells and letters, and as TikZ and ytableau, which pdflatex compiles."""
    with Visit(*where) as visit:
        visit.ask("globalThis.got = []; Object.defineProperty(navigator, 'clipboard', { configurable: true, value: { writeText: async (text) => void got.push(text) } })")
        copied = {}
        for line, count in TAKEN:
            visit.run(line)
            got = visit.ask("""got.length = 0; const all = [...document.querySelector("article").querySelectorAll(".tools button")].filter((it) => /^Copy (SVG|TikZ|ytableau)$/.test(it.textContent));
            for (const it of all) it.click(), await pause(20); return all.map((it, i) => [it.textContent, got[i]])""")
            copied[line] = got
            if [name for name, _ in got].count("Copy SVG") != count:
                return f"{line}: {[name for name, _ in got]}"
        svgs = {line: [xml.etree.ElementTree.fromstring(text) for name, text in got if name == "Copy SVG"] for line, got in copied.items()}
        texts = lambda svg: sorted(it.text for it in svg.iter("{http://www.w3.org/2000/svg}text"))
        # (at the corners of the grid of 3 1 2 are nine empty shapes and four of one cell; a letter at each row, a number at each column, and three crosses)
        growth = sorted(["∅"] * 9 + ["1"] * 4 + ["2", "1,1", "2,1"] + ["×"] * 3 + ["3", "1", "2"] + ["1", "2", "3"])
        pieces = [text for got in copied.values() for name, text in got if name == "Copy TikZ"]
        formulas = [f"$\n{text}\n$" for got in copied.values() for name, text in got if name == "Copy ytableau"]
        said = page_copies.compiled(pieces + formulas) if page_copies.has_latex() else ""
        return wrong((texts(svgs["growth 3 1 2"][0]), growth), (texts(svgs["rsk 3 1 2"][0]), sorted("123132PQ")), (len(formulas), 5)) or said


def growth_steps(*where):
    """A growth diagram has the crosses and letters of the permutation, and grows cell by cell to what is printed."""
    with Visit(*where) as visit:
        visit.run("growth 3 1 2")
        got = visit.ask("""const it = document.querySelector("article .steps"), range = it.querySelector("input"), said = [];
        for (let n = 1; n <= Number(range.max); n += 1) { range.value = String(n); range.oninput(); said.push(it.querySelector(".step-caption").textContent); }
        return [said, it.querySelector("[role=img]").getAttribute("aria-label"), document.querySelector("article .drawn [role=img]").getAttribute("aria-label")]""")
        said = [
            *["Row 1, column 1: nothing changes.", "Row 1, column 2: nothing changes.", "Row 1, column 3: a cross: a cell more in the first row."],
            *["Row 2, column 1: a cross: a cell more in the first row.", "Row 2, column 2: the shapes above and on the left are different: their union."],
            *["Row 2, column 3: both grow in row 1: a cell more in row 2.", "Row 3, column 1: the shapes above and on the left are different: their union."],
            *["Row 3, column 2: a cross: a cell more in the first row.", "Row 3, column 3: the shapes above and on the left are different: their union."],
        ]
        return wrong(([it.split(". ", 1)[1] for it in got[0]], said), (got[1:], ["growth diagram of 3 1 2, up to row 3, column 3", "growth diagram of 3 1 2"]))


# What is said below an answer of what is proved: the line, and parts of the text.
PROVED = [
    ("quantum 2 2 2 1 - 2 1", ["That this is the product in QH*(Gr(K, K+C)) is a theorem, which is not proved here.", "Bertram, Ciocan-Fontanine and Fulton"]),
    ("fusion 3 2 2 1 - 2 1", ["is a theorem, which is not proved here", "Kac and Walton"]),
    ("mult 2 1 - 1", ["The printed list has all terms", "Littlewood–Richardson rule", "Stembridge"]),
]


def theorems(*where):
    """Beside an answer stands, folded, what is proved of it; of quantum and fusion products it is said in sight that a theorem makes the reduction the product."""
    with Visit(*where) as visit:
        for line, parts in PROVED:
            visit.run(line)
            text, is_open, notes = visit.ask("const it = document.querySelector('article .theorem'); return [it.textContent, it.open, [...document.querySelectorAll('article')[0].querySelectorAll('.note')].map((of) => of.textContent)]")
            missing = [it for it in parts if it not in text]
            if missing or is_open or ("Proved is that this is" in " ".join(notes)) != line.startswith(("quantum", "fusion")):
                return f"{line}: {missing} in {text}; {notes}"
        said = visit.ask("ask('quantum 2 2 2 1 - 2 1'); await quiet(); return [...document.querySelector('article').querySelectorAll('.note')].map((it) => it.textContent)")
        wanted = "Proved is that this is the product in K variables, reduced by rim hooks. That it is the product in QH*(Gr(2,4)) is a theorem of Bertram, Ciocan-Fontanine and Fulton."
        run = visit.ask("document.querySelector('article .theorem').open = true; document.querySelector('article .theorem [data-line]').click(); await quiet(); return answers()[0]")
        outside = visit.ask("ask('fusion 3 1 2 1 - 1'); await quiet(); return [...document.querySelector('article').querySelectorAll('.note')].map((it) => it.textContent).join(' ')")
        parts = [it in outside for it in ("(2,1) is no weight of su(3) at level 1", "reduced into the alcove", "Kac")]
        return wrong((wanted in said, True), (parts, [True, True, False]), (run, ["quantum 1 1 1 - 1", "1  q^1  ()\n"]))


VISITS = [taken_along, growth_steps, theorems, printed_page, back_and_forward, origins, links_of_files, linked_table, undone, marked, equations, asked_for, first_reading, names_given, early_enter, late_failure, forgotten, other_tab, half_typed, long_line, back, reload, heavy_link, powers_link, lines_link, next_links, unseen_link, several_readings_link, draft, fresh_field, transcript, show_more, thousands, cleared, help_asked, offers, forms, tables, pictures, memory, little_memory, installed]
