// What tests/page tries in the open page, beside whose scripts this runs. Each check gives a value; tests/page compares it.
(() => {
  const all = (what, of = document) => [...of.querySelectorAll(what)];
  const textsOf = (what, of) => all(what, of).map((it) => it.textContent);
  /** The text of a formula, with what is set high before what is set low. */
  const formulasOf = (what, of) =>
    all(what, of).map((it) => {
      const copy = it.cloneNode(true);
      for (const both of all("msubsup", copy)) both.append(both.children[1]);
      return copy.textContent;
    });

  const run = (text) => {
    at("line").value = text;
    at("run").click();
  };

  /** The latest answer, after a number of answers more have come. */
  const more = async (count, action, what = `${count} answers`) => {
    const before = numberOfAnswer;
    await action();
    await until(() => numberOfAnswer >= before + count, `${what} (${at("state").textContent})`);
    return all("article")[0];
  };
  const answer = (text) => more(1, () => run(text), `the answer to ${text}`);

  /** The answers to many lines, in turn, typed some at once where none has a comment. (Of a longer list drawings are made when they are asked for.) */
  const SOME = 19;
  const answersTo = async (lines) => {
    const found = [];
    for (let begin = 0; begin < lines.length; ) {
      const comment = lines.slice(begin, begin + SOME).findIndex((it) => it.includes("#"));
      const some = lines.slice(begin, begin + (comment < 0 ? SOME : comment || 1));
      await more(some.length, () => run(some.join("; ")), `the answers to ${some.join("; ")}`);
      found.push(...all("article").slice(0, some.length).reverse());
      begin += some.length;
    }
    return found;
  };
  const press = (place, name) => all("button", place).find((it) => it.textContent === name).click();

  /** The names of what is not so. */
  const failing = () => {
    const names = [];
    return { names, ok: (name, isSo) => isSo || names.push(name) };
  };
  /** (The window of a telephone becomes wider with the page, so that its own width says nothing.) */
  const isWide = () => document.documentElement.scrollWidth > WIDTH;

  /** What can have the focus, in turn. */
  const stops = () => all("a, button, input, select, summary, [tabindex='0']").filter((it) => !it.disabled && it.checkVisibility());

  // The way of the focus: where it has to be in turn, how often it came somewhere, and what was wrong there.
  const amiss = [];
  let path, count;

  const checks = {
    ready: () => until(() => isReady, "the module"),

    texts: async (lines) => (await answersTo(lines)).map((it) => it.querySelector("pre").textContent),

    async refusals(lines) {
      const told = (it, i) => {
        const mark = it.querySelector("mark");
        return [lines[i], textsOf(".said", it)[0], mark && mark.textContent];
      };
      return (await answersTo(lines)).map(told);
    },

    /** The lines of cases that are refused with no sentence of their own, and those that are answered and would be changed. */
    sentences(cases) {
      const isBad = (told) => !told || told.sentence === SENTENCES.offence || /undefined|[{}]/.test(told.sentence);
      const wrong = ([line, status, text]) => (status < 2 ? readTyped(line).line !== line : isBad(explained(line, status, text)));
      return cases.filter(wrong).map(([line]) => line.slice(0, 80));
    },

    /** What the answers say that ended with these statuses. */
    statuses: (ended) =>
      ended.map(([status, text]) => {
        show({ typed: "mult 1 - 1", line: "mult 1 - 1", changes: [] }, { status, text, time: 1 });
        return all("article .said")[0].textContent;
      }),

    async typed(lines) {
      const found = (await answersTo(lines)).map((it, i) => [lines[i], ...textsOf("h3, .note", it).slice(0, 2), it.className]);
      run("$ calc");
      return [found, at("state").textContent];
    },

    async readings(lines) {
      const read = (it, i) => {
        const isRefused = it.className === "refused";
        return [lines[i], isRefused ? null : textsOf("h3", it)[0], isRefused ? "" : textsOf(".computed", it).join(""), all(".offers [data-line], .offer [data-line]", it).map((of) => of.dataset.line), formulasOf(".asked", it).join("").split(" = ")[0]];
      };
      return (await answersTo(lines)).map(read);
    },

    async several(first, pasted) {
      const paste = new Event("paste", { cancelable: true });
      paste.clipboardData = { getData: () => pasted };
      at("line").value = "";
      at("line").dispatchEvent(paste);
      await more(3, () => run(`${first};${at("line").value}`));
      return textsOf("article pre").slice(0, 3);
    },

    help() {
      const row = (it) => {
        const details = it.querySelector("details"), closed = details.offsetHeight;
        details.open = true;
        return [it.querySelector("h3 code").textContent, details.offsetHeight > closed, details.textContent, textsOf("[data-line]", it), it.querySelector(".formula").textContent];
      };
      const rows = all("#commands li").map(row);
      return [rows, isWide()];
    },

    async queue(long) {
      const { names, ok } = failing();
      run(long);
      run(`coef 1 - 1 -; coef 2 - 1 - 1; ${long}`);
      ok("it is seen", !at("queue").hidden && all("#waiting li").length === 3);
      press(all("#waiting li")[0], "Remove");
      ok("one is removed", all("#waiting li").length === 2);
      ok("the time passes", await until(() => !at("progress").hidden && parseFloat(at("elapsed").textContent) > 0.3));
      ok("the state says it", at("state").textContent.endsWith("are running."));
      return names;
    },

    /** What comes after Escape was pressed. */
    async stopped() {
      const { names, ok } = failing();
      ok("it stops", await until(() => textsOf("article header span").some((it) => it.startsWith("stopped"))));
      ok("the next one runs", await until(() => textsOf("article h3")[0] === "coef 2 - 1 - 1"));
      ok("its answer", textsOf("article pre")[0] === "1\n");
      await until(() => at("waiting").children.length === 0 && !at("stop").disabled);
      run("coef 1 - 1 -; coef 1 - 1 -");
      at("clear").click();
      ok("it is cleared", at("queue").hidden && all("#waiting li").length === 0);
      await more(1, () => at("stop").click());
      ok("the button stops", at("stop").disabled && at("progress").hidden);
      ok("a new module answers", (await answer("coef 3 2 1 - 2 1 - 2 1")).querySelector("pre").textContent === "2\n");
      return names;
    },

    counts: async (lines) => (await answersTo(lines)).map((it) => it.querySelector("header span").textContent.split(",")[0]),

    /** A long answer: what is shown, what is said of it, what is downloaded and by which name, and all of it. */
    async large(line) {
      const it = await answer(line), pre = it.querySelector("pre"), part = it.querySelector(".part");
      const found = [pre.textContent, part.firstChild.textContent, textsOf(".drawn .part", it).join("")];
      const make = URL.createObjectURL, click = HTMLAnchorElement.prototype.click;
      let blob, name;
      URL.createObjectURL = (made) => ((blob = made), "about:blank");
      HTMLAnchorElement.prototype.click = function () {
        name = this.download;
      };
      press(part, "Download");
      URL.createObjectURL = make;
      HTMLAnchorElement.prototype.click = click;
      press(part, "Show more");
      return [...found, await blob.text(), name, pre.textContent, part.hidden];
    },

    async drawings() {
      const { names, ok } = failing();
      const wide = (await answer("mult 21 - 21")).querySelector(".drawn");
      ok("wide drawings scroll in themselves", !isWide() && (innerWidth > 600 || wide.scrollWidth > wide.clientWidth));
      for (const line of ["growth 8 7 6 5 4 3 2 1", "expand -m p s[9,5]", `rsk ${"65535 ".repeat(60)}`]) {
        await answer(line);
        ok(`the page is wide after ${line}`, !isWide());
      }
      const five = await answer("rsk 65535 10000 65535");
      const width = Number(/h(\d+)/.exec(five.querySelector("svg path").getAttribute("d"))[1]);
      ok("five digits fit", all("svg text", five).every((it) => it.getBBox().width <= width - 2));
      const named = async (line) => all(".drawn [role=img]", await answer(line)).map((it) => it.getAttribute("aria-label"));
      const found = [];
      for (const line of ["mult 3 2 1 -", "mult -", "rsk 3 1 2"]) found.push(...(await named(line)));
      ok("each drawing has a name", all("svg").every((it) => it.getAttribute("aria-label")));
      return [names, found];
    },

    /** The lines after which the page is wide. */
    async width(lines) {
      const wide = [];
      for (const it of all("details")) it.open = true;
      for (const line of lines) {
        await answer(line);
        if (isWide()) wide.push(line.slice(0, 20));
      }
      return wide.join(", ");
    },

    async copies(asked) {
      let copied;
      const clipboard = { writeText: async (text) => void (copied = text) };
      Object.defineProperty(navigator, "clipboard", { configurable: true, value: clipboard });
      const found = [], got = async () => {
        await pause(0);
        found.push(copied);
      };
      for (const [line, name] of asked) {
        press(await answer(line), name);
        await got();
      }
      press(all("article")[0], "Copy local link");
      await got();
      at("cite").click();
      await got();
      return [...found, at("citation").textContent, at("state").textContent];
    },

    about: () => at("about").textContent,

    /** The texts with a contrast below 4.5 and the borders below 3, with what they are on. */
    async colours() {
      await answer("$ calc mult 1 2 - 1");
      await answer("mult -r 2 1 - 1 - 1 - 1");
      const rgb = (text) => text.match(/[\d.]+/g).map(Number);
      const linear = (v) => (v <= 0.04045 ? v / 12.92 : ((v + 0.055) / 1.055) ** 2.4);
      const light = (text) => {
        const [r, g, b] = rgb(text).map((it) => linear(it / 255));
        return 0.2126 * r + 0.7152 * g + 0.0722 * b + 0.05;
      };
      const contrast = (a, b) => Math.max(light(a), light(b)) / Math.min(light(a), light(b));
      const ground = (it) => {
        const colour = getComputedStyle(it).backgroundColor;
        return rgb(colour)[3] === 0 ? ground(it.parentElement) : colour;
      };
      const name = (it) => `${it.localName} ${it.className} ${it.textContent.slice(0, 20)}`;
      const edge = (it) => Math.min(...[it, it.parentElement].map((on) => contrast(getComputedStyle(it).borderTopColor, ground(on))));
      const faint = all("input, button, .bar").filter((it) => edge(it) < 3);
      const texts = all("p, pre, h1, h2, h3, a, span, li, code, td, th, mark, summary, button, figcaption, blockquote");
      const weak = texts.filter((it) => it.textContent.trim() && contrast(getComputedStyle(it).color, ground(it)) < 4.5);
      return [[...faint, ...weak].map(name).slice(0, 5), matchMedia("(prefers-color-scheme: dark)").matches];
    },

    /** What a script that came into the page could do: nothing runs that is not its own. */
    async policy() {
      const { content } = document.querySelector("meta[http-equiv]"), found = [];
      globalThis.intruded = 0;
      document.body.append(element("script", {}, "globalThis.intruded = 1"));
      const box = element("div", {});
      box.innerHTML = `<img src="x" onerror="globalThis.intruded = 2"><p style="color: red">x</p><base href="http://127.0.0.1:1/">`;
      document.body.append(box);
      const made = element("script", {}, `try { eval("globalThis.intruded = 3") } catch {}`);
      document.body.append(made);
      await pause(100);
      found.push(globalThis.intruded, box.querySelector("p").style.color === "red" && getComputedStyle(box.querySelector("p")).color === "rgb(255, 0, 0)");
      found.push(document.baseURI.startsWith("file:"), /unsafe-(inline|eval)/.test(content.replace("'wasm-unsafe-eval'", "")), /base-uri 'none'/.test(content) && /form-action 'none'/.test(content));
      box.remove();
      return found;
    },

    /** What stands right above the text of an answer: what was computed, and not what could have been. */
    above: async (lines) => (await answersTo(lines)).map((it) => it.querySelector("pre").previousElementSibling.textContent),

    /** What stands beside the text of an answer as a sum, and whether the text stays what is copied. */
    async sums(lines) {
      const found = [];
      for (const line of lines) {
        const it = await answer(line), text = it.querySelector("pre").textContent;
        found.push([line, textsOf(".sum", it).join(""), text === kept[kept.length - 1].text]);
      }
      return found;
    },

    /** The form of each command, filled in with the words of each of its examples: the line that it makes. */
    forms() {
      const lineOf_ = (example) => {
        const words = textsOfWords(example), row = at(`help-${words[0]}`), open = row.querySelector(".open-form");
        if (open.getAttribute("aria-expanded") === "false") open.click();
        const form = row.querySelector("form"), parts = partsOf(words).filter((it) => !it.sign);
        const fields = () => all("[data-role]", form), isLess = (role) => fields().filter((it) => it.dataset.role === role).length < parts.filter((it) => it.role === role).length;
        while (isLess("partition")) press(form, "One more factor");
        for (const field of fields()) {
          const found = parts.findIndex((it) => it.role === field.dataset.role);
          field.value = found < 0 ? "" : parts.splice(found, 1)[0].words.join(" ");
        }
        for (const box of all("[type=checkbox]", form)) box.checked = words.includes("-m");
        form.dispatchEvent(new Event("input"));
        open.click();
        return [example, form.querySelector(".note code").textContent];
      };
      return textsOf("#commands [data-line]").map(lineOf_);
    },

    /** The order of headings, what the articles are named by, and how often the sentence of a refusal is seen. */
    async order() {
      const { names, ok } = failing();
      const it = await answer("mult 1 2 - 1"), sentence = textsOf(".said", it)[0];
      const levels = all("h1, h2, h3, h4").filter((of) => of.checkVisibility()).map((of) => Number(of.localName[1]));
      ok(`headings ${levels}`, levels[0] === 1 && levels.every((level, i) => i === 0 || level <= levels[i - 1] + 1));
      ok("articles named", all("article").every((of) => document.getElementById(of.getAttribute("aria-labelledby")).textContent.length > 0));
      await until(() => at("state").textContent.includes("refused"));
      const seen = at("state").cloneNode(true);
      all(".unseen", seen).forEach((of) => of.remove());
      ok("the sentence is seen once", sentence.length > 0 && !seen.textContent.includes(sentence) && at("state").textContent.includes(sentence));
      ok("the field says what Enter does", at("line").enterKeyHint === "go");
      return names;
    },

    /** The fields and buttons that are too small for a thumb, on a telephone. */
    async thumbs() {
      await answer("rsk 3 1 2");
      await answer("mult 2(2,1) - 1");
      all("#commands details").forEach((it) => (it.open = true));
      all(".open-form").forEach((it) => it.getAttribute("aria-expanded") === "false" && it.click());
      const targets = all("button, select, input:not([type=checkbox]):not([type=range]), summary, nav a, #asking input").filter((it) => it.checkVisibility());
      const small = targets.filter((it) => it.getBoundingClientRect().height < 43.9 || it.getBoundingClientRect().width < 43.9);
      const fields = all("input, select").filter((it) => it.checkVisibility() && parseFloat(getComputedStyle(it).fontSize) < 16);
      const found = WIDTH > 600 ? [] : [...small, ...fields].map((it) => `${it.localName} ${it.textContent.slice(0, 20)} ${it.getBoundingClientRect().height}`);
      all(".open-form").forEach((it) => it.getAttribute("aria-expanded") === "true" && it.click());
      all("#commands details").forEach((it) => (it.open = false));
      return [found.slice(0, 5), isWide()];
    },

    /** What speaks by itself, what has no name or no place in the order of the keys, and what moves. */
    access() {
      const live = all("[aria-live], [role=status], [role=alert], [role=log]").map((it) => it.id);
      const parts = all("button, a, input, select, summary, [tabindex='0']");
      const unnamed = parts.filter((it) => !it.textContent.trim() && !it.getAttribute("aria-label") && !(it.labels && it.labels.length > 0));
      const unreached = parts.filter((it) => it.tabIndex < 0);
      const moves = getComputedStyle(document.querySelector(".bar"), "::before").animationName;
      return [live, unnamed.length, unreached.length, moves, matchMedia("(prefers-reduced-motion: reduce)").matches];
    },

    // What comes after keys were pressed.

    isFocused: (name) => until(() => [document.activeElement.id, document.activeElement.textContent].includes(name)),
    isAnswered: (line, text) => until(() => textsOf("article h3")[0] === line && textsOf("article pre")[0] === text),
    isStopped: (line) => until(() => textsOf("article h3")[0] === line && textsOf("article header span")[0].startsWith("stopped")),
    holds: (text) => until(() => at("line").value === text),
    waits: (count) => until(() => !at("stop").disabled && at("waiting").children.length === count && at("queue").hidden === !count),
    says: (text) => until(() => at("state").textContent === text),
    isOpen: (what) => until(() => document.querySelector(what).open),
    focus: (what) => (document.querySelector(what).focus(), true),

    /** How many Tabs lead from the begin of the page to an element. */
    stopsBefore: (id) => stops().indexOf(at(id)) + 1,

    /** How many Tabs lead from the field through the rest of the page; what has the focus on the way is noted. */
    async follow() {
      await until(() => isReady && !running);
      path = stops();
      path.splice(0, path.indexOf(at("line")) + 1);
      count = 0;
      addEventListener("focusin", ({ target }) => {
        const { outlineStyle, outlineWidth } = getComputedStyle(target);
        const isSeen = outlineStyle !== "none" && parseFloat(outlineWidth) >= 2;
        if (target !== path[count] || !isSeen) amiss.push(`${target.localName} ${target.textContent.slice(0, 20)} is number ${count + 1}`);
        count += 1;
      });
      return path.length;
    },
    followed: async () => (await until(() => count >= path.length), amiss[0] || ""),

    async questions() {
      const found = [];
      for (const it of all("#questions [data-line]")) {
        const got = await more(1, () => it.click());
        const question = it.closest("li").querySelector("h3").textContent;
        found.push([question, it.dataset.line, textsOf("pre", got)[0], textsOf(".meaning", got)[0]]);
      }
      return [found, at("line").value];
    },

    async links() {
      const go = (hash) => more(1, () => void (location.hash = hash));
      const first = (await go("#coef%202%201%20-%201%20-%202")).querySelector("h3").textContent;
      const count = numberOfAnswer;
      await new Promise((next) => {
        addEventListener("hashchange", next, { once: true });
        location.hash = "#about";
      });
      const none = numberOfAnswer - count;
      return [first, none, (await go("#%E0%A4")).className];
    },

    /** Tries to have something from an address, in each way that a page has. */
    async knocks(url) {
      const image = () => new Promise((end) => Object.assign(new Image(), { onload: end, onerror: end, src: url }));
      const frame = () => document.body.append(element("iframe", { src: url, hidden: "" }), element("link", { rel: "stylesheet", href: url }));
      const script = `fetch("${url}").catch(() => {}).then(() => postMessage(0)); try { importScripts("${url}"); } catch {}`;
      const work = () => new Promise((end) => (new Worker(URL.createObjectURL(new Blob([script]))).onmessage = end));
      const ways = [() => fetch(url).catch(() => {}), image, frame, work, () => navigator.sendBeacon(url, "")];
      await Promise.race([Promise.all(ways.map(async (way) => way())), pause(5000)]);
      await pause(200);
    },

    firstAnswer: async () => (await until(() => all("article").length > 0)) && performance.getEntriesByName("answer")[0].startTime,
  };

  globalThis.check = async (name, ...given) => JSON.stringify((await checks[name](...given)) ?? null);
})();
