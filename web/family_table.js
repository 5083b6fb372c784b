// The table of a family: a row for each value of its names, with the command and its answer. It can be sorted, filtered and copied.

/** The rows of a table that are shown first, and how many more each time. */
const ROWS_SHOWN = 100;
const ROWS_MORE = 1000;
/** The most terms of an answer that are written in a row. */
const TERMS_IN_ROW = 8;
/** The numbers of a row that are shown, and the most characters of those that a search is given. */
const NUMBERS_SHOWN = 40;
const MOST_SEARCHED = 200;
const ENCYCLOPAEDIA = "https://oeis.org/search?q=";

/** A job, if it has a family one of its rows. */
function jobOfFamily(job) {
  return job.family ? jobOfRows(job.family.rows, { ...job, prepare: job.family.prepare, done: showFamily }) : job;
}

/** How many rows a family has, with the first three of their commands and the last one. */
function rowsInShort({ rows, prepare }) {
  const lines = [...rows.slice(0, 3), ...rows.slice(3).slice(-1)].map((row) => {
    if (row.line === undefined && row.said === undefined) prepare(row);
    return element("code", {}, named(row.line ?? row.typed));
  });
  const joint = (i) => (i === 0 ? "" : i === 3 && rows.length > 4 ? "; .. ; " : "; ");
  return [`${countOfThings(rows.length, "row", "rows")}: `, ...lines.flatMap((it, i) => [joint(i), it])];
}

// ---- what a row has

/** What a row came to: a number as text, as `number`; of another answer how many terms it has, as `size`; neither, if it was refused. */
function outcomeOf(row) {
  if (row.status !== 0) return {};
  const answer = answerOf(row.line, row.text), found = row.asked && askedOf(row, row.text), value = found?.value.replace("−", "-");
  if (found && /^-?\d+(?:\/\d+)?$/.test(value)) return { number: value };
  if (answer?.kind === "number") return { number: answer.value };
  const terms = found?.terms ?? answer?.terms, size = found?.terms ? found.terms.length : answer ? sizeOf(answer, row.text) : 1;
  return { size, terms: terms && terms.length === size ? terms : undefined, letter: answer?.letter };
}

/** Why a row has no answer. */
function refusalOf({ line, said, text, status }) {
  return said ?? `${text.trim()} ${(explained(line, status, text) ?? { sentence: "" }).sentence}`.trim();
}

/** The answer of a row as a text: a number, or the printed lines. */
const plainAnswer = (row) => (row.outcome.number ?? (row.said || row.text).trim().replace(/\n/g, "; "));
const isZeroRow = ({ outcome }) => outcome.number === "0" || outcome.size === 0;
const plainValue = (value) => (Array.isArray(value) ? plainKey(value) : String(value));

function answerCell({ outcome: { number, size, terms, letter }, ...row }) {
  if (row.status !== 0) return element("td", { class: "said-in-row" }, refusalOf(row));
  if (number !== undefined) return element("td", {}, number.replace("-", "−"));
  if (terms && size <= TERMS_IN_ROW) return element("td", { class: "math" }, ...formula(shownSum(terms, letter)));
  return element("td", {}, terms ? countOfThings(size, "term", "terms") : named(row.text.trim().replace(/\n/g, "; ")));
}

// ---- sorting and sums

/** The order of two values: numbers, fractions, lists by their parts. */
function comparedValues(left, right) {
  if (Array.isArray(left)) return left.reduce((order, it, i) => order || (i < right.length ? it - right[i] : 1), 0) || left.length - right.length;
  const [[a, b], [c, d]] = [left, right].map((it) => `${it}/1`.split("/").map(BigInt)), sides = [a * d, c * b];
  return sides[0] < sides[1] ? -1 : Number(sides[0] > sides[1]);
}

/** The rows in the order of a column: a name of the family, or the answer. What has no answer comes last. */
function sortedRows(rows, { column, isDown }) {
  const of = (row) => (column === "answer" ? row.outcome.number ?? row.outcome.size : row.values.get(column));
  const [known, others] = [rows.filter((it) => of(it) !== undefined), rows.filter((it) => of(it) === undefined)];
  known.sort((a, b) => comparedValues(of(a), of(b)) * (isDown ? -1 : 1));
  return [...known, ...others];
}

/** The sum of numbers, of which some are fractions. */
function sumOfNumbers(numbers) {
  const gcd = (a, b) => (b === 0n ? a : gcd(b, a % b)), size = (a) => (a < 0n ? -a : a);
  const [above, below] = numbers.map((it) => `${it}/1`.split("/").map(BigInt)).reduce(([a, b], [c, d]) => {
    const whole = gcd(size(a * d + c * b), b * d);
    return [(a * d + c * b) / whole, (b * d) / whole];
  }, [0n, 1n]);
  return below === 1n ? String(above) : `${above}/${below}`;
}

// ---- copies

function csvOfFamily({ names, isCounted }, rows) {
  const cells = (row) => [...names.map((it) => plainValue(row.values.get(it))), row.line ?? row.typed, ...(isCounted ? [String(row.outcome.size ?? "")] : []), plainAnswer(row)];
  return asCSV([[...names, "command", ...(isCounted ? ["terms"] : []), "answer"], ...rows.map(cells)]);
}

/** The rows as an array in LaTeX: the values of the names, and the equation of each. */
function latexOfFamily({ names }, rows) {
  const name = (it) => (it.length > 1 ? `\\mathit{${it}}` : latexOfFormula(it)), value = (it) => (Array.isArray(it) ? (it.length > 0 ? `(${it.join(",")})` : "\\emptyset") : String(it));
  const equationOf = (row) => {
    if (row.status !== 0) return "\\text{refused}";
    const found = row.asked && askedOf(row, row.text), answer = answerOf(row.line, row.text);
    return found ? latexOfFormula(`${computedBy(row.line, row.asked)} = ${found.value}`) : answer ? latexOf(answer, row.line) : "";
  };
  const lines = rows.map((row) => [...names.map((it) => value(row.values.get(it))), equationOf(row).replace(/^%.*\n/, "").replace(/\n/g, " ")].join(" & "));
  const needs = lines.some((it) => it.includes("ytableau")) ? "% \\usepackage{ytableau}\n" : "";
  return `${needs}\\begin{array}{${"r".repeat(names.length)}|l}\n${names.map(name).join(" & ")} & \\\\ \\hline\n${lines.join(" \\\\\n")}\n\\end{array}`;
}

/** The numbers of all rows in turn, to be copied, and to be looked up. Nothing, if a row has none. */
function numbersOfRows(rows, isCounted) {
  const numbers = rows.map(({ outcome }) => outcome.number ?? (outcome.size === undefined ? undefined : String(outcome.size)));
  if (numbers.length < 2 || !numbers.every((it) => it !== undefined && /^-?\d+$/.test(it))) return [];
  const shown_ = numbers.slice(0, NUMBERS_SHOWN).join(", ") + (numbers.length > NUMBERS_SHOWN ? ", .." : ""), text = numbers.join(", ");
  const cut = text.length <= MOST_SEARCHED ? text : text.slice(0, text.lastIndexOf(",", MOST_SEARCHED)), search = ENCYCLOPAEDIA + encodeURIComponent(cut.replace(/ /g, ""));
  const link = element("a", { class: "button", href: search, target: "_blank", rel: "noopener noreferrer" }, "Search the OEIS");
  return [element("p", { class: "numbers" }, isCounted ? "Numbers of terms: " : "As a row: ", element("code", {}, shown_), " ", button("Copy the numbers", () => copy(text, "Numbers")), " ", link)];
}

// ---- the table

/** The head of a column, which sorts by it. */
function sortingHead(name, text, order, show) {
  const isBy = order.column === name, head = element("th", { scope: "col", ...(isBy ? { "aria-sort": order.isDown ? "descending" : "ascending" } : {}) });
  head.append(button(`${text}${isBy ? (order.isDown ? " ↓" : " ↑") : ""}`, () => show({ column: name, isDown: isBy && !order.isDown })));
  return head;
}

/** The table of answered rows with its tools: `order` and the filter decide what is shown, and copied. */
function familyTable(family, rows, address) {
  const place = element("div", { class: "wide family", tabindex: "0", role: "group", "aria-label": "The table" }), under = element("p", { class: "part" });
  const nonzero = element("input", { type: "checkbox" }), sums = element("p", { class: "sums" }), hasZero = rows.some(isZeroRow);
  let order = {}, shownRows = rows, count = 0;
  const more = (body, number) => {
    const row = (it) => element("tr", {}, ...family.names.map((name) => element("td", {}, Array.isArray(it.values.get(name)) ? `(${it.values.get(name).join(",")})` : String(it.values.get(name)))), answerCell(it), element("td", { class: "command" }, element("code", {}, named(it.line ?? it.typed))));
    body.append(...shownRows.slice(count, count + number).map(row));
    count = Math.min(count + number, shownRows.length);
    under.hidden = count === shownRows.length;
    under.replaceChildren(`The first ${count.toLocaleString("en")} of ${shownRows.length.toLocaleString("en")} rows are shown. `, button("Show more", () => more(body, ROWS_MORE)));
  };
  const show = (by = order) => {
    order = by;
    const left = nonzero.checked ? rows.filter((it) => !isZeroRow(it)) : rows, head = (name, text = name) => sortingHead(name, text, order, show);
    shownRows = order.column ? sortedRows(left, order) : left;
    count = 0;
    const top = element("tr", {}, ...family.names.map((it) => head(it)), head("answer", family.isCounted ? "answer, by terms" : "answer"), element("th", { scope: "col", class: "command" }, "command"));
    const body = element("tbody", {}), isAgain = place.contains(document.activeElement);
    place.replaceChildren(element("table", { class: "made-rows" }, element("thead", {}, top), body));
    if (isAgain && order.column) place.querySelector("[aria-sort] button").focus();
    more(body, ROWS_SHOWN);
    const numbers = shownRows.map(({ outcome }) => outcome.number ?? outcome.size).filter((it) => it !== undefined);
    const of = nonzero.checked ? ` in the ${countOfThings(shownRows.length, "row", "rows")} that are not 0` : "";
    sums.textContent = numbers.length > 0 ? `${family.isCounted ? "Terms in all" : "Sum"}${of}: ${sumOfNumbers(numbers).replace("-", "−")}` : "";
  };
  nonzero.onchange = () => show();
  const tools = element("div", { class: "tools" }, ...(hasZero ? [element("label", { class: "box" }, nonzero, " not 0")] : []));
  tools.append(button("Copy CSV", () => copy(csvOfFamily(family, shownRows), "CSV")), button("Download CSV", () => download(nameOfFile(address, ".csv"), [csvOfFamily(family, shownRows)])));
  tools.append(button("Copy LaTeX", () => copy(latexOfFamily(family, shownRows), "LaTeX")), linkButton(address));
  show();
  return [tools, place, under, sums, ...numbersOfRows(rows, family.isCounted)];
}

/** Shows the table of a family above the other answers, with the rows that were answered, and says what it came to. */
function showFamily(job, { stopped, why, error }) {
  const { line, family, answered, since = performance.now() } = job, rows = job.rows.slice(0, answered), all = job.rows.length;
  for (const row of rows) row.outcome = outcomeOf(row);
  family.isCounted = rows.some(({ outcome }) => outcome.size !== undefined);
  keepText(rows[0]?.line ?? line, rows.filter((it) => it.line).map((it, i) => (i === 0 ? "" : `$ calc ${it.line}\n`) + it.text).join(""));
  const refused = rows.filter((it) => it.status !== 0).length, count = answered < all ? `${answered.toLocaleString("en")} of ${countOfThings(all, "row", "rows")}` : countOfThings(all, "row", "rows");
  const id = `answer-${(numberOfAnswer += 1)}`, title = element("h3", { id }, element("code", { dir: "ltr" }, inSight(line)));
  const took = ((performance.now() - since) / 1000).toFixed(1), header = element("header", {}, title, element("span", {}, `${stopped ? "stopped, " : ""}${count}, ${took} s`));
  const article = element("article", { "aria-labelledby": id, tabindex: "-1" }, header, ...changesOf(job), note("note", ...rowsInShort(family)));
  Object.assign(article.dataset, { of: line, title: named(inSight(line)) });
  entitle(article.dataset.title);
  if (stopped && why) article.append(note("note", `Press Run for all rows: ${why}.`));
  if (answered < all && !stopped) article.append(note("said", error ?? "The answers are too long to be kept for all rows."));
  if (refused > 0) article.append(note("note", `${countOfThings(refused, "row has", "rows have")} no answer.`));
  if (answered > 0) article.append(...familyTable(family, rows, line));
  place(article);
  performance.mark("answer");
  return [`${named(inSight(line))}: ${stopped ? "stopped after " : ""}${count}.`];
}
