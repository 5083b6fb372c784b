// Tables, made of the answers to many commands: characters, Kostka numbers, products. Each is a job of rows.

const key = (label) => `(${label.join(",")})`;
const atom = (basis, label) => `${basis}[${label.join(",")}]`;

/** The coefficient of a label in terms. */
function coefficientOf(terms, label) {
  const found = terms.find((it) => key(it.first) === key(label));
  return found ? found.c : "0";
}

/** The sizes of a table: the name of each, its least, greatest and first value. */
const SIZE = [["n", 1, 9, 4]];
const GRASSMANNIAN = [["k", 1, 6, 2], ["n", 2, 7, 4]];

/**
 * The tables: their sizes and the labels of their rows and columns; the line for each entry or, of a table of numbers, for each row or column;
 * of a table of sums the letter of their labels, and which of their terms count.
 */
const TABLES = {
  characters: {
    title: "Characters of the symmetric group S_n",
    said: (n) => `χ^{λ}(μ) for S_{${n}}: a row for each λ, a column for each cycle type μ`,
    sizes: SIZE,
    labels: (n) => partitionsOf(n),
    by: "column",
    line: (label) => `expand s ${atom("p", label)}`,
  },
  kostka: {
    title: "Kostka numbers of size n",
    said: (n) => `K_{λμ} for partitions of ${n}: a row for each λ, a column for each μ`,
    sizes: SIZE,
    labels: (n) => partitionsOf(n),
    by: "row",
    line: (label) => `expand m ${atom("s", label)}`,
  },
  inverse: {
    title: "Inverse Kostka numbers of size n",
    said: (n) => `the coefficient of s_{μ} in m_{λ} for partitions of ${n}: a row for each λ, a column for each μ`,
    sizes: SIZE,
    labels: (n) => partitionsOf(n),
    by: "row",
    line: (label) => `expand s ${atom("m", label)}`,
  },
  classical: {
    title: "Products in the cohomology of Gr(k,n)",
    said: (k, n) => `σ_{λ} · σ_{μ} in H*(Gr(${k},${n}))`,
    sizes: GRASSMANNIAN,
    labels: (k, n) => partitionsInside(k, n - k),
    by: "entry",
    line: (left, right, k) => `mult -r ${k} ${left.join(" ")} - ${right.join(" ")}`,
    letter: "q",
    counts: (term, k, n) => (term.first[0] || 0) <= n - k,
  },
  quantum: {
    title: "Quantum products of Gr(k,n)",
    said: (k, n) => `σ_{λ} * σ_{μ} in QH*(Gr(${k},${n}))`,
    sizes: GRASSMANNIAN,
    labels: (k, n) => partitionsInside(k, n - k),
    by: "entry",
    line: (left, right, k, n) => `quantum ${k} ${n - k} ${left.join(" ")} - ${right.join(" ")}`,
    letter: "q",
    counts: () => true,
  },
  schubert: {
    title: "Products of Schubert polynomials of n letters",
    said: (n) => `S_{u} · S_{v} for permutations of ${n} letters`,
    sizes: [["n", 1, 4, 3]],
    labels: (n) => permutationsOf(n),
    by: "entry",
    line: (left, right) => `schubmult ${left.join(" ")} - ${right.join(" ")}`,
    letter: "S",
    counts: () => true,
  },
};

/** The most entries of a table. */
const MOST_ENTRIES = 1300;

/** The entries of a table by the terms of its lines' answers, row by row: numbers as texts, or lists of terms. */
function entriesOf(kind, labels, answers, sizes) {
  const sum = (i, j) => answers[i * labels.length + j].filter((it) => kind.counts(it, ...sizes));
  const number = (i, j) => (kind.by === "row" ? coefficientOf(answers[i], labels[j]) : coefficientOf(answers[j], labels[i]));
  return labels.map((_, i) => labels.map((__, j) => (kind.by === "entry" ? sum(i, j) : number(i, j))));
}

function linesOfTable(kind, labels, sizes) {
  const line = (...given) => kind.line(...given).replace(/ +/g, " ").trim();
  return kind.by === "entry" ? labels.flatMap((left) => labels.map((right) => line(left, right, ...sizes))) : labels.map((it) => line(it, ...sizes));
}

/** An entry as text: a number, or a sum such as `[2,2]+q*[]`. */
function plainEntry(entry) {
  if (typeof entry === "string") return entry;
  const power = (q) => (q === undefined || q === "0" ? "" : q === "1" ? "q" : `q^${q}`);
  const term = ({ c, q, first }) => [c === "1" ? "" : c, power(q), plainKey(first)].filter(Boolean).join("*");
  return entry.map(term).join("+").replace(/\+-/g, "-") || "0";
}

/** A table in CSV: labels of columns first, each row with its label. */
function csvOf({ labels, entries }) {
  return asCSV([["", ...labels.map(plainKey)], ...entries.map((row, i) => [plainKey(labels[i]), ...row.map(plainEntry)])]);
}

/** A table in JSON: its title, labels, lines, and entries: numbers, or lists of terms. */
function jsonOf({ title, labels, lines, entries }) {
  const number = (text) => (Number.isSafeInteger(Number(text)) ? Number(text) : text);
  const term = ({ c, q, first }) => ({ coefficient: number(c), ...(q === undefined ? {} : { q: number(q) }), label: first });
  const entry = (it) => (typeof it === "string" ? number(it) : it.map(term));
  const rows = entries.map((row) => row.map(entry));
  return `${JSON.stringify({ title, program: at("citation").textContent, labels, lines, entries: rows })}\n`;
}

/** The table on the page. */
function tableShown({ labels, entries }, kind, said) {
  const name = (label) => (kind.letter === "S" ? permutationIndex(label.map(String)) : key(label));
  const head = (label, scope) => element("th", { scope }, name(label));
  const cell = (entry) => element("td", {}, ...(typeof entry === "string" ? [entry.replace("-", "−")] : formula(shownSum(entry, kind.letter))));
  const row = (it, i) => element("tr", {}, head(labels[i], "row"), ...it.map(cell));
  const top = element("tr", {}, element("td", {}), ...labels.map((it) => head(it, "col")));
  return element("table", { class: "made" }, element("caption", {}, ...formula(said)), top, ...entries.map(row));
}

/** Shows a table, how to have it, and the lines that made it. */
function showTable(table, kind, said, address) {
  const name = table.title.replace(/\W+/g, "_"), tools = element("div", { class: "tools" });
  for (const [what, end, text] of [["CSV", "csv", csvOf], ["JSON", "json", jsonOf]]) {
    tools.append(button(`Copy ${what}`, () => copy(text(table), what)));
    tools.append(button(`Download ${what}`, () => download(`${name}.${end}`, [text(table)])));
  }
  tools.append(linkButton(address));
  at("made").dataset.of = address;
  at("made").dataset.title = table.title;
  entitle(table.title);
  const summary = element("summary", {}, countOfThings(table.lines.length, "command", "commands"));
  const lines = element("pre", { tabindex: "0", "aria-label": "The commands of the table" }, table.lines.join("\n"));
  const wide = element("div", { class: "wide", tabindex: "0", role: "group", "aria-label": table.title }, tableShown(table, kind, said));
  at("made").replaceChildren(tools, wide, element("details", {}, summary, lines));
}

/** Makes a table: its lines are one batch. */
function makeTable(name, sizes, most) {
  const kind = TABLES[name], [k, n] = sizes, isEmpty = sizes.length === 2 && n <= k;
  const labels = isEmpty ? [] : kind.labels(...sizes), count = labels.length ** 2;
  const tell = (text) => at("said-of-table").replaceChildren(text);
  if (isEmpty) return tell("n has to be greater than k.");
  if (count > MOST_ENTRIES) return tell(`This table would have ${count.toLocaleString("en")} entries. At most ${MOST_ENTRIES.toLocaleString("en")} are made.`);
  const title = `${kind.title}, ${kind.sizes.map(([letter], i) => `${letter} = ${sizes[i]}`).join(", ")}`, lines = linesOfTable(kind, labels, sizes);
  const address = ["table", name, ...sizes].join(" ");
  putInAddress(address, most === undefined);
  const done = ({ rows }, { stopped }) => {
    const answers = rows.map((it) => it.status === 0 && termsOf(it.text)), isWhole = answers.every(Boolean);
    if (isWhole) showTable({ title, labels, lines, entries: entriesOf(kind, labels, answers, sizes) }, kind, kind.said(...sizes), address);
    tell(isWhole ? "" : stopped ? "The table was stopped." : "Some line of the table has no answer, so it is not made.");
    return [isWhole ? `${title}: made.` : `${title}: not made.`];
  };
  return enqueue([jobOfRows(lines.map((line) => ({ line })), { line: title, most, done })]);
}

/** What is done for an address that has a table, as `table characters 4`: it is shown, or made. */
function tableOfAddress(text) {
  const [word, name, ...given] = text.split(" "), sizes = given.map(Number), bounds = Object.hasOwn(TABLES, name) ? TABLES[name].sizes : [];
  const isIn = word === "table" && bounds.length > 0 && bounds.length === given.length && bounds.every(([, least, most], i) => /^\d$/.test(given[i]) && sizes[i] >= least && sizes[i] <= most);
  if (!isIn) return null;
  return () => {
    at("tables").scrollIntoView();
    if (at("made").dataset.of === text) return entitle(at("made").dataset.title);
    at("kind").value = name;
    at("kind").onchange();
    [...at("sizes").querySelectorAll("input")].forEach((it, i) => (it.value = given[i]));
    return makeTable(name, sizes, LIGHT.time);
  };
}
OTHER_ADDRESSES.push(tableOfAddress);

/** Sets up the form for tables. */
function addTables() {
  const select = at("kind");
  select.append(...Object.entries(TABLES).map(([name, { title }]) => element("option", { value: name }, title)));
  const sizes = () => {
    const input = (least, most, value) => element("input", { type: "number", min: least, max: most, value, inputmode: "numeric", required: "" });
    const field = ([letter, ...bounds]) => element("label", {}, `${letter} `, input(...bounds.map(String)), " ");
    at("sizes").replaceChildren(...TABLES[select.value].sizes.map(field));
  };
  select.onchange = sizes;
  sizes();
  at("making").onsubmit = (event) => {
    event.preventDefault();
    makeTable(select.value, [...at("sizes").querySelectorAll("input")].map((it) => Number(it.value)));
  };
}
