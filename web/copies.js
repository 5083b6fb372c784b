// Answers as equations of Sage and of the Python package, and as tables for a spreadsheet.

// ---- Sage

const list = (values) => `[${values.join(",")}]`;

/** The line that defines the names of a sum of terms in Sage. */
function sageNames(terms, letter) {
  if (letter === "S") return "X = SchubertPolynomialRing(ZZ)";
  if (letter === "q") return "q = QQ['q'].gen(); s = SymmetricFunctions(q.parent()).s()";
  if (letter !== "x") return `${letter} = SymmetricFunctions(QQ).${letter}()`;
  const count = terms.reduce((most, term) => Math.max(most, term.first.length), 1);
  const names = [...Array(count).keys()].map((i) => `x${i}`);
  return `(${names.join(",")},) = PolynomialRing(ZZ, ${list(names.map((it) => `'${it}'`))}).gens()`;
}

function sageLabel(term, letter) {
  if (letter === "x") return term.first.map((e, i) => `x${i}^${e}`).join("*") || "1";
  if (letter === "S") return `X(${list(term.first)})`;
  if (term.second) return `tensor([s(${list(term.first)}), s(${list(term.second)})])`;
  return term.q ? `q^${term.q}*s(${list(term.first)})` : `${letter}(${list(term.first)})`;
}

function sageTableau(rows, inner) {
  const isSkew = inner.some((it) => it > 0);
  const cells = rows.map((row, i) => list([...Array(inner[i] || 0).fill("None"), ...row]));
  return `${isSkew ? "SkewTableau" : "Tableau"}(${list(cells)})`;
}

const sageParts = (words) => list(partition(words));
/** An expression with its atoms as Sage has them: `s([2,1])`. */
const sageExpression = (text) => text.replace(/([mehps])\[([\d,]*)\]/g, (_, basis, parts) => `${basis}(${sageParts(parts.split(",").filter(Boolean))})`);

/** What arguments look like in Sage. */
const IN_SAGE = {
  ...SHOWN,
  s: (words) => `s(${sageParts(words)})`,
  X: (words) => `X(${list(words.map(plainNumber))})`,
  list: (words) => list(words.map(plainNumber)),
  parts: sageParts,
  sage: ([text]) => sageExpression(text),
};

/** The left side of the equation of a line in Sage, with ` == `; nothing, where it is not written. */
function sageLeft(line) {
  const of = argumentsOf(line), { sage } = GRAMMAR.get(textsOfWords(line)[0]), [variables] = of("variables");
  if (!sage) return "";
  const isNumber = ["outer", "inner"].some((role) => of(role).length > 0 && !/[mehps]/.test(of(role)[0][0]));
  const left = filled(sage, of, IN_SAGE);
  return isNumber ? "" : `${variables ? `(${left}).restrict_partition_lengths(${plainNumber(variables[0])}, exact=False)` : left} == `;
}

/** The equation of an answer for Sage, after the lines that define its names, or its right side; null if Sage has no such thing. */
function sageOf(answer, line) {
  if (answer.kind === "word") return list(answer.letters);
  if (answer.kind === "number") return `s = SymmetricFunctions(QQ).s()\n${sageLeft(line)}${answer.value}`;
  if (answer.kind === "grid" || answer.letter === "SS") return null;
  if (answer.kind === "tableaux") {
    const texts = answer.tableaux.map((rows) => sageTableau(rows, answer.inner));
    return answer.names ? texts.map((it, i) => `${answer.names[i]} = ${it}`).join("\n") : list(texts);
  }
  const { terms, letter } = answer, left = sageLeft(line), bases = /^[mehps]$/.test(letter) ? "mehps" : "";
  const others = [...bases].filter((it) => it !== letter && left.includes(`${it}(`)).map((it) => `${sageNames([], it)}\n`);
  const sign = (term, i) => (term.c.startsWith("-") || i === 0 ? "" : "+");
  const signed = (term, i) => `${sign(term, i)}${term.c}*${sageLabel(term, letter)}`;
  return `${sageNames(terms, letter)}\n${others.join("")}${left}${terms.map(signed).join("") || "0"}`;
}

// ---- Python

const pythonList = (words) => `[${words.map((it) => plainNumber(String(it))).join(", ")}]`;
const pythonTuple = (values) => `(${values.join(", ")}${values.length === 1 ? "," : ""})`;
const pythonRows = (words) => `[${rowsOf(words.join(" ")).map(pythonList).join(", ")}]`;

/** How an argument of a role is written in a call of the package. */
const PYTHON_ARGUMENT = {
  ...Object.fromEntries(["partition", "permutation", "letters"].map((it) => [it, pythonList])),
  ...Object.fromEntries(["recording", "filling"].map((it) => [it, pythonRows])),
  ...Object.fromEntries(["expression", "outer", "inner", "basis"].map((it) => [it, ([word]) => JSON.stringify(word)])),
  ...Object.fromEntries(["rows", "columns", "level"].map((it) => [it, ([word]) => plainNumber(word)])),
  variables: ([word]) => `rows=${plainNumber(word)}`,
  tableau: pythonRows,
};

/** The call of the package for a line. */
function pythonCall(line) {
  const words = textsOfWords(line), parts = partsOf(words).filter((it) => PYTHON_ARGUMENT[it.role]);
  const isLast = (it) => it.role === "variables" || (it.role === "tableau" && words[0] === "tab");
  const inTurn_ = [...parts.filter((it) => !isLast(it)), ...parts.filter(isLast)];
  const given = inTurn_.map((it) => (isLast(it) && it.role === "tableau" ? "after=" : "") + PYTHON_ARGUMENT[it.role](it.words));
  return `calc.${words[0]}(${given.join(", ")})`;
}

/** The parent of an answer of terms in the package. */
function pythonParent(line) {
  const of = argumentsOf(line), number = (role) => plainNumber(of(role)[0][0]), [name] = textsOfWords(line);
  const letter = letterOf(textsOfWords(line)), own = name === "coprod" ? "s.tensor_square()" : { x: "monomials", S: "X", SS: "schubert_ring(double=True)" }[letter];
  if (name === "quantum") return `calc.quantum_ring(${number("rows")}, ${number("columns")})`;
  if (name === "fusion") return `calc.fusion_ring(${number("rows")}, ${number("level")})`;
  return `calc.${own ?? (of("variables").length > 0 ? `s.in_variables(${number("variables")})` : letter)}`;
}

function pythonTerm({ c, q, first, second }) {
  const label = q !== undefined ? `(${q}, ${pythonTuple(first)})` : second ? `(${pythonTuple(first)}, ${pythonTuple(second)})` : pythonTuple(first);
  return `${label}: ${c.includes("/") ? `Fraction(${c.replace("/", ", ")})` : c}`;
}

/** An answer as a value of the package. */
function pythonValue(answer, line) {
  if (answer.kind === "number") return answer.value;
  if (answer.kind === "word") return pythonTuple(answer.letters);
  if (answer.kind === "grid") return pythonTuple(answer.rows.map((row) => pythonTuple(row.map(pythonTuple))));
  if (answer.kind === "terms") return `${pythonParent(line)}({${answer.terms.map(pythonTerm).join(", ")}})`;
  const row = (cells, i) => pythonTuple([...Array(answer.inner[i] || 0).fill("None"), ...cells]);
  const tableaux = answer.tableaux.map((rows) => `Tableau(${pythonTuple(rows.map(row))})`);
  return answer.names ? pythonTuple(tableaux) : textsOfWords(line)[0] === "tab" ? `[${tableaux.join(", ")}]` : tableaux[0];
}

/** The equation of an answer for the Python package: it is computed again, and has to be the same. */
function pythonOf(answer, line) {
  const value = pythonValue(answer, line), call = pythonCall(line);
  const again = textsOfWords(line)[0] === "tab" ? `list(${call})` : call;
  const uses = (name, from) => (value.includes(`${name}(`) ? `from ${from} import ${name}\n` : "");
  return `${uses("Fraction", "fractions")}from yorqanish import Calculator\n${uses("Tableau", "yorqanish")}calc = Calculator()\nanswer = ${value}\nassert answer == ${again}\n`;
}

// ---- tables

/** A label as text of a table. (A spreadsheet reads (1) as -1.) */
const plainKey = (label) => `[${label.join(",")}]`;

/** An answer as rows of a table: labels in columns of their own, numbers in the others. */
function sheetOf(answer) {
  if (answer.kind === "number") return [["coefficient"], [answer.value]];
  if (answer.kind === "word") return [["letter"], ...answer.letters.map((it) => [it])];
  if (answer.kind === "grid") return answer.rows.map((row) => row.map(plainKey));
  if (answer.kind === "tableaux") return [["number", "tableau"], ...answer.tableaux.map((rows, i) => [answer.names ? answer.names[i] : String(i + 1), plainKey(rows.map((row, k) => plainKey([...Array(answer.inner[k] || 0).fill("."), ...row])))])];
  const { terms } = answer, isPair = terms.some((it) => it.second), hasPower = terms.some((it) => it.q !== undefined);
  const head = ["label", ...(isPair ? ["second label"] : []), ...(hasPower ? ["power of q"] : []), "coefficient"];
  return [head, ...terms.map((it) => [plainKey(it.first), ...(isPair ? [plainKey(it.second)] : []), ...(hasPower ? [it.q] : []), it.c])];
}

/** Rows as CSV. */
function asCSV(rows) {
  const cell = (text) => (/[",\n]/.test(text) ? `"${text.replace(/"/g, '""')}"` : text);
  return `${rows.map((row) => row.map(cell).join(",")).join("\r\n")}\r\n`;
}

/** Rows with tabs between the cells, as a spreadsheet takes them from the clipboard. */
const asTSV = (rows) => `${rows.map((row) => row.join("\t")).join("\n")}\n`;
