// Answers as values, and as LaTeX.

const BASIS = /^[mehps]$/;

/** The numbers of a label such as (2,1). */
function numbers(label) {
  return label === "()" ? [] : label.slice(1, -1).split(",").map(Number);
}

/**
 * What an answer is: a number, a list of terms with the letter of its labels, tableaux, a growth grid, a word;
 * null if it is none of these.
 */
function answerOf(line, text) {
  const words = textsOfWords(line), lines = text.trimEnd().split("\n"), { answer } = GRAMMAR.get(words[0]) || {};
  const tableaux = (texts, inner, names) => ({ kind: "tableaux", tableaux: texts.map(rowsOf), inner, names });
  if (answer === "pair") return tableaux(lines.map((it) => it.slice(2)), [], ["P", "Q"]);
  if (answer === "tableau") return tableaux(lines, []);
  if (answer === "tableaux") return tableaux(text === "0\n" ? [] : lines, innerOf(words));
  if (answer === "grid") return { kind: "grid", rows: lines.map((it) => it.split(" ").map(numbers)) };
  if (answer === "word") return { kind: "word", letters: lines[0].split(" ").filter(Boolean) };
  if (answer === "number") return /^\d+\n$/.test(text) ? { kind: "number", value: lines[0] } : null;
  const block = termsOf(text), terms = block || oneLineTermsOf(text);
  return terms && { kind: "terms", letter: letterOf(words), terms, isOneLine: !block };
}

/** The inner partition of `tab`, without zeros at its end. */
function innerOf(words) {
  const from = words.indexOf("-from");
  return words.slice(words.indexOf("/") + 1, from < 0 ? undefined : from).map(Number);
}

/** The rows of a printed tableau. */
function rowsOf(text) {
  return text === "." ? [] : text.split(" / ").map((row) => (row === "." ? [] : row.split(" ")));
}

/**
 * What the labels of a command's answer are: the letter of a basis, x for monomials, S for permutations,
 * SS for permutations with a monomial in y, q for powers of q.
 */
function letterOf(words) {
  const { answer } = GRAMMAR.get(words[0]) || {};
  return answer === "b" ? words.slice(1).find((it) => BASIS.test(it)) : answer || "s";
}

/** The terms of a block: coefficients, labels, powers of q; null if the text is no such block. */
function termsOf(text) {
  if (text === "0\n") return [];
  const terms = [];
  for (const line of text.trimEnd().split("\n")) {
    const found = /^(-?\d+(?:\/\d+)?)  (?:q\^(\d+)  )?(\([\d,]*\))(?: (\([\d,]*\)))?$/.exec(line);
    if (!found) return null;
    terms.push({ c: found[1], q: found[2], first: numbers(found[3]), second: found[4] && numbers(found[4]) });
  }
  return terms;
}

/** The terms of an answer on one line; null if the text is no such line. */
function oneLineTermsOf(text) {
  const terms = [], found = text.trimEnd().matchAll(/([+-]?)(?:(\d+(?:\/\d+)?)\*)?[mehps]\[([\d,]*)\]/g);
  let length = 0;
  for (const [all, sign, size, list] of found) {
    terms.push({ c: (sign === "-" ? "-" : "") + (size || "1"), first: numbers(`(${list})`) });
    length += all.length;
  }
  return length > 0 && length === text.trimEnd().length ? terms : null;
}

/** How many terms or tableaux a text has, of which an answer was read, perhaps from its first lines. */
function sizeOf(answer, text) {
  if (text === "0\n") return 0;
  return answer.isOneLine ? answer.terms.length : linesIn(text);
}

/** How much an answer is, in words. */
function countOf(answer, text) {
  if (!answer || answer.names || !["terms", "tableaux"].includes(answer.kind)) return "";
  const names = { terms: ["term", "terms"], tableaux: ["tableau", "tableaux"] }[answer.kind];
  const size = sizeOf(answer, text);
  return `${size.toLocaleString("en")} ${size === 1 ? names[0] : names[1]}`;
}

// ---- LaTeX

/** The terms on one line of LaTeX. (TeX reads no line of any length.) */
const TERMS_ON_LINE = 8;

/** Letters one after another, with commas where one is over 9: blanks are not seen in a formula. */
function latexLetters(letters) {
  return letters.map(String).join(letters.some((it) => Number(it) > 9) ? "," : "");
}

function latexTerms(terms, letter) {
  const texts = shownTerms(terms, letter).map((it) => latexOfFormula(it));
  return texts.map((it, i) => (i > 0 && i % TERMS_ON_LINE === 0 ? `\n${it.trimStart()}` : it)).join("") || "0";
}

/** A tableau for the package ytableau; the cells of the inner partition are left empty. */
function latexTableau(rows, inner) {
  const cells = rows.map((row, i) => [...Array(inner[i] || 0).fill("\\none"), ...row].join(" & "));
  if (rows.every((row) => row.length === 0)) return "\\emptyset";
  return `\\begin{ytableau} ${cells.join(" \\\\ ")} \\end{ytableau}`;
}

/** A growth grid as an array. */
function latexGrid(rows) {
  const cell = (label) => (label.length ? `(${label.join(",")})` : "\\emptyset");
  return `\\begin{array}{${"c".repeat(rows.length)}} ${rows.map((row) => row.map(cell).join(" & ")).join(" \\\\ ")} \\end{array}`;
}

/** The right side of the equation of an answer in LaTeX. */
function latexRight(answer) {
  if (answer.kind === "terms") return latexTerms(answer.terms, answer.letter);
  if (answer.kind === "number") return answer.value;
  if (answer.kind === "word") return latexLetters(answer.letters) || "\\emptyset";
  if (answer.kind === "grid") return latexGrid(answer.rows);
  const tableaux = answer.tableaux.map((rows) => latexTableau(rows, answer.inner));
  if (answer.names) return tableaux.map((it, i) => `${answer.names[i]} = ${it}`).join(",\n\\quad ");
  return tableaux.length === 1 ? tableaux[0] : `\\{${tableaux.join(",\n\\quad ")}\\}`;
}

/** The equation of an answer in LaTeX, to be put into a formula. */
function latexOf(answer, line) {
  const { left, where } = leftOf(line), right = latexRight(answer), condition = where ? `\\quad ${latexOfFormula(where.trim())}` : "";
  const needs = answer.kind === "tableaux" ? "% \\usepackage{ytableau}\n" : "";
  if (answer.names) return `${needs}${right}\n\\quad ${latexOfFormula(left.replace(/^P and Q of/, "for"))}`;
  return `${needs}${latexOfFormula(left)} = ${right}${condition}`;
}
