// What a line computes, in mathematics: drawn from its words, in a notation with `_{..}` and `^{..}` for what is set low and high.

/** Numbers with commas, in parentheses; one number of several digits with a comma, since without it its digits could be numbers. */
function inRound(numbers, joint = ",") {
  return `(${numbers.join(joint)}${numbers.length === 1 && numbers[0].length > 1 ? "," : ""})`;
}

/** A partition: its parts with commas, in parentheses, or ∅. */
function shown(words) {
  const parts = partition(words);
  return parts.length > 0 ? inRound(parts) : "∅";
}

/** A permutation as an index: its letters, with commas where one is over 9. */
function permutationIndex(words) {
  const letters = words.map(plainNumber);
  return letters.join(letters.some((it) => it.length > 1) ? "," : "");
}

const schur = (words) => `s_{${shown(words)}}`;
/** The same in what a command computes: the identity of one letter in brackets, since S_{1} can be that of s_1. */
const readIndex = (words) => permutationIndex(words).replace(/^1$/, "[1]");
const schubert = (words) => `S_{${readIndex(words)}}`;

/** How many of a thing, in words. */
function countOfThings(number, one, several) {
  return `${Number(number).toLocaleString("en")} ${Number(number) === 1 ? one : several}`;
}

/** An expression: atoms with indices, and the signs of multiplication as points. */
function shownExpression(text) {
  const atoms = text.replace(/([mehps])\[([\d,]*)\]/g, (_, basis, list) => {
    const numbers = partition(list.split(",").filter(Boolean));
    return `${basis}_{${numbers.length === 0 ? "∅" : numbers.length === 1 && numbers[0].length === 1 ? numbers[0] : inRound(numbers)}}`;
  });
  return atoms.replace(/\*/g, " · ").replace(/([^(^{])([+-])/g, (_, before, sign) => `${before} ${sign === "-" ? "−" : "+"} `).replace(/^-/, "−");
}

/** What the coefficients of an expansion are called, where they have a name. */
function namesOfCoefficients(basis, text) {
  const [, family, list] = /^([mehps])\[([\d,]*)\]$/.exec(text) || [];
  if (!family || list === "") return "";
  const index = shown(list.split(","));
  if (index === "∅") return "";
  if (family === "s" && basis === "m") return `: the Kostka numbers K_{${index},μ}`;
  if (family === "h" && basis === "s") return `: the Kostka numbers K_{λ,${index}}`;
  if (family === "e" && basis === "s") return `: the Kostka numbers K_{λ′,${index}}`;
  return family === "p" && basis === "s" ? `: the characters χ^{λ}${index}` : "";
}

/** An argument, by the words of the table of commands for what it looks like. */
const SHOWN = {
  shown,
  schur,
  schubert,
  class: (words) => `σ_{${shown(words)}}`,
  plain: ([word]) => plainNumber(word),
  index: readIndex,
  letters: (words) => words.map(plainNumber).join(" "),
  word: (words) => (words.length === 0 ? "the empty word" : `the word ${inRound(words.map(plainNumber), ", ")}`),
  tableau: (words) => words.map((it) => (/\d/.test(it) ? plainNumber(it) : it)).join(" "),
  after: (words) => `, after ${SHOWN.tableau(words)}`,
  expression: ([text]) => shownExpression(text),
  factor: ([text]) => (/^[mehps]\[[\d,]*\]$/.test(text) ? shownExpression(text) : `(${shownExpression(text)})`),
  variables: ([number]) => ` in ${countOfThings(number, "variable", "variables")}`,
  commands: ([number]) => `${plainNumber(number)} generated command${Number(number) === 1 ? "" : "s"}`,
};

/** A text of the table of commands: `{schur λ μ| · }` are the arguments of these names or roles, each as it looks, with the last words between; `sum` is their sum. */
function filled(text, of, looks = SHOWN) {
  return text.replace(/\{(\w+) ([^{}|]+)(?:\|([^{}]*))?\}/g, (_, look, names, joint = "") => {
    const found = names.split(" ").flatMap(of);
    return look === "sum" ? sumOf(found.flat()) : found.map(looks[look]).join(joint);
  });
}

/** The arguments of a line: those of a name or role, in turn, each as its words. */
function argumentsOf(line) {
  const parts = partsOf(textsOfWords(line)) || [];
  return (name) => parts.filter((it) => it.role === name || it.name === name).map((it) => it.words);
}

/** A text with the projective space for a Gr(1,n), which can be the lines of another one. */
const inProjective = (text) => text.replace(/Gr\(1,(\d+)\)/, (_, n) => `P^${n - 1}`);

/** What a command computes, from its arguments. */
function computed(name, of) {
  const { computed, equation } = GRAMMAR.get(name);
  return inProjective(filled(computed ?? equation.join(""), of));
}

/** What is asked for of an answer, from the arguments of its command. */
const ASKED = {
  K: ({ of, at }) => `K_{${shown(of)},${shown(at)}}`,
  f: ({ of }) => `f^{${shown(of)}}`,
  χ: ({ of, at }) => `χ^{${shown(of)}}_{${shown(at)}}`,
  degree: ({ of }) => inProjective(`the degree of Gr(${of.length},${of.length + Number(of[0])})`),
  c: ({ at, q }, words) => {
    const [[basis] = [], [text] = []] = [words("basis")[0], words("expression")[0]], isQuantum = words("columns").length > 0;
    if (basis) return `the coefficient of ${basis}_{${shown(at)}} in ${text ? shownExpression(text) : computed("plethysm", words).replace(/ in the basis .$/, "")}`;
    if (isQuantum) return `the coefficient of ${q > 1 ? `q^{${q}} ` : q ? "q " : ""}σ_{${shown(at)}} in ${q ? computed("quantum", words) : ASKED.H(at, words)}`;
    return `the coefficient of ${schur(at)} in ${words("partition").map(schur).join(" · ")}`;
  },
  count: (_, words) => `the number of ${computed("tab", words).replace(/^the /, "")}`,
  H: (_, words) => computed("quantum", words).replace(/ \* /g, " · ").replace("in QH*", "in H*"),
  Fl: ({ n }, words) => `${["u", "v"].flatMap(words).map(schubert).join(" · ")} in H*(Fl(${n}))`,
};

/** What a line computes, or what is asked for of its answer, in mathematics; nothing, if it is no command. (Read as a line it is that command.) */
function computedBy(line, asked) {
  const words = textsOfWords(line), of = argumentsOf(line);
  if (!isCommand(words)) return "";
  return asked ? ASKED[asked.kind](asked, of) : computed(words[0], of) + (words.includes("-m") ? ", on one line" : "");
}

/** What is proved of a quantum or fusion product, and what is a theorem; nothing of other lines. */
function reductionOf(line) {
  const [name] = textsOfWords(line), computed = ["quantum", "fusion"].includes(name) ? computedBy(line) : "";
  if (computed === "") return "";
  const [how, where, whose] = name === "quantum" ? ["by rim hooks", /QH.*$/, "of Bertram, Ciocan-Fontanine and Fulton"] : ["into the alcove", /su\(.*$/, "of Kac and Walton"];
  return `Proved is that this is the product in K variables, reduced ${how}.${outsideBox(line) ? "" : ` That it is the product ${name === "quantum" ? "in" : "for"} ${where.exec(computed)[0]} is a theorem ${whose}.`}`;
}

/** What the coefficients of the answer to a line are called, where they have a name. */
function namedCoefficients(line) {
  const parts = line.startsWith("expand") ? partsOf(textsOfWords(line)) : null, wordOf = (role) => parts.find((it) => it.role === role).words[0];
  return parts ? namesOfCoefficients(wordOf("basis"), wordOf("expression")) : "";
}

/** A reading as it is typed: its line, or the formula of what is asked for. */
const typedOf = ({ line, asked }) => (asked ? plainTyped(computedBy(line, asked)) : line);
/** A formula as it can be typed. */
const plainTyped = (text) => text.replace(/ · /g, "*");

/** A text with `_{..}` and `^{..}` as parts: texts, and lists of a tag and its parts. */
function formulaParts(text) {
  const open = [[]];
  const add = (it) => open[open.length - 1].push(it);
  for (const [piece] of text.matchAll(/[_^]\{|\}|[^_^}]+|[_^]/g)) {
    if (piece === "_{" || piece === "^{") open.push([piece[0] === "_" ? "sub" : "sup"]);
    else if (piece === "}" && open.length > 1) add(open.pop());
    else add(piece);
  }
  return open[0];
}

/** The same without marks, for a title or a status. */
function plainFormula(text) {
  return text.replace(/[_^]\{|\}/g, "");
}

/** The nodes of a text in this notation. */
function formula(text) {
  const node = (it) => (typeof it === "string" ? it : element(it[0], {}, ...it.slice(1).map(node)));
  return formulaParts(text).map(node);
}

// ---- answers

/** A term of an answer in this notation: its coefficient and its label. */
function shownTerm(term, letter) {
  const monomial = (name, exponents) => exponents.map((e, i) => (e === 0 ? "" : `${name}_{${i + 1}}${e > 1 ? `^{${e}}` : ""}`)).join("");
  const index = (label) => `_{${label.length > 0 ? `(${label.join(",")})` : "∅"}}`;
  const permutation = (label) => `S_{${permutationIndex(label.map(String))}}`;
  const power = term.q === undefined || term.q === "0" ? "" : term.q === "1" ? "q " : `q^{${term.q}} `;
  if (letter === "x") return monomial("x", term.first);
  if (letter === "S") return permutation(term.first);
  if (letter === "SS") return `${monomial("y", term.second)} ${permutation(term.first)}(x; y)`.trim();
  if (term.second) return `s${index(term.first)}(x) s${index(term.second)}(y)`;
  return `${power}${letter === "q" ? "σ" : letter}${index(term.first)}`;
}

/** The terms of a sum in this notation, each with its sign. */
function shownTerms(terms, letter) {
  return terms.map((term, i) => {
    const isMinus = term.c.startsWith("-"), size = isMinus ? term.c.slice(1) : term.c, label = shownTerm(term, letter);
    const sign = i === 0 ? (isMinus ? "−" : "") : isMinus ? " − " : " + ";
    return sign + (label ? (size === "1" ? "" : `${size} `) + label : size);
  });
}

/** A sum of terms in this notation. */
function shownSum(terms, letter) {
  return shownTerms(terms, letter).join("") || "0";
}
