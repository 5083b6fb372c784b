// Mathematics in the notation with `_{..}` and `^{..}`, read once, and written as MathML, as LaTeX, and as a text as it is typed. An answer is an
// equation in this notation: a left side from the words that ran, and the terms that were printed.

/** The pieces of the notation, each in a group of its own, by these names. */
const MATH_PIECE = /([_^]\{)|(\})|(\d+\/\d+)|(\d+)|([A-Za-z–]{2,})|(\p{L})|([ \n]+)|(\.\.|.)/gsu;
const MATH_KINDS = ["open", "close", "fraction", "number", "word", "name", "blank", "sign"];

/** A text of the notation as a list of nodes `{kind, text, sub, sup}`. */
function mathOf(text) {
  const open = [[]], last = () => open[open.length - 1];
  for (const found of text.matchAll(MATH_PIECE)) {
    const kind = MATH_KINDS[found.findIndex((it, i) => i > 0 && it !== undefined) - 1];
    if (kind === "open") open.push(Object.assign([], { place: found[0] === "_{" ? "sub" : "sup" }));
    else if (kind === "close" && open.length > 1) {
      const script = open.pop();
      if (last().length === 0) last().push({ kind: "name", text: "" });
      last()[last().length - 1][script.place] = script;
    } else last().push({ kind, text: found[0] });
  }
  return open[0];
}

// ---- as a text

/** A script as it is typed: without braces if it is one word or is in parentheses. */
const scriptTyped = (mark, text) => mark + (/^(?:\w+|∅|\([^()]*\))$/.test(text) ? text : `{${text}}`);

/** Pieces of a formula one after another; what has a script is kept apart from a letter or number after it. */
function joinedTyped(pieces) {
  return pieces.reduce((text, { typed, hasScript }, i) => text + (i > 0 && pieces[i - 1].hasScript && /^[\p{L}\d]/u.test(typed) ? " " : "") + typed, "");
}

/** Nodes of the notation as a text, such as `x_1^2 x_2`. */
function typedMath(nodes) {
  const typed = (it) => it.text + (it.sub ? scriptTyped("_", typedMath(it.sub)) : "") + (it.sup ? scriptTyped("^", typedMath(it.sup)) : "");
  return joinedTyped(nodes.map((it) => ({ typed: typed(it), hasScript: it.sub || it.sup })));
}

// ---- as LaTeX

/** Signs and names in LaTeX. */
const IN_LATEX = {
  ...{ "·": "\\cdot", "⊗": "\\otimes", "×": "\\times", "−": "-", "*": "\\ast", "∅": "\\emptyset", "′": "'", "..": "\\dots", "⟨": "\\langle", "⟩": "\\rangle" },
  ...{ σ: "\\sigma", χ: "\\chi", λ: "\\lambda", μ: "\\mu", ν: "\\nu", "{": "\\{", "}": "\\}", "#": "\\#", "%": "\\%", "&": "\\&", $: "\\$", "~": "\\sim", "\\": "\\backslash", "_": "\\_" },
};

/** A node in LaTeX, without its scripts. */
function latexBase({ kind, text, sub }) {
  if (kind === "fraction") return `\\frac{${text.replace("/", "}{")}}`;
  if (kind === "word") return `\\text{${text.replace(/–/g, "--")}}`;
  if (kind === "name" && text === "S" && sub) return "\\mathfrak{S}";
  return IN_LATEX[text] ?? text;
}

/** Nodes of the notation in LaTeX. */
function latexMath(nodes) {
  const isWord = (it) => it && it.kind === "word";
  const texts = nodes.map((it, i) => {
    if (it.kind === "blank") return isWord(nodes[i - 1]) || isWord(nodes[i + 1]) ? "\\ " : " ";
    const base = latexBase(it), sub = it.sub ? `_{${latexMath(it.sub)}}` : "", sup = it.sup ? `^{${latexMath(it.sup)}}` : "", next = nodes[i + 1];
    const isOpen = /\\[a-z]+$/.test(base + sub + sup) && next && /^[A-Za-z]/.test(next.text);
    return base + sub + sup + (isOpen ? " " : "");
  });
  // (words beside each other are one text)
  return texts.join("").replace(/(?<=\\text\{[^{}]*)\}\\ \\text\{/g, " ");
}

const latexOfFormula = (text) => latexMath(mathOf(raisedStar(text)));
/** The star of a cohomology ring, set high. */
const raisedStar = (text) => text.replace(/H\*(?=\()/g, "H^{*}");

// ---- as MathML

/** Signs between two terms, which begin a line if one is too long. */
const BETWEEN = ["=", "+", "−", "·", "⊗", "*"];
/** The most characters of a piece in MathML, which has no place to break; a longer one is set low and high as text is. */
const LONGEST_PIECE = 40;
/** The longest text that is written in MathML: a browser takes some milliseconds to place a piece. */
const LONGEST_MATH = 4000;

/** A row of nodes as nodes of MathML. Blanks stay beside the signs, where they are not seen. */
function mathMLRow(nodes) {
  return nodes.flatMap((it, i) => {
    if (it.kind === "blank") return nodes[i - 1]?.kind === "sign" || nodes[i + 1]?.kind === "sign" ? [] : [element("mtext", {}, " ")];
    return [withScripts(mathMLBase(it, nodes, i), it)];
  });
}

function mathMLBase({ kind, text }, nodes, i) {
  const isBlank = (it) => it?.kind === "blank", before = isBlank(nodes[i - 1]) && nodes[i - 2]?.kind !== "sign" ? " " : "", after = isBlank(nodes[i + 1]) ? " " : "";
  if (kind === "fraction") return element("mrow", {}, ...text.split(/(\/)/).map((it) => element(it === "/" ? "mo" : "mn", it === "/" ? { lspace: "0", rspace: "0" } : {}, it)));
  if (kind !== "sign") return element(kind === "number" || text === "∅" ? "mn" : "mi", {}, text);
  if (text === "∅") return element("mi", {}, text);
  const form = BETWEEN.includes(text) ? { form: after ? "infix" : "prefix" } : {}, plain = text === "/" || text === "|" ? { lspace: "0", rspace: "0" } : {};
  return element("mo", { stretchy: "false", ...form, ...plain }, before + text + after);
}

function withScripts(base, { sub, sup }) {
  if (!sub && !sup) return base;
  const rows = [sub, sup].filter(Boolean).map((it) => element("mrow", {}, ...mathMLRow(it)));
  return element(sub && sup ? "msubsup" : sub ? "msub" : "msup", {}, base, ...rows);
}

/** Nodes set low and high as text is. */
function plainRow(nodes) {
  return nodes.flatMap((it) => [it.text, ...(it.sub ? [element("sub", {}, ...plainRow(it.sub))] : []), ...(it.sup ? [element("sup", {}, ...plainRow(it.sup))] : [])]);
}

/** A text of the notation as words and pieces of MathML, with a place to break a line between them. */
function mathNodes(text) {
  if (text.length > LONGEST_MATH) return formula(text);
  const nodes = mathOf(raisedStar(text)), made = [];
  let row = [], depth = 0;
  const flush = () => {
    if (row.length > 0) made.push(typedMath(row).length > LONGEST_PIECE ? element("span", {}, ...plainRow(row)) : element("math", {}, ...mathMLRow(row)));
    row = [];
  };
  for (const [i, it] of nodes.entries()) {
    const isPlain = it.kind === "word" && !it.sub && !it.sup, isBegun = row.length === 1 && BETWEEN.includes(row[0].text);
    depth += it.kind !== "sign" ? 0 : it.text === "(" || it.text === "[" ? 1 : it.text === ")" || it.text === "]" ? -1 : 0;
    const isJoint = ["number", "fraction"].includes(row[row.length - 1]?.kind) && it.kind === "blank" && nodes[i + 1]?.kind === "name";
    if (isPlain || (it.kind === "blank" && !isBegun && !isJoint && depth === 0)) flush(), made.push(it.text);
    else row.push(it);
  }
  flush();
  return made;
}

// ---- MathML as a text again

/** A part of the page as text of the notation's form: what is set low and high has its marks. */
function typedNode(node) {
  if (node.nodeType !== 1) return node.textContent;
  const name = node.localName, all = [...node.childNodes];
  if (name === "sub" || name === "sup") return scriptTyped(name === "sub" ? "_" : "^", typedNodes(all));
  const [base, first, second] = all.map((it) => typedNode(it));
  if (name === "msub" || name === "msup") return base + (first === undefined ? "" : scriptTyped(name === "msub" ? "_" : "^", first));
  if (name === "msubsup") return base + (first === undefined ? "" : scriptTyped("_", first)) + (second === undefined ? "" : scriptTyped("^", second));
  return typedNodes(all);
}

function typedNodes(nodes) {
  return joinedTyped(nodes.map((it) => ({ typed: typedNode(it), hasScript: /^(?:msu|su[bp]$)/.test(it.localName) && it.textContent !== "" })));
}

/** What is marked on the page, as it looks; nothing, if no mathematics is in it. */
function markedText(part) {
  const maths = [...part.querySelectorAll("math, msub, msup, msubsup, sub, sup")].filter((it) => !it.parentNode.closest?.("math, msub, msup, msubsup, sub, sup"));
  if (maths.length === 0) return "";
  // (a piece is set low after a letter that is no piece of the same parent: the marks are enough)
  for (const it of maths) it.replaceWith(typedNode(it));
  const box = element("div", { class: "marked-text" }, part);
  document.body.append(box);
  const text = box.innerText;
  box.remove();
  return text;
}

// ---- equations

/** The left side of the equation of a line and what holds for it, or what was computed in words. */
function leftOf(line) {
  const words = textsOfWords(line), { equation } = GRAMMAR.get(words[0]) || {};
  if (!equation || !isCommand(words)) return { left: computedBy(line), where: "" };
  const [left, where = ""] = equation.map((it) => filled(it, argumentsOf(line)));
  // (the comma that makes one reading of (12,), and the brackets of the identity of one letter, are for what is typed)
  return { left: left.replace(/(\d),\)/g, "$1)").replace(/\{\[1\]\}/g, "{1}"), where };
}
