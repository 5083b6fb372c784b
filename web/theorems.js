// Beside each answer, folded: what is proved of it, the definition with an example, and the theorem that it rests on.

const THEOREMS = /*THEOREMS*/ null;

/** A text after the name of what it says. */
const namedNote = (name, ...parts) => element("p", {}, element("b", {}, name), " ", ...parts);

/** What is proved of the answer to a line, and what it means. */
function theoremOf(line) {
  const { proved, defined, example, theorem, reference } = THEOREMS[textsOfWords(line)[0]] || {};
  if (!proved) return [];
  const [of, equation_] = example || [];
  const parts = [namedNote("Proved.", ...formula(proved)), namedNote("Definition.", ...formula(defined))];
  if (of) parts.push(namedNote("Example.", element("button", { type: "button", "data-line": of }, of), " ", element("span", { class: "math" }, ...mathNodes(equation_))));
  parts.push(namedNote("Theorem.", ...formula(`${theorem}. ${reference}`)));
  return [element("details", { class: "theorem" }, element("summary", {}, "What is proved, definition, theorem"), ...parts)];
}
