// What is printed: the equations, whole. Those that are too long to be shown are made for the time of printing.

/** The most terms of an equation that are printed. */
const MOST_PRINTED = 20000;
/** The line and the text of each answer that is shown. */
const answersOfArticles = new WeakMap();

/** The equation of an answer that is shown without one, since it is long; nothing, if it is none. */
function longEquation({ line, text }) {
  const answer = answerOf(line, text);
  if (answer?.kind !== "terms") return [];
  const count = answer.terms.length, isShort = count <= MOST_PRINTED;
  // (a browser takes much longer to place many pieces of MathML than indices)
  const it = equation(line, isShort ? shownSum(answer.terms, answer.letter) : "..", formula);
  it.classList.add("long");
  return isShort ? [it] : [it, element("p", { class: "equation long" }, `It has ${count.toLocaleString("en")} terms, and at most ${MOST_PRINTED.toLocaleString("en")} are printed: the text of the answer can be downloaded.`)];
}

window.addEventListener("beforeprint", () => {
  const articles = [...at("answers").children].filter((it) => !it.querySelector(".equation"));
  for (const it of articles) if (answersOfArticles.has(it)) it.append(...longEquation(answersOfArticles.get(it)));
});
window.addEventListener("afterprint", () => document.querySelectorAll(".equation.long").forEach((it) => it.remove()));
