// What the page copies of answers: node page_copies.mjs SCRIPT ANSWERS prints for each line and text of the list ANSWERS, in JSON, the equation in
// LaTeX, for Sage and for Python, and the rows of its table. SCRIPT has the scripts that touch no page (`script_of` of web/build).
import fs from "fs";
import vm from "vm";

const [script, answers] = process.argv.slice(2);
vm.runInThisContext(fs.readFileSync(script, "utf8"));
// (an equation in the notation of the page)
vm.runInThisContext(`const equationTyped = (answer, line) => {
  const { left, where } = leftOf(line);
  return answer.kind === "terms" || answer.kind === "number" ? left + " = " + (answer.value ?? shownSum(answer.terms, answer.letter)) + where : "";
}`);
const copies = vm.runInThisContext(`([line, text]) => {
  const answer = answerOf(line, text);
  return answer && { line, text, latex: latexOf(answer, line), sage: sageOf(answer, line), python: pythonOf(answer, line), csv: asCSV(sheetOf(answer)), equation: equationTyped(answer, line) };
}`);
console.log(JSON.stringify(JSON.parse(fs.readFileSync(answers, "utf8")).map(copies)));
