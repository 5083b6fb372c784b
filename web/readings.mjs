// Reads typed lines by the scripts of the page: node readings.mjs SCRIPT LINES prints for each line of the list LINES, in JSON, what runs, what is
// computed, and what is offered. SCRIPT has the scripts that touch no page, with their tables (`script_of` of web/build).
import fs from "fs";
import vm from "vm";

const [script, lines] = process.argv.slice(2);
vm.runInThisContext(fs.readFileSync(script, "utf8"));
const read = vm.runInThisContext(`(typed) => {
  const { line, asked, help, unread, family } = readTyped(typed);
  if (family) return { typed, rows: family.rows.map((row) => (family.prepare(row), row.line)) };
  const isRun = !unread && help === undefined && isCommand(textsOfWords(line));
  const offers = (unread ? unread.offers : isRun ? meantInstead({ line, typed }).filter((it) => it.line) : []).map(typedOf);
  return { typed, line, help, isRun, said: unread && unread.said, computed: isRun ? plainFormula(computedBy(line)) : "", asked: asked ? plainFormula(computedBy(line, asked)) : "", offers };
}`);
console.log(JSON.stringify(JSON.parse(fs.readFileSync(lines, "utf8")).map(read)));
