// The field: what is typed, earlier lines, what is pasted, and what can be undone.

/** What ends a line. */
const LINE_ENDS = /[\n\r\v\f\u0085\u2028\u2029]+/;

/** The most lines that are kept over reloads, the most that one reload runs again, and for how long a command may have run for that. */
const MOST_HISTORY = 500;
const MOST_AGAIN = 30;
/** The most readings of a line that are shown while it is typed. */
const MOST_PREVIEWED = 4;
const SHORT = 2000;

/** A list of texts that the browser keeps, for this tab or for later visits; an empty one, where it keeps nothing. */
function keptList(store, name) {
  try {
    const found = JSON.parse(window[store].getItem(name) || "[]");
    return Array.isArray(found) ? found.filter((it) => typeof it === "string") : [];
  } catch {
    return [];
  }
}

function keep(store, name, list) {
  try {
    window[store].setItem(name, JSON.stringify(list));
  } catch {
    // (a browser that keeps nothing)
  }
}

/** What was typed, the latest last; where the arrow keys are in it; what was typed there and did not run, by its place. */
const asked = keptList("localStorage", "calc: lines");
let placeInAsked = asked.length, drafts = new Map();
/** What this tab has run, to run it again after a reload. */
let session = [];

/** Keeps further lines. What another tab has kept meanwhile stays. */
function remember(texts) {
  takeKept();
  for (const text of texts) if (asked[asked.length - 1] !== text && text.length <= LONGEST_LINE) asked.push(text);
  asked.splice(0, asked.length - MOST_HISTORY);
  placeInAsked = asked.length;
  drafts = new Map();
  keep("localStorage", "calc: lines", asked);
  showEarlier();
}

/** Takes the lines as the browser keeps them, if it keeps some, or another tab has forgotten them. */
function takeKept() {
  const kept_ = keptList("localStorage", "calc: lines"), isAtEnd = placeInAsked === asked.length;
  if (canKeep()) asked.splice(0, asked.length, ...kept_);
  placeInAsked = isAtEnd ? asked.length : Math.min(placeInAsked, asked.length);
  showEarlier();
}

/** Whether the browser keeps lines. */
function canKeep() {
  try {
    return window.localStorage.getItem("calc: lines") !== null || asked.length === 0;
  } catch {
    return false;
  }
}

/** The earlier lines, the latest first, each a button. */
function showEarlier() {
  at("history").hidden = asked.length === 0;
  const latest = [...new Set([...asked].reverse())].slice(0, 40);
  const item = (it) => element("button", { type: "button", "data-typed": it }, named(inSight(it)));
  at("earlier").replaceChildren(...latest.map(item));
}

function forget() {
  const [lines, before, address] = [[...asked], session, textOfAddress()];
  asked.length = 0;
  keep("localStorage", "calc: lines", []);
  keepSession([]);
  putInAddress("");
  remember([]);
  say("The earlier commands were forgotten.");
  canUndo("the earlier commands", () => {
    keep("localStorage", "calc: lines", [...lines, ...asked]);
    asked.unshift(...lines);
    remember([]);
    keepSession([...before, ...session]);
    putInAddress(address);
  });
}

/** Notes what a job came to, for a reload, and shows it. */
function done(job, answer) {
  if (answer.stopped || answer.time > SHORT) keepSession(session.filter((it) => it !== job.typed));
  return show(job, answer);
}

/** Notes the latest lines of this tab. */
function keepSession(lines) {
  session = lines.slice(-MOST_AGAIN);
  keep("sessionStorage", "calc: session", session);
}

/** Runs the commands of a text as they were typed, or as one of the questions to begin with has them, after those that wait. */
function ask(text, most, isQuestion = false) {
  return askLines(linesOf(text), most, true, isQuestion);
}

/** How many parentheses and braces that are closed again are open at each place of a line. */
function depthsOf(line) {
  const open = [], depths = new Int32Array(line.length + 1);
  for (let at = 0; at < line.length; at += 1) {
    if ("({".includes(line[at])) open.push(at);
    else if (")}".includes(line[at]) && open.length > 0) (depths[open.pop()] += 1), (depths[at] -= 1);
  }
  for (let at = 1; at <= line.length; at += 1) depths[at] += depths[at - 1];
  return depths;
}

/** A line without its comment, to be put beside others. */
const withoutComment = (line) => line.replace(COMMENT, "").trim();

/** Whether a part that is not read gives something a name, as `s = SymmetricFunctions(QQ).s()`: the parts after it may mean what it says. */
const givesName = (part) => /^[\w.<>\\\u0370-\u03ff]+(?: *, *[\w.<>]+)*(?:\([\w, ]*\))? *:?=/.test(part.trim()) && readTyped(part).unread !== undefined;

/** The parts of a line between the `;` that are in no parentheses and not right between two numbers, as in c_{2,1;2,1}; a comment stays with the last one. */
function partsOfLine(line) {
  const comment = line.search(COMMENT), end = comment < 0 ? line.length : comment, depths = depthsOf(line), parts = [""];
  for (let at = 0; at < end; at += 1) {
    if (line[at] === ";" && depths[at] === 0 && !/\\;|\d;\d/.test(line.slice(Math.max(at - 1, 0), at + 2))) parts.push("");
    else parts[parts.length - 1] += line[at];
  }
  const said = parts.map((it) => it.trim()).filter(Boolean);
  if (said.length > 0) said[said.length - 1] += line.slice(end).trimEnd();
  return said.length > 1 && said.some(givesName) ? [line.trim()] : said;
}

/**
 * The lines of a text: commands with `;` or line ends between them. In a transcript the lines with a prompt and those
 * that begin with the name of a command are commands.
 */
function linesOf(text) {
  const lines = text.split(LINE_ENDS), isPrompted = (it) => /^\s*\$ /.test(it);
  const isAsked = (it) => isPrompted(it) || GRAMMAR.has(/^\s*([a-z]*)/.exec(it)[1]);
  return (lines.some(isPrompted) ? lines.filter(isAsked) : lines).flatMap((it) => (it.length > LONGEST_LINE ? [it] : partsOfLine(it)));
}

/** Runs lines as they were typed, each for so many milliseconds at most; they are kept, if they are new. */
function askLines(lines, most, isNew = true, isQuestion = false) {
  const jobs = lines.map((typed) => jobOfFamily({ typed, most, done, isQuestion, ...readTyped(typed) })).filter((job) => job.line);
  const helps = jobs.filter((job) => job.help !== undefined), commands = jobs.filter((job) => job.help === undefined);
  if (helps.length > 0) openHelp(helps[helps.length - 1].help);
  else if (commands.length === 0) return say("Nothing to run: type a command, such as mult 2 1 - 2 1.");
  if (isNew) remember(lines);
  if (commands.length === 0) return undefined;
  keepSession([...session, ...commands.map((job) => job.typed).filter((it) => it.length <= LONGEST_LINE)]);
  // (what a link or a reload runs is no step of the way back)
  putInAddress(commands.map(addressOf).join("; "), most === undefined);
  return enqueue(commands);
}

/** Opens the help of a command, or shows all commands. */
function openHelp(name) {
  const row = name && document.getElementById(`help-${name}`), target = row || at("commands");
  if (row) row.querySelector("details").open = true;
  target.scrollIntoView();
  if (row) row.querySelector("summary").focus({ preventScroll: true });
  say(row ? `The help of ${name} is shown.` : "All commands are shown, each with its help.");
}

/** Gives the field the focus, if that brings no keyboard onto the screen. */
function toField() {
  if (!matchMedia("(pointer: coarse)").matches) at("line").focus({ preventScroll: true });
}

/** What a line would compute, in mathematics; of several readings all. */
function previewOf({ line, asked: more, unread: not, family }) {
  if (family) return rowsInShort(family);
  if (!not) return formula(computedBy(line || "", more));
  const { offers, said = "" } = not, shown_ = offers.slice(0, MOST_PREVIEWED).map((it) => [...formula(computedBy(it.line, it.asked)), ...(it.zero ? [" (0 by its sizes)"] : [])]);
  if (offers.length === 0) return said ? [element("span", { class: "readings" }, said)] : [];
  const left = offers.length - shown_.length, more_ = left > 0 ? [` or ${left} more`] : [];
  // (why there are several readings is said only if that is not all there is to say)
  const count = element("span", { class: "readings" }, /^(?:This |$)/.test(said) ? `${countOfThings(offers.length, "possible reading", "readings")}: ` : `${said} `);
  return [count, ...shown_.flatMap((it, i) => [...(i > 0 ? [" or "] : []), ...it]), ...more_, element("span", { class: "readings" }, matchMedia("(pointer: coarse)").matches ? ". Run shows them." : ". Enter shows them; Ctrl+Enter takes the first.")];
}

/** What the lines in the field would compute. */
function preview() {
  const parts = linesOf(at("line").value).slice(0, 5).map((it) => previewOf(readTyped(it))).filter((it) => it.length > 0);
  at("preview").replaceChildren(...parts.flatMap((it, i) => [...(i > 0 ? ["; "] : []), ...it]));
}

/** Runs the first reading of the line in the field, where several are offered; what is in the field, where none is. */
function takeFirst() {
  const [first] = linesOf(at("line").value), { unread: not } = readTyped(first || "");
  if (not && not.offers.length > 0) replaceField(typedOf(not.offers[0]));
  ask(at("line").value);
}

function put(text) {
  at("line").value = text;
  preview();
}

/** Puts a text into the field in place of what is there; what was half typed can be brought back. */
function replaceField(text) {
  const before = at("line").value, isRun = before.trim() === "" || before === text || asked.includes(before) || linesOf(before).every((it) => asked.includes(it));
  put(text);
  if (!isRun) canUndo("what was half typed", () => put(before));
}

/** What was taken away, the latest last: of each what it is called, and what brings it back. */
let taken = [];

/** Notes how something that was taken away comes back. (Of long answers one set is kept.) */
function canUndo(what, back) {
  taken = [...taken.filter((it) => what !== "the answers" || it.what !== what), { what, back }].slice(-20);
  showUndo();
}

function showUndo() {
  const it = at("undo"), last = taken[taken.length - 1];
  it.hidden = !last;
  if (last) it.title = `Brings back ${last.what}`;
}

/** Brings back what was taken away last. */
function undo() {
  const { what, back } = taken.pop();
  back();
  showUndo();
  say(`Brought back: ${what}.`);
  toField();
}

/** Brings an earlier or later line into the field; what was typed there stays a draft. */
function step(by) {
  const next = Math.min(Math.max(placeInAsked + by, 0), asked.length);
  if (next === placeInAsked) return;
  const isRun = placeInAsked === asked.length && at("line").value === asked[asked.length - 1];
  if (!isRun && at("line").value !== (asked[placeInAsked] || "")) drafts.set(placeInAsked, at("line").value);
  placeInAsked = next;
  put(drafts.get(next) ?? asked[next] ?? "");
}

/** Puts what is pasted into the field, if it has several lines: the commands of it, with `;` between them. */
function paste(event) {
  const pasted = event.clipboardData.getData("text");
  if (!LINE_ENDS.test(pasted.trim())) return;
  event.preventDefault();
  const field = at("line"), lines = linesOf(pasted).map(withoutComment), left = pasted.split(LINE_ENDS).filter((it) => it.trim()).length - lines.length;
  field.setRangeText(lines.join("; "), field.selectionStart, field.selectionEnd, "end");
  preview();
  const others = left > 0 ? ` ${countOfThings(left, "line that is", "lines that are")} no command ${left === 1 ? "was" : "were"} left out.` : "";
  say(`${countOfThings(lines.length, "command was", "commands were")} pasted.${others} Press Enter to run.`);
}
