// The answers on the page: what was computed, the text as the module printed it, what it means, and what can be copied.

const LINES_SHOWN = 200;
const LINES_MORE = 1000;
const MOST_LINES = 20000;
const CHARACTERS_OF_LINE = 500;
/** The most characters of an answer that are shown. */
const MOST_CHARACTERS = 1 << 20;
/** The most answers that are shown, and the most characters of all answers that are kept to be downloaded. */
const MOST_ANSWERS = 100;
const MOST_KEPT = 1 << 26;

/** The answers that are kept, the latest last: `{line, text}`. */
const kept = [];
let numberOfAnswer = 0, answersGiven = 0, sizeKept = 0;

function button(name, action) {
  const it = element("button", { type: "button" }, name);
  it.onclick = action;
  return it;
}

async function copy(text, what) {
  try {
    await navigator.clipboard.writeText(text);
    say(`${what} copied.`);
  } catch {
    const field = element("textarea");
    field.value = text;
    document.body.append(field);
    field.select();
    const isDone = document.execCommand("copy");
    field.remove();
    say(isDone ? `${what} copied.` : "The browser does not let this page copy. Mark the text and copy it.");
  }
}

function download(name, texts) {
  const link = element("a", { href: URL.createObjectURL(new Blob(texts, { type: "text/plain" })), download: name });
  link.click();
  setTimeout(() => URL.revokeObjectURL(link.href), 60000);
  say("The download begins.");
}

/** A name for a file with the answer to a line. */
function nameOfFile(line, end) {
  return `calc ${line}`.replace(/[^\w.,-]+/g, "_").slice(0, 80) + end;
}

/** Where this number of lines of a text ends; fewer lines, or a part of a single one, if they are very long. */
function endOf(text, lines, begin = 0) {
  const most = begin + CHARACTERS_OF_LINE * lines;
  let end = begin;
  for (let i = 0; i < lines && end < text.length; i += 1) end = text.indexOf("\n", end) + 1 || text.length;
  if (end <= most) return end;
  const last = text.lastIndexOf("\n", most - 1) + 1;
  return last > begin ? last : most;
}

/** How many lines a text has. */
function linesIn(text) {
  let count = 0;
  for (let end = text.indexOf("\n"); end >= 0; end = text.indexOf("\n", end + 1)) count += 1;
  return count;
}

/** The text of an answer, in part where it is long, and below it what is shown and how to have the rest. */
function textOf(line, text, isAsked = () => false) {
  const body = element("pre", { tabindex: "0", "aria-label": "The text of the answer" });
  const part = element("p", { class: "part" }), all = linesIn(text);
  let end = 0, lines = 0;
  const show = (count) => {
    for (const goal = Math.min(lines + count, MOST_LINES); end < text.length && lines < goal && end < MOST_CHARACTERS; ) {
      const next = endOf(text, LINES_SHOWN, end), piece = text.slice(end, next);
      body.append(element("span", {}, ...withMarked(piece, isAsked)));
      lines += linesIn(piece) || LINES_SHOWN;
      end = next;
    }
    const shown = linesIn(text.slice(0, end)), isCut = end < text.length;
    const [some, whole, what] = shown < all && shown > 0 ? [shown, all, "lines"] : [end, text.length, "characters"];
    const said = `The first ${some.toLocaleString("en")} of ${whole.toLocaleString("en")} ${what} are shown.`;
    const isMore = isCut && lines < MOST_LINES && end < MOST_CHARACTERS;
    const more = isMore ? [button("Show more", () => show(LINES_MORE)), " "] : [];
    part.replaceChildren(said, " ", ...more, button("Download", () => download(nameOfFile(line, ".txt"), [text])));
    part.hidden = !isCut;
  };
  show(LINES_SHOWN);
  return [body, part];
}

/** A piece of a text with the lines marked that were asked for. */
function withMarked(piece, isAsked) {
  if (!asksOf(piece)) return [piece];
  return piece.split(/(?<=\n)/).map((it) => (isAsked(it.trimEnd()) ? element("b", { class: "asked-line" }, it) : it));

  function asksOf(text) {
    return text.split("\n").some(isAsked);
  }
}

/** As much of a text as is looked at before a button asks for more: the lines shown first; a single line whole, if it is not too long. */
function frontOf(line, text) {
  return line.includes("-m") && text.length < MOST_CHARACTERS ? text : text.slice(0, endOf(text, LINES_SHOWN));
}

/** A text with its unseen characters in sight, such as ⟨U+202E⟩. */
function inSight(text) {
  return text.replace(ALL_UNSEEN, (c) => `⟨U+${c.codePointAt(0).toString(16).toUpperCase().padStart(4, "0")}⟩`);
}

/** The words of a line, with the place of an offence marked, and unseen characters in sight. */
function marked(line, told) {
  if (!told || told.at === undefined) return [inSight(line)];
  const end = told.at + told.length, mark = element("mark", {}, inSight(line.slice(told.at, end)));
  if (told.length === 0) mark.className = "end";
  return [inSight(line.slice(0, told.at)), mark, inSight(line.slice(end))];
}

/** How an answer ended and how long it took, in words. */
function aboutOf(status, count, time, isStopped, unread) {
  if (unread && unread.said) return unread.offers.length > 0 ? countOfThings(unread.offers.length, "reading", "readings") : "not read";
  const refused = status < 0 ? "no answer" : `refused, status ${status}`;
  const how = isStopped ? "stopped" : status === 0 ? count : refused;
  const took = time < 1000 ? `${time.toFixed(0)} ms` : `${(time / 1000).toFixed(1)} s`;
  return [how, time < 1 ? "under 1 ms" : took].filter(Boolean).join(", ");
}

const note = (name, ...parts) => element("p", { class: name }, ...parts);

/** What was typed, where that is not the line that ran, and what was left out of it. */
function changesOf({ typed, line, changes }) {
  const left = changes.length > 0 ? ` The page left out ${allOf(changes)}.` : "";
  return typed.trim() === line ? [] : [note("note", `Typed as “${named(inSight(typed))}”.${left}`)];
}

/** A button that runs a reading, and what that computes, in mathematics. */
function offer(it) {
  const typed = typedOf(it), zero = it.zero ? [" ", element("span", { class: "note" }, "is 0 by its sizes")] : [];
  return [element("button", { type: "button", "data-line": typed }, typed), " ", element("span", { class: "math" }, ...formula(computedBy(it.line, it.asked))), ...zero];
}

/** What a line that was answered can be meant as, too. (What that would compute is not said: right above the text stands what was computed.) */
function insteadOf(job) {
  return meantInstead(job).map((it) => note("offer note", it.why, ...(it.line ? [": ", offer(it)[0]] : ["."])));
}

/** What a line could mean that was not read, or that was refused. */
function offersOf({ line, unread }) {
  const offers = unread ? unread.offers : lettersApart(line);
  const items = offers.map((it) => element("li", {}, ...offer(it)));
  const said = items.length > 0 && !(unread && unread.said) ? [note("unclear", "It could mean:")] : [];
  return items.length > 0 ? [...said, element("ul", { class: "offers" }, ...items)] : [];
}

/** What of an answer was asked for: the sign of equality and its value, and which lines say it. */
function askedOf({ line, asked }, text) {
  const answer = answerOf(line, text), same = (list) => (it) => String(it) === String(partition(list).map(Number));
  if (!asked || !answer) return null;
  if (asked.kind === "count") return { value: String(sizeOf(answer, text)), isAsked: () => false };
  const sum = { H: (it) => it.q === "0", Fl: (it) => it.first.length <= asked.n }[asked.kind], isTerm = sum ?? ((it) => same(asked.kind === "χ" ? asked.of : asked.at)(it.first) && (it.q ?? "0") === String(asked.q ?? 0));
  const terms = answer.terms.filter(isTerm), isAsked = (it) => (termsOf(`${it}\n`) || []).some(isTerm);
  return { value: sum ? shownSum(terms, answer.letter) : (terms[0] || { c: "0" }).c.replace("-", "−"), isAsked, terms };
}

/** The answer to what was asked for, above the whole answer: its left side and its value, and the line that says it. */
function askedNote(job, found) {
  const left = computedBy(job.line, job.asked), isNone = found.terms && found.terms.length === 0;
  const where = job.asked.kind === "count" ? "There are so many lines" : isNone ? "No line says so: what is not there is 0" : found.terms.length === 1 ? "The marked line says so" : "The marked lines say so";
  return [
    element("p", { class: "asked math" }, ...mathNodes(left), " = ", element("strong", {}, ...mathNodes(found.value))),
    note("note", `${where}. The whole answer is that of ${job.line}:`),
  ];
}

/** What the page adds to the text of an answer, in words: what was refused, what it means. */
function notesOf(job, isDone, told, error) {
  const { line, unread } = job, notes = told ? [note(unread && unread.said && unread.offers.length > 0 ? "unclear" : "said", told.sentence + (error ? ` (${error})` : ""))] : [];
  if (isDone && line === "batch") notes.push(note("note", "Here batch has no input. Type commands with ; between them."));
  const outside = isDone ? [outsideBox(line), reductionOf(line), namedCoefficients(line).replace(/^: /, "The coefficients are ")].filter(Boolean).map((it) => note("note", ...formula(it))) : [];
  return isDone ? [...notes, ...outside, ...(job.isQuestion ? meaningsOf(line) : []).map((it) => note("meaning", ...it))] : notes;
}

/** What was computed, in mathematics, from the words that ran. */
function computedNote(line) {
  const computed = computedBy(line);
  return computed ? [element("p", { class: "computed math" }, ...mathNodes(computed))] : [];
}

/** The right side of an equation that is shown; nothing, if it is long or no formula. */
function rightOf(answer, text) {
  if (answer?.kind === "number") return answer.value;
  const isShort = answer?.kind === "terms" && answer.terms.length <= MOST_DRAWN && sizeOf(answer, text) === answer.terms.length;
  return isShort ? shownSum(answer.terms, answer.letter) : "";
}

/** The equation of an answer: its left side, what was printed as a sum, and what holds for it. */
function equation(line, right, nodes = mathNodes) {
  const { left, where } = leftOf(line);
  const sides = [element("span", { class: "left" }, ...nodes(left)), " ", element("span", { class: "sum" }, ...nodes(`= ${right}`))];
  return element("p", { class: "equation math" }, ...sides, ...(where ? [element("span", { class: "where" }, ...nodes(where))] : []));
}

/** The latest answers that are not shown, since a hundred others will come: each its job and answer. */
let unshown = [];

/** Keeps an answer and shows it above the others, if fewer wait than are shown; says what it came to. */
function show(job, answer) {
  const { line } = job, { text = "" } = answer;
  keepText(line, text);
  if (waiting.length < MOST_ANSWERS) {
    unshown = [];
    return shownArticle(job, answer);
  }
  unshown = [...unshown.slice(1 - MOST_ANSWERS), [job, answer]];
  return [`${named(inSight(line))}: done.`];
}

/** Shows the latest answers that were not shown, where no others come. */
function showUnshown() {
  for (const it of unshown) shownArticle(...it);
  unshown = [];
}

/** What is said of a line that has no answer, and which part of it is marked. */
function toldOf({ line, unread }, status, text) {
  if (unread && unread.said) return { sentence: unread.said, at: unread.at, length: unread.length };
  return explained(line, status, text);
}

/** Shows an answer above the others, and says what it came to. */
function shownArticle(job, { status, text = "", time, stopped, why, error }) {
  const { line, unread } = job, isDone = status === 0;
  const told = stopped || isDone ? null : toldOf(job, status, text);
  const answer = isDone ? answerOf(line, frontOf(line, text)) : null, count = countOf(answer, text), found = isDone ? askedOf(job, text) : null;
  const computed = isDone || stopped || text === "! Large\n" ? computedNote(line) : [], right = rightOf(answer, text), sum = right ? [equation(line, right)] : [];
  const id = `answer-${(numberOfAnswer += 1)}`, title = element("h3", { id }, element("code", { dir: "ltr" }, ...marked(line, told)));
  const header = element("header", {}, title, element("span", {}, aboutOf(status, count, time, stopped, unread)));
  const article = element("article", { "aria-labelledby": id, tabindex: "-1" }, header, ...changesOf(job), ...(found ? askedNote(job, found) : []), ...(isDone ? insteadOf(job) : []), ...computed);
  if (!isDone) article.className = "refused";
  article.dataset.of = keyOf(job);
  article.dataset.title = named(inSight(addressOf(job)));
  entitle(article.dataset.title);
  if (isDone) answersOfArticles.set(article, { line, text });
  if (text) article.append(...textOf(line, text, found ? found.isAsked : undefined), ...sum);
  if (stopped && why) article.append(note("note", `Press Run for the answer: ${why}.`));
  article.append(...notesOf(job, isDone, told, error), ...(told ? offersOf(job) : []), toolsOf(job, text, answer, found));
  article.append(...picturesOf(line, answer, text), ...(isDone ? theoremOf(line) : []));
  place(article);
  performance.mark("answer");
  const outcome = stopped ? "stopped" : told ? (unread && unread.said ? "not run" : "refused") : count || "done";
  return [`${named(inSight(line))}: ${outcome}.`, told ? told.sentence : ""];
}

/** The drawings of an answer and its pictures step by step; a button for them, where many commands wait. */
function picturesOf(line, answer, text) {
  const made = () => {
    const box = drawn(answer, text);
    return [...(box ? [box, toolsOfDrawings(box, line, answer)] : []), ...steps(line, answer)];
  };
  if (waiting.length < 20) return made();
  return answer && drawn(answer, text) ? [button("Draw", (event) => event.target.replaceWith(...made()))] : [];
}

/** Keeps the text of an answer; the oldest ones go where they are too many. */
function keepText(line, text) {
  kept.push({ line, text });
  sizeKept += text.length;
  answersGiven += 1;
  while (sizeKept > MOST_KEPT && kept.length > 1) sizeKept -= kept.shift().text.length;
}

/** Puts an article above the others. */
function place(article) {
  at("given").hidden = false;
  at("answers").prepend(article);
  countShown();
}

/** Takes the oldest answers away, and says how many of them are shown. */
function countShown() {
  const articles = at("answers").children;
  while (articles.length > Math.min(MOST_ANSWERS, kept.length)) articles[articles.length - 1].remove();
  const number = (it) => it.toLocaleString("en");
  at("older").hidden = answersGiven <= articles.length;
  const shownOf = `${number(articles.length)} of ${number(answersGiven)}`;
  at("older").textContent = `The last ${shownOf} answers are shown; ${number(kept.length)} can be downloaded.`;
}

/** Takes all answers away. */
function clearAnswers() {
  const articles = [...at("answers").children], texts = kept.splice(0), [size, given] = [sizeKept, answersGiven];
  at("answers").replaceChildren();
  sizeKept = answersGiven = 0;
  unshown = [];
  at("given").hidden = true;
  at("older").hidden = true;
  entitle();
  say("The answers were cleared.");
  canUndo("the answers", () => {
    kept.unshift(...texts);
    sizeKept += size;
    answersGiven += given;
    at("answers").append(...articles);
    at("given").hidden = false;
    countShown();
  });
  toField();
}

/** The answers as a transcript. */
function transcript() {
  return kept.map(({ line, text }) => `$ calc ${line}\n${text}`);
}

/** A button beside the word "Copy", which is a part of its name. */
function copyButton(name, action) {
  const it = button("", action);
  it.append(element("span", { class: "unseen" }, "Copy "), name);
  return it;
}

/** A row of buttons that copy: of each its name, what makes the text when it is pressed, and what that is called. */
function copyTools(copies) {
  const one = ([name, made, what]) => copyButton(name, () => copy(made(), what));
  return element("div", { class: "tools" }, element("span", { "aria-hidden": "true" }, "Copy"), ...copies.map(one));
}

/** The buttons of an answer. */
function toolsOf(job, text, answer, found) {
  const { line } = job, whole = () => answerOf(line, text), copies = text ? [["text", () => text, "Text"]] : [];
  if (found) copies.push(["the value as LaTeX", () => latexOfFormula(`${computedBy(line, job.asked)} = ${found.value}`), "LaTeX"]);
  if (answer) copies.push(["LaTeX", () => latexOf(whole(), line), "LaTeX"]);
  if (answer && sageOf(answer, line) !== null) copies.push(["for Sage", () => sageOf(whole(), line), "Text for Sage"]);
  if (answer) copies.push(["for Python", () => pythonOf(whole(), line), "Text for Python"], ["CSV", () => asCSV(sheetOf(whole())), "CSV"], ["TSV", () => asTSV(sheetOf(whole())), "TSV"]);
  const tools = copyTools(copies);
  tools.append(linkButton(addressOf(job)));
  return tools;
}

/** What the questions to begin with say of the answer to a line, each as its parts. */
function meaningsOf(line) {
  const buttons = [...document.querySelectorAll("#questions [data-line]")];
  const asking = buttons.filter((it) => it.dataset.line === line);
  return asking.map((it) => it.closest("li").querySelector(".meant").cloneNode(true).childNodes);
}
