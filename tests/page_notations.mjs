// Tries how the page reads lines, by readers that share nothing with its chart: node page_notations.mjs SCRIPT WHAT COUNT [SEED] prints what is wrong,
// some lines of it, and how much was tried, as JSON. SCRIPT has the scripts of the page that touch no page (`script_of` of web/build). WHAT is
//   trees      short made lines: the values of all trees, which are found here by trying all ways to cut a line
//   questions  texts written for known questions, turned round: one that is written for two questions does not run, one for one runs no other
//   formulas   made lines of the program: the formula that is printed of each, read as a line, is that line again
//   runs       made lines that run: what is typed, the words that run, and the formula, for a reader of another hand
//   times      lines of COUNT bytes, and of a part of that: how many milliseconds each takes, the best of SEED attempts
import fs from "fs";
import vm from "vm";

const [script, what, count, seed = "1"] = process.argv.slice(2);
vm.runInThisContext(fs.readFileSync(script, "utf8"));
const [read, isRaw, notation_, signsOf_, parsed_, computed, typedOf_, plain] = vm.runInThisContext("[readTyped, (it) => isCommand(textsOfWords(it)), notation, signsOf, parsed, computedBy, typedOf, plainFormula]");

// (seeds beside each other begin far from each other)
let state = Math.imul(Number(seed), 0x9e3779b1) & 0x7fffffff;
// (the product of two numbers of 31 bits is kept whole by imul alone: else the numbers come round after some thousands)
const random = (n) => ((state = (Math.imul(state, 1103515245) + 12345) & 0x7fffffff), Math.floor((state / 2147483648) * n));
const pick = (list) => list[random(list.length)];
function shuffled(list) {
  const all = [...list];
  for (let i = all.length - 1, j; i > 0; i -= 1) (j = random(i + 1)), ([all[i], all[j]] = [all[j], all[i]]);
  return all;
}

// ---- made lines: lists, functions and signs beside each other, a tenth of them with one sign changed

const PARTITIONS = ["1", "2", "2 1", "1 1", "3 1", "2 2", "3 2 1", "1 1 1", "12", "10 1", "", "3", "2 1 1", "21"].map((it) => it.split(" ").filter(Boolean));
const PERMUTATIONS = ["2 1", "1 3 2", "2 1 4 3", "1 4 3 2", "3 1 2", "1"].map((it) => it.split(" "));
const joined = (joint, before = "", after = "") => (list) => before + list.join(joint) + after;
const STYLES = [
  ...[joined(",", "(", ")"), joined(",", "[", "]"), joined(",", "{", "}"), joined(" "), joined(","), joined(""), joined(" ", "(", ")"), joined(", "), joined("", "(", ")")],
  ...[joined("", "s_"), joined(",", "s_{", "}"), joined("", "s_{", "}"), joined(",", "s[", "]"), joined("", "σ_{", "}"), joined("", "s"), joined(",", "s_"), joined(" ", "[", "]")],
  ...[joined("", "S_{", "}"), joined(",", "𝔖_{", "}"), joined("", "h_"), joined(",", "e[", "]"), joined(",", "p_{", "}"), joined("", "s_{", "}^2"), joined(",", "(", ")^2"), joined(",", "(", ")'")],
  ...[joined("", "S_"), (list) => (list.length > 0 ? `${list[0]}^2` : "∅"), joined(",", "m(", ")"), joined("", "F_{", "}"), joined("", "ω s_{", "}"), joined(",", "s([", "])")],
];
const HEADS = "mult |mult ||||coef |quantum 2 2 |quantum Gr(2,4) |fusion 2 1 |skew |expand s |coprod |mult(|K_{|c^{21}_{|coef(|product of |f^{|χ^{21}(|coproduct of |LR |in Gr(2,4): ".split("|");
const PERMUTATION_HEADS = "schubmult |schubert ||stanley -r 2 |rsk |growth |dschubmult |schubmult(|F|P and Q of ".split("|");
const SEPARATORS = [" ", " ", "*", " * ", " - ", ",", ", ", "", " / ", "/", " and ", "+", "-", "·", ";"];
/** The styles and separators with which most lines have one reading. */
const CLEAR = [joined(",", "(", ")"), joined(",", "[", "]"), joined(",", "s_{", "}"), joined(",", "s[", "]"), joined(",", "{", "}"), joined(",", "𝔖_{", "}"), joined(",", "h[", "]"), joined(",", "e_{", "}"), joined(",", "p[", "]"), joined(",", "σ_{", "}")];
const CLEAR_SEPARATORS = [" ", "*", " * ", " - ", ", ", "/", "+"];
const TAILS = ["", "", "", "", " in s", " in Gr(2,4)", " in QH*(Gr(2,5))", " -r 2", " in 3 variables", " to p", " -m", "[h_2]", " at (2,1)"];

/** A made line; a clear one has likely one reading. */
function madeLine(isClear = false) {
  const isPermutation = random(5) === 0, pool = isPermutation ? PERMUTATIONS : PARTITIONS, style = pick(isClear ? CLEAR : STYLES), separator = pick(isClear ? CLEAR_SEPARATORS : SEPARATORS);
  const head = pick(isPermutation ? PERMUTATION_HEADS : HEADS), size = /coef|c\^/.test(head) ? 3 : 1 + random(3), close = { "(": ")", "{": "}" }[head.slice(-1)] ?? "";
  const items = Array.from({ length: size }, () => (random(5) === 0 ? pick(isClear ? CLEAR : STYLES) : style)(pick(pool)));
  const line = head + items.reduce((all, it) => all + (random(isClear ? 30 : 8) === 0 ? pick(SEPARATORS) : separator) + it) + close + pick(TAILS);
  const at = random(line.length);
  return random(10) === 0 ? line.slice(0, at) + pick(["", ",", "_", "^", "(", ")", " ", "2", "*", "[", "]"]) + line.slice(at + 1) : line;
}

// ---- all trees, by trying all ways to cut a line

/** A value, with how its lists were typed. */
const nameOf = (it) => JSON.stringify([it.value, it.digits], (_, of) => (Array.isArray(of) && of.how ? [of.how, ...of] : of));

function treesOf(signs) {
  const { states, startsOf, ids, signsOfItem } = notation_(), known = new Map(), length = signs.length;
  const derived = (id, begin, end) => {
    const key = `${id} ${begin} ${end}`;
    if (!known.has(key)) {
      const found = new Map();
      for (const start of startsOf[id]) cut(states[start].of, 0, begin, end, [], { digits: 0, isRepair: states[start].of.isRepair, isDoubt: states[start].of.isDoubt }, found);
      known.set(key, [...found.values()]);
    }
    return known.get(key);
  };
  const put = (found, it) => {
    const old = found.get(nameOf(it));
    found.set(nameOf(it), old ? { ...it, isRepair: old.isRepair && it.isRepair, isDoubt: old.isDoubt && it.isDoubt } : it);
  };
  const cut = (of, k, begin, end, given, marks, found) => {
    if (k === of.items.length) {
      if (begin !== end) return;
      const values = Array(of.count);
      for (const [place, value] of given) values[place] = value;
      const made = of.give(values), all = Array.isArray(made) && made.isEither ? made : [{ value: made }];
      for (const it of all) {
        if (it.value === null || it.value === undefined || (it.digits && marks.digits && it.digits !== marks.digits)) continue;
        put(found, { value: it.value, digits: it.digits || marks.digits, isRepair: marks.isRepair || Boolean(it.isRepair), isDoubt: marks.isDoubt || Boolean(it.isDoubt) });
      }
      return;
    }
    const { name, gap, place } = of.items[k], rest = of.items.length - k - 1;
    if (begin >= end || (begin > 0 && gap && (gap === 1) === signs[begin].gap)) return;
    if (!ids.has(name)) {
      const all = signsOfItem(name);
      if (all.includes(signs[begin].kind)) cut(of, k + 1, begin + 1, end, [...given, [place, signs[begin].value]], marks, found);
      return;
    }
    for (let middle = rest === 0 ? end : begin + 1; middle <= end - rest; middle += 1) {
      for (const it of derived(ids.get(name), begin, middle)) {
        if (marks.digits && it.digits && marks.digits !== it.digits) continue;
        cut(of, k + 1, middle, end, [...given, [place, it.value]], { digits: marks.digits || it.digits, isRepair: marks.isRepair || it.isRepair, isDoubt: marks.isDoubt || it.isDoubt }, found);
      }
    }
  };
  return derived(ids.get("Line"), 0, length).map((it) => nameOf(it) + it.isRepair + it.isDoubt).sort();
}

function trees() {
  const wrong = [];
  let tried = 0, one = 0;
  while (tried < Number(count)) {
    const line = madeLine(), signs = signsOf_(line, notation_());
    if (signs.length === 0 || signs.length > 13) continue;
    tried += 1;
    const mine = treesOf(signs), { values, isMany } = parsed_(notation_(), "Line", signs);
    const theirs = values.map((it) => nameOf(it) + it.isRepair + it.isDoubt).sort();
    if (!isMany && JSON.stringify(mine) !== JSON.stringify(theirs)) wrong.push([line, mine, theirs]);
    const it = read(line), sure = new Set(mine.filter((of) => of.includes('"line"') && /\]false(?:true|false)$/.test(of)).map((of) => JSON.parse(of.replace(/(?:true|false)+$/, ""))[0]).map((of) => of.line + JSON.stringify(of.asked ?? "")));
    if (!it.unread && !isRaw(line) && it.line && it.help === undefined && (one += 1) && sure.size !== 1 && !isRaw(it.line.trim() === line.trim() ? line : "")) {
      if (sure.size > 1) wrong.push([line, "runs, and has the readings", [...sure]]);
    }
  }
  return { tried, one, wrong };
}

// ---- texts written for known questions

const isApart = (list) => list.every((it) => it.length === 1);
const runsOf = (list) => list.reduce((all, it) => (all.length > 0 && all[all.length - 1][0] === it ? (all[all.length - 1][1] += 1) : all.push([it, 1]), all), []);
const raised = (list) => runsOf(list).map(([it, n]) => (n > 1 ? `${it}^${n}` : it));
/** How a list is written; nothing, where it is not written so. */
const WRITTEN = {
  round: joined(",", "(", ")"), square: joined(",", "[", "]"), braces: joined(",", "{", "}"), blanks: joined(" "), commas: joined(","), loose: joined(", "),
  apart: (it) => isApart(it) && it.join(""), roundApart: (it) => isApart(it) && `(${it.join("")})`, roundBlanks: (it) => it.length > 1 && `(${it.join(" ")})`,
  index: (it) => isApart(it) && `s_${it.join("")}`, one: (it) => it.length === 1 && `s_${it[0]}`, braced: joined(",", "s_{", "}"), bracedApart: (it) => isApart(it) && `s_{${it.join("")}}`,
  sage: joined(",", "s[", "]"), plain: (it) => isApart(it) && `s${it.join("")}`, tight: joined(",", "s_"), called: (it) => isApart(it) && `s(${it.join("")})`, call: joined(",", "s(", ")"),
  powers: (it) => raised(it).join() !== it.join() && `(${raised(it).join(",")})`, indexPower: (it) => it.length > 1 && runsOf(it).length === 1 && `s_${it[0]}^${it.length}`,
  bracedPowers: (it) => isApart(it) && raised(it).join() !== it.join() && `s_{${raised(it).join("")}}`,
};
/** The partitions of 1 to 6. */
const partitionsOf = (n, most = n) => (n === 0 ? [[]] : Array.from({ length: Math.min(n, most) }, (_, i) => i + 1).flatMap((first) => partitionsOf(n - first, first).map((rest) => [String(first), ...rest])));
const SMALL = [1, 2, 3, 4, 5, 6].flatMap((n) => partitionsOf(n));
/** The lists of the questions: partitions that the seed chooses, each also with its digits as one number. Of few of them a few hundred texts are for two
 * questions, of more of them some ten thousand. */
const isSmall = Number(count) <= 3000, CHOSEN = [...shuffled(SMALL).slice(0, isSmall ? 3 : 6), pick([["12"], ["13"], ["10"], ["10", "1"], ["12", "2"]])];
const KNOWN = shuffled(Array.from(new Map([...CHOSEN, ...CHOSEN.map((it) => [it.join("")])].map((it) => [it.join(" "), it])).values()));

/** Texts by the questions for which they are written. */
function writtenTexts() {
  const texts = new Map(), between = [" ", "*", " * ", " - ", ",", ", ", ""], ways = Object.values(WRITTEN);
  const put = (text, question) => texts.set(text.trim(), (texts.get(text.trim()) || new Set()).add(question));
  const each = (lists, head, tail, name, signs = between) => {
    const question = `${name} ${lists.map((it) => it.join(" ")).join(" - ")}${tail}`;
    for (const first of ways) {
      for (const second of ways) {
        const written = lists.map((it, i) => (i === 0 ? first(it) : second(it)));
        if (written.every(Boolean)) for (const sign of signs) put(head + written.join(sign) + tail, question);
      }
    }
  };
  const heads = [["mult ", ""], ["", ""], ["mult ", " -r 2"], ["quantum 2 2 ", ""], ["", " in Gr(2,5)"], ["fusion 2 3 ", ""], ["mult(", ")"]].slice(0, isSmall ? 2 : 4);
  for (const a of KNOWN) {
    for (const b of KNOWN) {
      for (const [head, tail] of heads) each([a, b], head, tail, `${head.trim()} of`);
      if (a.join() === b.join()) for (const way of ways) for (const head of ["mult ", ""]) if (way(a)) put(`${head}${way(a)}^2`, `${head.trim()} of ${a.join(" ")} - ${b.join(" ")}`);
      const isFirst = (it) => KNOWN.indexOf(it) < 4;
      for (const c of isSmall || !isFirst(a) || !isFirst(b) ? [] : KNOWN.slice(0, 4)) for (const head of ["mult ", "coef ", "mult("]) each([a, b, c], head, head.endsWith("(") ? ")" : "", `${head.trim()} of`);
    }
  }
  return texts;
}

function questions() {
  const wrong = [], kinds = { two: 0, offered: 0, one: 0, oneRuns: 0, oneOffered: 0 }, texts = shuffled(writtenTexts());
  const wanted = (question) => question.replace(/^.* of /, "").replace(/ (?:-r|in) .*$|\)$/, "");
  for (const [text, all] of texts) {
    if (isRaw(text) || (all.size > 1 ? kinds.two >= Number(count) : kinds.one >= Number(count) / 4)) continue;
    const { line, unread } = read(text), offers = unread ? unread.offers : [];
    if (all.size > 1) {
      kinds.two += 1;
      if (!unread) wrong.push([text, line, [...all]]);
      else if (offers.length > 0) kinds.offered += 1;
      continue;
    }
    kinds.one += 1;
    const lists = (it) => it.replace(/^(?:(?:quantum|fusion) \d \d |[a-z]+ (?:-r \d )?)/, ""), mine = wanted([...all][0]);
    if (unread) kinds.oneOffered += offers.some((it) => lists(it.line) === mine);
    else if (lists(line) === mine) kinds.oneRuns += 1;
    else wrong.push([text, line, [...all]]);
  }
  return { texts: texts.length, ...kinds, wrong };
}

// ---- formulas, and lines that run

const normal = (line) => line.replace(/(^|[ [,])0+(?=\d)/g, "$1");
function madeCommand() {
  const part = () => pick(PARTITIONS).join(" "), letters = () => pick(PERMUTATIONS).join(" "), rows = pick(["", "-r 2 ", "-m ", "-r 3 -m "]);
  const atom = () => `${pick([..."mehps"])}[${pick(PARTITIONS).join(",")}]`, term = () => pick([atom, atom, () => `${atom()}*${atom()}`, () => `(${atom()}+${atom()})*${atom()}`, () => `2/3*${atom()}`, () => `3*${atom()}`])();
  const sum = () => pick([term, () => `${term()}${pick(["+", "-"])}${term()}`, () => `-${term()}`])(), skew = () => pick(["3 2 1 / 2 1", "21 / 2", "2 2 /", "/", "4 3 / 3", "12 / 12"]);
  return pick([
    () => `mult ${rows}${part()} - ${part()}`, () => `mult ${part()} - ${part()} - ${part()}`, () => `skew ${rows}${skew()}`, () => `coef ${part()} - ${part()} - ${part()}`, () => `coprod ${part()}`,
    () => `quantum ${1 + random(4)} ${1 + random(4)} ${part()} - ${part()}`, () => `fusion ${1 + random(4)} ${1 + random(4)} ${part()} - ${part()}`, () => `schubert ${letters()}`, () => `schubmult ${letters()} - ${letters()}`,
    () => `dschubmult ${letters()} - ${letters()}`, () => `stanley -r ${1 + random(4)} ${letters()}`, () => `expand ${pick(["", "-m "])}${pick([..."mehps"])} ${sum()}`, () => `plethysm ${pick([..."mehps"])} ${sum()} ${term().replace(/\d\/\d\*/, "")}`,
    () => `tab ${skew()}`, () => `rsk ${pick(["", "3 1 2", "12", "1", "10 2 2"])}`, () => "unrsk 1 2 / 3 - 1 3 / 2", () => "unrsk . - .", () => "unrsk 12 - 1", () => "rect 2 2 / 1 - 1 / 1 2", () => `growth ${letters()}`, () => `work ${1 + random(3000)} ${random(9)}`,
    () => "tab 3 2 1 / 2 1 -from 1 / 1 / 2", () => "rect 2 / 2 - .",
  ])().replace(/ +/g, " ").trim();
}

function formulas() {
  const wrong = [], kinds = { back: 0, plainBack: 0, plainOffered: 0, plainUnread: 0 };
  for (let n = 0; n < Number(count); n += 1) {
    const line = madeCommand(), formula = computed(line), it = read(formula), seen = read(plain(formula));
    if (!it.unread && normal(it.line) === normal(line)) kinds.back += 1;
    else wrong.push([line, formula, it.line, it.unread]);
    if (!seen.unread && normal(seen.line) !== normal(line)) wrong.push([line, plain(formula), seen.line]);
    kinds[seen.unread ? (seen.unread.offers.length > 0 ? "plainOffered" : "plainUnread") : "plainBack"] += 1;
  }
  return { ...kinds, wrong };
}

function runs() {
  const found = [];
  for (let n = 0; n < 60 * Number(count) && found.length < Number(count); n += 1) {
    const typed = madeLine(random(4) > 0), { line, asked, unread, help } = read(typed);
    if (!unread && help === undefined && line && !isRaw(typed)) found.push([typed, line, computed(line, asked), asked ? asked.kind : ""]);
  }
  return { found, wrong: [] };
}

// ---- times

function times() {
  // (a shorter line can take longer, where a longer one has more signs, items or factors than are read)
  const most = Number(count), sizes = [1, 3 / 4, 1 / 2, 3 / 8, 1 / 4, 1 / 8].map((it) => Math.floor(it * most));
  const fill = (unit, joint = "", size = most) => unit + (joint + unit).repeat(Math.max(0, Math.floor((size - unit.length) / (joint + unit).length)));
  const linesOf = (size) => [
    ...[`expand s ${fill("h_2*h_1", " + ", size - 9)}`, fill("h_2 ", "", size), `(${fill("1", ",", size - 8)})*(1)`, `mult ${fill("1", " ", size - 5)}`, `mult ${fill("1", ",", size - 5)}`, `mult ${fill("(1)", " ", size - 5)}`, fill("s_{2,1}", "*", size), fill("(", "", size)],
    ...[`mult ${fill("[", "", size - 5)}`, `s_{${fill("1", "", size - 4)}}`, fill("s_{21}", "*", size), fill("\\1 ", "", size), fill("\\", "", size), fill("_", "", size), fill("s", "", size), `${fill("h_2[", "", size / 2)}h_1${fill("]", "", size / 2 - 3)}`, `expand s ${fill("(", "", size / 3)}h_1${fill(")", "", size / 3)}`],
    ...[fill(" ", "", size), `schubert ${fill("(1 2)", "", size - 9)}`, `schubert ${fill("s_1 ", "", size - 9)}`, `mult (${fill("21^21,", "", size - 20)}1) (1)`, `unrsk [${fill("[1,2]", ",", size - 20)}] [[1]]`, `${fill("σ_1", " ", size - 12)} in Gr(2,4)`, `mult ${fill("2,1", ", ", size - 5)}`],
    ...[fill("s_1", "-", size), fill("mult ", "", size), `kronecker ${fill("s_1 ", "", size - 10)}`, `product of ${fill("s_1", " and ", size - 11)}`, `jdt [${fill("[None,1]", ",", size - 6)}]`, `P and Q of the word ${fill("1", " ", size - 20)}`, fill("= ", "", size), fill("' ", "", size), fill('"a " ', "", size), fill("$ ", "", size), fill(" #", "", size), fill("h_2 in ", "", size)],
    ...[`${fill("\\frac{1}{2}p_1", "+", size - 5)} in s`, fill("σ₁³", "", size), fill("∅ ", "", size), fill("c^{21}_{1,1}", "", size), fill("\u202e1", "", size), fill("1\u200b", "", size)],
  ];
  const took = (line) => Math.min(...Array.from({ length: Number(seed) }, () => {
    const before = process.cpuUsage();
    read(line);
    const { user, system } = process.cpuUsage(before);
    return (user + system) / 1000;
  }));
  const all = sizes.map(linesOf);
  all.flat().forEach((it) => read(it));
  return { times: all[0].map((line, i) => [line.slice(0, 24), line.length, ...all.map((lines) => took(lines[i]))]), wrong: [] };
}

const result = { trees, questions, formulas, runs, times }[what]();
console.log(JSON.stringify({ ...result, wrong: result.wrong.slice(0, 12), wrongs: result.wrong.length }));
