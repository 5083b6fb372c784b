// The words of the commands: the table GRAMMAR, made from the manual page, the form of each command's words, and what each word of a line is.

const GRAMMAR = new Map(Object.entries(/*GRAMMAR*/ null));
const LIMITS = /*LIMITS*/ null;

/** The comment at the end of a line; a formula can begin with #, too: #SYT(3,2). */
const COMMENT = /(?:^#(?=[ \t#]|$)|[ \t]#).*$/;

/** The words of a line, each with the place where it begins. */
function wordsOf(line) {
  return [...line.matchAll(/[^ \t]+/g)].map((found) => ({ text: found[0], at: found.index }));
}

/** The words of a line as texts. */
function textsOfWords(line) {
  return wordsOf(line).map((it) => it.text);
}

// A form says whether it allows no words (`nullable`) and with which places words can begin and end; each place
// has the places that can follow it. A place has the role of its word in the command and, if it can be one word
// alone, that word as its text.

const EMPTY = { nullable: true, first: [], last: [] };

function word(role, text) {
  const place = { role, text, next: [] };
  return { nullable: false, first: [place], last: [place] };
}

function join(left, right) {
  for (const place of left.last) place.next.push(...right.first);
  return {
    nullable: left.nullable && right.nullable,
    first: left.nullable ? [...left.first, ...right.first] : left.first,
    last: right.nullable ? [...left.last, ...right.last] : right.last,
  };
}

function inTurn(...forms) {
  return forms.reduce(join, EMPTY);
}

function either(left, right) {
  const both = (name) => [...left[name], ...right[name]];
  return { nullable: left.nullable || right.nullable, first: both("first"), last: both("last") };
}

function many(form) {
  for (const place of form.last) place.next.push(...form.first);
  return { ...form, nullable: true };
}

const atLeastOne = (role) => inTurn(word(role), many(word(role)));
const rowWords = (role) => either(word(role, "."), atLeastOne(role));
const tableauWords = (role) => inTurn(rowWords(role), many(inTurn(word("sign", "/"), rowWords(role))));

/** The lists of words by the role of their slot, and the role of each of their words. */
const LISTS = {
  partition: () => many(word("part")),
  permutation: () => atLeastOne("letter"),
  letters: () => many(word("value")),
  tableau: () => tableauWords("entry"),
  recording: () => tableauWords("recording"),
  filling: () => tableauWords("filling"),
};
/** The roles of those that are numbers alone. */
const PLAIN_LISTS = ["partition", "permutation", "letters"];
const isList = (slot) => Object.hasOwn(LISTS, slot.role);

/** The form of a slot of the table. */
function formOf(slot) {
  if (slot.sign) return word("sign", slot.sign);
  if (slot.optional) return either(EMPTY, inTurn(...slot.optional.map(formOf)));
  if (slot.more) return many(inTurn(...slot.more.map(formOf)));
  return isList(slot) ? LISTS[slot.role]() : word(slot.role);
}

const FORMS = new Map([...GRAMMAR].map(([name, { words }]) => [name, inTurn(...words.map(formOf))]));

const EXPRESSIONS = ["expression", "outer", "inner"];

/** Whether a word may be at a place. */
function fits(text, place) {
  if (place.text !== undefined) return text === place.text;
  if (place.role === "basis") return /^[mehps]$/.test(text);
  return EXPRESSIONS.includes(place.role) ? readExpression(text).isWhole : /^\d+$/.test(text);
}

/**
 * The places of the words after the name as far as they go on to a command, the places that the next word can
 * have, and whether the command can end there.
 */
function walk(words) {
  const form = FORMS.get(words[0]) || { ...EMPTY, nullable: false };
  const places = [];
  let next = form.first, mayEnd = form.nullable;
  for (const text of words.slice(1)) {
    const place = next.find((it) => fits(text, it));
    if (!place) break;
    places.push(place);
    next = place.next;
    mayEnd = form.last.includes(place);
  }
  return { places, next, mayEnd };
}

/** Whether words are those of a command; what their numbers are does not matter. */
function isCommand(words) {
  const { places, mayEnd } = walk(words);
  return places.length === words.length - 1 && mayEnd;
}

/** The command whose help a line asks for, nothing for all of them; undefined, if it asks for none. */
function helpAsked(line) {
  const first = /^(?:help|\?|man|--help|-h)(?:[ \t]+(\S+))?$/i.exec(line), last = /^(\S+)[ \t]+(?:help|(\?)|--help|-h)$/i.exec(line);
  // (a question mark after a formula asks for its value)
  if (!first && (!last || (last[2] && !GRAMMAR.has(last[1])))) return undefined;
  const name = (first ? first[1] : last[1]) || "";
  return GRAMMAR.has(name) ? name : "";
}

// ---- the parts of a command

/** The end of the words from a place on that a list of this role takes. */
function endOfList(words, from, role) {
  const isPart = PLAIN_LISTS.includes(role) ? /^\d+$/ : /^(\d+|\.|\/)$/;
  let end = from;
  while (end < words.length && isPart.test(words[end])) end += 1;
  return end;
}

/**
 * The arguments of a command by its slots, in turn: `{role, name, words}` of each, and of an option `{sign}`. Null if
 * the words are no command.
 */
function partsOf(words) {
  if (!isCommand(words)) return null;
  const parts = [];
  let at = 1;
  const take = (slot) => {
    if (slot.optional) return words[at] === slot.optional[0].sign && slot.optional.forEach(take);
    if (slot.more) {
      while (words[at] === slot.more[0].sign) slot.more.forEach(take);
      return;
    }
    const end = isList(slot) ? endOfList(words, at, slot.role) : at + 1;
    parts.push({ ...slot, words: words.slice(at, end) });
    at = end;
  };
  GRAMMAR.get(words[0]).words.forEach(take);
  return parts;
}

/** A number as it is counted: without zeros in front. */
function plainNumber(text) {
  return text.replace(/^0+(?=\d)/, "");
}

/** The numbers of a partition that is typed so: without zeros at the end. */
function partition(words) {
  const numbers = words.map(plainNumber);
  while (numbers.length > 0 && numbers[numbers.length - 1] === "0") numbers.pop();
  return numbers;
}

const sumOf = (numbers) => numbers.reduce((sum, it) => sum + Number(it), 0);
const isDecreasing = (numbers) => numbers.every((it, i) => i === 0 || Number(it) <= Number(numbers[i - 1]));
const isPermutation = (numbers) => numbers.length > 0 && numbers.every((_, i) => numbers.some((it) => Number(it) === i + 1));

/** Whether a partition is inside another one. */
function isInside(inner, outer) {
  return inner.every((it, i) => Number(it) <= Number(outer[i] || 0));
}

/** The conjugate of a partition. */
function conjugate(list) {
  const most = Number(list[0] || 0);
  if (!isDecreasing(list) || most > LIMITS.cells) return null;
  return Array.from({ length: most }, (_, j) => String(list.filter((it) => Number(it) > j).length));
}

/** The partitions inside a rectangle, the whole rectangle, and the rest of it, turned: the class dual to another one. */
const isInBox = (list, { rows, columns }) => partition(list).length <= rows && Number(list[0] || 0) <= columns;
const rectangle = ({ rows, columns }) => Array(rows).fill(String(columns));
const dualOf = (list, space) => (isPartition(list) && isInBox(list, space) ? Array.from({ length: space.rows }, (_, i) => String(space.columns - Number(list[space.rows - 1 - i] || 0))) : null);

/** The dimension of the module of GL with so many rows. */
const dimensionOf = (list, rows) => Math.round(Array.from({ length: rows ** 2 }, (_, n) => [Math.floor(n / rows), n % rows]).reduce((size, [i, j]) => (i < j ? (size * ((list[i] || 0) - (list[j] || 0) + j - i)) / (j - i) : size), 1));

/** The letters of a product of cycles, the right one first; null if there is none. */
function cycled(cycles) {
  const most = Math.max(...cycles.flat().map(Number)), isCycle = (it) => new Set(it).size === it.length && it.every((x) => Number(x) >= 1);
  if (most > LIMITS.letters || !cycles.every(isCycle)) return null;
  const moved = (x, it) => (it.includes(x) ? it[(it.indexOf(x) + 1) % it.length] : x);
  return Array.from({ length: most }, (_, i) => cycles.reduceRight(moved, String(i + 1)));
}

const inverseOf = (w) => w.map((_, i) => String(w.map(Number).indexOf(i + 1) + 1));

/** The permutation with a code of Lehmer: each number says how many smaller letters come after its letter; null, if it has too many letters. */
function ofCode(code) {
  const size = Math.max(...code.map((it, i) => Number(it) + i + 1)), rest = size <= LIMITS.letters ? Array.from({ length: size }, (_, i) => String(i + 1)) : [];
  return size <= LIMITS.letters ? rest.slice().map((_, i) => rest.splice(Number(code[i] || 0), 1)[0]) : null;
}

/** Whether the rows of a tableau increase weakly and its columns strictly, after gaps. */
function isTableau(rows) {
  const cells = rows.map((row) => row.map((it) => (it === "." ? 0 : Number(it) || NaN)));
  return cells.every((row, i) => row.every((it, j) => (row[j - 1] ?? 0) <= it && (i === 0 || (it === 0 ? cells[i - 1][j] === 0 : cells[i - 1][j] < it))));
}

/** Whether the numbers of a command are such as it takes, as far as that is seen here: so an offer is no silly one. */
function isSound(words) {
  const parts = partsOf(words);
  if (!parts) return false;
  const inBounds = ({ role, words: given }) => {
    const numbers = given.map(plainNumber);
    if (role === "partition") return numbers.length <= LIMITS.parts && sumOf(numbers) <= LIMITS.cells && isDecreasing(numbers);
    if (role === "expression" && degreeOf(given[0]) > degreeAllowed(parts.find((it) => it.role === "basis").words[0])) return false;
    if (EXPRESSIONS.includes(role)) return [...given[0].matchAll(/\[([\d,]+)\]/g)].every(([, list]) => isDecreasing(list.split(",")));
    if (role === "permutation") return numbers.length <= lettersAllowed(words[0]) && isPermutation(numbers);
    if (["rows", "columns", "level", "variables"].includes(role)) return Number(numbers[0]) >= 1 && Number(numbers[0]) <= LIMITS.rows;
    return role !== "letters" || numbers.every((it) => Number(it) >= 1 && Number(it) <= LIMITS.value);
  };
  const lists = parts.filter((it) => it.role === "partition").map((it) => partition(it.words));
  const isSkew = words.includes("/") && ["skew", "tab", "rect"].includes(words[0]);
  return parts.every((it) => it.sign || inBounds(it)) && lists.length <= LIMITS.factors && (!isSkew || isInside(lists[1], lists[0]));
}

/** The most letters of a permutation of a command. */
function lettersAllowed(name) {
  return LIMITS[`letters of ${name}`] || LIMITS.letters;
}

// ---- expressions

const OPERATORS = "+-*";

/** An expression as it is read (`expressionRead`). The last one is kept: the readings of a line differ often only in their basis. */
const lastRead = { text: null, read: null };
function readExpression(text) {
  if (text !== lastRead.text) Object.assign(lastRead, { text, read: expressionRead(text) });
  return lastRead.read;
}

/**
 * Reads an expression as far as its bytes begin one: how many bytes those are, whether the whole word is an
 * expression, the state in which it stopped (`SENTENCES` says for each what comes next), how many parentheses are
 * open there, and the marks at which numbers and parentheses begin.
 */
function expressionRead(text) {
  const marks = [];
  let state = "start", depth = 0, at = 0, atom = [], begun = 0;
  const mark = (kind, more) => {
    begun = at;
    marks.push({ at, kind, depth, ...more });
  };
  const step = {
    start: (c) => (c === "-" ? "term" : step.term(c)),
    term: (c) => {
      if (/\d/.test(c)) return mark("value"), "number";
      if (/[mehps]/.test(c)) return (atom = []), "letter";
      if (c === "(") return (depth += 1), mark("opening"), "start";
      return null;
    },
    number: (c) => (/\d/.test(c) ? "number" : c === "/" ? "slash" : step.after(c)),
    slash: (c) => (/\d/.test(c) ? (mark("denominator"), "denominator") : null),
    denominator: (c) => (/\d/.test(c) ? "denominator" : step.after(c)),
    letter: (c) => (c === "[" ? "list" : null),
    list: (c) => (c === "]" ? "after" : step.comma(c)),
    comma: (c) => (/\d/.test(c) ? (mark("entry", { before: [...atom] }), "entry") : null),
    entry: (c) => {
      if (/\d/.test(c)) return "entry";
      atom.push(text.slice(begun, at));
      return c === "," ? "comma" : c === "]" ? "after" : null;
    },
    after: (c) => {
      if (OPERATORS.includes(c)) return "term";
      return c === ")" && depth > 0 ? ((depth -= 1), "after") : null;
    },
  };
  for (; at < text.length; at += 1) {
    const next = step[state](text[at]);
    if (!next) break;
    state = next;
  }
  const ends = ["number", "denominator", "after"].includes(state);
  return { length: at, isWhole: at === text.length && ends && depth === 0, state, depth, marks };
}
