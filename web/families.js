// Families: a line with names that are bound after `for`, as `coef 3n 2n n - 2n n - 2n n for n = 1..10`: which rows it has, and the command of each. A
// name is a number or a list. In a command of the program it is a word or a part of an atom; in the other notations it is in a place where only one
// thing can be meant. Whatever else a line has is refused with where it stops.

/** The most rows of a family, and of one whose rows are in other notations, which take longer to be read. */
const MOST_ROWS = 10000;
const MOST_ROWS_READ = 1000;
const NAME = "(?!(?:for|in|of)(?![A-Za-z]))(?:[A-Za-z]{1,20}|[\\u0370-\\u03ff])";
/** A line with the word `for` and a bound after it, of which the last one counts. */
const FAMILY = new RegExp(`^(.*[ \\t])?for[ \\t]+(?:all[ \\t]+)?(?=(?:(?:${NAME})[ \\t]*,[ \\t]*)*(?:${NAME})[ \\t]*(?:[=∈⊢]|\\\\vdash|(?:in|of)(?![A-Za-z])))`, "su");

// ---- what is listed

/** The partitions of n with at most so many columns and rows, in decreasing lexicographic order. */
function partitionsOf(n, most = n, rows = n) {
  if (n === 0) return [[]];
  const found = [];
  for (let first = Math.min(n, most); first > 0 && first * rows >= n; first -= 1) for (const rest of partitionsOf(n - first, first, rows - 1)) found.push([first, ...rest]);
  return found;
}

/** The partitions with at most so many rows and columns, by size. */
function partitionsInside(rows, columns) {
  const all = [];
  for (let n = 0; n <= rows * columns; n += 1) all.push(...partitionsOf(n, columns, rows));
  return all;
}

/** The permutations of n letters, by inversions. */
function permutationsOf(n) {
  const grow = (front, rest) => (rest.length === 0 ? [front] : rest.flatMap((it) => grow([...front, it], rest.filter((other) => other !== it))));
  const inversions = (w) => w.reduce((sum, a, i) => sum + w.slice(i).filter((b) => b < a).length, 0);
  return grow([], Array.from({ length: n }, (_, i) => i + 1)).map((it) => [inversions(it), it]).sort(([a], [b]) => a - b).map(([, it]) => it);
}

/** The number of partitions with at most so many rows and columns, or so large a number that it does not matter. */
const countInside = (rows, columns) => (Math.min(rows, columns) > 14 ? Infinity : Array.from({ length: Math.min(rows, columns) }, (_, i) => i + 1).reduce((count, i) => (count * (Math.max(rows, columns) + i)) / i, 1));

/** Lists that a name can stand for, of one or two numbers: whether they are few, and all of them. */
const LISTED = {
  partitions: { isFew: (n) => n <= 32, all: partitionsOf },
  box: { isFew: (rows, columns) => countInside(rows, columns) <= MOST_ROWS, all: partitionsInside },
  permutations: { isFew: (n) => n <= 7, all: permutationsOf },
};

// ---- numbers and names

/** Why a line is no family: what is said, and the place and the length of what is marked. */
class NoFamily extends Error {
  constructor(said, at, length) {
    super(said);
    Object.assign(this, { at, length });
  }
}

const tooMany = (most = MOST_ROWS) => new NoFamily(sentence("family rows", { most: most.toLocaleString("en") }), 0, 0);

/** A number made of numbers and names, as `3n+1` or `2*n*m`: a function of the values; null, if the text is none. `kinds` has the names that are bound. */
function numberOf(text, kinds) {
  if (!/^[^-+*]+(?:[-+*][^-+*]+)*$/.test(text)) return null;
  const factor = new RegExp(`^(\\d{0,30})(${NAME})?$`, "u");
  const terms = text.split(/(?=[-+])/).map((it) => ({ sign: it[0] === "-" ? -1n : 1n, factors: it.replace(/^[-+]/, "").split("*").map((part) => factor.exec(part)) }));
  if (!terms.every(({ factors }) => factors.every((it) => it && it[0] !== "" && (it[2] === undefined || kinds.get(it[2]) === "number")))) return null;
  // (each term is a number and names, since a family has many rows)
  const products = terms.map(({ sign, factors }) => ({ by: factors.reduce((by, it) => by * BigInt(it[1] || 1), sign), names: factors.map((it) => it[2]).filter(Boolean) }));
  return (values) => {
    let sum = 0n;
    for (const { by, names } of products) {
      let product = by;
      for (const name of names) product *= values.get(name);
      sum += product;
    }
    return sum;
  };
}

// ---- bounds

/** Reads a line from a place on: `take` gives the next piece of a form, or null; `stop` says where it stops and what can come there. */
function reader(line, from) {
  let at = from;
  const skip = () => (at += /^[ \t]*/.exec(line.slice(at))[0].length);
  return {
    take(form) {
      skip();
      const found = new RegExp(`^(?:${form})`, "u").exec(line.slice(at));
      at += found ? found[0].length : 0;
      return found && found[0];
    },
    stop(...expected) {
      skip();
      const word = (/^(?:[\p{L}\d]+|.)/u.exec(line.slice(at)) || [""])[0], front = line.slice(0, at).trimEnd();
      const short = front.length > 36 ? `..${front.slice(-34)}` : front;
      throw new NoFamily(sentence(word ? "stops" : "is short", { front: short, word: named(word), expected: oneOf(expected) }), at, word.length);
    },
    refuse: (said, length = 0) => {
      throw new NoFamily(said, at - length, length);
    },
    isAtEnd: () => (skip(), at === line.length),
  };
}

/** A number of a bound, perhaps with the names that are bound before it. */
function endOfBound(read, kinds) {
  const text = read.take(`[\\p{L}\\d]+(?:[-+*][\\p{L}\\d]+)*`) ?? read.stop("a number"), number = numberOf(text, kinds);
  return number ?? read.refuse(noNumber(text, kinds), text.length);
}

const noNumber = (text, kinds) => sentence(kinds.size > 0 ? "family number" : "family digits", { word: named(text), names: [...kinds.keys()].join(", ") });

/** What a name runs through: its kind, and its values by those of the names before it. */
function rangeOf(read, relation, kinds) {
  const listed = (name, ends) => ({
    kind: "list",
    all: (values) => {
      const numbers = ends.map((it) => it(values)), isFew = numbers.every((it) => it >= 0n) && LISTED[name].isFew(...numbers.map(Number));
      if (!isFew) throw tooMany();
      return LISTED[name].all(...numbers.map(Number));
    },
  });
  if (/of|⊢|vdash/.test(relation)) return listed("partitions", [endOfBound(read, kinds)]);
  if (read.take("\\{")) {
    const found = [endOfBound(read, kinds)];
    while (read.take(",")) found.push(endOfBound(read, kinds));
    return read.take("\\}") ? { kind: "number", all: (values) => found.map((it) => it(values)) } : read.stop("a comma", "}");
  }
  if (relation !== "=" && read.take("S_")) {
    const isBraced = read.take("\\{"), end = endOfBound(read, kinds);
    return isBraced && !read.take("\\}") ? read.stop("}") : listed("permutations", [end]);
  }
  const isBox = relation !== "=" && read.take("(?:the|a)(?=[ \\t])"), from = endOfBound(read, kinds);
  if (!isBox && read.take("\\.\\.(?!\\.)")) return { kind: "number", all: numbersFrom(from, endOfBound(read, kinds)) };
  if (relation === "=" || !read.take("[x×](?![\\p{L}])")) return read.stop(...(isBox ? [] : [".."]), ...(relation === "=" ? [] : ["x and a box"]));
  const columns = endOfBound(read, kinds);
  return read.take("box(?!\\p{L})") ? listed("box", [from, columns]) : read.stop("box");
}

/** The numbers of a range. */
function numbersFrom(from, to) {
  return function* (values) {
    for (let it = from(values), end = to(values); it <= end; it += 1n) yield it;
  };
}

/** The bounds of a line from a place on, one for each name: `{name, kind, all}`. */
function boundsOf(line, from) {
  const read = reader(line, from), bounds = [], kinds = new Map();
  do {
    const names = [];
    do {
      const name = read.take(NAME) ?? read.stop("a name");
      if (kinds.has(name) || names.includes(name)) read.refuse(sentence("family twice", { name }), name.length);
      names.push(name);
    } while (read.take(","));
    const relation = read.take("[=∈⊢]|\\\\vdash|(?:in|of)(?![A-Za-z])") ?? read.stop("=", "in", "of", "a comma");
    if (relation === "=" && names.length > 1) read.refuse(sentence("family several", { names: names.join(", ") }), 1);
    const range = rangeOf(read, relation, kinds);
    for (const name of names) bounds.push({ name, ...range }), kinds.set(name, range.kind);
  } while (read.take(","));
  return read.isAtEnd() ? { bounds, kinds } : read.stop("a comma", "the end");
}

/** The values of all rows, in turn. (Ranges inside a long range can be empty, so that what is tried is counted.) */
function* valuesOfRows([bound, ...others], values = new Map(), tried = { count: 0 }) {
  if (!bound) return void (yield values);
  for (const value of bound.all(values)) {
    if ((tried.count += 1) > 3 * MOST_ROWS) throw tooMany();
    if (typeof value === "bigint" && value < 0n) throw new NoFamily(sentence("family below", { name: bound.name }), 0, 0);
    yield* valuesOfRows(others, new Map(values).set(bound.name, value), tried);
  }
}

// ---- the command of a row

/** A part of a template: what it is for the values of a row; null, if it is no number or list that is bound. */
function partOf(text, kinds, joint) {
  if (kinds.get(text) === "list") return (values) => values.get(text).join(joint);
  const number = numberOf(text, kinds);
  return number && ((values) => String(number(values)));
}

/** The list in an atom: its parts, of which a name can be a list. */
function atomOf(list, kinds, refuse) {
  const parts = list.split(",").map((it) => (/\p{L}/u.test(it) ? { isList: kinds.has(it), of: partOf(it, kinds, ",") ?? refuse(it) } : { of: () => it }));
  return (values) => `[${parts.map(({ of, isList }) => ({ text: of(values), isList })).filter(({ text, isList }) => text !== "" || !isList).map(({ text }) => text).join(",")}]`;
}

/** An expression with names: in its atoms, and as numbers between its signs. */
function expressionOf(word, kinds, refuse) {
  const pieces = [...word.matchAll(/\[([^[\]]*)\]|[\p{L}\d]+|./gsu)].map((found) => {
    const [text, list] = found, next = word[found.index + text.length] ?? "";
    if (list !== undefined) return atomOf(list, kinds, refuse);
    if (!/\p{L}/u.test(text) || (next === "[" && /^[mehps]$/.test(text))) return () => text;
    const number = next === "[" || (/\d/.test(text) && word[found.index - 1] === "/") || kinds.get(text) === "list" ? null : numberOf(text, kinds);
    return number ? (values) => String(number(values)) : refuse(text);
  });
  return (values) => pieces.map((it) => it(values)).join("");
}

/** The line of a row by its values, of a template whose words are those of a command. */
function commandOf(template, kinds) {
  const [{ text: command }, ...placed] = wordsOf(template), isExpression = GRAMMAR.get(command).words.some((it) => EXPRESSIONS.includes(it.role));
  const words = placed.map(({ text, at: place }) => {
    const refuse = (part) => {
      throw new NoFamily(noNumber(part, kinds), place + text.indexOf(part), part.length);
    };
    if (kinds.has(text.slice(1)) && text[0] === "-") throw new NoFamily(sentence("family option", { word: text }), place, text.length);
    if (!/\p{L}/u.test(text) || /^-(?:m|r|from)$/.test(text)) return text;
    if (!isExpression) return partOf(/^\((.*)\)$/u.exec(text)?.[1] ?? text, kinds, " ") ?? refuse(text);
    const basis = [..."mehps"].find((it) => kinds.has(it));
    if (basis) throw new NoFamily(sentence("family basis", { name: basis }), place, text.length);
    return /^[mehps]$/.test(text) ? text : expressionOf(text, kinds, refuse);
  });
  const joined = words.reduce((all, it) => (typeof it === "string" && typeof all[all.length - 1] === "string" ? [...all.slice(0, -1), `${all[all.length - 1]} ${it}`] : [...all, it]), [command]);
  const of = (values) => joined.reduce((line, it) => withWord(line, typeof it === "string" ? it : it(values)), "");
  return { of, apart: isExpression ? [] : tightSigns(placed) };
}

/** A line with a further word, if that is not empty, as a list without parts is. */
const withWord = (line, word_) => (word_ === "" ? line : line === "" ? word_ : `${line} ${word_}`);

/** The words with a minus sign in them, which could be one between two lists. */
const tightSigns = (placed) => placed.filter(({ text }) => /^[^-(]+-/.test(text));

/** Refuses a template of which a word such as `n-1` can be two lists. */
function refuseTwoReadings(template, { apart }, kinds, values) {
  for (const { text, at: place } of apart) {
    const other = template.slice(0, place) + text.replace(/-/g, " - ") + template.slice(place + text.length);
    if (isCommand(textsOfWords(commandOf(other, kinds).of(values)))) throw new NoFamily(sentence("family minus", { word: text, apart: text.replace(/-/g, " - ") }), place, text.length);
  }
}

/** Whether a name means something in the notations. */
function isNotation(name) {
  const signs = (line) => line.replace(/ *(?:->|[%#]).*/, "").split(/[\s|]+/).map((it) => it.replace(/^[~␣]+|\?$/g, ""));
  return !/[λμνuvw]/.test(name) && !NUMBER_LETTERS.test(name) && (notation().same.has(name) || NOTATIONS.split("\n").some((line) => signs(line).includes(name)));
}

/** A number in a list, as in `(3n,2n)`. (Alone in brackets `2n` could be two numbers.) */
const IN_LIST = "(?<=[([,]\\s*)[\\p{L}\\d]+(?:[-+*][\\p{L}\\d]+)*(?=\\s*[)\\],])";

/** The text of a row by its values, of a template in the other notations: a name is set where it is by itself, a number such as `2n` in a list. */
function notationOf(template, kinds) {
  const used = [...kinds.keys()].find(isNotation);
  if (used) throw new NoFamily(sentence("family sign", { name: used }), 0, template.length);
  const list = (value) => `${value.join(",")}${value.length === 1 ? "," : ""}`, inBrackets = (name, value) => (/[uvw]/.test(name) ? `[${list(value)}]` : `(${list(value)})`);
  const pieces = [...template.matchAll(new RegExp(`\\\\[A-Za-z]+|${IN_LIST}|[A-Za-z]+|.`, "gsu"))].map(({ 0: text, index }) => {
    const before = template[index - 1] ?? "", after = template[index + text.length] ?? "", isAlone = /[([]/.test(before) && /[)\]]/.test(after);
    const number = text.length > 1 && /\p{L}/u.test(text) ? numberOf(text, kinds) : null;
    if (!kinds.has(text) && !number) return () => text;
    // (2^2 is two parts in a list, and n^2 a number)
    const isPower = before !== "_" && (after === "^" || /[⁰¹²³⁴-⁹]/.test(after));
    if (/[\p{L}\d]/u.test(before + after) || isPower || (isAlone && !kinds.has(text))) throw new NoFamily(sentence("family place", { name: text }), index, text.length);
    if (kinds.get(text) !== "list") return (values) => String(number ? number(values) : values.get(text));
    return (values) => (isAlone ? list(values.get(text)) : inBrackets(text, values.get(text)));
  });
  return (values) => pieces.map((it) => it(values)).join("");
}

// ---- the family of a line

/** A line that is a family, read: as one of the program's commands if its first row is one, else by the notations. Null, if it is none. */
function familyRead(typed) {
  const { line, changes } = plainLine(typed), found = line.length > LONGEST || isMisseen(typed) ? null : FAMILY.exec(line);
  if (!found) return null;
  // (in the notations names with one value each are values of letters)
  const isRanged = /\.\.|[{∈⊢]|vdash|(?<![A-Za-z])(?:in|of)(?![A-Za-z])/u.test(line.slice(found[0].length));
  if (!isRanged && !GRAMMAR.has(textsOfWords(line)[0])) return null;
  try {
    return { line, changes, family: familyOf((found[1] ?? "").trimEnd(), boundsOf(line, found[0].length), line) };
  } catch (error) {
    // (such as F_w for w = 2143 in the Schur basis)
    if (error instanceof NoFamily && !/\.\.|[{∈]/u.test(line.slice(found[0].length)) && readingsOf(line).sure.length > 0) return null;
    if (error instanceof NoFamily) return unread(line, changes, error.message, [], error.at + error.length > 0 ? { at: error.at, length: error.length } : {});
    throw error;
  }
}

function familyOf(template, { bounds, kinds }, line) {
  const names = [...kinds.keys()], uses = (name) => line.match(new RegExp(`(?<![A-Za-z])(?:${name})(?![A-Za-z])`, "gu")).length;
  const idle = names.find((name) => uses(name) < 2);
  if (idle) throw new NoFamily(sentence("family idle", { name: idle }), 0, template.length);
  const rows = [];
  for (const values of valuesOfRows(bounds)) if (rows.push({ values }) > MOST_ROWS) throw tooMany();
  if (rows.length === 0) throw new NoFamily(sentence("family empty"), template.length, 0);
  return { names, rows, prepare: linesOfFamily(template, kinds, rows) };
}

/** What gives a row its line, or says why it has none: of a command of the program, or of what the notations read. */
function linesOfFamily(template, kinds, rows) {
  const [{ values }] = rows, isNamed = GRAMMAR.has(textsOfWords(template)[0]);
  let made, why;
  try {
    made = isNamed && commandOf(template, kinds);
    if (made) refuseTwoReadings(template, made, kinds, values);
  } catch (error) {
    if (!(error instanceof NoFamily) || /[-]\p{L}|\p{L}-/u.test(template.slice(error.at, error.at + error.length))) throw error;
    why = error;
  }
  const prepare = (row) => (row.line = made.of(row.values));
  if (made && !why && isCommand(textsOfWords(made.of(values)))) return prepare;
  try {
    return linesRead(notationOf(template, kinds), rows);
  } catch (error) {
    // (a command whose words are wrong is better refused by the program, in each row)
    if (made && !why && error instanceof NoFamily) return prepare;
    throw why ?? error;
  }
}

/** A row as it is read; one with a single reading, which is 0 by its sizes, is that. */
function rowRead(typed) {
  const it = readTyped(typed), [only, more] = it.unread?.offers ?? [];
  return only?.zero && !more ? only : it;
}

/** The same for the notations: each row has one reading, of the same command as the first one. */
function linesRead(text, rows) {
  const first = text(rows[0].values), read = rowRead(first), kindOf = (it) => `${textsOfWords(it.line)[0]} ${it.asked?.kind ?? ""}`;
  if (read.unread || !isCommand(textsOfWords(read.line))) throw new NoFamily(sentence("family row", { row: named(first), said: (read.unread?.said ?? "").replace(/ (?:It can mean:|Which .*)$/, "") }).trim(), 0, 0);
  if (rows.length > MOST_ROWS_READ) throw tooMany(MOST_ROWS_READ);
  return (row) => {
    const typed = text(row.values), it = rowRead(typed), isSame = !it.unread && kindOf(it) === kindOf(read);
    Object.assign(row, { typed }, isSame ? { line: it.line, asked: it.asked } : { said: it.unread ? it.unread.said ?? sentence("family row", { row: named(typed), said: "" }).trim() : sentence("family other") });
  };
}
