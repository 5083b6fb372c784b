// What is refused, in words: the line, the kind and the place alone decide the sentence.

const SENTENCES = /*SENTENCES*/ null;

/** A word as a sentence names it. */
function named(text) {
  return text.length > 40 ? `${text.slice(0, 36)}..` : text;
}

/** A sentence with its places filled. */
function sentence(name, values = {}) {
  const value = (key) => values[key] ?? LIMITS[key.replace(/^most /, "")].toLocaleString("en");
  return SENTENCES[name].replace(/\{([\w ]+)\}/g, (_, key) => value(key));
}

function oneOf(texts, joint = "or") {
  const last = texts[texts.length - 1];
  return texts.length < 2 ? texts.join("") : `${texts.slice(0, -1).join(", ")} ${joint} ${last}`;
}

function allOf(texts) {
  return oneOf(texts, "and");
}

/** How many letters are put in, left out or changed between two words. */
function distance(left, right) {
  let row = [...Array(right.length + 1).keys()];
  for (let i = 1; i <= left.length; i += 1) {
    const next = [i];
    for (let j = 1; j <= right.length; j += 1) {
      next.push(Math.min(row[j] + 1, next[j - 1] + 1, row[j - 1] + (left[i - 1] === right[j - 1] ? 0 : 1)));
    }
    row = next;
  }
  return row[right.length];
}

/** What some say for a command. */
const OTHER_NAMES = new Map(Object.entries({ lrcoef: "coef", lrtab: "tab", product: "mult", times: "mult", outer: "mult", coproduct: "coprod" }));

/** The command that a word is nearly, if it is: its begin, its begin with more letters, or with one letter of five wrong. */
function commandLike(text) {
  const small = text.toLowerCase().slice(0, 20), names = [...GRAMMAR.keys()];
  if (OTHER_NAMES.has(small)) return OTHER_NAMES.get(small);
  if (names.includes(small)) return small;
  const isFront = (name) => name.length > 2 && small.length > 2 && (small.startsWith(name) || name.startsWith(small));
  const found = names.filter(isFront).sort((a, b) => b.length - a.length)[0];
  return found || names.find((name) => distance(small, name) <= Math.floor(name.length / 4)) || null;
}

/**
 * The sentence for a line that ended with this status and text, and the place in it that is to be marked:
 * `{sentence, at, length}`, without a place if no word is meant. Null for an answer.
 */
function explained(line, status, text) {
  if (status === 0) return null;
  const placed = wordsOf(line), words = placed.map((it) => it.text);
  const large = GRAMMAR.get(words[0])?.isExact ? "large exactly" : "large bound";
  if (text === "! Large\n") return { sentence: sentence(large) };
  const found = /^! (\w+) (\d+):(\d+)\n$/.exec(text);
  if (!found || status < 2 || status > 4) return { sentence: statusSentence(status) };
  const kind = found[1], k = Number(found[2]), byte = Number(found[3]);
  const said = kind === "Syntax" ? syntaxSentence(words, k, byte) : offenceSentence(words, kind, k, byte);
  if (k >= words.length) return { sentence: said, at: line.length, length: 0 };
  // (where a word ends too early, the blanks after it are what is wrong)
  const begins = placed[k].at + byte, follows = k + 1 < words.length ? placed[k + 1].at : line.length;
  return { sentence: said, at: begins, length: markLength(words, kind, k, byte) || follows - begins };
}

function statusSentence(status) {
  return sentence(SENTENCES[`status ${status}`] ? `status ${status}` : "no status");
}

/** How many bytes are to be marked: of an expression the number or sign at the byte, else the word. */
function markLength(words, kind, k, byte) {
  const isInside = byte > 0 || (kind !== "Syntax" && EXPRESSIONS.includes(walk(words).places[k - 1].role));
  return isInside ? /^(\d+|.|)/.exec(words[k].slice(byte))[0].length : words[k].length;
}

// ---- words that are no command

function syntaxSentence(words, k, byte) {
  const word = named(words[k] || "");
  if (k === 0) {
    const other = commandLike(words[0]);
    return other ? sentence("meant", { word, other }) : sentence("no command", { word });
  }
  const { places, next, mayEnd } = walk(words.slice(0, k));
  const isAfter = places.length > 0 && EXPRESSIONS.includes(places[places.length - 1].role);
  if (isAfter && words[k] && byte === 0 && isPiece(words[k], words[k - 1])) return sentence("one word");
  if (words[k] && next.some((it) => EXPRESSIONS.includes(it.role))) return expressionSentence(words, k, byte);
  const expected = [...new Set(next.map((it) => SENTENCES.next[it.text || it.role]))];
  if (k === words.length) return sentence("ends early", { expected: oneOf(expected) });
  if (expected.length > 0 && mayEnd) expected.push(SENTENCES.next.end);
  const isGlued = /^\d*[-/]+\d/.test(words[k]) || /^\d+[-/]/.test(words[k]);
  if (isGlued && next.some((it) => it.text === "-" || it.text === "/")) return sentence("apart", { word });
  if (expected.length === 0 && mayEnd) return sentence("one too many", { word });
  return sentence("unexpected", { word, expected: oneOf(expected) });
}

/** Whether a word looks like a piece of the expression before it. */
function isPiece(text, before) {
  return text !== "-m" && (OPERATORS.includes(text[0]) || OPERATORS.includes(before[before.length - 1]));
}

function expressionSentence(words, k, byte) {
  const read = readExpression(words[k]), word = named(words[k]);
  const closes = read.depth > 0 && ["number", "denominator", "after"].includes(read.state);
  const expected = SENTENCES["next in expression"][read.state] + (closes ? ", or )" : "");
  if (byte < words[k].length) return sentence("no expression", { word, expected });
  return k + 1 < words.length ? sentence("one word") : sentence("half expression", { word, expected });
}

// ---- words that spell a command and offend

/** The numbers before a word in its list. */
function listBefore(words, places, k) {
  let first = k;
  while (first > 1 && places[first - 2].role === places[k - 1].role) first -= 1;
  return words.slice(first, k);
}

/** A number without zeros in front. */
function value(text) {
  return BigInt(text);
}

function offenceSentence(words, kind, k, byte) {
  const { places } = walk(words), place = places[k - 1];
  if (!place) return k === words.length ? shapeSentence(words, places, k) : sentence("offence");
  const word = named(words[k]);
  if (EXPRESSIONS.includes(place.role)) return inExpression(words, place.role, kind, k, byte);
  if (kind === "Literal") return sentence("literal", { word });
  if (place.text === "-from") return sentence("not lattice", { shape: words.slice(1, k).join(" ") });
  if (place.role === "sign" && kind === "Range") return sentence("too many factors");
  const by = { part: partSentence, letter: letterSentence, value: valueSentence };
  if (by[place.role]) return by[place.role](words, kind, k, listBefore(words, places, k));
  if (!["sign", "entry", "recording", "filling"].includes(place.role)) return sentence(place.role, { word });
  return kind === "Range" ? entrySentence(words, k) : shapeSentence(words, places, k);
}

function partSentence(words, kind, k, list) {
  const word = named(words[k]), number = list.length + 1;
  if (kind === "Range") return sentence(number > LIMITS.parts ? "too many parts" : "too many cells", { word });
  const before = list[list.length - 1];
  if (before !== undefined && value(words[k]) > value(before)) {
    return sentence("part rises", { number, earlier: number - 1, word, before: named(before) });
  }
  const outer = words.slice(1, words.indexOf("/"));
  return sentence("not inside", { number, word, other: named(outer[number - 1] || "0") });
}

function letterSentence(words, kind, k, list) {
  const most = lettersAllowed(words[0]), word = named(words[k]), number = list.length + 1;
  if (kind === "Range") {
    if (value(words[k]) <= most) return sentence("too many letters", { word, number, most });
    const digits = [...words[k]], isPermutation = digits.every((_, i) => digits.includes(String(i + 1)));
    return sentence(isPermutation ? "letters together" : "letter too great", { word, most, other: digits.join(" ") });
  }
  if (list.some((it) => value(it) === value(words[k]))) return sentence("letter again", { word });
  const end = words.indexOf("-", k), letters = number + (end < 0 ? words.length : end) - k - 1;
  return sentence("no letter", { word, letters, count: letters === 1 ? "one letter" : `${letters} letters` });
}

/** Whether a number is not from 1 to 65,535. */
function isOutside(text) {
  return value(text) === 0n || value(text) > BigInt(LIMITS.value);
}

function valueSentence(words, kind, k) {
  return sentence(isOutside(words[k]) ? "value" : "too many values", { word: named(words[k]) });
}

function entrySentence(words, k) {
  return sentence(isOutside(words[k]) ? "entry" : "too many entries", { word: named(words[k]) });
}

// ---- tableaux

/** The rows of a tableau that is written so, the last of which can go on. */
function openRows(words) {
  const rows = [[]];
  for (const text of words) {
    if (text === "/") rows.push([]);
    else if (text !== ".") rows[rows.length - 1].push(text);
  }
  return rows;
}

/** Where the tableau begins in which a word is: after the last `-`, or after the name. */
function tableauBegin(words, k) {
  return Math.max(0, words.lastIndexOf("-", k - 1)) + 1;
}

/** How many entries each row of a tableau has to have: by the skew shape of `rect`, or by the first tableau of `unrsk`. */
function lengthsWanted(words) {
  const before = words.slice(1, words.indexOf("-"));
  if (words[0] === "unrsk") return before[0] === "." ? [] : openRows(before).map((row) => row.length);
  const slash = before.indexOf("/"), inner = before.slice(slash + 1).map(Number);
  const outer = before.slice(0, slash).map(Number);
  while (outer[outer.length - 1] === 0) outer.pop();
  return outer.map((part, i) => part - (inner[i] || 0));
}

function lengthsText(lengths) {
  const isPoint = lengths.includes(0) ? " (a row without cells is a point)" : "";
  if (lengths.length === 0) return "no cells (a point)";
  if (lengths.length === 1) return `one row of ${lengths[0]}${isPoint}`;
  return `rows of ${allOf(lengths)}${isPoint}`;
}

/** Where a tableau is not one, or not of its shape. */
function shapeSentence(words, places, k) {
  const lengths = lengthsText(lengthsWanted(words));
  if (k === words.length) return sentence("short tableau", { lengths });
  const role = places[k - 1].role;
  if (words[k] === "." && role === "entry") return sentence("empty row");
  const wrong = /^\d+$/.test(words[k]) && orderSentence(words, role, k);
  return wrong || (role === "entry" ? sentence("long row") : sentence("not of shape", { lengths }));
}

/** What is wrong with an entry beside those before it, if something is. */
function orderSentence(words, role, k) {
  const rows = openRows(words.slice(tableauBegin(words, k), k)), row = rows[rows.length - 1];
  const left = row[row.length - 1], above = entryAbove(words, rows), isStandard = role === "recording";
  const word = named(words[k]), number = value(words[k]), cells = lengthsWanted(words).reduce((a, b) => a + b, 0);
  if (isStandard && number > BigInt(cells)) return sentence("too great", { word, number: cells });
  const falls = isStandard ? "falls in standard" : "falls";
  if (left !== undefined && number < value(left)) return sentence(falls, { word, other: left });
  if (isStandard && rows.flat().some((it) => value(it) === number)) return sentence("entry again", { word });
  return above !== undefined && number <= value(above) ? sentence("not below", { word, other: above }) : null;
}

/** The entry above the next one of the last row, if there is one; rows of `rect` begin where the inner partition ends. */
function entryAbove(words, rows) {
  if (rows.length < 2) return undefined;
  const inner = words[0] === "rect" ? words.slice(words.indexOf("/") + 1, words.indexOf("-")).map(Number) : [];
  const begins = (i) => inner[i] || 0, last = rows.length - 1;
  return rows[last - 1][begins(last) + rows[last].length - begins(last - 1)];
}

// ---- expressions

/** The greatest degree of an expression into a basis. */
function degreeAllowed(basis) {
  return LIMITS["ms".includes(basis) ? "degree" : "lower degree"];
}

function inExpression(words, role, kind, k, byte) {
  const text = words[k], mark = readExpression(text).marks.find((it) => it.at === byte);
  const word = named((/^\d+/.exec(text.slice(byte)) || [""])[0]);
  if (kind === "Literal") return sentence("literal", { word });
  if (kind === "Range") {
    if (mark && mark.kind === "opening") return sentence("deep");
    if (mark && mark.kind === "entry") return sentence("too many in atom", { word });
    if (byte === LIMITS.bytes && text.length > LIMITS.bytes) return sentence("long expression");
    if (role === "expression") return sentence("degree", { most: degreeAllowed(words[k - 1]), basis: words[k - 1] });
    return sentence(role === "inner" && degreeOf(text) <= LIMITS.plethysm ? "degrees" : "degree in plethysm");
  }
  if (text[byte] === "-") return sentence("minus");
  if (!mark) return sentence("offence");
  const before = mark.kind === "entry" ? named(mark.before[mark.before.length - 1]) : "";
  return sentence({ denominator: "denominator", entry: "atom rises" }[mark.kind] || "fraction", { word, before });
}

/** The degree of an expression: the sizes of the atoms of a product add up, and the greatest degree of a sum counts. */
function degreeOf(text) {
  const sizeOf = (list) => list.split(",").reduce((sum, it) => sum + Math.min(Number(it), 1000), 0);
  const atoms = text.replace(/[mehps]\[([\d,]*)\]/g, (_, list) => `${sizeOf(list)}d`);
  let at = 0;
  const factor = () => {
    if (atoms[at] === "(") {
      at += 1;
      const degree = sum();
      at += 1;
      return degree;
    }
    const [all, digits, isAtom] = /^(\d+)(d?)(?:\/\d+)?/.exec(atoms.slice(at));
    at += all.length;
    return isAtom ? Number(digits) : 0;
  };
  const product = () => {
    let degree = factor();
    while (atoms[at] === "*") (at += 1), (degree += factor());
    return degree;
  };
  const sum = () => {
    if (atoms[at] === "-") at += 1;
    let degree = product();
    while (atoms[at] === "+" || atoms[at] === "-") (at += 1), (degree = Math.max(degree, product()));
    return degree;
  };
  return sum();
}
