// What the alternatives of notations.js mean: from the values of their items to their own. A list is an array of numbers as texts; an expression is
// `{text, atoms}`, its text in the program's notation and, if it is a product of single functions, these as `[family, list]`; a reading is `{line}`,
// with what is asked for of its answer as `asked`, and `zero` if it is 0 by size. null: no such thing. `anyOf` gives several values; of these `digits`
// is the convention about digits (1: each a number of its own, 2: all of them one), of which a line has one.

const anyOf = (...all) => Object.assign(all.filter((it) => it && it.value), { isEither: true });
const eitherOf = (...values) => anyOf(...values.map((value) => ({ value })));

/** Whether a limit cut something: then nothing runs. */
const cutShort = { is: false, why: "" };
const tooMuch = (why = "") => ((cutShort.is = true), (cutShort.why ||= why), null);

const isPlain = (number) => !/^0\d/.test(number), isDigits = (number) => /^[1-9]+$/.test(number);
const copies = (number, times) => (Number(times) <= LIMITS.cells ? Array(Number(times)).fill(number) : tooMuch());
const joined = (...lists) => (!lists.every(Boolean) ? null : lists.reduce((sum, it) => sum + it.length, 0) <= LIMITS.cells ? [].concat(...lists) : tooMuch());
const few = (lists) => (lists.length <= LIMITS.factors ? lists : tooMuch());
/** A list with how it was typed. */
const typedWith = (how, list) => Object.defineProperty([...list], "how", { value: how });
const isPartition = (list) => list && isDecreasing(list);
const isNumber = (list) => list.length === 1 && list.how === "bare";
const sizeOfAll = (lists) => sumOf(lists.flat());

/** Digits as numbers, zeros only at the end, or as one number, with an exponent: it is that of the last digit, or of the whole number; without braces it has one digit or all, and 1^22 can be 2 1^2. */
function digitsWithPower(base, exponent, isBraced) {
  const isCut = !isBraced && exponent.length > 1 && isDigits(exponent), ends = [[exponent, []], ...(isCut ? [[exponent[0], [...exponent.slice(1)]]] : [])];
  const isOne = base.length === 1, isApart = isDigits(base), isDoubt = isCut && exponent[0] > 1 && exponent[1] > base.slice(-1), isLong = exponent === "1" && /^[1-9]{1,15}0{1,9}$/.test(base);
  const apart = ([times, rest]) => (isOne || isApart || isLong) && { value: isLong ? typedWith("digits", base) : joined([...base.slice(0, -1)], copies(base[base.length - 1], times), rest), digits: isOne ? 0 : 1, isDoubt };
  const whole = ([times, rest]) => !isOne && isPlain(base) && { value: joined(copies(base, times), rest), digits: isApart ? 2 : 0, isDoubt };
  return anyOf(...ends.flatMap((it) => [apart(it), whole(it)]));
}

// ---- expressions
/** An expression, made of others; `isCalled`, if some function in it was typed as s(2). */
const expression = (text, atoms = null, ...parts) => (text.length <= LIMITS.bytes ? { text, atoms, isCalled: parts.some((it) => it.isCalled) } : tooMuch());
const atomText = (family, list) => `${family}[${list.join(",")}]`;
const sizeOfProduct = (it) => it.count ?? (it.atoms ? it.atoms.length : Infinity);
/** The functions of a product, which are listed when they are asked for, so that a long product is made in linear time. */
function atomsOf(it, last = []) {
  for (; it.factors; it = it.factors[0]) last.unshift(...it.factors[1].atoms);
  return [...it.atoms, ...last];
}
function timesText(a, b) {
  const made = expression(`${a.text}*${b.text}`, null, a, b), count = sizeOfProduct(a) + sizeOfProduct(b);
  return made && count <= LIMITS.degree ? { ...made, factors: [a, b], count, get atoms() { return atomsOf(this); } } : made;
}

/** An expression as often as an exponent says, as factors; `rest` is a further factor whose digits stood right after the exponent. */
function powerOf(it, [times, rest]) {
  const count = Number(times);
  if (count < 1 || count > LIMITS.degree || it.text.length * count > LIMITS.bytes) return tooMuch();
  const all = expression(Array(count).fill(it.text).join("*"), it.atoms && Array(count).fill(it.atoms).flat(), it);
  return all && rest ? timesText(all, expression(rest)) : all;
}

/** Where no basis is said, each is a reading. */
const inEachBasis = (...words) => eitherOf(...["s", "m", "p", "h", "e"].map((it) => reading(words[0], it, ...words.slice(1))));
const hasFunction = (text) => /[mehps]/.test(text);
const isProductOf = (family, it) => it.atoms && it.atoms.every(([of]) => of === family);
const listsOfAtoms = (it) => it.atoms.map(([, list]) => list);
const schurFactors = (it) => (isProductOf("s", it) && it.atoms.length > 1 ? listsOfAtoms(it) : null);

// ---- lines
const reading = (...words) => ({ line: words.flat().filter((it) => it !== "" && it !== undefined).join(" ") });
const between = (lists, sign = "-") => lists.flatMap((it, i) => (i > 0 ? [sign, ...it] : it));
const variables = (count) => (count ? `-r ${plainNumber(count)}` : "");
const areMany = (lists) => lists && lists.length >= 2 && lists.length <= LIMITS.factors;
const productOf = (lists, options = "") => (areMany(lists) && lists.every(isPartition) ? reading("mult", options, between(lists)) : null);
const descending = (list) => [...list].sort((a, b) => Number(b) - Number(a));
/** A reading of which one coefficient is asked for; a doubtful one, which counts beside others and never runs. */
const asking = (made, asked, zero = false) => made && { ...made, asked, zero };
const doubtful = (it, made) => made && it && (it.isAlone || it.isDoubtful) ? { ...made, isDoubtful: true } : made;

function skewOf(name, shape, options = "", ...more) {
  const [outer, inner] = shape, isSkew = isPartition(outer) && isPartition(inner) && isInside(partition(inner), outer);
  return isSkew ? doubtful(shape, reading(name, options, between([outer, inner], "/"), ...more)) : null;
}

const coefOf = ([outer, ...factors]) => (factors.length === 2 && [outer, ...factors].every(isPartition) ? { ...reading("coef", between([outer, ...factors])), zero: sumOf(outer) !== sizeOfAll(factors) } : null);
/** A coefficient; if it is 0 by its sizes, also that of the last list, where these fit. */
function inSomeOrder(made, [first, second, third]) {
  const other = made && made.zero && !made.isDoubtful ? coefOf([third, first, second]) : null;
  return anyOf({ value: made }, other && !other.zero && { value: other, isRepair: true });
}

/** A Kostka number: a coefficient of the Schur function in monomials; of a skew shape, that of s_λ in s_μ h_ν. */
const kostkaOf = (lambda, mu) => (isPartition(lambda) && mu ? asking(reading("expand m", atomText("s", lambda)), { kind: "K", of: lambda, at: descending(mu) }, sumOf(lambda) !== sumOf(mu)) : null);
function kostkaSkew([outer, inner], content) {
  if (!skewOf("skew", [outer, inner]) || !content) return null;
  return coefficientAt("s", outer, timesText(expression(atomText("s", inner), [["s", inner]]), expression(atomText("h", descending(content)), [["h", content]])));
}

/** The number of standard tableaux: the coefficient of the monomial function of (1^n). */
function standardOf(list, kind = "f") {
  const ones = list && isPartition(list) ? copies("1", sumOf(list)) : null;
  return ones && asking(reading("expand m", atomText("s", list)), { kind, of: list, at: ones });
}

/** A character of the symmetric group: a coefficient of the power sum in Schur functions. (χ_λ of a Schur function can be that of GL_n.) */
function characterOf(lambda, mu) {
  // (a class with blanks could be a cycle)
  if (!isPartition(lambda) || !mu || !isPartition(mu) || !mu.every((it) => Number(it) > 0)) return null;
  return doubtful({ isDoubtful: mu.how === "blanks" || lambda.how === "index" }, asking(reading("expand s", atomText("p", mu)), { kind: "χ", of: lambda, at: mu }, sumOf(lambda) !== sumOf(mu)));
}

/** The class of a permutation of so many letters, of which the fixed ones are left out, or a cycle is written for it; null if it is none. */
const withFixed = (mu, size, class_ = isPartition(mu) ? mu : cycled([mu]) ? [String(mu.length)] : [], left = size - sumOf(class_)) =>
  class_.length > 0 && left >= 0 && (left > 0 || class_ !== mu) && mu.every((it) => it <= size) ? typedWith("blanks", [...class_, ...copies("1", left)]) : null;

/** The coefficient of a function in an expression; the scalar product of a function with an expression, by the dual basis. */
function coefficientAt(family, list, it) {
  if (!isPartition(list)) return null;
  const lists = it.atoms && listsOfAtoms(it), isZero = Boolean(lists) && sizeOfAll(lists) !== sumOf(list);
  if (family === "s" && schurFactors(it)) return lists.length === 2 ? coefOf([list, ...lists]) : asking(productOf(lists), { kind: "c", at: list }, isZero);
  if (family === "s" && isProductOf("h", it)) return kostkaOf(list, descending(lists.flat()));
  if (family === "s" && !isZero && isProductOf("p", it)) return characterOf(list, descending(lists.flat()));
  return hasFunction(it.text) ? asking(reading("expand", family, it.text), { kind: "c", at: list }, isZero) : null;
}
const OMEGA = { s: "s", h: "e", e: "h", p: "p" };
function scalarProduct(a, b) {
  const [[family, list], more] = a.atoms || [[]], dual = { s: "s", h: "m", m: "h" }[family];
  return dual && !more && b.atoms ? coefficientAt(dual, list, b) : null;
}

const areLetters = (lists) => lists.length > 0 && lists.every((it) => it && isPermutation(it));
/** A Stanley symmetric function; without a number of variables in as many as a staircase has rows, which all its partitions are inside: so it is whole. */
const stanleyIn = (w, count) => (w && isPermutation(w) ? reading("stanley -r", plainNumber(count || String(Math.max(1, w.length - 1))), w) : null);

// ---- the Grassmannian, and fusion
const boxOf = (rows, columns) => (rows >= 1 && columns >= 1 ? { rows: Number(rows), columns: Number(columns) } : null);
const inFull = (list, space) => (list.how === "point" ? rectangle(space) : list);

/** A product of classes of Gr(k,n): in its quantum cohomology, or the terms without q of that, which are the ordinary product. */
function classesIn(given, space) {
  const lists = space && given && given.map((it) => inFull(it, space));
  if (!areMany(lists) || !lists.every(isPartition) || (space.isFitting && !lists.every((it) => isInBox(it, space)))) return null;
  const made = reading("quantum", String(space.rows), String(space.columns), between(lists)), ordinary = asking(made, { kind: "H" }, !lists.every((it) => isInBox(it, space))), isQuantum = space.kind === "quantum";
  // (in H* a sign of the keyboard is its product; with two different signs one can be that of the quantum product)
  return { cup: isQuantum, star: !isQuantum, times: !space.kind, "": true }[given.how] ? eitherOf(ordinary, made) : isQuantum ? made : ordinary;
}
/** The coefficient of a class in a product of classes: without q, or in QH* with the power of q that is given, or that the degrees leave. */
function classCoefficient(list, lists, space, q) {
  const made = list && space && classesIn([...lists], { ...space, kind: "quantum" }), [at, ...classes] = made ? [list, ...lists].map((it) => inFull(it, space)) : [];
  if (!made || ![at, ...classes].every((it) => isPartition(it) && isInBox(it, space))) return null;
  const left = (sizeOfAll(classes) - sumOf(at)) / (space.rows + space.columns), power = Number(q ?? (space.kind === "quantum" && left > 0 && left % 1 === 0 ? left : 0));
  return asking(made, { kind: "c", at: partition(at), q: power }, left !== power);
}
const leastRows = ({ lists }) => String(Math.max(1, ...lists.map((it) => it.length)));
const leastColumns = ({ lists }) => String(Math.max(1, ...lists.map((it) => Number(it[0] || 0))));
const fusionOf = (it, rows = leastRows(it), level = leastColumns(it)) => doubtful(it, areMany(it.lists) && it.lists.every(isPartition) ? reading("fusion", plainNumber(rows), plainNumber(level), between(it.lists)) : null);

// ---- lists as they stand beside each other: `{lists, isAlone, sign}`
/** The lists of some operands. A number alone beside lists can be a list, a coefficient or an option; numbers alone can be one list that is not finished. */
function factorsOf(sign, operands) {
  const each = [].concat(operands).flatMap((it) => Array(it.times || 1).fill(it)), lists = few(each.map((it) => it.list));
  if (!lists) return null;
  const isAlone = each.map((it) => it.how === "one"), alone = isAlone.filter(Boolean).length, isMixed = alone > 0 && alone < each.length;
  const isDoubtful = (alone > 0 && (sign === "side" || (sign === "comma" && !isMixed))) || (sign === "minus" && lists.some((it) => it.how === "index"));
  return { lists, isAlone: isMixed && !/dash|minus/.test(sign) ? isAlone : null, sign, isDoubtful };
}

/** What is made of the options of a command, each once, as one text, and of its arguments. */
const withOptions = (make) => (...given) => {
  const isOption = (it) => typeof it === "string" && it[0] === "-", options = given.filter(isOption).sort().reverse();
  return options.some((it, i) => i > 0 && it[1] === options[i - 1][1]) ? null : make(options.join(" "), ...given.filter((it) => it && !isOption(it)));
};

/** The product of lists and numbers: a number can be a list or a coefficient, and at the end how many variables there are. */
function productWithNumbers(options, it) {
  const line = doubtful(it, productOf(it.lists, options)), last = it.lists.length - 1;
  if (!it.isAlone) return line;
  const factor = (list, i) => (it.isAlone[i] ? list[0] : atomText("s", list));
  if (it.sign === "star") return eitherOf(line, reading("expand s", it.lists.map(factor).join("*")));
  const isCount = it.sign === "comma" && it.isAlone.lastIndexOf(true) === last && !options;
  return eitherOf(line, isCount && productOf(it.lists.slice(0, last), `-r ${it.lists[last][0]}`));
}

/** Tableaux whose rows are typed with slashes, as `12/3`: a row of one number can be one of its digits. The ways that make sense, or that with numbers. */
function inWays(isSense, tableaux) {
  const apart = (rows) => (rows.how === "run" ? rows.map((row) => (row.filter((it) => it !== ".").length === 1 ? row.flatMap((it) => [...it]) : row)) : rows);
  const ways = [tableaux.map(apart), tableaux].filter(isSense);
  return ways.length > 0 ? ways : [tableaux];
}

const rowsText = (rows) => (rows.length === 0 ? ["."] : rows.flatMap((it, i) => [...(i > 0 ? ["/"] : []), ...(it.length > 0 ? it : ["."])]));

const MEANINGS = {
  typedWith, conjugate, timesText, powerOf, variables, kostkaOf, kostkaSkew, standardOf, stanleyIn, boxOf, classesIn, classCoefficient, factorsOf, reading, copies, fusionOf,
  // numbers and lists
  part: (number, times = "1") => (isPlain(number) ? copies(number, times) : null),
  partPower: (number, times) => (isPlain(number) ? eitherOf(copies(number, times), times.length > 1 && isDigits(times) && joined(copies(number, times[0]), [...times.slice(1)])) : null),
  digits: (base, exponent = "1") => (base.length === 1 && exponent === "1" ? [base] : digitsWithPower(base, exponent, true)),
  digitsPower: (base, exponent) => digitsWithPower(base, exponent, false),
  letters: (number) => [...number],
  join: (a, b) => joined([].concat(a), [].concat(b)),
  point: () => typedWith("point", []),
  word: (text) => text,
  called: (list) => (list.length === 1 ? typedWith("called", list) : list),
  exponent: (times) => anyOf({ value: [times] }, /^\d[1-9]\d*$/.test(times) && { value: [times[0], times.slice(1)] }),
  list: (...all) => all,
  add: (list, more) => (list.length < (more.list ? LIMITS.factors : 2 * LIMITS.values) ? [...list, more] : tooMuch()),
  addAll: (list, more) => few(typedWith(list.how, [...list, ...more])),
  addAs: (how, list, more) => MEANINGS.addAll(typedWith((list.how ?? how) === how ? how : "", list), more),
  listPower: (list, [times, rest]) => (rest || Number(times) < 1 ? null : Number(times) > LIMITS.factors ? tooMuch() : Array(Number(times)).fill(list)),
  // expressions (a function before a parenthesis can be a plethysm)
  beside: (a, b, value = timesText(a, b)) => anyOf({ value, isDoubt: b.text[0] === "(" && /\]\)*$/.test(a.text) }),
  atom: (family, list) => (isPartition(list) && !(family === "p" && list.join() === "0") && !(/[hep]/.test(family) && list.how === "digits" && list[1] && list[list.length - 1] === "0") ? expression(atomText(family, list), [[family, list]], { isCalled: list.how === "called" }) : null),
  named: (family, it) => (it.atoms[0][0] === family ? it : null),
  omega: (family, list) => {
    const made = OMEGA[family] ? MEANINGS.atom(OMEGA[family], family === "s" ? conjugate(list) : list) : null;
    return made && family === "p" && list.filter((it) => Number(it) % 2 === 0).length % 2 === 1 ? expression(`-1*${made.text}`) : made;
  },
  paren: (it) => ({ text: `(${it.text})`, atoms: null, isCalled: it.isCalled, inside: it.text }),
  determinant: (rows) => {
    const text = (it) => (/[-+]/.test(it.text) ? `(${it.text})` : it.text);
    const terms = ([row, ...others], columns, sign) =>
      row ? columns.flatMap((j, i) => terms(others, columns.filter((it) => it !== j), i % 2 === 1 ? -sign : sign).map(([of, ...texts]) => [of, text(row[j]), ...texts])) : [[sign]];
    if (rows.length > 4 || !rows.every((it) => it.length === rows.length)) return null;
    const all = terms(rows, [...rows.keys()], 1).map(([sign, ...texts], i) => (sign < 0 ? "-" : i > 0 ? "+" : "") + texts.join("*"));
    return MEANINGS.paren(expression(all.join(""), null, ...rows.flat()));
  },
  written: (joint, ...parts) => expression(parts.map((it) => it.text ?? it).join(joint), null, ...parts),
  functor: (family, times) => expression(atomText(family, [times]), [["s", family === "h" ? [times] : copies("1", times)]]),
  bare: (it) => (schurFactors(it) && areMany(it.atoms) ? productOf(listsOfAtoms(it)) : hasFunction(it.text) ? inEachBasis("expand", it.text) : null),
  inSchur: (it) => productOf(schurFactors(it)) || reading("expand s", it.text),
  expand: (basis, it) => reading("expand", basis, it.text),
  // (in Sage s(2) inside another call is the number 2; s(3/2) is hardly meant as a number)
  sageExpand: (basis, it) => doubtful({ isDoubtful: it.isCalled || !hasFunction(it.text) }, reading("expand", basis, it.text)),
  expandWith: withOptions((options, basis, it) => (["", "-m"].includes(options) ? reading("expand", options, basis, it.text) : null)),
  composed: (...both) => both.map((it) => it.inside ?? it.text),
  plethysmBare: (both) => (hasFunction(both[0]) ? inEachBasis("plethysm", ...both) : null),
  plethysm: (basis, both) => doubtful({ isDoubtful: !hasFunction(both[0]) }, reading("plethysm", basis, ...both)),
  inLetters: (it, count) => ({ list: it.atoms[0][1], count }),
  countOfOnes: (list) => (list.every((it) => it === "1") ? String(list.length) : null),
  inGl: (it, count) => reading("plethysm s", it.text, plainNumber(count)),
  timesOnes: (it, count) => (count > 1 ? productOf([it.atoms[0][1], copies("1", count)]) : null),
  polynomial: (it, count, [[, list]] = it.atoms, w = ofCode(Array.from({ length: count }, (_, i) => list[count - 1 - i] || "0"))) => (w && list.length <= count ? reading("schubert", w) : null),
  multInLetters: (all) => (all.every((it) => it.count === all[0].count) ? productOf(all.map((it) => it.list), variables(all[0].count)) : null),
  littlewood: ([a], [b]) => (isPartition(a) && isPartition(b) ? eitherOf([atomText("s", b), atomText("s", a)], [atomText("s", a), atomText("s", b)]) : null),
  // products of lists
  // (a function with more rows than there are variables is 0 in these)
  product: (it, count, lists = Array.isArray(it) ? it : schurFactors(it)) => asking(productOf(lists, variables(count)), undefined, Boolean(count && lists?.some((list) => partition(list).length > count))),
  orOther: (it) => ({ ...it, isDoubtful: true }),
  ofGl: (lists, count, canBeDimensions = count !== "1" && lists.every((it) => it.length === 1 && !["index", "called"].includes(it.how))) =>
    canBeDimensions ? eitherOf(...(count === "2" ? [0, 1] : [0]).map((less) => doubtful({ isDoubtful: true }, MEANINGS.product(lists.map(([it]) => [String(it - less)]), count)))) : MEANINGS.product(lists, count),
  rowsOfS: (list) => (list.length === 1 && list[0].length > 1 ? null : [list, [...list].reverse()].find(isPartition)),
  // (lists without a number that comes twice can be cycles, or permutations; those of one size, but in braces, characters that are multiplied value by value)
  listProduct: (lists, are = (form) => lists.every((it) => form.test(it.how) || (form.test("digits") && cycled([it])))) => doubtful({ isDoubtful: !lists.some((it) => it.how === "index") && (lists.some((it) => it.how === "blanks") || are(/digits/) || (new Set(lists.map(sumOf)).size === 1 && !are(/braces/))) }, productOf(lists)),
  // skew shapes, coefficients, numbers
  skew: (lists, count) => skewOf("skew", lists, variables(count)),
  inOrder: (a, b) => (skewOf("skew", [b, a]) ? [b, a] : Object.assign([a, b], { isDoubtful: true })),
  // (the rows of a ribbon begin where the next one ends)
  ribbon: (rows, ends = rows.map((_, i) => sumOf(rows.slice(i)) - (rows.length - 1 - i))) => (rows.every((it) => Number(it) > 0) ? skewOf("skew", [ends.map(String), partition(ends.slice(1).map((it) => String(it - 1)))]) : null),
  skewIn: (lists, basis) => (basis === "s" ? skewOf("skew", lists) : null),
  shapeOnly: (...lists) => eitherOf(skewOf("skew", lists), skewOf("tab", lists)),
  likeSchur: ({ atoms: [[family, list]] }) => (family === "s" || (family === "h" && list.length === 1) ? list : family === "e" && list.length === 1 ? copies("1", list[0]) : null),
  coproduct: (list) => (isPartition(list) ? reading("coprod", list) : null),
  coef: (outer, factors) => coefOf([outer, ...factors]),
  coefNot0: (outer, factors, made = coefOf([outer, ...factors])) => (made?.zero ? null : made),
  // (numbers alone can be one partition)
  coefWithPair: (outer, factors, all = [outer, ...factors]) => inSomeOrder(doubtful({ isDoubtful: all.every(isNumber) }, coefOf(all)), all),
  coefficientIn: (atom, it) => coefficientAt(...atom.atoms[0], it),
  coefficientInPlethysm: (atom, both) => asking(reading("plethysm", atom.atoms[0][0], ...both), { kind: "c", at: atom.atoms[0][1] }),
  monomial: (letters) => (letters.includes("0") ? null : MEANINGS.atom("m", descending([...new Set(letters)].map((it) => String(letters.filter((other) => other === it).length))))),
  kostka: (lists) => doubtful({ isDoubtful: lists.every(isNumber) }, kostkaOf(...lists)),
  kostkaNot0: (...lists) => [kostkaOf(...lists)].find((it) => it && !it.zero),
  allKostka: (family, list) => (family === "m" || isPartition(descending(list)) ? reading("expand", family === "m" ? "m" : "s", atomText(family === "m" ? "s" : "h", family === "m" ? list : descending(list))) : null),
  convert: (from, basis, list) => (isPartition(list) ? reading("expand", basis, atomText(from, list)) : null),
  ofSchubert: (outer, lists) => (areLetters([outer, ...lists]) && ![outer, ...lists].every(isPartition) ? MEANINGS.permuted("schubmult", lists) : null),
  kostkaAll: (numbers) => eitherOf(...numbers.slice(1).map((_, i) => kostkaOf(numbers.slice(0, i + 1), numbers.slice(i + 1))).filter((it) => it && !it.zero)),
  // (one number without a comma: SYT(5) are those of a size, too, and S^3 is a symmetric power, or a sphere)
  orSize: (list) => doubtful({ isAlone: !list[1] && list.how }, standardOf(list)),
  standardSkew: ([outer, inner]) => (isPartition(outer) && isPartition(inner) && sumOf(inner) <= sumOf(outer) ? kostkaSkew([outer, inner], copies("1", sumOf(outer) - sumOf(inner))) : null),
  ofSize: (letters, it) => (sumOf(it.flat()) === Number(letters) ? it : null),
  // (a class whose fixed letters are left out is that with them: by its sizes alone the other is 0, and not asked)
  characterOf: (list, mu, full = mu.join() === "1" && sumOf(list) > 1 ? standardOf(list) : characterOf(list, withFixed(mu, sumOf(list)))) => doubtful({ isAlone: full }, full) || characterOf(list, mu),
  characterAtCycle: (list, cycle) => (Number(cycle) <= sumOf(list) ? characterOf(list, [cycle, ...(copies("1", sumOf(list) - Number(cycle)) || [])]) : null),
  characterOnly: (list) => (isPartition(list) ? eitherOf(standardOf(list), reading("expand p", atomText("s", list))) : null),
  inner: (a, b) => scalarProduct(a, b) || scalarProduct(b, a),
  // permutations
  roundPermutation: (list) => eitherOf(list, cycled([list])),
  // (a list in parentheses is one-line notation, a cycle of two letters or more, or a code of Lehmer; 1 is the identity or s_1)
  orCode: (list, cycle = cycled([list])) => anyOf({ value: list }, { value: list[1] && cycle }, { value: cycle && ofCode(list), isDoubt: true }),
  orSimple: (w) => eitherOf(w, w.join() === "1" && ["2", "1"]),
  cycles: (all) => (all.some((it) => it[1]) ? eitherOf(cycled(all), cycled([...all].reverse())) : null),
  simple: (all) => eitherOf(...[all, [...all].reverse()].map((it) => (it.every(Number) ? cycled(it.map((i) => [i, String(Number(i) + 1)])) || tooMuch() : null)), all.length === 1 && all),
  permuted: (name, ...given) => {
    const lists = given.flatMap((it) => (typeof it[0] === "string" ? [it] : it));
    return areLetters(lists) && lists.length === (name.endsWith("mult") ? 2 : 1) ? reading(name, between(lists)) : null;
  },
  doubleProduct: (lists) => eitherOf(MEANINGS.permuted("dschubmult", lists), lists.length === 2 && lists.every((it) => it.how === "xy" && it.length <= 3) && MEANINGS.permuted("schubmult", lists)),
  schubertProduct: (lists) => (lists.length <= 2 ? MEANINGS.permuted(lists.length === 1 ? "schubert" : "schubmult", lists) : areLetters(lists) ? tooMuch("Two Schubert polynomials are multiplied at a time here.") : null),
  inFlags: (lists, n, made = (lists.every((it) => it.length <= n) && MEANINGS.schubertProduct(lists)) || null) => (lists.length === 2 ? asking(made, { kind: "Fl", n: plainNumber(n) }) : doubtful({ isDoubtful: true }, made)),
  schubertIn: (w, count) => (Number(count) >= w.length - 1 ? w : null),
  stanleyOf: (w, count) => eitherOf(stanleyIn(w, count), isPermutation(w) && stanleyIn(inverseOf(w), count)),
  nextLetter: (last, number) => (Number(number) === Number(last) + 1 ? number : null),
  rskTwice: (a, b) => (a.join() === b.join() ? reading("rsk", a) : null),
  bareList: (list) => eitherOf(isPartition(list) && reading("coprod", list), isPartition(list) && standardOf(list), ...["rsk", "schubert", "growth"].map((it) => areLetters([list]) && reading(it, list)), areLetters([list]) && stanleyIn(list)),
  lettersOf: (word) => (word.every(isDigits) ? [...word.join("")] : null),
  rsk: (word) => (word.every((it) => Number(it) >= 1) ? doubtful({ isAlone: !word[1] && /.0/.test(word[0]) }, reading("rsk", word)) : null),
  ofRule: (it) => doubtful({ isDoubtful: !/mult|coef|quantum|fusion|plethysm|\*|expand [ehm] p/.test(it.line) }, it),
  // the Grassmannian and fusion
  grassmannian: (k, n) => boxOf(k, n - k),
  grOrLines: (k, n) => eitherOf(boxOf(k, n - k), k === "1" && boxOf("2", n - 1)),
  // (it counts only where all classes are classes of this Gr(k,n))
  fitting: (k, n) => (n - k > 0 ? { ...boxOf(k, n - k), isFitting: true } : null),
  subspaces: (k, n) => boxOf(Number(k) + 1, n - k),
  space: (kind, space) => space && { ...space, kind },
  integral: (lists, space) => classCoefficient(MEANINGS.point(), lists, space),
  invariant: (a, b, c, q, space) => classCoefficient(dualOf(inFull(c, space), space), [a, b], space, q),
  degree: (space) => (space.rows * space.columns <= LIMITS.degree ? standardOf(rectangle(space), "degree") : tooMuch()),
  lines: (count, dimension) => MEANINGS.planes("2", dimension === "3" && 4, count, "2"),
  planes: (k, n, count, other) => (n - k === Number(other) && k * other === Number(count) && boxOf(k, n - k) ? MEANINGS.degree(boxOf(k, n - k)) : null),
  // (labels of Dynkin are k-1 numbers with a sum of at most the level, or k with that sum; a number alone can be a dimension, or a spin)
  fusionFor: (given, rows, level) => {
    const it = Array.isArray(given) ? { lists: given } : given, most = Number(level), isOpen = it.lists.every((list) => list.how !== "index");
    const from = (is, part) => isOpen && it.lists.every(is) && fusionOf({ ...it, lists: it.lists.map(part) }, rows, level);
    const ofLabels = (list) => list.map((_, i) => String(sumOf(list.slice(i)))), isOf = (size) => (list) => list.length === size - 1 && sumOf(list) <= most;
    const isAffine = (list) => list.length === Number(rows) && sumOf(list) === most;
    const ofDimension = ([number]) => (countInside(rows - 1, most) < 999 ? partitionsInside(rows - 1, most).find((it) => dimensionOf(it, rows) === Number(number)) : undefined);
    const affine = from(isAffine, (list) => ofLabels(list.slice(1))), dimensions = from((list) => list.length === 1 && ofDimension(list), (list) => [...ofDimension(list), ...(list[0] === "1" ? [0] : [])].map(String));
    const spins = rows === "2" && from((list) => list.length === 1 && 2 * list[0] <= most, ([number]) => [String(2 * number)]);
    const isDoubtful = it.isDoubtful || (rows !== "2" && isOpen && it.lists.every((list) => list.length === 1));
    return eitherOf(fusionOf({ ...it, isDoubtful }, rows, level), rows !== "2" && from(isOf(rows), ofLabels), affine, doubtful({ isDoubtful: it.lists.some((list) => list.how === "digits" && list[0] <= most) }, dimensions), spins);
  },
  inducedByOne: (letters, upTo, list) => (sumOf(list) === Number(letters) && Number(upTo) === sumOf(list) + 1 ? productOf([list, ["1"]]) : null),
  induced: (groups, lists) => (groups.join() === lists.map((it) => String(sumOf(it))).join() ? productOf(lists) : null),
  permutationModule: (groups, one) => (one === "1" ? reading("expand s", atomText("h", descending(groups))) : null),
  restricted: (letters, list, upTo = sumOf(list)) => (sumOf(list) === Number(letters) + 1 && Number(upTo) === sumOf(list) ? skewOf("skew", [list, ["1"]]) : null),
  // the arguments of a command
  operand: (how, list) => list && { list, how },
  operandDigits: (list) => ({ list, how: list.length === 1 && list[0].length === 1 ? "one" : "digits" }),
  operandPower: (list, [times, rest]) => (rest || Number(times) < 2 || Number(times) > LIMITS.factors ? null : { list, how: "list", times: Number(times) }),
  emptyFirst: (operand) => factorsOf("dash", [{ list: [], how: "list" }, operand]),
  onOneLine: (it) => (/^(?:mult|skew|expand) /.test(it.line) && !/ -m /.test(it.line) && !it.asked ? { ...it, line: it.line.replace(/^(\S+(?: -r \d+)?)/, "$1 -m") } : null),
  listOf: ({ list, times }) => (times ? null : list),
  mult: withOptions(productWithNumbers),
  productOfGl: ({ lists }) => {
    const count = String(lists[0].length), inGl = lists.every((it) => it.length === lists[0].length) && productOf(lists, variables(count));
    return inGl && lists.some((it) => it[count - 1] === "0") ? inGl : eitherOf(inGl, doubtful({ isDoubtful: inGl }, productOf(lists)));
  },
  coefOf: (it) => inSomeOrder(doubtful(it, coefOf(it.lists)), it.lists),
  shapeOfTwo: (it) => (it.lists.length === 2 && ["side", "comma"].includes(it.sign) ? Object.assign([...it.lists], { isDoubtful: Boolean(it.isAlone || it.isDoubtful) }) : null),
  skewWith: withOptions((options, shape) => skewOf("skew", shape, options)),
  productIn: (it, space, box) => (it && space && (!box || (space.rows === box.rows && space.columns === box.columns)) ? doubtful(it, classesIn(it.lists, space)) : null),
  quantumLeast: (it, rows) => MEANINGS.productIn(it, MEANINGS.space("quantum", boxOf(rows ?? leastRows(it), leastColumns(it)))),
  // tableaux
  unrsk: (...both) => eitherOf(...inWays(([p, q]) => [p, q].every(isTableau) && isPermutation(q.flat()) && p.every((row, i) => row.length === q[i]?.length), both).map(([p, q]) => reading("unrsk", rowsText(p), "-", rowsText(q)))),
  rectOfSkew: (typed) => eitherOf(...inWays(([rows]) => isTableau(rows), [typed]).map(([rows]) => {
    const inner = rows.map((it) => String(it.filter((cell) => cell === ".").length)), entries = rows.map((it, i) => it.slice(Number(inner[i])));
    return inner.some((it) => it !== "0") && !entries.flat().includes(".") ? skewOf("rect", [rows.map((it) => String(it.length)), partition(inner)], "", "-", rowsText(entries)) : null;
  })),
  shaped: (name, sign, shape, tableau) => skewOf(name, shape, "", sign, tableau ? rowsText(tableau) : ""),
  tabNumber: (shape) => asking(skewOf("tab", shape), { kind: "count" }),
  tabContent: (shape, content) => coefOf([...shape, content]),
  lrcalc: (it) => (/^coprod/.test(it.line) ? anyOf({ value: it, isRepair: true }) : it),
};
