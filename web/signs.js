// What people type, cut once into signs: numbers, words, brackets and the like. Signs that mean the same are one sign; nothing is rewritten.

/** Characters that are not seen: they have no width, or they turn the direction of a text. */
const UNSEEN = /[\p{Default_Ignorable_Code_Point}\p{Zl}\p{Zp}\ufff9-\ufffb]|(?!\t)\p{Cc}/u;
const ALL_UNSEEN = new RegExp(UNSEEN, "gu");

/** Unseen characters inside a word; those that stand for a sign: the soft hyphen, and the signs of MathML for times, a comma and plus; and a mark after
 * which a text runs from right to left, with something after it: its numbers are seen in another order. */
const MISSEEN = [new RegExp(`[\\p{L}\\p{N}](?:${UNSEEN.source})+[\\p{L}\\p{N}]`, "u"), /[\u00ad\u2062-\u2064]/, /[\u061c\u200f\u202b\u202e\u2067].*\S/u];
const isMisseen = (text) => MISSEEN.some((it) => it.test(text));

/** The signs of a text, in turn: `{kind, value, at, end, gap}`, of which `kind` is the sign in the notations and `gap` a blank before it. `words` are
 * the words that are known, and `same` has the signs that other texts stand for. */
function signsOf(text, { words, same }) {
  const signs = [];
  let gap = false;
  const put = (kind, at, end, value = kind) => {
    if (kind === "blank") return void (gap = true);
    if (kind === "nothing") return;
    const isNumber = /^\d/.test(kind);
    signs.push({ kind: isNumber ? "NUM" : kind, value: isNumber ? kind : value, at, end, gap: gap && signs.length > 0 && !"_^".includes(signs[signs.length - 1].kind) });
    gap = false;
  };
  const putWord = (word, at) => {
    const end = at + word.length, small = word.toLowerCase(), isApart = text[at - 1] === " " && text[end] === " ";
    if (word === "x" && (isApart || /[)\]}]x[([{]/.test(text.slice(at - 1, end + 1)))) return put("·", at, end);
    if (word === "a" && isApart && /^ (?:[A-Za-z]{2}|\d)/.test(text.slice(end, end + 3))) return;
    if (words.has(word) || word.length === 1) return put(word, at, end);
    if (same.has(word) || same.has(small)) return put(same.get(word) ?? same.get(small), at, end);
    const cut = words.has(small) ? -1 : word.indexOf("_");
    if (cut > 0) return putWord(word.slice(0, cut), at), put("_", at + cut, at + cut + 1), putWord(word.slice(cut + 1), at + cut + 1);
    if (word.length > 2) return put(words.has(small) ? small : `?${word}`, at, end);
    for (const [i, c] of [...word].entries()) put(c, at + i, at + i + 1);
  };
  const by = [
    () => void (gap = true),
    (piece, at, end) => put("NUM", at, end, piece),
    (piece, at, end) => {
      const [, inside, letter] = /\{([A-Za-z ]+)\}$|([A-Z])$/.exec(piece), name = inside ?? letter, framed = same.get(piece.replace(/.*?(frak|bb|cal|scr).*/, `$1${name}`));
      if (framed && /^\\(?:math|frak)/.test(piece)) return put(framed, at, end);
      for (const found of name.matchAll(/[A-Za-z]+| /g)) found[0] === " " ? (gap = true) : putWord(found[0], end - name.length - (inside ? 1 : 0) + found.index);
    },
    putWord,
    (piece, at, end) => (gap || signs.length === 0 ? put(piece, at, end) : (put("-", at, at + 1), putWord(piece.slice(1), at + 1))),
    (piece, at, end) => put("sup", at, end, piece.normalize("NFKC")),
    (piece, at, end) => [["_"], ["{"], ["NUM", piece.normalize("NFKC")], ["}"]].forEach(([kind, value]) => put(kind, at, end, value)),
    (piece, at, end) => {
      const [, name = ""] = /^\\(?:(?:begin|end)\{)?([A-Za-z]+)/.exec(piece) || [];
      put(same.get(piece) ?? (name === "" ? piece : same.get(name) ?? (words.has(name) ? name : `?${piece}`)), at, end);
    },
  ];
  for (const found of text.matchAll(PIECE)) {
    let i = 1;
    while (found[i] === undefined) i += 1;
    by[i - 1](found[0], found.index, found.index + found[0].length);
  }
  return signs;
}

/** The signs with the value for each letter of which one is given beside them, as in s_λ s_μ for λ = (3,1), μ = 21; in brackets, if it is a list without. */
function withValues(signs) {
  const kindAt = (at) => signs[at]?.kind, isGiven = (at) => kindAt(at + 1) === "=" && (LIST_LETTERS.test(kindAt(at)) || NUMBER_LETTERS.test(kindAt(at))), values = new Map();
  let front = signs.findIndex((_, at) => isGiven(at)), at = front, begin, end;
  // (a command has the numbers of the program; numbers beside each other could be a product)
  const isNumber = (it) => it.kind === "NUM" || NUMBER_LETTERS.test(it.kind), isBeside = (it, i) => i > 0 && !it.gap && isNumber(it) && isNumber(signs[i - 1]);
  if (front < 0 || ["quantum", "fusion"].includes(kindAt(0)) || signs.some(isBeside)) return signs;
  while (isGiven(at)) {
    for (begin = at + 2; isGiven(begin); ) begin += 2;
    for (end = begin; OF_VALUES.includes(kindAt(end)); ) end += 1;
    while (end > begin && kindAt(end - 1) === ",") end -= 1;
    const value = signs.slice(begin, end), isBare = NUMBER_LETTERS.test(kindAt(at)) || (["(", "[", "{"].includes(kindAt(begin)) && [")", "]", "}"].includes(kindAt(end - 1)));
    // (a letter with two values has none)
    if (end === begin || values.has(kindAt(begin - 2))) return signs;
    for (; at < begin; at += 2) values.set(kindAt(at), isBare ? value : [{ kind: "[" }, ...value, { kind: "]" }]);
    for (at = end; [",", ";", ":", "and"].includes(kindAt(at)); ) at += 1;
  }
  while (["for", "with", "where", "when", "if", "let", "and", ",", ";", ":"].includes(kindAt(front - 1)?.replace(/^\?/, ""))) front -= 1;
  const others = [...signs.slice(0, Math.max(front, 0)), ...signs.slice(at)], isUsed = values.size > 0 && [...values.keys()].every((name) => others.some((it) => it.kind === name) && !(/[uvw]/.test(name) && others.some((it) => /^(?:χ|character)$/.test(it.kind))));
  // (n^2 is a number, and 2^2 two parts)
  const power = others.find((it, i) => NUMBER_LETTERS.test(it.kind) && values.has(it.kind) && ["^", "sup", "**"].includes(others[i + 1]?.kind) && others[i - 1]?.kind !== "_");
  if (power) return tooMuch(sentence("family place", { name: power.kind })), signs;
  const put = (it) => (values.get(it.kind) || [it]).map((sign, i) => ({ ...sign, at: it.at, end: it.end, gap: i === 0 ? it.gap : sign.gap }));
  return isUsed ? others.flatMap(put) : signs;
}
