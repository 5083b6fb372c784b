// What is typed, read: a line of the program as it is; any other line by the notations, all of whose readings are found. One reading runs; several are
// offered, and none runs; where there is none, the nearest known thing is offered, and said is where the line stops.

/** The longest line that is looked at, and the longest one that is read by the notations. */
const LONGEST_LINE = 65536;
const LONGEST = 4096;
/** The most readings that are offered for a line. */
const MOST_OFFERED = 12;

/** The notations, made ready for the first line that is none of the program. */
const notation = () => (notation.made ??= grammarOf(NOTATIONS, MEANINGS));

/** A line without what is no part of it, and what that was, in words. */
function plainLine(typed) {
  const changes = [];
  let line = typed.trim();
  for (const [what, form] of LEFT_OUT) {
    if (what === "the quotes" && QUOTED_APART.test(line)) continue;
    const isList = (inner) => /^\d+(?:[ ,]+\d+)+$/.test(inner) && what === "the quotes";
    const left = line.replace(form, (all, ...groups) => {
      const inner = what === "the declaration" ? "" : groups.find((it) => typeof it === "string" && it !== line) ?? "";
      return isList(inner) && all !== line.trim() ? `[${inner}]` : inner;
    });
    if (left.trim() !== line && !changes.includes(what)) changes.push(what);
    line = left.trim();
  }
  return { line, changes };
}

/** A reading by its line and what is asked for of its answer. */
const keyOf = ({ line, asked }) => line + (asked ? JSON.stringify(asked) : "");

/** Readings in the order in which they are offered, each once: digits apart before numbers of several digits, those that are 0 by size last. */
function offered(readings) {
  const isKnown = (it) => it.line && isSound(textsOfWords(it.line)), rank = (it) => (it.zero ? 8 : 0) + (it.digits === 2 ? 4 : it.isDoubtful ? 2 : 0) + (it.line.startsWith("expand") && !it.asked ? 1 : 0) + (it.line.startsWith("mult -r") ? 0.5 : 0);
  const found = new Map(readings.filter(isKnown).sort((a, b) => rank(a) - rank(b)).map((it) => [keyOf(it), it]));
  return [...found.values()].slice(0, MOST_OFFERED);
}

/** All readings of a line by the notations: those that count, those with something changed, whether something was cut short, and where the line stops. */
function readingsOf(line) {
  Object.assign(cutShort, { is: false, why: "" });
  const signs = withValues(signsOf(line, notation()));
  const { values, isMany, isWhole, far, tried } = parsed(notation(), "Line", signs);
  const readings = values.map(({ value, digits, isRepair, isDoubt }) => ({ ...value, digits, isRepair, isDoubtful: isDoubt || digits === 2 || Boolean(value.isDoubtful) }));
  const sure = readings.filter((it) => !it.isRepair), keys = new Set(sure.map(keyOf));
  const stop = values.length > 0 || signs.length === 0 ? null : { isWhole, sign: signs[far], front: line.slice(0, signs[far - 1] ? signs[far - 1].end : 0), expected: isWhole ? [] : expectedAt(tried) };
  return { sure, repairs: readings.filter((it) => it.isRepair && !keys.has(keyOf(it))), isCut: isMany || cutShort.is, why: cutShort.why, stop };
}

/** What can come at a place, as the page calls it, in the order of the notations, where what binds more tightly stands first; a comma and a bracket that closes last. */
function expectedAt(states) {
  const rank = ({ of, name }) => of.id + 999 * (",)]}".indexOf(name) + 1), nameOf = (name, sign, rule) => notation().labels.get(name) ?? SENTENCES["next sign"][sign] ?? (rule >= 0 || /^(?:[A-Za-z]{2}|[Ā-ɏ])/.test(sign) ? "" : sign);
  return [...new Set([...states].sort((a, b) => rank(a) - rank(b)).map((it) => nameOf(it.name, it.name.split("|")[0], it.rule)))].filter(Boolean).slice(0, 6);
}

/** Readings of a line with the name of its command put right. */
function withOtherName(line) {
  const [, first, rest] = /^(?:lrcalc[.\s]\s*)?([A-Za-z]+)(.*)$/s.exec(line) || [], name = first && commandLike(first);
  if (!name || name === first) return [];
  const other = name + rest;
  return isCommand(textsOfWords(other)) ? [{ line: withSingleBlanks(other) }, ...lettersApart(other)] : readingsOf(other).sure;
}
const withSingleBlanks = (line) => line.trim().replace(/[ \t]+/g, " ");

/** What is typed, as it is read: `{line, changes}` of what runs, with what is asked for of the answer as `asked`; of a line that does not run also why, as `unread`. */
function readTyped(typed) {
  const asTyped = typed.trim();
  if (typed.length > LONGEST_LINE) return unread(`${asTyped.slice(0, 400)}..`, [], sentence("long line", { most: LONGEST_LINE.toLocaleString("en") }));
  const family = familyRead(asTyped);
  if (family) return family;
  if (isCommand(textsOfWords(asTyped))) return { line: asTyped, changes: [] };
  const { line, changes } = plainLine(asTyped), isHidden = isMisseen(asTyped);
  const help = helpAsked(asTyped) ?? helpAsked(line);
  if (help !== undefined) return { line: asTyped, changes: [], help };
  if (!isHidden && (line === "" || isCommand(textsOfWords(line)))) return { line, changes };
  if (line.length > LONGEST) return GRAMMAR.has(textsOfWords(line)[0]) ? { line, changes, unread: { offers: [] } } : unread(line, changes, sentence("long line", { most: LONGEST.toLocaleString("en") }));
  if (isHidden) return unread(asTyped, [], sentence("hidden"), offered(hiddenReadings(asTyped, line)));
  const { sure, repairs, isCut, why, stop } = readingsOf(line);
  // (a formula as the page writes it runs, though it is 0 by its sizes)
  const isWritten = (it, shown = computedBy(it.line, it.asked)) => [typedOf(it), shown, plainFormula(shown)].includes(line), areSeveral = (all) => new Set(all.map(keyOf)).size > 1;
  // (what is doubtful, and 0 by its sizes, is hardly meant, but of a command)
  const isSure = (it) => !it.isDoubtful && (!it.zero || isWritten(it)), isMeant = (it) => !it.zero || !it.isDoubtful || GRAMMAR.has(/^[a-z]*/.exec(line)[0]);
  const own = areSeveral(sure) ? sure.filter((it) => isWritten(it)) : [], meant = own.length > 0 ? own : sure;
  if (meant.length > 0 && !areSeveral(meant) && !isCut && meant.every(isSure)) return { line: meant[0].line, changes, asked: meant[0].asked };
  if (sure.some(isMeant)) return severalRead(line, changes, offered([...sure, ...(sure.every((it) => it.zero) ? repairs : [])]), isCut);
  if (isCut) return unread(line, changes, why || sentence("beyond"));
  return notRead(line, changes, { offers: offered(repairs.length > 0 ? repairs : withOtherName(line).filter(isMeant)), stop: sure.length > 0 ? { isZero: true } : stop });
}

/** A line that the page does not run: what it says of it, what it offers, and which part it marks. */
const unread = (line, changes, said, offers = [], mark = {}) => ({ line, changes, unread: { said, offers, ...mark } });

/** A line with several readings, or with one that does not run by itself. */
function severalRead(line, changes, offers, isCut) {
  const count = offers.length, isZero = count > 0 && offers.every((it) => it.zero);
  if (count === 0) return unread(line, changes, sentence("beyond"));
  // (a command that is half typed is better refused by the program, with what it could mean)
  if (count === 1 && !isZero && GRAMMAR.has(textsOfWords(line)[0])) return { line, changes, unread: { offers } };
  const said = sentence(isZero ? "zero by size" : isCut || count === 1 ? "one of several" : "several", { count }), sizes = isZero ? offers.flatMap((it) => it.line.slice(5).split(" - ").map((list) => sumOf(list.split(" ")))) : [];
  return unread(line, changes, sizes.length > 2 && sizes.every((it) => it === sizes[0]) ? `${SENTENCES.unknown[0][1]} ${said}` : said, offers);
}

/** A line without a reading: named as what it is, refused by the program if it begins with one of its commands or with no known sign, or with where it stops. */
function notRead(line, changes, { offers, stop }) {
  const [first = ""] = textsOfWords(line), small = line.slice(0, 400).replace(/[A-Za-z]{3,}/g, (it) => it.toLowerCase()), isOwn = GRAMMAR.has(first);
  const unknown = isOwn ? null : SENTENCES.unknown.find(([form]) => new RegExp(form, "u").test(small));
  if (unknown) return unread(line, changes, unknown[1], offers);
  if (isOwn || !stop || stop.front?.trim() === "") return { line, changes, unread: { offers } };
  if (stop.isWhole || stop.isZero) return unread(line, changes, sentence(stop.isZero ? "zero read" : "senseless"), offers);
  const front = stop.front.length > 36 ? `..${stop.front.slice(-34)}` : stop.front, expected = oneOf(stop.expected), word = stop.sign ? line.slice(stop.sign.at, stop.sign.end) : "";
  const near = !/^[A-Za-z]{4,20}$/.test(word) ? undefined : [...notation().words].find((it) => it !== word && distance(word.toLowerCase(), it) <= it.length / 4);
  const said = sentence(`${stop.sign ? "stops" : "is short"}${expected ? "" : " there"}`, { front, word: named(word), expected }) + (near ? ` ${sentence("near", { near })}` : "");
  return unread(line, changes, said, offers, stop.sign ? { at: stop.sign.at, length: word.length } : { at: line.length, length: 0 });
}

/** What a line can be seen as that has characters which are not seen: without them, and with a blank or a hyphen for each. */
function hiddenReadings(typed, bare) {
  const ways = [bare, plainLine(typed.replace(ALL_UNSEEN, " ")).line, plainLine(typed.replace(/\u00ad/g, "-")).line].map(withSingleBlanks);
  return ways.flatMap((it) => (isCommand(textsOfWords(it)) ? [{ line: it }] : it.length > LONGEST ? [] : readingsOf(it).sure));
}
