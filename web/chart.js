// A chart parser (Earley, which looks at the next sign): all trees of a line of signs, as the set of their values.

/** The most items and cuts of a chart, and the most values of a rule at a place: beyond them a line is too long, or has too many readings, to be read here. */
const MOST_ITEMS = 20000;
const MOST_CUTS = 24000;
const MOST_VALUES = 24;

/** An item of an alternative: its name, what it says of a blank before it (1: none, 2: one), and whether it can be left out. */
function itemOf(given) {
  const gap = given.length > 1 ? "~␣".indexOf(given[0]) + 1 : 0, name = gap > 0 ? given.slice(1) : given;
  const isOptional = name.length > 1 && name.endsWith("?");
  return { name: isOptional ? name.slice(0, -1) : name, gap, isOptional };
}

/** The lines of a table: its alternatives, its classes of signs, what the page calls each, and which texts are the same as a sign. (As it is packed it has % for its arrow.) */
function readTable(table) {
  const alternatives = [], classes = new Map(), labels = new Map(), same = new Map();
  let name = "";
  for (const line of table.split("\n").map((it) => it.replace(/\s+# .*$|^#.*$/, "").trim())) {
    const found = /^(?:(?!\|)(\S+)(?: "([^"]*)")? )?([:~=]?=|\|) ?(.*)$/.exec(line);
    if (!found) continue;
    const [, own, label, kind, right] = found;
    name = own ?? name;
    if (label) labels.set(name, label);
    if (kind === "==") right.split(" ").forEach((it) => same.set(it, name));
    else if (kind === ":=" || kind === "~=") classes.set(name, { signs: right.split(" "), isKept: kind === ":=" });
    else {
      const [, items, mark, meaning = "value"] = /^(.*?) ?(?:(?:->|%) ?([!?] )?(.*))?$/.exec(right);
      alternatives.push({ name, items: items.split(" ").map(itemOf), isRepair: mark === "! ", isDoubt: mark === "? ", meaning: (meaning || '""').split(" ") });
    }
  }
  return { alternatives, classes, labels, same };
}

/** How the values of the items of an alternative make its own: `chosen` are the places of those that are given, or words. */
function giver({ items, meaning: [name, ...given] }, isValued, meanings) {
  const valued = items.map((it, i) => (isValued(it.name) ? i : -1)).filter((i) => i >= 0), give = meanings[name] ?? Object.values(meanings)[name.charCodeAt() - 256], at = name === "value" ? valued[0] : name - 1;
  if (name === '""') return () => "";
  if (at >= 0) return (values) => values[at];
  if (!give) throw new Error(`no meaning ${name}`);
  const words = given.filter((it) => !/^\d+$/.test(it)).map((it) => it.replace(/"/g, "")), places = given.filter((it) => /^\d+$/.test(it)).map((it) => it - 1);
  const chosen = places.length > 0 ? places : valued;
  return (values) => give(...words, ...chosen.map((i) => values[i]));
}

/** An alternative with and without the items that can be left out, and with each of the rules of which it can have one, once for each choice of them. */
function choicesOf(items, ids) {
  const namesOf = ({ name }) => (name.split("|").some((it) => ids.has(it)) ? name.split("|") : [name]);
  const ways = items.map((it, place) => [...(it.isOptional ? [null] : []), ...namesOf(it).map((name) => ({ ...it, name, place }))]);
  return ways.reduceRight((all, way) => all.flatMap((back) => way.map((it) => (it ? [it, ...back] : back))), [[]]);
}

/** A table as it is parsed by: its states, each an alternative with a place in it, and which signs can begin each. */
function grammarOf(table, meanings) {
  const { alternatives, classes, labels, same } = readTable(table), names = [...new Set(alternatives.map((it) => it.name))];
  const ids = new Map(names.map((name, i) => [name, i])), silent = new Set(alternatives.filter((it) => it.meaning[0] === '""').map((it) => it.name));
  const signsOfItem = (name) => (name.length > 1 && !classes.has(name) ? name.split("|") : [name]).flatMap((it) => (classes.has(it) ? classes.get(it).signs : [it]));
  const isValued = (names, [name] = names.split("|")) => (ids.has(name) ? !silent.has(name) : classes.has(name) ? classes.get(name).isKept : name === "NUM" || name === "sup");
  const literals = new Set(alternatives.flatMap((it) => it.items).flatMap((it) => signsOfItem(it.name)).filter((it) => !ids.has(it)));
  const kinds = new Map([...literals].map((it, i) => [it, i])), states = [], startsOf = names.map(() => []), firstOf = new Map(names.map((name) => [name, new Uint8Array(kinds.size + 2)]));
  const firstOfItem = (name) => {
    if (!firstOf.has(name)) firstOf.set(name, signsOfItem(name).reduce((first, it) => ((first[kinds.get(it)] = 1), first), new Uint8Array(kinds.size + 2)));
    return firstOf.get(name);
  };
  for (const { name, items: all, meaning, isRepair, isDoubt } of alternatives) {
    const give = giver({ items: all, meaning }, isValued, meanings), id = ids.get(name);
    for (const items of choicesOf(all, ids)) {
      const isSame = all.length === 1 && /^(?:1|value)$/.test(meaning[0]) && ids.has(items[0].name) && items[0].gap === 0 && !isRepair && !isDoubt;
      const of = { id, name, items, give, digits: 0, isRepair, isDoubt, isSame, count: all.length };
      startsOf[id].push(states.length);
      items.forEach((item, at) => states.push({ of, at, place: item.place, name: item.name, gap: item.gap, rule: ids.get(item.name) ?? -1, first: firstOfItem(item.name) }));
      states.push({ of, at: items.length, gap: 0, rule: -1, first: null });
    }
  }
  for (const name of names) {
    // (what a rule can begin with; a set also gives what is added meanwhile)
    const first = firstOf.get(name), begins = new Set([name]);
    for (const it of begins) ids.has(it) ? startsOf[ids.get(it)].forEach((start) => begins.add(states[start].name)) : firstOfItem(it).forEach((is, i) => is && (first[i] = 1));
  }
  const samesOf = (id) => [id, ...startsOf[id].flatMap((it) => (states[it].of.isSame ? samesOf(states[it].rule) : []))], sames = names.map((_, id) => [...new Set(samesOf(id))]);
  const fast = { sames, firsts: states.map((it) => it.first), rules: Int32Array.from(states, (it) => it.rule), gaps: Uint8Array.from(states, (it) => it.gap), ofs: Int32Array.from(states, (it) => it.of.id) };
  return { states, ids, kinds, labels, same, startsOf, startsBy: new Map(), signsOfItem, words: new Set([...literals].filter((it) => /^[A-Za-zü_]{2,}$/.test(it))), ...fast };
}

/** The alternatives of a rule that can begin with two signs, and the places in its others that the first of them reaches. */
function startsWith({ states, startsOf, startsBy, firsts, kinds }, id, kind, next) {
  const wide = kinds.size + 2, key = (id * wide + kind) * wide + next, found = startsBy.get(key);
  if (found) return found;
  const open = startsOf[id].filter((it) => firsts[it][kind] && !states[it].of.isSame), goesOn = (it) => states[it].rule >= 0 || firsts[it + 1] === null || firsts[it + 1][next];
  const made = { kept: open.filter(goesOn), stopped: open.filter((it) => !goesOn(it)).map((it) => it + 1) };
  startsBy.set(key, made);
  return made;
}

/** The chart of signs: its items, each a state, the place where its alternative begins, the item before it and what comes between them: a node, or a
 * sign, as -1 less its place; `others` are further pairs of these. A node is a rule that has ended, with the items in which it has. `far` is how many
 * signs begin some line; `tried` are the states that would go on there. */
function chartOf(grammar, rule, signs) {
  const { kinds, firsts, rules, gaps, ofs, sames, startsOf } = grammar, length = signs.length, wide = length + 1, root = grammar.ids.get(rule), none = kinds.size;
  const kind = [...signs.map((it) => kinds.get(it.kind) ?? none), none + 1, none + 1], blanks = [...signs.map((it, i) => (i === 0 ? 0 : it.gap ? 1 : 2)), 0];
  const [state, origin, before, between] = Array.from({ length: 4 }, () => new Int32Array(MOST_ITEMS + grammar.states.length)), others = new Map(), nodes = [];
  // (of each column: its items, and these as numbers; the rules that are awaited there, with the items that wait; and those that have ended there)
  const columns = Array(wide).fill(null), columnAt = (at) => (columns[at] ??= { items: [], keys: [], awaited: [], waiting: [], ended: [], first: 0, isMixed: false });
  let far = 0, count = 0, tried = [];
  const add = (at, next, begin, from, over) => {
    const first = firsts[next], { items, keys } = columnAt(at);
    if (first !== null) {
      if (at > far) (far = at), (tried = []);
      if (at === far) tried.push(next);
      // (an item that cannot go on here is none)
      if (!first[kind[at]] || (gaps[next] !== 0 && gaps[next] === blanks[at])) return;
    }
    const key = next * wide + begin, place = keys.indexOf(key);
    if (place >= 0) return void others.set(items[place], [...(others.get(items[place]) ?? []), [from, over]]);
    keys.push(key);
    items.push(count);
    (state[count] = next), (origin[count] = begin), (before[count] = from), (between[count] = over);
    count += 1;
  };
  const end = (at, id, begin, item) => {
    const here = columns[at], key = id * wide + begin, place = here.ended.indexOf(key);
    if (place >= 0) return void nodes[here.first + place].push(item);
    if (here.ended.length === 0) here.first = nodes.length;
    else if (here.ended[here.ended.length - 1] % wide < begin) here.isMixed = true;
    here.ended.push(key);
    const { awaited, waiting } = columns[begin], i = awaited.indexOf(id), node = nodes.push([item]) - 1;
    if (i >= 0) for (const it of waiting[i]) add(at, state[it] + 1, origin[it], it, node);
  };
  const wait = (at, id, item) => {
    const { awaited, waiting } = columns[at], place = awaited.indexOf(id);
    if (place >= 0) return void waiting[place].push(item);
    awaited.push(id);
    waiting.push([item]);
    const { kept, stopped } = startsWith(grammar, id, kind[at], kind[at + 1]);
    for (const it of kept) add(at, it, at, -1, 0);
    if (stopped.length === 0 || at + 1 < far) return;
    if (at + 1 > far) (far = at + 1), (tried = []);
    tried.push(...stopped);
  };
  for (const it of startsOf[root]) add(0, it, 0, -1, 0);
  for (let at = 0; at <= length && count < MOST_ITEMS; at += 1) {
    const { items } = columnAt(at);
    for (let i = 0; i < items.length && count < MOST_ITEMS; i += 1) {
      const item = items[i], now = state[item];
      if (firsts[now] === null) end(at, ofs[now], origin[item], item);
      else if (rules[now] < 0) add(at + 1, now + 1, origin[item], item, -1 - at);
      // (a rule that can be another one alone is awaited as that one, too)
      else for (const it of sames[rules[now]]) wait(at, it, item);
    }
  }
  return { state, before, between, others, nodes, columns, root: columnAt(length).first + columnAt(length).ended.indexOf(root * wide), isWhole: columnAt(length).ended.includes(root * wide), far, tried, isLong: count >= MOST_ITEMS };
}

/** All values of a rule for all signs: `{values, isMany, isWhole, far, tried}`. `isMany`: there are too many, or the signs are too many. */
function parsed(grammar, rule, signs) {
  const chart = chartOf(grammar, rule, signs), { far, isLong, tried } = chart, isWhole = !isLong && signs.length > 0 && chart.isWhole;
  return { ...(isWhole ? valuesOf(grammar, chart, signs) : { values: [], isMany: isLong }), isWhole, far, tried: isLong ? [] : tried.map((it) => grammar.states[it]) };
}

/** The nodes of all trees, the short ones first; null if there are too many. */
function nodesOf({ state, before, between, others, nodes, columns, root }, wide) {
  const isWalked = new Uint8Array(state.length), isNeeded = new Uint8Array(nodes.length), open = [...nodes[root]];
  let cuts = 0;
  const take = (from, over) => {
    cuts += 1;
    open.push(from);
    if (over >= 0 && isNeeded[over] === 0) (isNeeded[over] = 1), open.push(...nodes[over]);
  };
  isNeeded[root] = 1;
  while (open.length > 0 && cuts < MOST_CUTS) {
    const item = open.pop();
    if (isWalked[item] === 1 || before[item] < 0) continue;
    isWalked[item] = 1;
    take(before[item], between[item]);
    for (const [from, over] of others.get(item) ?? []) take(from, over);
  }
  const found = [];
  for (const { ended, first, isMixed } of columns.filter(Boolean)) {
    const needed = ended.map((_, i) => first + i).filter((it) => isNeeded[it] === 1);
    // (those of a column were found the short ones first, but for some)
    found.push(...(isMixed ? needed.sort((a, b) => (ended[b - first] % wide) - (ended[a - first] % wide)) : needed));
  }
  return cuts < MOST_CUTS ? found : null;
}

/** Whether two values are the same, with how their lists were typed. (Where they differ it is seen at the first part that does.) */
const areSame = (a, b) => a === b || (Boolean(a && b) && typeof a === "object" && typeof b === "object" && a.how === b.how && Object.keys(a).length === Object.keys(b).length && Object.keys(a).every((it) => areSame(a[it], b[it])));

/** The values of one node, each once with a convention about digits; where two trees have the same one it is a repair, or doubtful, only if it is so in both. */
function putValue(found, it) {
  const old = found.find((other) => other.digits === it.digits && areSame(other.value, it.value));
  if (old) (old.isRepair = old.isRepair && it.isRepair), (old.isDoubt = old.isDoubt && it.isDoubt);
  else found.push(it);
  return found.length <= MOST_VALUES;
}

/** The marks of two parts together; null, if they have two conventions about digits. */
function marksOf(a, b) {
  if (!b.digits && !b.isRepair && !b.isDoubt) return a;
  const isOne = !a.digits || !b.digits || a.digits === b.digits;
  return isOne ? { digits: a.digits || b.digits || 0, isRepair: Boolean(a.isRepair || b.isRepair), isDoubt: Boolean(a.isDoubt || b.isDoubt) } : null;
}

/** The values of all trees of a parsed line, each once: `{value, digits, isRepair, isDoubt}`. A line has one convention about digits. */
function valuesOf({ states }, chart, signs) {
  const { state, before, between, others, nodes, root } = chart, needed = nodesOf(chart, signs.length + 1), known = Array(nodes.length).fill(null);
  let count = 0, isMany = needed === null;
  const end = ({ give }, values, of, found) => {
    const given = give(values);
    for (const it of given && given.isEither ? given : [{ value: given }]) {
      const marks = it.value === null || it.value === undefined ? null : marksOf(of, it);
      if (marks && !putValue(found, { value: it.value, digits: marks.digits, isRepair: marks.isRepair, isDoubt: marks.isDoubt })) isMany = true;
    }
  };
  // (the values of an alternative, filled in from its last item to its first one)
  const fill = (item, values, marks, found) => {
    if (before[item] < 0) return end(states[state[item]].of, values, marks, found);
    take(item, before[item], between[item], values, marks, found);
    for (const [from, over] of others.get(item) ?? []) take(item, from, over, values, marks, found);
  };
  const take = (item, from, over, values, marks, found) => {
    const { place } = states[state[item] - 1];
    if (over < 0) return (values[place] = signs[-1 - over].value), fill(from, values, marks, found);
    for (const it of valuesOfNode(over)) {
      const all = marksOf(marks, it);
      if ((count += 1) > MOST_CUTS) isMany = true;
      if (all && !isMany) (values[place] = it.value), fill(from, values, all, found);
    }
  };
  const valuesOfNode = (node) => {
    if (known[node] !== null) return known[node];
    const found = [];
    for (const item of nodes[node]) if (!isMany) fill(item, Array(states[state[item]].of.count), states[state[item]].of, found);
    return (known[node] = found);
  };
  // (the short ones first, so that nothing is deep)
  for (const it of needed ?? []) valuesOfNode(it);
  return { values: isMany ? [] : valuesOfNode(root), isMany };
}
