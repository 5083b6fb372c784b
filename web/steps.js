// Pictures step by step: how a word is inserted, how a tableau slides, how a Littlewood–Richardson tableau is read, and the pipe dreams and the
// diagram of a permutation. Each is made here anew, and shown only if it ends where the printed answer is.

/** The most steps of a picture, and the most letters of a permutation whose pipe dreams are drawn. */
const MOST_STEPS = 400;
const MOST_PIPES = 6;

/** The pictures of an answer: of each its title, and for each step what is drawn and what is said. */
function framesOf(line, answer) {
  if (!answer) return [];
  const parts = partsOf(textsOfWords(line)) || [], list = (role) => (parts.find((it) => it.role === role) || { words: [] }).words;
  if (line.startsWith("rsk")) return [insertion(list("letters").map(plainNumber), answer)];
  if (line.startsWith("rect")) return [rectification(list("partition"), parts.filter((it) => it.role === "partition")[1].words, list("filling"), answer)];
  if (line.startsWith("tab")) return [readings(answer)];
  if (line.startsWith("growth")) return [growthSteps(answer)];
  const letters = moved(list("permutation").map(Number));
  return line.startsWith("schubert") ? [pipeDreams(letters, answer), permutationDiagram(letters, answer)] : [];
}

/** The pictures of an answer, each with its steps. */
function steps(line, answer) {
  return framesOf(line, answer).filter((it) => it && it.frames.length > 1 && it.frames.length <= MOST_STEPS).map((it) => stepper(it, line));
}

/** A picture, one step at a time, with buttons for the one before and the next. */
function stepper({ title, frames }, line) {
  let number = 0;
  const drawing = element("div", { class: "step-drawing", tabindex: "0", role: "group", "aria-label": "Drawing of this step" }), caption = element("p", { class: "step-caption" });
  const place = element("input", { type: "range", min: "1", max: String(frames.length), value: "1", "aria-label": title });
  const show = (next) => {
    number = Math.min(Math.max(next, 0), frames.length - 1);
    const frame = frames[number]();
    drawing.replaceChildren(...frame.drawings);
    caption.replaceChildren(`${number + 1} of ${frames.length}. `, ...formula(frame.said));
    place.value = String(number + 1);
    place.setAttribute("aria-valuetext", plainFormula(frame.said));
  };
  place.oninput = () => show(Number(place.value) - 1);
  const buttons = [button("Before", () => show(number - 1)), place, button("Next", () => show(number + 1))];
  show(0);
  const tools = element("div", { class: "tools" }, ...buttons);
  return element("div", { class: "steps", role: "group", "aria-label": title }, note("step-title", title), tools, drawing, caption, toolsOfDrawings(drawing, line));
}

const textOfRows = (rows) => rows.map((row) => row.join(" ")).join(" / ");

// ---- row insertion

/** Inserts a letter into the rows of a tableau: the cells where it and what it moves come to be. */
function insertLetter(rows, letter) {
  const path = [];
  let moving = letter;
  for (let i = 0; ; i += 1) {
    if (i === rows.length) rows.push([]);
    const j = rows[i].findIndex((it) => Number(it) > Number(moving));
    path.push([i, j < 0 ? rows[i].length : j]);
    if (j < 0) return rows[i].push(moving), path;
    [rows[i][j], moving] = [moving, rows[i][j]];
  }
}

function insertion(letters, answer) {
  const rows = [], recording = [], frames = [];
  const keep = (path, said) => {
    const [p, q] = [rows, recording].map((it) => it.map((row) => [...row]));
    const last = path.length > 0 ? [path[path.length - 1]] : [];
    const drawings = () => [figure(tableauPicture(p, [], "tableau P", path), "P"), figure(tableauPicture(q, [], "tableau Q", last), "Q")];
    frames.push(() => ({ drawings: drawings(), said }));
  };
  keep([], "P and Q are empty.");
  for (const [n, letter] of letters.entries()) {
    const path = insertLetter(rows, letter), [i] = path[path.length - 1];
    (recording[i] = recording[i] || []).push(String(n + 1));
    const moved = path.length - 1;
    keep(path, `${letter} is inserted${moved > 0 ? `; ${countOfThings(moved, "letter moves", "letters move")} down` : ""}. Q has ${n + 1} in the new cell.`);
  }
  const isPrinted = [rows, recording].every((it, i) => textOfRows(it) === textOfRows(answer.tableaux[i]));
  return isPrinted ? { title: "Row insertion, letter by letter", frames } : null;
}

// ---- slides

/** The rows of a skew tableau as typed: `.` is a row without cells. */
function rowsTyped(words) {
  return words.join(" ").split(" / ").map((row) => (row === "." || row === "" ? [] : row.split(" ").map(plainNumber)));
}

function rectification(outer, inner, filling, answer) {
  const begins = partition(inner).map(Number), cells = rowsTyped(filling).map((row, i) => [...Array(begins[i] || 0).fill(null), ...row]);
  const frames = [];
  const keep = (marks, said) => {
    const rows = cells.map((row) => row.filter((it) => it !== null)), begin = (row) => row.filter((it) => it === null).length;
    const left = cells.map(begin);
    frames.push(() => ({ drawings: [figure(tableauPicture(rows, left, "tableau", marks))], said }));
  };
  keep([], `The tableau of shape ${[outer, inner].map(shown).join("/")}.`);
  for (let i = begins.length - 1; i >= 0; i -= 1) {
    for (let j = begins[i] - 1; j >= 0; j -= 1) {
      const path = slide(cells, i, j);
      const moves = path.length === 1 ? "no entry moves" : `${countOfThings(path.length - 1, "entry moves", "entries move")} to the left or up`;
      keep(path, `A slide into row ${i + 1}, column ${j + 1}: ${moves}.`);
    }
  }
  const rows = cells.filter((row) => row.length > 0);
  return textOfRows(rows) === textOfRows(answer.tableaux[0]) ? { title: "Slides, one after another", frames } : null;
}

/** Moves an empty cell to the right and down until it leaves the tableau: the cells on its way. If both neighbours are equal, the lower one moves. */
function slide(cells, i, j) {
  const path = [[i, j]];
  for (;;) {
    const right = cells[i][j + 1], below = cells[i + 1] && cells[i + 1][j];
    if (right === undefined && below === undefined) break;
    const isBelow = right === undefined || (below !== undefined && Number(below) <= Number(right));
    cells[i][j] = isBelow ? below : right;
    if (isBelow) i += 1;
    else j += 1;
    path.push([i, j]);
  }
  cells[i].pop();
  return path;
}

// ---- readings of Littlewood–Richardson tableaux

/** The tableaux read along their columns, from right to left, each from top to bottom: the letters so far make a partition. */
function readings({ tableaux, inner }) {
  const frames = [];
  for (const [i, rows] of tableaux.entries()) {
    const more = readingOf(rows, inner, `Tableau ${i + 1}`);
    if (!more) return null;
    if (frames.length + more.length > MOST_STEPS) break;
    frames.push(...more);
  }
  return { title: "The tableaux, read column by column from the right", frames };
}

/** The steps of the reading of one tableau; null if its letters so far do not always make a partition. */
function readingOf(rows, inner, name) {
  const begin = (i) => inner[i] || 0, frames = [], content = [], read = [], marks = [];
  const columns = Math.max(0, ...rows.map((row, i) => begin(i) + row.length));
  for (let j = columns - 1; j >= 0; j -= 1) {
    for (const [i, row] of rows.entries()) {
      const entry = row[j - begin(i)];
      if (j < begin(i) || entry === undefined) continue;
      read.push(entry);
      marks.push([i, j]);
      for (let letter = content.length; letter < Number(entry); letter += 1) content.push(0);
      content[Number(entry) - 1] += 1;
      const [word, seen, shape] = [[...read], [...marks], [...content]];
      if (!isDecreasing(shape)) return null;
      const said = `${name}. Read so far: ${word.join(" ")}. The content ${shown(shape.map(String))} is a partition.`;
      frames.push(() => ({ drawings: [figure(tableauPicture(rows, inner, "tableau", seen)), figure(diagram(shape), "content")], said }));
    }
  }
  return frames;
}

// ---- permutations

/** The letters of a permutation without those at its end that are in their places. */
function moved(w) {
  const end = w.findLastIndex((it, i) => it !== i + 1) + 1;
  return w.slice(0, end);
}

/** The exponents of a monomial, without zeros at the end. */
function exponentsOf(counts) {
  return counts.slice(0, counts.findLastIndex((it) => it > 0) + 1);
}

/** The picture of the first rows of the diagram of a permutation: in each row a dot, with lines to the right and down, and the cells that no line meets. */
function diagramPicture(w, rows, cells, name) {
  const side = 22, n = w.length, corner = (i) => i * side + 18, middle = (i) => corner(i) + side / 2;
  const box = ([i, j]) => `M${corner(j)} ${corner(i)}h${side}v${side}h${-side}z`, size = corner(n) + 2;
  const lines = w.slice(0, rows).map((a, i) => `M${corner(n)} ${middle(i)}H${middle(a - 1)}V${corner(n)}`).join("");
  const dots = w.slice(0, rows).map((a, i) => `M${middle(a - 1) - 3} ${middle(i)}a3 3 0 1 0 6 0a3 3 0 1 0 -6 0z`).join("");
  const svg = element("svg", { width: size, height: size, role: "img", "aria-label": name }, element("path", { class: "marked", d: cells.map(box).join("") }));
  svg.append(element("path", { d: `M18 18h${n * side}v${n * side}h${-n * side}z` }), element("path", { class: "pipes", d: lines }));
  svg.append(element("path", { d: cells.map(box).join("") }), element("path", { class: "dots", d: dots }));
  for (let i = 0; i < n; i += 1) svg.append(element("text", { x: middle(i), y: 9 }, String(i + 1)), element("text", { x: 9, y: middle(i) }, String(i + 1)));
  return svg;
}

/** The diagram of a permutation, row by row. Its rows have as many cells as the code of the permutation says: the exponents of a monomial of the polynomial. */
function permutationDiagram(w, answer) {
  if (w.length < 2 || answer.kind !== "terms") return null;
  const frames = [], cells = [], code = [];
  for (const [i, a] of w.entries()) {
    const columns = w.slice(i + 1).filter((b) => b < a).sort((b, c) => b - c);
    cells.push(...columns.map((b) => [i, b - 1]));
    code.push(columns.length);
    const [seen, counts] = [[...cells], [...code]];
    const name = `diagram of ${w.join(" ")} with ${seen.map(([k, j]) => `row ${k + 1} column ${j + 1}`).join(", ") || "no cell"}`;
    const whole = i + 1 < w.length ? "" : ` Its monomial is ${shownTerm({ first: counts }, "x") || "1"}.`;
    const said = `Row ${i + 1} has a dot in column ${a} and ${countOfThings(columns.length, "cell", "cells")}: the smaller letters that come later. The code so far is (${counts.join(",")}).${whole}`;
    frames.push(() => ({ drawings: [figure(diagramPicture(w, i + 1, seen, name))], said }));
  }
  const isPrinted = answer.terms.some((it) => it.c === "1" && it.first.join() === exponentsOf(code).join());
  return isPrinted ? { title: `The diagram of ${w.join(" ")}: the lengths of its rows are the exponents of a monomial`, frames } : null;
}

/** The crosses of the reduced pipe dreams of a permutation, each a list of cells, read by rows from the top, each from the right. */
function crossesOf(w) {
  const n = w.length, length = w.reduce((sum, a, i) => sum + w.slice(i).filter((b) => b < a).length, 0), cells = [], found = [];
  for (let i = 0; i < n; i += 1) for (let j = n - 2 - i; j >= 0; j -= 1) cells.push([i, j]);
  const walk_ = (k, left, crosses) => {
    if (crosses.length === length) return left.every((it, i) => it === i + 1) && found.push(crosses);
    if (k === cells.length || cells.length - k < length - crosses.length) return undefined;
    const [i, j] = cells[k], place = left.indexOf(i + j + 1), other = left.indexOf(i + j + 2);
    if (place > other) {
      const next = [...left];
      [next[place], next[other]] = [next[other], next[place]];
      walk_(k + 1, next, [...crosses, cells[k]]);
    }
    return walk_(k + 1, left, crosses);
  };
  walk_(0, [...w], []);
  return found;
}

/** The picture of a pipe dream: pipes that cross, or turn, in each cell of a staircase. */
function pipePicture(n, crosses, name) {
  const side = 26, lines = [];
  for (let i = 0; i < n; i += 1) {
    for (let j = 0; i + j < n; j += 1) {
      const x = j * side + 18, y = i * side + 18, half = side / 2, isLast = i + j === n - 1;
      if (crosses.some(([a, b]) => a === i && b === j)) lines.push(`M${x} ${y + half}h${side}M${x + half} ${y}v${side}`);
      else lines.push(`M${x} ${y + half}q${half} 0 ${half} ${-half}${isLast ? "" : `M${x + half} ${y + side}q0 ${-half} ${half} ${-half}`}`);
    }
  }
  const size = n * side + 22, svg = element("svg", { width: size, height: size, role: "img", "aria-label": name }, element("path", { class: "pipes", d: lines.join("") }));
  for (let i = 0; i < n; i += 1) svg.append(element("text", { x: i * side + 18 + side / 2, y: 9 }, String(i + 1)), element("text", { x: 9, y: i * side + 18 + side / 2 }, String(i + 1)));
  return svg;
}

function pipeDreams(w, answer) {
  if (w.length > MOST_PIPES || w.length < 2 || answer.kind !== "terms") return null;
  const weightOf = (crosses) => {
    const rows = Array(w.length).fill(0);
    for (const [i] of crosses) rows[i] += 1;
    return exponentsOf(rows);
  };
  const all = crossesOf(w).map((crosses) => ({ crosses, weight: weightOf(crosses) })), counts = new Map();
  for (const { weight } of all) counts.set(weight.join(), (counts.get(weight.join()) || 0) + 1);
  const isPrinted = answer.terms.length === counts.size && answer.terms.every((it) => String(counts.get(it.first.join())) === it.c);
  if (!isPrinted) return null;
  const frames = all.map(({ crosses, weight }) => () => {
    const name = `pipe dream with crosses in ${crosses.map(([i, j]) => `row ${i + 1} column ${j + 1}`).join(", ") || "no cell"}`;
    return { drawings: [figure(pipePicture(w.length, crosses, name))], said: `Its weight is ${shownTerm({ first: weight }, "x") || "1"}: a cross in row i counts x_{i}.` };
  });
  return { title: `The pipe dreams of ${w.join(" ")}: their weights add up to the polynomial`, frames };
}
