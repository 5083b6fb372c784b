// Drawings of answers: diagrams of partitions, and tableaux.

/** The side of a cell of a diagram, and the height of a cell with an entry. */
const CELL = 16;
const ROW = 22;
/** The most terms or tableaux of an answer that are drawn, and the most cells. */
const MOST_DRAWN = 60;
const MOST_CELLS = 6000;

const NAMESPACES = { svg: "http://www.w3.org/2000/svg", math: "http://www.w3.org/1998/Math/MathML" };
/** The elements of a picture and of a formula. */
const NAMESPACE_OF = { svg: "svg", path: "svg", text: "svg", ...Object.fromEntries("math mrow mi mn mo mtext msub msup msubsup".split(" ").map((it) => [it, "math"])) };

/** An element of the page, of a picture, or of a formula. */
function element(name, attributes = {}, ...children) {
  const kind = NAMESPACE_OF[name], it = kind ? document.createElementNS(NAMESPACES[kind], name) : document.createElement(name);
  for (const [key, value] of Object.entries(attributes)) it.setAttribute(key, value);
  it.append(...children);
  return it;
}

/** A picture with its name: rows of cells, each of which begins at a column. A diagram has cells without entries. Some cells can be marked. */
function picture(rows, isLabelled, name, marks = []) {
  const cells = rows.flatMap((row, i) => row.cells.map((entry, j) => ({ i, j: row.begins + j, entry })));
  const columns = Math.max(1, ...rows.map((row) => row.begins + row.cells.length));
  const digits = Math.max(1, ...cells.map(({ entry }) => entry.length));
  const height = isLabelled ? ROW : CELL, width = isLabelled ? Math.max(ROW, 7 * digits + 8) : CELL;
  const size = { width: columns * width + 2, height: Math.max(1, rows.length) * height + 2 };
  const box = ({ i, j }) => `M${j * width + 1} ${i * height + 1}h${width}v${height}h${-width}z`;
  const svg = element("svg", { ...size, role: "img", "aria-label": name });
  if (marks.length > 0) svg.append(element("path", { class: "marked", d: marks.map(([i, j]) => box({ i, j })).join("") }));
  svg.append(element("path", { d: cells.map(box).join("") }));
  for (const { i, j, entry } of isLabelled ? cells : []) {
    svg.append(element("text", { x: (j + 0.5) * width + 1, y: (i + 0.5) * height + 1 }, entry));
  }
  return svg;
}

/** What is drawn for a partition or tableau without cells. */
function empty(name) {
  return element("span", { class: "empty", role: "img", "aria-label": name }, "∅");
}

/** The diagram of a partition. */
function diagram(parts) {
  if (parts.length === 0) return empty("empty partition");
  const rows = parts.map((part) => ({ begins: 0, cells: Array(part).fill("") }));
  return picture(rows, false, `partition ${parts.join(",")}`);
}

/** A tableau; each row begins where the inner partition ends. */
function tableauPicture(rows, inner, title, marks) {
  if (rows.every((row) => row.length === 0)) return empty(`${title} without cells`);
  const name = `${title} with the rows ${rows.map((row) => row.join(" ") || "no cells").join(", ")}`;
  return picture(rows.map((cells, i) => ({ begins: inner[i] || 0, cells })), true, name, marks);
}

function figure(drawing, caption) {
  return element("figure", {}, drawing, ...(caption === undefined ? [] : [element("figcaption", { "data-formula": caption }, ...formula(caption))]));
}

/** Two drawings of one term. */
function pair(first, second) {
  return element("div", { class: "pair" }, first, element("span", {}, "⊗"), second);
}

/** The figures of an answer, one for each term or tableau, made as they are taken. */
function* figuresOf(answer) {
  if (answer.kind === "tableaux") {
    for (const [i, rows] of answer.tableaux.entries()) {
      const name = answer.names && answer.names[i];
      const drawing = tableauPicture(rows, answer.inner, name ? `tableau ${name}` : "tableau");
      yield { cells: rows.flat().length, figure: figure(drawing, name) };
    }
    return;
  }
  const size = (label) => label.reduce((sum, part) => sum + part, 0);
  for (const term of answer.terms) {
    const caption = term.q ? `${term.c} q^{${term.q}}` : term.c;
    const drawing = term.second ? pair(diagram(term.first), diagram(term.second)) : diagram(term.first);
    yield { cells: size(term.first) + size(term.second || []), figure: figure(drawing, caption) };
  }
}

/** What can be drawn of an answer, with a line that says so if it is a part; null if nothing can. */
function drawn(answer, text) {
  if (!answer || ["word", "number"].includes(answer.kind) || ["x", "S", "SS"].includes(answer.letter)) return null;
  const box = element("div", { class: "drawn", tabindex: "0", role: "group", "aria-label": "Drawings" });
  if (answer.kind === "grid") {
    const n = answer.rows.length - 1, letters = crossesOfGrid(answer.rows).map(([, j]) => j).join(" ");
    box.append(figure(growthPicture(answer.rows, n * n, `growth diagram of ${letters}`)));
    return n * n > MOST_CELLS ? null : box;
  }
  const count = answer.names ? 2 : sizeOf(answer, text);
  let some = 0, cells = 0;
  for (const { cells: more, figure: it } of figuresOf(answer)) {
    if (some === MOST_DRAWN || (some > 0 && cells + more > MOST_CELLS)) break;
    box.append(it);
    some += 1;
    cells += more;
  }
  if (some === 0) return null;
  const part = `The first ${some} of ${count.toLocaleString("en")} are drawn.`;
  if (some < count) box.append(element("p", { class: "part" }, part));
  return box;
}
