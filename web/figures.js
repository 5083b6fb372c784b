// Growth diagrams; and drawings taken along: as SVG, as TikZ, and diagrams of partitions for the package ytableau.

// ---- growth diagrams

/** The cells of a growth grid with a cross: those where a shape grows beside three that are equal. */
function crossesOfGrid(rows) {
  const same = (a, b) => a.join() === b.join(), n = rows.length - 1, crosses = [];
  for (let i = 1; i <= n; i += 1) for (let j = 1; j <= n; j += 1) if (same(rows[i - 1][j], rows[i][j - 1]) && same(rows[i - 1][j - 1], rows[i][j - 1]) && !same(rows[i][j], rows[i - 1][j])) crosses.push([i, j]);
  return crosses;
}

/** The picture of the first cells of a growth grid, read by rows: its shapes at the corners, the crosses, the letters at the rows, and the columns. */
function growthPicture(rows, count, name) {
  const n = rows.length - 1, crosses = crossesOfGrid(rows), index = (label) => (label.length > 0 ? label.join(",") : "∅");
  const side = Math.max(36, 6 * Math.max(...rows.flat().map((it) => index(it).length)) + 14), edge = 26 + side / 3, at_ = (i) => i * side + edge;
  const isSeen = (i, j) => i === 0 || j === 0 || (i - 1) * n + j <= count, size = n * side + edge + side / 2;
  const svg = element("svg", { width: size, height: size, role: "img", "aria-label": name });
  const [ci, cj] = [Math.ceil(count / n), ((count - 1) % n) + 1];
  if (count > 0 && count < n * n) svg.append(element("path", { class: "marked", d: `M${at_(cj - 1)} ${at_(ci - 1)}h${side}v${side}h${-side}z` }));
  // (lines leave room for the shapes at their ends)
  const half = (label) => 3.4 * index(label).length + 3, lines = [];
  for (const [i, row] of rows.entries()) {
    for (const [j, label] of row.entries()) {
      if (isSeen(i, j) && j > 0) lines.push(`M${at_(j - 1) + half(row[j - 1])} ${at_(i)}H${at_(j) - half(label)}`);
      if (isSeen(i, j) && i > 0) lines.push(`M${at_(j)} ${at_(i - 1) + 8}V${at_(i) - 8}`);
    }
  }
  svg.append(element("path", { d: lines.join("") }));
  const put = (x, y, text) => svg.append(element("text", { x, y }, text));
  for (const [i, j] of crosses) put(at_(j) - side / 2, at_(i) - side / 2, "×"), put(9, at_(i) - side / 2, String(j));
  for (let j = 1; j <= n; j += 1) put(at_(j) - side / 2, 9, String(j));
  for (const [i, row] of rows.entries()) for (const [j, label] of row.entries()) if (isSeen(i, j)) put(at_(j), at_(i), index(label));
  return svg;
}

/** The shape at the last corner of a cell by the three others, and by whether it has a cross; and the rule in words. */
function grown(before, above, left, hasCross) {
  const size = Math.max(above.length, left.length) + 1, part = (label, k) => label[k] || 0, same = above.join() === left.join();
  const longer = Array.from({ length: size }, (_, k) => Math.max(part(above, k), part(left, k)));
  if (!same) return [longer, "the shapes above and on the left are different: their union"];
  if (hasCross) return [[part(above, 0) + 1, ...longer.slice(1)], "a cross: a cell more in the first row"];
  const k = longer.findIndex((it, row) => it > part(before, row));
  if (k < 0) return [longer, "nothing changes"];
  return [longer.map((it, row) => it + (row === k + 1 ? 1 : 0)), `both grow in row ${k + 1}: a cell more in row ${k + 2}`];
}

/** A growth diagram, cell by cell, by the local rules. */
function growthSteps({ rows }) {
  const n = rows.length - 1, crosses = crossesOfGrid(rows), made = rows.map((row, i) => row.map((_, j) => (i === 0 || j === 0 ? [] : null))), frames = [];
  const letters = crosses.map(([, j]) => j).join(" ");
  for (let count = 1; count <= n * n; count += 1) {
    const [i, j] = [Math.ceil(count / n), ((count - 1) % n) + 1], hasCross = crosses.some(([a, b]) => a === i && b === j);
    const [shape, rule] = grown(made[i - 1][j - 1], made[i - 1][j], made[i][j - 1], hasCross);
    made[i][j] = shape.filter((it) => it > 0);
    if (made[i][j].join() !== rows[i][j].join()) return null;
    const said = `Row ${i}, column ${j}: ${rule}.`;
    frames.push(() => ({ drawings: [figure(growthPicture(rows, count, `growth diagram of ${letters}, up to row ${i}, column ${j}`))], said }));
  }
  return { title: `The growth diagram of ${letters}, cell by cell`, frames };
}

// ---- drawings taken along

/** The gap between two drawings. */
const GAP = 18;

/** The shapes of the drawings in a box, one after another, and how large they are together: paths, and texts in their middle. */
function shapesOf(box) {
  const shapes = [];
  let x = 0, height = 0;
  const low = Math.max(...[...box.querySelectorAll("svg")].map((it) => Number(it.getAttribute("height"))), 16);
  for (const it of box.querySelectorAll("figure")) {
    const parts = [...it.querySelectorAll("svg, .empty, .pair > span")].filter((of, i, all) => all.indexOf(of) === i), begin = x;
    for (const part of parts) x = addPart(shapes, part, x, low);
    const caption = it.querySelector("figcaption");
    if (caption) shapes.push({ text: caption.textContent, formula: caption.dataset.formula, x: (begin + x) / 2, y: low + 14 });
    height = Math.max(height, low + (caption ? 24 : 0));
    x += GAP;
  }
  return { shapes, width: Math.max(x - GAP, 1), height };
}

/** Adds a drawing or a sign at a place; gives where the next one comes. */
function addPart(shapes, part, x, low) {
  if (part.localName !== "svg") return shapes.push({ text: part.textContent, formula: part.textContent, x: x + 8, y: low - 8 }), x + 18;
  const [width, height] = ["width", "height"].map((it) => Number(part.getAttribute(it))), y = low - height;
  for (const it of part.children) {
    const place = it.localName === "text" ? { text: it.textContent, formula: it.textContent, x: x + Number(it.getAttribute("x")), y: y + Number(it.getAttribute("y")) } : { d: it.getAttribute("d"), kind: it.getAttribute("class") || "", x, y };
    shapes.push(place);
  }
  return x + width + 4;
}

const rounded = (number) => String(Math.round(number * 100) / 100);
/** How a path is drawn, by its kind: in SVG, and in TikZ. */
const PATHS = {
  "": ['fill="none" stroke="black"', "\\draw"],
  marked: ['fill="#ffe39a"', "\\fill[yellow!40]"],
  pipes: ['fill="none" stroke="black" stroke-width="1.6"', "\\draw[line width=1.2pt]"],
  dots: ['fill="black"', "\\fill"],
};

/** The drawings in a box as a file. */
function svgOf(box) {
  const { shapes, width, height } = shapesOf(box), plain = (text) => text.replace(/&/g, "&amp;").replace(/</g, "&lt;");
  const one = (it) => (it.d ? `<path transform="translate(${rounded(it.x)} ${rounded(it.y)})" d="${it.d}" ${PATHS[it.kind][0]}/>` : `<text x="${rounded(it.x)}" y="${rounded(it.y)}">${plain(it.text)}</text>`);
  const head = `<svg xmlns="http://www.w3.org/2000/svg" width="${rounded(width)}" height="${rounded(height)}" viewBox="0 0 ${rounded(width)} ${rounded(height)}" font-family="Georgia, serif" font-size="11" text-anchor="middle" dominant-baseline="central">`;
  return `${[head, ...shapes.filter((it) => it.d !== "").map(one), "</svg>"].join("\n")}\n`;
}

/** The drawings in a box for TikZ. */
function tikzOf(box) {
  const one = (it) => {
    if (it.d === undefined) return `\\node at (${rounded(it.x)}pt,${rounded(it.y)}pt) {$${latexOfFormula(it.formula ?? it.text)}$};`;
    return `${PATHS[it.kind][1].replace(/(\[|$)/, (mark) => `[shift={(${rounded(it.x)}pt,${rounded(it.y)}pt)}${mark ? "," : "]"}`)} svg {${it.d}};`;
  };
  const lines = shapesOf(box).shapes.filter((it) => it.d !== "").map(one);
  return ["% \\usepackage{tikz} \\usetikzlibrary{svg.path}", "\\begin{tikzpicture}[yscale=-1,every node/.style={font=\\scriptsize}]", ...lines, "\\end{tikzpicture}"].join("\n");
}

/** The terms of an answer with diagrams in place of partitions, for the package ytableau. */
function diagramsOf({ terms, letter }) {
  const one = (label) => (label.length > 0 ? `\\ydiagram{${label.join(",")}}` : "\\emptyset");
  const texts = terms.map((term, i) => {
    const sign = term.c.startsWith("-") ? "-" : i > 0 ? "+" : "", size = latexOfFormula(term.c.replace("-", "")), power = term.q && term.q !== "0" ? `q^{${term.q}}\\,` : "";
    return `${sign}${size === "1" ? "" : `${size}\\,`}${power}${term.second ? `${one(term.first)} \\otimes ${one(term.second)}` : one(term.first)}`;
  });
  return `% \\usepackage{ytableau}\n${texts.join("\n") || "0"}`;
}

/** The buttons of a box of drawings. */
function toolsOfDrawings(box, line, answer) {
  const tools = element("div", { class: "tools" }, element("span", {}, "Drawings")), add = (name, action) => tools.append(button(name, action));
  add("Copy SVG", () => copy(svgOf(box), "SVG"));
  add("Download SVG", () => download(nameOfFile(line, ".svg"), [svgOf(box)]));
  add("Copy TikZ", () => copy(tikzOf(box), "TikZ"));
  if (answer && answer.kind === "terms") add("Copy ytableau", () => copy(diagramsOf(answer), "LaTeX"));
  return tools;
}
