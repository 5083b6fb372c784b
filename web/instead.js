// What a line of the program that runs could have been meant as, too: the digits of one number apart, the sizes of a coefficient in another order, another Gr(k,n).

/** The digits of a number as numbers of their own. */
const digitsApart = (number) => (isDigits(number) && number.length > 1 ? [...number] : [number]);

/** The line with the digits of each list that is a single number of several digits as numbers of their own, if it has one. */
function lettersApart(line) {
  const words = textsOfWords(line), parts = partsOf(words);
  if (!parts) return [];
  const isRun = ({ role, words: [first, ...more] }) => PLAIN_LISTS.includes(role) && more.length === 0 && first !== undefined && digitsApart(first).length > 1;
  if (!parts.some(isRun)) return [];
  const other = [words[0], ...parts.flatMap((it) => (it.sign ? [it.sign] : isRun(it) ? digitsApart(it.words[0]) : it.words))];
  return isSound(other) ? [{ line: other.join(" ") }] : [];
}

/** The line with the digits of the atoms that have a single number of several digits apart, and with Schur functions for numbers in parentheses. */
function atomsApart(words) {
  const others = [], at = words.findIndex((it, i) => i > 0 && /[[(]/.test(it));
  const put = (why, from, to) => {
    const other = words.map((it, i) => (i < at ? it : it.replace(from, to)));
    if (other.join() !== words.join() && isCommand(other)) others.push({ line: other.join(" "), why });
  };
  if (at < 0) return others;
  put("With its digits apart it is", /\[([1-9]{2,})\]/g, (all, digits) => (isDecreasing([...digits]) ? `[${[...digits].join(",")}]` : all));
  put("A number in parentheses is a number. With Schur functions it is", /(^|[-+*(])\((\d+)\)/g, "$1s[$2]");
  return others;
}

/** The other order of the lists of a coefficient that is 0 by its sizes alone, if the sizes fit in it. */
function otherOrder(lists) {
  const [first, second, third] = lists.map(partition), made = coefOf([first, second, third]);
  if (!made || !made.zero) return [];
  const others = [[third, first, second], [second, first, third]].map(coefOf).filter((it) => it && !it.zero);
  return [{ why: "This is 0 by its sizes alone. In another order it is", line: (others[0] || {}).line }];
}

/** The classes of a quantum product that are not inside the rectangle of Gr(k,n), and the factors of a fusion product that are not in the alcove, in words. */
function outsideBox(line) {
  const [name, rows, columns] = textsOfWords(line), box = { rows: Number(rows), columns: Number(columns) };
  const isFitting = { quantum: (it) => isInBox(it, box), fusion: (it) => it.length <= rows && Number(it[0] || 0) - Number(it[rows - 1] || 0) <= columns }[name];
  const lists = isFitting ? (partsOf(textsOfWords(line)) || []).filter((it) => it.role === "partition").map((it) => partition(it.words)) : [];
  const outside = [...new Set(lists.filter((it) => !isFitting(it)).map(shown))];
  return outside.length > 0 ? sentence(`outside ${name}`, { classes: allOf(outside), rows, columns, n: Number(rows) + Number(columns) }) : "";
}

/** What a line that was answered could have been meant as: each with why, and without a line where only that is said. */
function meantInstead({ line, typed }) {
  const words = textsOfWords(line), found = lettersApart(line).map((it) => ({ ...it, why: "With its digits apart it is" }));
  const lists = (partsOf(words) || []).filter((it) => it.role === "partition").map((it) => it.words);
  if (["expand", "plethysm"].includes(words[0])) return atomsApart(words);
  if (words[0] === "coef" && found.length === 0) found.push(...otherOrder(lists));
  if (words[0] === "quantum" && !/[GP𝔾]|QH/u.test(typed)) {
    const [rows, columns] = words.slice(1, 3).map(Number), other = [words[0], words[1], String(columns - rows), ...words.slice(3)];
    const why = `C = ${columns} is the number of columns. In Gr(${rows},${columns}) it is`;
    if (columns > rows && lists.every((it) => isInBox(it, boxOf(rows, columns - rows))) && isSound(other)) found.push({ line: other.join(" "), why });
  }
  return found;
}
