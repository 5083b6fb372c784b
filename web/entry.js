// A form for each command, in its help: fields for its arguments, from which the line is made.

/** What the fields are called, by the role of what is typed there, and what stands in an empty one. */
const FIELDS = {
  partition: ["a partition", "2 1"],
  permutation: ["a permutation", "2 1 4 3"],
  letters: ["the letters of a word", "3 1 2"],
  tableau: ["a tableau", "1 2 / 3"],
  recording: ["a standard tableau of the same shape", "1 3 / 2"],
  filling: ["a tableau of this shape", "1 / 1 2"],
  variables: ["variables", ""],
  rows: ["rows", ""],
  columns: ["columns", ""],
  level: ["the level", ""],
  lines: ["commands", ""],
  seed: ["a number to begin with", ""],
  expression: ["an expression", "s[2,1]*h[2]"],
  outer: ["an expression", "h[2]"],
  inner: ["an expression", "h[2]"],
  basis: ["the basis of the answer", ""],
};
/** The limits of the fields that take one number. */
const NUMBERS = { variables: [1, "rows"], rows: [1, "rows"], columns: [1, "rows"], level: [1, "rows"], lines: [1, "lines"], seed: [0, "seed"] };

/** The field of a slot, with its name. */
function fieldOf(slot, isOptional) {
  const [what, hint] = FIELDS[slot.role], name = slot.role === "basis" ? "" : `${slot.name.replace("expression", "E")}, `;
  const label = `${name}${what}${isOptional ? " (or none)" : ""}`;
  let input;
  if (slot.role === "basis") input = element("select", {}, ..."smehp".split("").map((it) => element("option", {}, it)));
  else if (NUMBERS[slot.role]) {
    const [least, limit] = NUMBERS[slot.role], first = isOptional ? {} : { value: String(Math.max(least, 2)), required: "" };
    input = element("input", { type: "number", min: String(least), max: String(LIMITS[limit]), inputmode: "numeric", ...first });
  } else {
    const needed = EXPRESSIONS.includes(slot.role) ? { required: "" } : {};
    input = element("input", { autocomplete: "off", autocapitalize: "off", spellcheck: "false", placeholder: hint, ...needed });
  }
  input.dataset.role = slot.role;
  return element("label", {}, label, " ", input);
}

/** The numbers of a text that is one list, with blanks between; the text as it is, if it is none or has several readings. */
function listRead(text, rule) {
  const { values, isMany } = text.length > LONGEST ? { values: [] } : parsed(notation(), rule, signsOf(text, notation())), [first] = values;
  return values.length === 1 && !isMany && first.digits === 0 && !first.isRepair && !first.isDoubt ? first.value.join(" ") : text;
}

/** The words of what a field has: of a list its numbers, if it has one reading. */
function wordsOfField(input) {
  const { role } = input.dataset, text = input.value.trim();
  return PLAIN_LISTS.includes(role) && !/^[\d ]*$/.test(text) ? listRead(text, role === "partition" ? "Arg" : "WPerm") : text;
}

/** The parts of the form of a command, each with how it adds its words to the line. */
function partsOfForm(slots, addPart) {
  return slots.map((slot) => {
    if (slot.sign) return { words: () => slot.sign, nodes: [] };
    if (slot.more) return moreParts(slot.more, addPart);
    if (!slot.optional) {
      const label = fieldOf(slot);
      return { words: () => wordsOfField(label.querySelector("input, select")), nodes: [label] };
    }
    const [{ sign }, argument] = slot.optional;
    if (!argument) {
      const box = element("input", { type: "checkbox" });
      return { words: () => (box.checked ? sign : ""), nodes: [element("label", { class: "box" }, box, " on one line")] };
    }
    const label = fieldOf(argument, true), input = label.querySelector("input");
    return { words: () => (input.value.trim() ? `${sign} ${wordsOfField(input)}` : ""), nodes: [label] };
  });
}

/** The part of a form that can be repeated. */
function moreParts([sign, slot]) {
  const labels = [], place = element("span", { class: "more" });
  const add = button("One more factor", () => {
    const label = fieldOf({ ...slot, name: "ν" });
    labels.push(label);
    place.append(label);
    label.querySelector("input").focus();
    add.hidden = labels.length + 2 >= LIMITS.factors;
  });
  return { words: () => labels.map((it) => `${sign.sign} ${wordsOfField(it.querySelector("input"))}`).join(" "), nodes: [place, add] };
}

/** The form of a command. */
function formOfCommand(name) {
  const parts = partsOfForm(GRAMMAR.get(name).words), line = () => [name, ...parts.map((it) => it.words())].filter(Boolean).join(" ");
  const shown_ = element("p", { class: "note" });
  const form = element("form", { class: "fields", "aria-label": `Form of ${name}` }, ...parts.flatMap((it) => it.nodes), element("button", {}, "Run"), shown_);
  const show = () => shown_.replaceChildren(element("code", {}, line()), " ", element("span", { class: "math" }, ...formula(computedBy(readTyped(line()).line || ""))));
  form.oninput = show;
  form.onsubmit = (event) => {
    event.preventDefault();
    replaceField(line());
    ask(line());
    toTop();
  };
  show();
  return form;
}

/** Puts a button for the form into the help of each command with arguments. */
function addEntries() {
  for (const place of document.querySelectorAll(".entry")) {
    const name = place.dataset.command;
    if (GRAMMAR.get(name).words.length === 0) continue;
    const open = button("Fill in a form", () => {
      const form = place.querySelector("form");
      if (form) form.hidden = !form.hidden;
      else place.append(formOfCommand(name));
      open.setAttribute("aria-expanded", String(!form || !form.hidden));
    });
    open.className = "open-form";
    open.append(element("span", { class: "unseen" }, ` of ${name}`));
    open.setAttribute("aria-expanded", "false");
    place.parentElement.querySelector(".examples").append(open);
  }
}
