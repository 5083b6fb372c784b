// Addresses: each answer and table has a title and a link, with what was asked, the version of the page and the sum of its module; what the page's address
// runs, and where Back and Forward go.

/** How much a link runs by itself: commands, the sum of their numbers, and milliseconds. */
const LIGHT = { commands: 6, sum: 60, time: 3000 };

/** Actions for texts of an address that are no commands, as that of a table: each gives what is to be done, or nothing. A further kind of answer adds its own. */
const OTHER_ADDRESSES = [];
const TITLE = document.title;
/** The version of this page, the sum of its module, and the address of its copy on a server, if it has one. */
const { version: VERSION, sum: MODULE_SUM, base: BASE } = at("module").dataset;
/** How many digits of the sum are in a link. */
const SUM_DIGITS = 12;

// ---- links

/** Where this page is found: a file is found by others only where it has a copy on a server. */
const isLocal = () => location.protocol === "file:" && !BASE;
const placeOfPage = () => (location.protocol === "file:" && BASE ? BASE : location.href.split("#")[0]);

/** The link to the answer to a text. */
const linkTo = (text) => `${placeOfPage()}#${encodeURIComponent(text)}&version=${encodeURIComponent(VERSION)}&module=${MODULE_SUM.slice(0, SUM_DIGITS)}`;

/** Copies the link to the answer to a text, and says where it leads. */
function copyLink(text) {
  return copy(linkTo(text), isLocal() ? "A local link, which opens this file on this machine only, was" : "Link");
}

/** The button that copies a link, beside other copies. */
const linkButton = (text) => copyButton(isLocal() ? "local link" : "link", () => copyLink(text));

/** Gives the page the title of what is shown, or its own. */
function entitle(what = "") {
  document.title = what ? `${what.slice(0, 200)} – calc` : TITLE;
}

/** The page's address after its #: its text, and the version and the sum with which it was made. Nothing, if it is a place of the page. */
function addressGiven() {
  const raw = location.hash.slice(1), [, given, version, sum] = /^(.*?)(?:&version=([^&]*)&module=([\da-f]*))?$/s.exec(raw);
  if (!given || at(given)) return { text: "" };
  const plain = (it) => {
    try {
      return decodeURIComponent(it);
    } catch {
      return it;
    }
  };
  return { text: plain(given), version: version && plain(version), sum };
}
const textOfAddress = () => addressGiven().text;

/** Says of a link that it was made with another version, or another module. */
function showOrigin({ version, sum }) {
  const isOther = version !== undefined && (version !== VERSION || sum === "" || !MODULE_SUM.startsWith(sum));
  at("origin").hidden = !isOther;
  at("origin").textContent = isOther ? `This link was made with calc ${inSight(version)}, module ${sum}; what is shown here is computed by calc ${VERSION}, module ${MODULE_SUM.slice(0, SUM_DIGITS)}.` : "";
}

/** A job as a link has it: its line, or what was typed, where that asks for more than the line says. */
const addressOf = ({ typed, line, asked: more }) => (more ? typed : line);

/** Puts lines into the page's address; as a step of the way back, if they are new. */
function putInAddress(lines, isNew = false) {
  // (of a link that waited for Enter the origin is still said)
  if (lines !== textOfAddress()) showOrigin({});
  const hash = `#${encodeURIComponent(lines)}`, isStep = isNew && hash !== location.hash;
  try {
    if (lines.length < 8000) history[isStep ? "pushState" : "replaceState"](null, "", hash);
  } catch {
    // (a browser that lets no page change its address so often)
  }
}

// ---- what an address runs

/** Whether the lines that a link runs are so small that they run by themselves. */
function isLight(lines) {
  const numbers = lines.join(" ").match(/\d+/g) || [];
  return lines.length <= LIGHT.commands && lines.every((it) => it.length <= 200) && sumOf(numbers) <= LIGHT.sum;
}

/** The article that answers what was asked, if it is there. */
function articleOf(job) {
  return [...at("answers").children].find((it) => it.dataset.of === keyOf(job));
}

/** Shows what the page's address has. */
function follow() {
  const given = addressGiven(), { text } = given, other = OTHER_ADDRESSES.map((it) => it(text)).find(Boolean);
  if (text === "") return location.hash === "" ? entitle() : undefined;
  other ? other() : followLines(linesOf(text));
  return showOrigin(given);
}

/** Shows the answers to lines: runs those that are not there, and waits for Enter if they can be heavy or have several readings. */
function followLines(lines) {
  const read = lines.map((typed) => ({ typed, ...readTyped(typed) }));
  if (read.length === 0) return undefined;
  const inQueue = [running, ...ahead, ...waiting].map((job) => job && keyOf(job));
  const left = read.filter((it) => !articleOf(it) && !inQueue.includes(keyOf(it)));
  if (left.length === 0) return showAnswer(articleOf(read[0]));
  put(left.map((it) => withoutComment(inSight(it.typed))).join("; "));
  const isClear = left.every((it) => !it.unread || (it.unread.offers.length === 0 && !isMisseen(it.typed)));
  if (isClear && isLight(left.map((it) => it.line))) {
    askLines(left.map((it) => it.typed), LIGHT.time);
    return putInAddress(read.map(addressOf).join("; "));
  }
  const [what, them] = left.length === 1 ? ["a command", "it"] : [`${left.length} commands`, "them"];
  say(`This link has ${what} that can ${isClear ? "take long" : "be read in several ways"}. Press Enter to run ${them}.`);
  return toField();
}

/** Brings an answer into sight, if it is there. */
function showAnswer(article) {
  if (!article) return;
  article.scrollIntoView();
  article.focus({ preventScroll: true });
  entitle(article.dataset.title);
}

/** What a page that is opened runs: after a reload what it ran before; else the commands of its address. */
function begin() {
  const [how] = performance.getEntriesByType("navigation"), before = keptList("sessionStorage", "calc: session");
  if (how && ["reload", "back_forward"].includes(how.type) && before.length > 0) return askLines(before, SHORT * 2, false);
  keep("sessionStorage", "calc: session", []);
  return follow();
}
