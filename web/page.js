// What the page does when something is typed, pressed or pasted.

at("asking").onsubmit = (event) => {
  event.preventDefault();
  ask(at("line").value);
  at("line").select();
};
at("stop").onclick = () => stop();
at("clear").onclick = clearQueue;
at("clean").onclick = clearAnswers;
at("save").onclick = () => download("calc_answers.txt", transcript());
at("forget").onclick = forget;
at("cite").onclick = () => copy(at("citation").textContent, "Citation");

document.addEventListener("keydown", (event) => {
  if (event.key === "Escape") stop();
});

at("line").oninput = preview;
at("line").onpaste = paste;
at("undo").onclick = undo;
// (what another tab keeps or forgets)
window.addEventListener("storage", ({ key }) => key === "calc: lines" && takeKept());
at("line").onkeydown = (event) => {
  if (event.key === "Enter" && (event.ctrlKey || event.metaKey)) return event.preventDefault(), takeFirst();
  const by = { ArrowUp: -1, ArrowDown: 1 }[event.key];
  if (!by) return undefined;
  event.preventDefault();
  return step(by);
};

// (mathematics is copied as it looks, not as its letters one after another)
document.addEventListener("copy", (event) => {
  const selection = getSelection(), field = document.activeElement;
  if (selection.isCollapsed || field.selectionStart !== undefined) return;
  const part = () => selection.getRangeAt(0).cloneContents(), text = markedText(part());
  if (text === "") return;
  event.clipboardData.setData("text/plain", text);
  event.clipboardData.setData("text/html", element("div", {}, part()).innerHTML);
  event.preventDefault();
});

/** Shows the top of the page, where the answers come. */
function toTop() {
  const isStill = matchMedia("(prefers-reduced-motion: reduce)").matches;
  window.scrollTo({ top: 0, behavior: isStill ? "auto" : "smooth" });
  toField();
}

document.addEventListener("click", ({ target }) => {
  const { line, typed } = (target.closest && target.closest("[data-line], [data-typed]"))?.dataset ?? {};
  if (typed !== undefined) return replaceField(typed), toTop();
  if (line === undefined) return;
  replaceField(line);
  ask(line, undefined, target.closest("#questions") !== null);
  toTop();
});

// (a button of the page runs the line that it shows)
for (const it of document.querySelectorAll('[data-line=""]')) it.dataset.line = it.textContent;
window.onhashchange = follow;
at("run").disabled = false;
boot();
showEarlier();
addEntries();
addTables();
if (document.querySelector("link[rel=manifest]") && navigator.serviceWorker) navigator.serviceWorker.register("offline.js").catch(() => {});
begin();
// (while nothing is asked, the notations are made ready, and a line is read, so that the first one that is typed is read as quickly as others)
const whenIdle = (it) => (window.requestIdleCallback ? requestIdleCallback(it, { timeout: 999 }) : setTimeout(it, 999));
whenIdle(() => (notation(), whenIdle(() => readTyped(`expand s ${"h_2*h_1+".repeat(99)}h_1`))));
