// The worker of the page and its queue: what was asked, what waits, what runs.

const WORKER = `/*WORKER*/`;

const at = (id) => document.getElementById(id);

/** Says something in the line of the state; what is seen elsewhere is only spoken. */
function say(text, spoken = "") {
  at("state").replaceChildren(text, ...(spoken ? [element("span", { class: "unseen" }, ` ${spoken}`)] : []));
}

/** A memory after which the worker is ended, which gives it back at once; the next line has a fresh one. */
const LARGE_MEMORY = 1 << 26;
/** The most waiting commands that are listed. */
const MOST_LISTED = 100;
/** From how many waiting commands on a queue is long, and how many of a long one the worker is given beside the one that runs. */
const LONG_QUEUE = 50;
const AHEAD = 16;

const COMPILED = "The module is being compiled.";

const waiting = [];
/** The commands that the worker was given beside the one that runs. */
const ahead = [];
/** The module, once for all workers. */
let compiled;
let worker, isReady = false, hasStarted = false, running = null, clock, later;
/** What the queue came to since it was empty: how many commands were answered, refused and stopped, and what a single one is said to have come to. */
let round = { asked: 0, answered: 0, refused: 0, stopped: 0, last: [] };

/** Starts a worker with the module. */
function boot() {
  isReady = false;
  if (!running && waiting.length === 0 && round.asked === 0 && numberOfAnswer === 0) say(COMPILED);
  try {
    const started = (worker = new Worker(URL.createObjectURL(new Blob([WORKER], { type: "text/javascript" }))));
    worker.onerror = (error) => broken(error.message || "its worker does not start");
    worker.onmessage = ({ data }) => received(data);
    compiled = compiled || compile();
    compiled.then((module) => started.postMessage({ module }), (error) => broken(error.message));
  } catch (error) {
    fail(error.message);
  }
}

/** Compiles the module, which is packed in the page. The browser does it while the worker starts. */
async function compile() {
  const text = atob(at("module").textContent), bytes = new Uint8Array(text.length);
  for (let i = 0; i < text.length; i += 1) bytes[i] = text.charCodeAt(i);
  return WebAssembly.compile(await new Response(new Blob([bytes]).stream().pipeThrough(new DecompressionStream("gzip"))).arrayBuffer());
}

/** Ends the worker. (An answer on its way from it is no answer to a later command.) */
function end() {
  worker.onmessage = worker.onerror = null;
  worker.terminate();
}

/** Begins anew where a worker fails that had started; what ran in it has no answer. A worker that never starts ends the page. */
function broken(message) {
  if (!hasStarted) return fail(message);
  const job = running;
  hasStarted = false;
  running = null;
  restart();
  if (job) clearTimeout(job.timer), finish(job, { status: -1, text: "", error: message, time: performance.now() - job.began });
  update();
}

/** Says that nothing can be computed. */
function fail(message) {
  isReady = false;
  running = null;
  waiting.length = ahead.length = 0;
  document.body.classList.add("failed");
  at("run").disabled = true;
  update();
  say(`The module could not be started in this browser, so nothing can be computed here: ${message}`);
}

function received(data) {
  if (data.failed !== undefined) return broken(data.failed);
  if (data.ready) {
    isReady = hasStarted = true;
    if (at("state").textContent === COMPILED) say("Ready.");
    return next();
  }
  const job = running;
  if (job.rows && takePiece(job, data)) return data.grown > LARGE_MEMORY ? (clearTimeout(job.timer), restart()) : worker.postMessage(messageOf(job));
  running = ahead.shift() || null;
  if (running) running.began = performance.now();
  clearTimeout(job.timer);
  if (data.grown > LARGE_MEMORY) restart();
  finish(job, job.rows ? { ...data, status: 0 } : data);
  return next();
}

/** Has the module begin anew; what it was given and has not answered waits again. */
function restart() {
  end();
  waiting.unshift(...(running ? [running] : []), ...ahead.splice(0));
  running = null;
  boot();
}

/** Hands on what a job came to. */
function finish(job, answer) {
  const how = answer.stopped ? "stopped" : answer.status === 0 ? "answered" : "refused";
  round[how] += 1;
  round.last = job.done(job, answer);
}

/** Whether what waits first can have its turn: a line that does not run needs no worker, and any other one a worker that is ready. */
function mayBegin() {
  const [job] = waiting;
  if (!job) return false;
  if (job.unread && job.unread.said) return !running;
  // (what has many rows is the only one that the worker has)
  return isReady && (!running || (!running.rows && !job.rows && waiting.length > LONG_QUEUE && ahead.length < AHEAD));
}

/** Gives the worker what waits: one command, or of a long queue some at once, so that it need not wait for this page. */
function next() {
  while (mayBegin()) {
    const job = waiting.shift();
    job.began = performance.now();
    if (job.unread && job.unread.said) {
      finish(job, { status: 2, text: "", time: 0 });
      continue;
    }
    if (running) ahead.push(job);
    else running = job;
    worker.postMessage(messageOf(job));
    if (job.most) job.timer = setTimeout(stop, job.most, `it was stopped after ${job.most / 1000} s, since nobody pressed Run`);
    if (round.asked === 1) say(`${named(inSight(job.line))} is running.`);
  }
  if (!running && waiting.length === 0 && round.asked > 0) sumUp();
  if (waiting.length <= LONG_QUEUE) update();
  else later = later || setTimeout(update, 200);
}

/** Says once what the queue came to. */
function sumUp() {
  const { asked: count, answered, refused, stopped, last } = round;
  const parts = [[answered, "answered"], [refused, "refused"], [stopped, "stopped"]].filter(([number]) => number > 0);
  if (count === 1) say(...last);
  else say(`${count.toLocaleString("en")} commands: ${allOf(parts.map(([number, how]) => `${number.toLocaleString("en")} ${how}`))}.`);
  round = { asked: 0, answered: 0, refused: 0, stopped: 0, last: [] };
}

function stop(why = "") {
  if (!running) return;
  const job = running;
  clearTimeout(job.timer);
  running = null;
  restart();
  finish(job, { stopped: true, why, time: performance.now() - job.began });
  if (waiting.length === 0 && round.asked > 0) sumUp();
  update();
}

/** Has jobs run after those that wait, none if the module did not start. A job is a line, perhaps with input, and what is `done` with its answer. */
function enqueue(jobs) {
  if (document.body.classList.contains("failed")) return;
  round.asked += jobs.length;
  for (const job of jobs) waiting.push(job);
  if (round.asked > 1) say(`${round.asked.toLocaleString("en")} commands are running.`);
  next();
}

/** Takes what waits away. */
function clearQueue() {
  const jobs = waiting.splice(0);
  round.asked -= jobs.length;
  showUnshown();
  update();
  say("The queue was cleared.");
  canUndo("the queue", () => enqueue(jobs));
}

/** Shows what runs and what waits. If the button with the focus is gone then, the field has it. */
function update() {
  later = clearTimeout(later);
  const focused = document.activeElement;
  at("stop").disabled = !running;
  at("queue").hidden = waiting.length === 0;
  at("count").textContent = `${countOfThings(waiting.length, "command waits", "commands wait")}.`;
  showWaiting();
  if (focused.disabled || !focused.isConnected || focused.closest("[hidden]")) toField();
  clearInterval(clock);
  tick();
  if (running) clock = setInterval(tick, 100);
}

/** The items of what waits. Those that are there stay as they are, so that none of their buttons loses the focus. */
function showWaiting() {
  const items = new Set(waiting.slice(0, MOST_LISTED).map((job) => (job.item = job.item || waitingItem(job))));
  for (const old of [...at("waiting").children]) if (!items.has(old)) old.remove();
  at("waiting").append(...[...items].filter((it) => !it.isConnected));
}

function waitingItem(job) {
  const remove = button("Remove", () => {
    const place = waiting.indexOf(job);
    waiting.splice(place, 1);
    round.asked -= 1;
    update();
    canUndo(named(inSight(job.line)), () => {
      waiting.splice(place, 0, job);
      round.asked += 1;
      next();
    });
  });
  remove.setAttribute("aria-label", `Remove ${named(inSight(job.line))}`);
  return element("li", {}, element("code", {}, named(inSight(job.line))), " ", remove);
}

/** The sign that a command runs, which comes after a moment, and the time that has passed. */
function tick() {
  const passed = running ? performance.now() - running.began : 0;
  at("progress").hidden = passed < 250;
  if (!running) return;
  const { rows, answered, began, since = began } = running, of = rows ? `, ${answered.toLocaleString("en")} of ${countOfThings(rows.length, "row", "rows")}` : "";
  at("elapsed").textContent = `${((performance.now() - since) / 1000).toFixed(1)} s${of}`;
  at("share").hidden = !rows;
  document.querySelector("#progress .bar").hidden = Boolean(rows);
  if (rows) Object.assign(at("share"), { max: rows.length, value: answered });
}
