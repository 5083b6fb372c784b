// Many lines as one job: the worker gets them as batches of some rows, so that it is seen how many have an answer, and that these stay when the rest is
// stopped. A job of rows has `rows`, each with the `line` that runs, or without one if it was `said` why; an answered row has its `text`.

/** How long a piece may take to be followed by a longer one, in milliseconds, and the most rows of one. */
const QUICK_PIECE = 60;
const LARGEST_PIECE = 2000;

/** A job of rows. `prepare` is called with a row before its turn; `done` gets the job when all rows are answered, or it is stopped. */
function jobOfRows(rows, job) {
  return { ...job, rows, answered: 0, size: 1, characters: 0 };
}

/** What the worker is given of a job: its line, or the next of its rows. */
function messageOf(job) {
  if (!job.rows) return { line: job.line, input: job.input || "" };
  job.since ??= performance.now();
  const began = performance.now();
  job.piece = [];
  job.end = job.answered;
  while (job.end < job.rows.length && job.piece.length < job.size && performance.now() - began < QUICK_PIECE) {
    const row = job.rows[(job.end += 1) - 1];
    if (job.prepare && row.line === undefined) job.prepare(row);
    if (row.line !== undefined) job.piece.push(row);
  }
  return { line: "batch", input: job.piece.map((it) => `${it.line}\n`).join("") };
}

/** The texts of the answers in a batch. */
function blocksOf(text) {
  const blocks = [[]];
  for (const line of text.split("\n").slice(0, -1)) line === "--" ? blocks.push([]) : blocks[blocks.length - 1].push(`${line}\n`);
  return blocks.map((lines) => lines.join(""));
}

/** Takes the answer to a piece of a job; whether there is a further piece. A batch that has not an answer for each row is run in smaller pieces. */
function takePiece(job, { status, text = "", time }) {
  const { piece } = job, blocks = piece.length > 0 ? blocksOf(text) : [], isWhole = [0, 1].includes(status) && blocks.length === piece.length;
  if (!isWhole && piece.length > 1) return (job.size = Math.ceil(piece.length / 4)), true;
  piece.forEach((row, i) => Object.assign(row, { text: isWhole ? blocks[i] : "", status: isWhole ? (blocks[i].startsWith("! ") ? 2 : 0) : status }));
  job.answered = job.end;
  job.characters += text.length;
  job.isFull = job.characters > MOST_KEPT;
  if (time < QUICK_PIECE) job.size = Math.min(job.size * 2, LARGEST_PIECE);
  else if (time > 4 * QUICK_PIECE) job.size = Math.ceil(job.size / 4);
  return job.answered < job.rows.length && !job.isFull;
}
