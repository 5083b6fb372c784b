// The worker of the page: it runs one line after another in the module. The page ends it where a command is to be stopped.
"use strict";

const encoder = new TextEncoder();
const decoder = new TextDecoder();
/** That the module had no room left for a line or its text, as the program says with its status 7. */
const refused = new Error("no memory");
/** The statuses by which the program says that it had no memory for its answer, or for all of it. */
const WITHOUT_MEMORY = [5, 7];
/** The room for the text of a line. A line with a longer text is run once more. */
const ROOM = 1 << 22;
/** By how many bytes the memory of an instance may have grown if it is to run a further line: blocks that it gave back are never joined. */
const GROWTH = 1 << 24;
let module, exports, needed, begun, isFresh;

/** A fresh instance: nothing of an earlier call is left in it. */
function start() {
  exports = new WebAssembly.Instance(module, {}).exports;
  needed = exports.room(8n);
  begun = exports.memory.buffer.byteLength;
  isFresh = true;
}

/** The bytes in the memory of the module, and where. */
function put(bytes) {
  const at = exports.room(BigInt(bytes.length + 1));
  if (at === 0n) throw refused;
  new Uint8Array(exports.memory.buffer, Number(at), bytes.length).set(bytes);
  return at;
}

/** The status and the text of a line. */
function run(line, input) {
  const words = encoder.encode(line), given = encoder.encode(input);
  const at = put(words), from = put(given);
  for (let room = ROOM; ; ) {
    const out = exports.room(BigInt(room));
    if (out === 0n) throw refused;
    const status = exports.calc_run(at, BigInt(words.length), from, BigInt(given.length), out, BigInt(room), needed) & 255;
    const length = Number(new DataView(exports.memory.buffer).getBigUint64(Number(needed), true));
    const text = length <= room ? decoder.decode(new Uint8Array(exports.memory.buffer, Number(out), length)) : "";
    exports.give_back(out);
    if (length > room) {
      room = length;
      continue;
    }
    exports.give_back(at);
    exports.give_back(from);
    return { status, text };
  }
}

/** The answer of this instance to a line, or what went wrong. */
function tried(line, input) {
  try {
    return run(line, input);
  } catch (error) {
    return error === refused ? { status: 7, text: "" } : { status: -1, text: "", error: error.message };
  }
}

/**
 * Runs a line, or says what went wrong. The answer is that of a fresh instance: what ran before can only leave less memory, so a line that
 * is refused for that runs once more. An instance that has grown is thrown away, and so is one that trapped, as where no stack is left.
 */
function answered(line, input) {
  const isLacking = ({ status }) => status < 0 || WITHOUT_MEMORY.includes(status);
  let answer = tried(line, input);
  if (isLacking(answer) && !isFresh) {
    start();
    answer = tried(line, input);
  }
  isFresh = false;
  const grown = exports.memory.buffer.byteLength;
  if (isLacking(answer) || grown - begun > GROWTH) start();
  return { ...answer, grown };
}

onmessage = ({ data }) => {
  try {
    if (data.module) {
      module = data.module;
      start();
      postMessage({ ready: true });
      return;
    }
    const began = performance.now();
    const answer = answered(data.line, data.input || "");
    postMessage({ ...answer, time: performance.now() - began });
  } catch (error) {
    postMessage({ failed: error.message });
  }
};
