#!/usr/bin/env node
// The program calc wherever Node is: `node calc.mjs WORDS`, with the words, the texts and the statuses of the program, and its batch of lines on
// standard input. It runs the module of the page, calc.html beside it, if that is the one with which this file was made. web/build makes it of
// web/calc.mjs and of the worker of the page.
//
// It differs from the program in this: an answer has to fit in the memory of the module, 4 GB, before the first byte of it is written; a
// standard output that is closed counts as one that takes all, since Node opens another in its place; and a word with U+FFFD in it is refused
// as one that is no text, since Node reads such words so.
import crypto from "crypto";
import fs from "fs";
import zlib from "zlib";

// (what a worker finds in its scope)
let onmessage;
const postMessage = () => {};

// The worker of the page: it runs one line after another in the module. The page ends it where a command is to be stopped.
"use strict";

const encoder = new TextEncoder();
const decoder = new TextDecoder();
/** That the module had no room left for a line or its text, as the program says with its status 7. */
const refused = new Error("no memory");
/** The statuses by which the program says that it had no memory for its answer, or for all of it. */
const WITHOUT_MEMORY = [5, 7];
/** The room for the text of a line. A line with a longer text is run once more. */
const ROOM = 1 << 22;
/** By how many bytes the memory of an instance may have grown if it is to run a further line: blocks that it gave back are never joined. */
const GROWTH = 1 << 24;
let module, exports, needed, begun, isFresh;

/** A fresh instance: nothing of an earlier call is left in it. */
function start() {
  exports = new WebAssembly.Instance(module, {}).exports;
  needed = exports.room(8n);
  begun = exports.memory.buffer.byteLength;
  isFresh = true;
}

/** The bytes in the memory of the module, and where. */
function put(bytes) {
  const at = exports.room(BigInt(bytes.length + 1));
  if (at === 0n) throw refused;
  new Uint8Array(exports.memory.buffer, Number(at), bytes.length).set(bytes);
  return at;
}

/** The status and the text of a line. */
function run(line, input) {
  const words = encoder.encode(line), given = encoder.encode(input);
  const at = put(words), from = put(given);
  for (let room = ROOM; ; ) {
    const out = exports.room(BigInt(room));
    if (out === 0n) throw refused;
    const status = exports.calc_run(at, BigInt(words.length), from, BigInt(given.length), out, BigInt(room), needed) & 255;
    const length = Number(new DataView(exports.memory.buffer).getBigUint64(Number(needed), true));
    const text = length <= room ? decoder.decode(new Uint8Array(exports.memory.buffer, Number(out), length)) : "";
    exports.give_back(out);
    if (length > room) {
      room = length;
      continue;
    }
    exports.give_back(at);
    exports.give_back(from);
    return { status, text };
  }
}

/** The answer of this instance to a line, or what went wrong. */
function tried(line, input) {
  try {
    return run(line, input);
  } catch (error) {
    return error === refused ? { status: 7, text: "" } : { status: -1, text: "", error: error.message };
  }
}

/**
 * Runs a line, or says what went wrong. The answer is that of a fresh instance: what ran before can only leave less memory, so a line that
 * is refused for that runs once more. An instance that has grown is thrown away, and so is one that trapped, as where no stack is left.
 */
function answered(line, input) {
  const isLacking = ({ status }) => status < 0 || WITHOUT_MEMORY.includes(status);
  let answer = tried(line, input);
  if (isLacking(answer) && !isFresh) {
    start();
    answer = tried(line, input);
  }
  isFresh = false;
  const grown = exports.memory.buffer.byteLength;
  if (isLacking(answer) || grown - begun > GROWTH) start();
  return { ...answer, grown };
}

onmessage = ({ data }) => {
  try {
    if (data.module) {
      module = data.module;
      start();
      postMessage({ ready: true });
      return;
    }
    const began = performance.now();
    const answer = answered(data.line, data.input || "");
    postMessage({ ...answer, time: performance.now() - began });
  } catch (error) {
    postMessage({ failed: error.message });
  }
};


// ---- the program

/** The statuses of the program that are not those of a call, and that of a program that could not begin. */
const [DONE, SOME_REFUSED, WRITING_FAILED, READING_FAILED, NO_MEMORY, NO_TEXT_WORDS, NO_PROGRAM] = [0, 1, 5, 6, 7, 8, 70];
/** A line before the lines of each piece of a batch, so that a piece with no answer differs from one with an empty one, and its text. */
const FIRST = { line: "coef 1 - 1 -\n", text: "1\n" };
const BREAK = "--\n";

function stop(why) {
  process.stderr.write(`calc: ${why}\n`);
  process.exit(NO_PROGRAM);
}

/** The module in the page beside this file. */
function moduleBeside() {
  let page;
  try {
    page = fs.readFileSync(new URL("calc.html", import.meta.url), "latin1");
  } catch (error) {
    stop(`the page calc.html, whose module runs, is not beside calc.mjs (${error.code})`);
  }
  const [packed] = /H4sI[A-Za-z0-9+/]+=*/.exec(page) || [""];
  try {
    const bytes = zlib.gunzipSync(Buffer.from(packed, "base64"));
    if (crypto.createHash("sha256").update(bytes).digest("hex") === "fa3a844a4dd4dd051c496c560c4b466aeb1085e34acc069636b629aa2c14d107") return bytes;
  } catch {
    // (no module, as another one, is not that of this file)
  }
  return stop("program altered: the module in calc.html is not the one with which calc.mjs was made");
}

/** Waits for a stream that cannot give or take anything now. */
function rest() {
  Atomics.wait(new Int32Array(new SharedArrayBuffer(4)), 0, 0, 5);
}

/** Whether the whole text could be written to standard output. */
function isWritten(text) {
  const bytes = Buffer.from(text, "latin1");
  for (let at = 0; at < bytes.length; ) {
    try {
      at += fs.writeSync(1, bytes, at);
    } catch (error) {
      if (error.code !== "EAGAIN") return false;
      rest();
    }
  }
  return true;
}

/** How many bytes of standard input could be read; 0 at its end, and -1 if it fails. */
function read(bytes) {
  for (;;) {
    try {
      return fs.readSync(0, bytes);
    } catch (error) {
      if (error.code === "EOF") return 0;
      if (error.code !== "EAGAIN") return -1;
      rest();
    }
  }
}

/** The answer to a line; a module that traps ends the program. */
function answerTo(line, input) {
  const answer = answered(line, input);
  if (answer.status < 0) stop(`the module was stopped: ${answer.error}`);
  return answer;
}

/** The blocks of lines of a batch, each after the line that ends the one before; they are joined by that to those of other lines. */
function blocksOf(lines) {
  const answer = answerTo("batch", FIRST.line + lines);
  return { ...answer, text: answer.text.slice(FIRST.text.length) };
}

let isFirst = true, isRefused = false;

/** Answers lines of a batch; the status with which the program ends now, or DONE. */
function answerLines(lines) {
  const { status, text } = blocksOf(lines);
  if (WITHOUT_MEMORY.includes(status)) {
    // (the answers of the lines before the one that needs too much)
    const each = lines.match(/[^\n]*\n|[^\n]+$/g);
    return each.length > 1 ? each.reduce((ends, line) => ends || answerLines(line), DONE) : NO_MEMORY;
  }
  isRefused ||= status === SOME_REFUSED;
  if (text === "") return DONE;
  const shown = isFirst ? text.slice(BREAK.length) : text;
  isFirst = false;
  return isWritten(shown) ? DONE : WRITING_FAILED;
}

/** Runs the lines of standard input, each as soon as it has been read to its end; the status. */
function runBatch() {
  const bytes = Buffer.alloc(1 << 16);
  for (let begun = []; ; ) {
    const size = read(bytes);
    if (size < 0) return READING_FAILED;
    // (the program, too, reads a byte that is no ASCII as a sign that no command has)
    const text = bytes.toString("latin1", 0, size).replace(/[\x80-\xff]/g, "?"), cut = text.lastIndexOf("\n") + 1;
    const ends = size === 0 || cut > 0 ? answerLines(begun.join("") + text.slice(0, cut)) : DONE;
    if (ends !== DONE || size === 0) return ends || (isRefused ? SOME_REFUSED : DONE);
    begun = cut > 0 ? [text.slice(cut)] : [...begun, text];
  }
}

/** Runs one command; the status. */
function runWords(words) {
  // (a line has no other way for a word that is empty or has a blank in it; no command has any of these signs)
  const line = words.map((it) => it.replace(/[\s\0]|[^\x00-\x7f]/gu, (sign) => "?".repeat(Buffer.byteLength(sign))) || "?").join(" ");
  const { status, text } = answerTo(line, "");
  if (WITHOUT_MEMORY.includes(status)) return NO_MEMORY;
  return isWritten(text) ? status : WRITING_FAILED;
}

module = new WebAssembly.Module(moduleBeside());
start();
const words = process.argv.slice(2);
if (words.some((it) => it.includes("\ufffd"))) process.exitCode = NO_TEXT_WORDS;
else process.exitCode = words.length === 1 && words[0] === "batch" ? runBatch() : runWords(words);
