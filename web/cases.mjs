// Runs cases through the worker of the page: node cases.mjs MODULE JOBS [PAGES], JOBS being a list of [line, input, status, text]; a text that is
// null is not compared, nor a status that is null. With PAGES the memory of the module has at most so many pages of 64 KiB.
import fs from "fs";
import vm from "vm";

const [path, jobs, pages] = process.argv.slice(2);

// What a worker finds in its scope.
let answered;
globalThis.onmessage = undefined;
globalThis.postMessage = (answer) => answered(answer);
vm.runInThisContext(fs.readFileSync(new URL("worker.js", import.meta.url), "utf8"));

/** What the worker answers to a message. */
function asked(data) {
  return new Promise((resolve) => {
    answered = resolve;
    onmessage({ data });
  });
}

/** A number as bytes of seven bits. */
function bytesOf(number) {
  return number < 128 ? [number] : [(number & 127) | 128, ...bytesOf(number >> 7)];
}

/** The number that begins at a place of the bytes, and where it ends. */
function numberAt(bytes, at) {
  let value = 0;
  for (let shift = 0; ; shift += 7, at += 1) {
    value += (bytes[at] & 127) * 2 ** shift;
    if (bytes[at] < 128) return [value, at + 1];
  }
}

/** The module with a memory of at most so many pages. */
function limited(bytes, most) {
  for (let at = 8; at < bytes.length; ) {
    const [size, begin] = numberAt(bytes, at + 1), end = begin + size;
    if (bytes[at] === 5) {
      const [least] = numberAt(bytes, begin + 2), body = [1, 1, ...bytesOf(least), ...bytesOf(most)];
      return Buffer.concat([bytes.subarray(0, at + 1), Buffer.from([...bytesOf(body.length), ...body]), bytes.subarray(end)]);
    }
    at = end;
  }
  throw new Error("the module has no memory");
}

const bytes = fs.readFileSync(path);
await asked({ module: await WebAssembly.compile(pages ? limited(bytes, Number(pages)) : bytes) });
let same = 0;
for (const [line, input, status, text] of JSON.parse(fs.readFileSync(jobs, "utf8"))) {
  const got = await asked({ line, input });
  if ((status === null || got.status === status) && (text === null || got.text === text)) same += 1;
  else console.log(`${line.slice(0, 60)}: status ${got.status}, wanted ${status}: ${got.text.slice(0, 80)}`);
}
console.log(`${same} the same`);
