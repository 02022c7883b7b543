#!/usr/bin/env node
// Compares the calls of the WebAssembly module with those of Node's addon, which has the native library, on each text of a corpus: the
// status, and each byte of nodes, tokens, texts, errors and complexities. The last line is 'N passed, M failed'.
//
//     node tests/wasm/compare.js CORPUS    as tests/corpus.py writes it
"use strict";

const fs = require("fs");
const path = require("path");

const NODE = path.join(__dirname, "..", "..", "bindings", "node");
const { nameFor } = require(path.join(NODE, "lib", "addon"));
const { callsOf } = require(path.join(NODE, "lib", "wasm"));

const addon = require(path.join(NODE, nameFor(process.arch)));
const compiled = new WebAssembly.Module(fs.readFileSync(path.join(NODE, "firthnapkin.wasm")));
const module32 = callsOf(() => new WebAssembly.Instance(compiled));

const allocate = (size) => new ArrayBuffer(size);
const NONE = 2 ** 32 - 1;
const limits = (depth, tokens, sizes = new Array(addon.SIZES_LENGTH).fill(NONE)) => {
  const words = new Uint32Array(addon.LIMITS_LENGTH + addon.SIZES_LENGTH);
  words.set([depth, tokens]);
  words.set(sizes, addon.LIMITS_LENGTH);
  return words;
};
const LIMITS = [
  limits(addon.MAX_DEPTH, NONE), limits(3, 20), limits(200, NONE, [7, 2, 2, 3, 3]), limits(200, NONE, [NONE, NONE, NONE, NONE, 100]),
  limits(addon.MAX_DEPTH + 1, 5),
];
const TOKENS = [0, 7, NONE];

// The texts of a corpus, as bytes.
function* texts(file) {
  const bytes = fs.readFileSync(file);
  for (let at = 0; at < bytes.length; ) {
    const feed = bytes.indexOf("\n", at);
    const end = feed + 1 + Number(bytes.toString("latin1", at, feed));
    yield bytes.subarray(feed + 1, end);
    at = end + 1;
  }
}

// Each call on a text, by its name, with what it found.
function* found(calls, bytes) {
  const text = bytes.toString();
  for (const [i, words] of LIMITS.entries()) {
    yield [`parse ${i}`, calls.parse(bytes, words, allocate)];
    yield [`value ${i}`, calls.parseValue(bytes, words, allocate)];
    yield [`constant ${i}`, calls.parseConstant(bytes, words, allocate)];
    yield [`type ${i}`, calls.parseType(bytes, words, allocate)];
    yield [`check ${i}`, calls.check(bytes, words, allocate)];
    yield [`parsePacked ${i}`, calls.parsePacked(text, words, allocate)];
    yield [`isDocument ${i}`, calls.isDocument(text, words)];
  }
  yield ["complexities", calls.complexities(bytes, allocate)];
  for (const most of TOKENS) yield [`tokens ${most}`, calls.tokens(bytes, most, allocate)];
  yield ["canonical", calls.canonical(bytes, allocate)];
  for (const byte of [0, bytes.length >> 1, bytes.length]) yield [`excerpt ${byte}`, calls.excerpt(bytes, byte, allocate)];
}

const hex = (part) => (part === undefined ? "none" : Buffer.from(part).toString("hex"));
const same = (a, b) => (a === undefined || b === undefined ? a === b : Buffer.compare(Buffer.from(a), Buffer.from(b)) === 0);

// Why two results differ, or null. What the module finds in a small source that isn't packed is what a parse finds, and the addon has
// none.
function difference(own, native, parsed) {
  if (typeof own === "string" || typeof own === "boolean") return own === native ? null : "another result";
  if (own === undefined) return native === undefined ? null : "no result";
  const wanted = native === undefined ? parsed : native;
  if (own.status !== wanted.status) return `${own.status}, not ${wanted.status}`;
  const part = ["parts", "texts", "complexities"].find((name) => !same(own[name], wanted[name]));
  return part ? `${part}: ${hex(own[part]).slice(0, 400)}, not ${hex(wanted[part]).slice(0, 400)}` : null;
}

function compare(bytes, statuses) {
  const native = found(addon, bytes);
  let parsed;
  for (const [name, own] of found(module32, bytes)) {
    const [, wanted] = native.next().value;
    if (name.startsWith("parse ")) {
      parsed = wanted;
      statuses.add(wanted.status);
    }
    const why = difference(own, wanted, parsed);
    if (why) return `${name}: ${why}`;
  }
  return null;
}

// Whether a text is a document, a value or a type.
function isWhole(bytes) {
  const calls = ["check", "parseValue", "parseType"];
  return addon.isDocument(bytes.toString(), LIMITS[0]) || calls.some((name) => addon[name](bytes, LIMITS[0], allocate).status === "ok");
}

let [passed, failed, whole] = [0, 0, 0];
const statuses = new Set();
for (const bytes of texts(process.argv[2])) {
  const why = compare(bytes, statuses);
  if (isWhole(bytes)) whole++;
  if (why) console.log(`FAILED ${JSON.stringify(bytes.toString().slice(0, 200))}: ${why}`);
  if (why) failed++;
  else passed++;
}
const wanted = [
  "fragment_cycle", "invalid_limit", "ok", "operation_too_large", "syntax_error", "too_deep", "too_many_tokens", "unknown_fragment",
];
for (const status of wanted) {
  if (statuses.has(status)) continue;
  console.log(`FAILED no text has the status ${status}`);
  failed++;
}
if (3 * whole < passed + failed) {
  console.log(`FAILED ${whole} of ${passed + failed} texts are documents, values or types, fewer than a third`);
  failed++;
}
console.log(`${passed} passed, ${failed} failed`);
process.exit(failed === 0 ? 0 : 1);
