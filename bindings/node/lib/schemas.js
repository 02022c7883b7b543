// What is said of an unexpected token that begins a definition, or the description of one.
"use strict";

const { LOOSEST, addon, allocate, encoded } = require("./calls");

// What is said of a schema, which this parser doesn't read, and of the description of an operation or a fragment.
const SCHEMA = ": this is a schema's definition, not a request's";
const DESCRIPTION = ": a description before a request isn't in the specification of October 2021";

// What is said of a definition that begins with this token and that no document may have, or not with a description. An operation or
// a fragment without a description begins at no unexpected token.
const WORDS = new Map([
  ...["type", "schema", "extend", "directive", "scalar", "interface", "union", "enum", "input"].map((token) => [token, SCHEMA]),
  ...["query", "mutation", "subscription", "fragment", "{"].map((token) => [token, DESCRIPTION]),
]);

// The bytes at which an error begins and ends, among its numbers.
const [START_BYTE, END_BYTE] = [6, 10];

// The text of the first token of a source that is encoded, or "" if there is none: no token is allowed, so the first is an error.
function firstToken(bytes) {
  const { status, parts } = addon.tokens(bytes, 0, allocate);
  if (status !== "too_many_tokens") return "";
  const words = new Uint32Array(parts);
  return bytes.utf8Slice(words[START_BYTE], words[END_BYTE]);
}

// Whether a definition may come after a source that is encoded: it is a document, or has no tokens.
function mayGoOn(bytes) {
  if (addon.check(bytes, LOOSEST, allocate).status === "ok") return true;
  const { status, texts } = addon.canonical(bytes, allocate);
  return status === "ok" && texts.byteLength === 0;
}

// What is said of an unexpected token, from one index to another, that begins a definition, or the description of one, and "" if it
// doesn't. What is before a definition is a document, or has no tokens.
function wordsOn(source, start, end) {
  const token = source.slice(start, end);
  const words = WORDS.get(token.startsWith('"') ? firstToken(encoded(source.slice(end))) : token);
  return words !== undefined && mayGoOn(encoded(source.slice(0, start))) ? words : "";
}

module.exports = { wordsOn };
