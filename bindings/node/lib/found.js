// What the library finds in a source: nodes, how large its operations are, and texts.
"use strict";

const { addon, allocate, encoded } = require("./calls");
const { checked, requireWellFormed } = require("./errors");

// The numbers of 32 bits of a node and of an operation.
const WORDS_OF_NODE = 16;
const WORDS_OF_OPERATION = 6;

// What is in a small document: a string of 16-bit units, two for each number. The numbers of nodes come first, then those of
// operations, then the texts, then the counts of the three and of the source's bytes. JavaScript makes a string and lets it go in
// a tenth of the time that it takes for an array, which would be longer than the parse.
class Packed {
  #units;
  #texts;

  constructor(units) {
    this.#units = units;
    const counts = units.length / 2 - 4;
    this.nodes = this.word(counts);
    this.operations = this.word(counts + 1);
    this.sourceBytes = this.word(counts + 3);
  }

  word(index) {
    return (this.#units.charCodeAt(2 * index) | (this.#units.charCodeAt(2 * index + 1) << 16)) >>> 0;
  }

  // The numbers of the operations, if limits asked for them.
  get complexities() {
    if (this.operations === 0) return undefined;
    return Array.from({ length: WORDS_OF_OPERATION * this.operations }, (_, i) => this.word(WORDS_OF_NODE * this.nodes + i));
  }

  get texts() {
    this.#texts ??= Buffer.from(this.#units.slice(2 * (WORDS_OF_NODE * this.nodes + WORDS_OF_OPERATION * this.operations)), "utf16le");
    return this.#texts;
  }
}

// What is in a large document: arrays, which are no part of the JavaScript heap.
class Arrays {
  #words;

  constructor({ parts, texts, complexities }, sourceBytes) {
    this.#words = new Uint32Array(parts);
    this.nodes = this.#words.length / WORDS_OF_NODE;
    this.sourceBytes = sourceBytes;
    this.complexities = complexities && new Uint32Array(complexities);
    this.texts = Buffer.from(texts);
  }

  word(index) {
    return this.#words[index];
  }
}

// What is in a source that is a document within limits; otherwise an error is thrown. The name is the source's, or null.
function foundIn(source, name, limits) {
  requireWellFormed(source, name);
  const units = addon.parsePacked(source, limits, allocate);
  if (typeof units === "string") return new Packed(units);
  // The WebAssembly module also returns what a parse found otherwise.
  if (units !== undefined) return new Arrays(checked(source, name, units), units.sourceBytes);
  const bytes = encoded(source);
  return new Arrays(checked(source, name, addon.parse(bytes, limits, allocate)), bytes.length);
}

// Throws an error unless a source is a document within limits. Nothing of the document is written.
function requireDocument(source, name, limits) {
  requireWellFormed(source, name);
  if (!addon.isDocument(source, limits)) checked(source, name, addon.check(encoded(source), limits, allocate));
}

module.exports = { Arrays, WORDS_OF_NODE, foundIn, requireDocument };
