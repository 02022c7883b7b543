// The tokens of a source, and its canonical text.
"use strict";

const { addon, allocate, excerptAt, nameOf, namesOf, numberOf, requireOptions, requireString } = require("./calls");
const { bytesOf, checked } = require("./errors");
const { Units } = require("./positions");

// By their numbers.
const KINDS = namesOf(addon.TOKEN_KINDS);

// The numbers of 32 bits of a token, in their order: its kind, its quotes, and the start's and the end's index, line, column and byte.
const WORDS = 10;
const QUOTES = 1;
const START = 2;
const END = 6;

/** A token of a source. */
class Token {
  #tokens;
  #at;

  constructor(tokens, index) {
    this.#tokens = tokens;
    this.#at = WORDS * index;
    this.index = index;
  }

  get kind() {
    return KINDS[this.#tokens.words[this.#at]];
  }

  get start() {
    return this.#tokens.position(this.#at + START);
  }

  get end() {
    return this.#tokens.position(this.#at + END);
  }

  get line() {
    return this.start.line + 1;
  }

  get column() {
    return this.start.column + 1;
  }

  get text() {
    return this.#tokens.source.slice(this.start.index, this.end.index);
  }

  get unquoted() {
    const quotes = this.#tokens.words[this.#at + QUOTES];
    return this.#tokens.source.slice(this.start.index + quotes, this.end.index - quotes);
  }

  get excerpt() {
    return excerptAt(this.#tokens.bytes, this.start.byte);
  }
}

/** A source's tokens. */
class Tokens {
  #units;

  constructor(source, bytes, parts) {
    this.source = source;
    Object.defineProperties(this, { bytes: { value: bytes }, words: { value: new Uint32Array(parts) } });
    this.length = this.words.length / WORDS;
  }

  get units() {
    this.#units ??= new Units(this.source);
    return this.#units;
  }

  // The position whose numbers begin there.
  position(at) {
    const { words } = this;
    return this.units.position(words[at], words[at + 1], words[at + 2], words[at + 3]);
  }

  token(index) {
    if (!Number.isInteger(index) || index < 0 || index >= this.length) throw new RangeError(`there is no token ${index}`);
    return new Token(this, index);
  }

  *[Symbol.iterator]() {
    for (let index = 0; index < this.length; index++) yield this.token(index);
  }
}

/** The tokens of a source; index.d.ts says what is thrown. */
function tokens(source, options = {}) {
  requireString("source", source);
  requireOptions(options, ["maxTokens", "name"]);
  const maxTokens = numberOf(options, "maxTokens");
  const name = nameOf(options);
  const bytes = bytesOf(source, name);
  return new Tokens(source, bytes, checked(source, name, addon.tokens(bytes, maxTokens, allocate)).parts);
}

/** The canonical text of a source; index.d.ts says what is thrown. */
function canonical(source, options = {}) {
  requireString("source", source);
  requireOptions(options, ["name"]);
  const name = nameOf(options);
  return Buffer.from(checked(source, name, addon.canonical(bytesOf(source, name), allocate)).texts).utf8Slice();
}

module.exports = { Token, Tokens, canonical, tokens };
