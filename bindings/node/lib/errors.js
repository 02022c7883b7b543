// Errors of sources.
"use strict";

const { addon, encoded, excerptAt, namesOf } = require("./calls");
const { Units } = require("./positions");
const { wordsOn } = require("./schemas");

// By their numbers.
const KINDS = namesOf(addon.ERROR_KINDS);
// The kind of an operation beyond a limit, which the library doesn't have.
const TOO_LARGE = "operationTooLarge";
// The statuses that come with an error.
const WITH_ERROR = [
  "syntax_error", "too_deep", "too_many_tokens", "unknown_fragment", "fragment_cycle", "operation_too_large",
];
const DETAILS = namesOf(addon.ERROR_DETAILS).map((name) => (name === "none" ? null : name));

// The details that have a character.
const WITH_CHARACTER = ["unknownCharacter", "unexpectedCharacter", "unknownCharacterInString"];

/** Why a source isn't a document within the limits, and where. */
class FirthnapkinError extends Error {
  #source;

  constructor(reason, found, source, sourceName) {
    const [line, column] = [found.start.line + 1, found.start.column + 1];
    super(`${reason}. At ${sourceName === null ? "" : `${sourceName}:`}${line}:${column}`);
    this.name = "FirthnapkinError";
    this.reason = reason;
    this.kind = found.kind;
    this.detail = found.detail;
    this.character = found.character;
    this.start = found.start;
    this.end = found.end;
    this.locations = [{ line, column }];
    this.sourceName = sourceName;
    this.#source = source;
  }

  get excerpt() {
    // Halves of surrogate pairs become replacement characters, which take as many bytes.
    return excerptAt(encoded(this.#source), this.start.byte);
  }
}

// The error of half a surrogate pair at this index.
function surrogate(source, index, name) {
  const line = source.slice(0, index).split("\n").length - 1;
  const column = index - (source.lastIndexOf("\n", index) + 1);
  const byte = Buffer.byteLength(source.slice(0, index));
  const number = source.charCodeAt(index).toString(16).toUpperCase();
  const found = {
    kind: "surrogate",
    detail: null,
    character: null,
    start: { index, line, column, byte },
    end: { index: index + 1, line, column: column + 1, byte: byte + 3 },
  };
  return new FirthnapkinError(`Lone surrogate U+${number}`, found, source, name);
}

// The error that a call found: its numbers and its words, with more words on an unexpected token.
function errorOf(source, numbers, texts, name, more) {
  const words = new Uint32Array(numbers);
  const units = new Units(source);
  const detail = DETAILS[words[1]];
  const found = {
    kind: KINDS[words[0]] ?? TOO_LARGE,
    detail,
    character: WITH_CHARACTER.includes(detail) ? String.fromCodePoint(words[2]) : null,
    start: units.position(...words.subarray(3, 7)),
    end: units.position(...words.subarray(7, 11)),
  };
  let reason = Buffer.from(texts).utf8Slice();
  if (found.kind === "unexpectedToken") reason += more(source, found.start.index, found.end.index);
  return new FirthnapkinError(reason, found, source, name);
}

// Throws an error if half of a surrogate pair is alone. The name is the source's, or null.
function requireWellFormed(source, name) {
  const alone = source.isWellFormed?.() ? -1 : source.search(/\p{Surrogate}/u);
  if (alone >= 0) throw surrogate(source, alone, name);
}

// The source as bytes, or that error.
function bytesOf(source, name) {
  requireWellFormed(source, name);
  return encoded(source);
}

// What a call found, or an error.
function checked(source, name, { status, parts, texts, complexities }, more = wordsOn) {
  if (status === "ok") return { parts, texts, complexities };
  if (WITH_ERROR.includes(status)) throw errorOf(source, parts, texts, name, more);
  // No string has 4 GiB.
  throw new Error(`the library returned ${status}`);
}

module.exports = { FirthnapkinError, bytesOf, checked, requireWellFormed };
