// The addon's calls, and what is asked of their arguments.
"use strict";

const { addon } = require("./addon");
const { LIMITS, SIZES } = require("./limits");

const LARGEST_WORD = 2 ** 32 - 1;

// What each option is, by its name.
const OPTIONS = { ...LIMITS, ...SIZES };

// `curlyOpen` for `curly_open`.
function camelCase(name) {
  return name.replace(/_(.)/g, (_, letter) => letter.toUpperCase());
}

function namesOf(names) {
  return names.map(camelCase);
}

function typeOf(value) {
  if (value === null) return "null";
  return Array.isArray(value) ? "array" : typeof value;
}

// What a function returns that allocates: V8 throws a RangeError if memory is short.
function allocated(allocate) {
  try {
    return allocate();
  } catch (error) {
    throw error instanceof RangeError ? new Error("memory ran out") : error;
  }
}

// The addon calls it with a size.
function allocate(size) {
  return allocated(() => new ArrayBuffer(size));
}

function encoded(source) {
  return allocated(() => Buffer.from(source));
}

function requireString(name, value) {
  if (typeof value !== "string") throw new TypeError(`${name} must be a string, not ${typeOf(value)}`);
}

function requireBoolean(name, value) {
  if (typeof value !== "boolean") throw new TypeError(`${name} must be a boolean, not ${typeOf(value)}`);
}

// A number that is an integer from 0 to this.
function integer(name, value, largest) {
  if (typeof value !== "number") throw new TypeError(`${name} must be a number, not ${typeOf(value)}`);
  if (!Number.isInteger(value) || value < 0 || value > largest)
    throw new RangeError(`${name} must be an integer from 0 to ${largest}`);
  return value;
}

// `a`, `a and b`, `a, b and c`.
function listed(names) {
  return [names.slice(0, -1).join(", "), ...names.slice(-1)].filter(Boolean).join(" and ");
}

// The option that is no limit.
const NAME = "name";

// What a call has that is given no options.
const NO_OPTIONS = Object.freeze({});

// Options are an object with no other names than these.
function requireOptions(options, names) {
  if (typeOf(options) !== "object") throw new TypeError(`options must be an object, not ${typeOf(options)}`);
  // Reflect.ownKeys lists both, and takes twice as long.
  for (const own of [Object.getOwnPropertyNames(options), Object.getOwnPropertySymbols(options)]) {
    for (const name of own) {
      if (!names.includes(name)) throw new TypeError(`there is no option ${String(name)}, only ${listed(names)}`);
    }
  }
}

// The number of a limit, the default one if options don't have it.
function numberOf(options, name) {
  const limit = OPTIONS[name];
  const value = options[name];
  return value === undefined ? limit[0] : integer(name, value, limit[1]);
}

// The name of the source that options have, and null if they have none.
function nameOf(options) {
  const name = options[NAME];
  if (name === undefined) return null;
  requireString(NAME, name);
  return name;
}

// Limits are passed as words: the library's own, words that have no limit and are 0, and those on sizes. No source has more of
// anything than a word holds.
const NAMES = Object.keys(OPTIONS);
const NAMES_OF_OPTIONS = [...NAMES, NAME];
const WORDS = [...Object.keys(LIMITS).keys(), ...Object.keys(SIZES).map((_, i) => addon.LIMITS_LENGTH + i)];
const DEFAULTS = new Uint32Array(addon.LIMITS_LENGTH + addon.SIZES_LENGTH);
NAMES.forEach((name, i) => { DEFAULTS[WORDS[i]] = Math.min(OPTIONS[name][0], LARGEST_WORD); });

// The words of options, which have no other names than these. Those that are undefined have their default.
function limitsAmong(options, names) {
  if (options === NO_OPTIONS) return DEFAULTS;
  requireOptions(options, names);
  const words = new Uint32Array(DEFAULTS);
  for (let i = 0; i < NAMES.length; i++) {
    const value = options[NAMES[i]];
    if (value !== undefined) words[WORDS[i]] = Math.min(integer(NAMES[i], value, OPTIONS[NAMES[i]][1]), LARGEST_WORD);
  }
  return words;
}

function limitsOf(options) {
  return limitsAmong(options, NAMES_OF_OPTIONS);
}

// The options of a source that is one type: no operation has a size.
const LITERAL_OPTIONS = [...Object.keys(LIMITS), NAME];

// The loosest limits.
const LOOSEST = limitsOf({ depth: addon.MAX_DEPTH });

// The lines around a byte of a source that is encoded.
function excerptAt(bytes, byte) {
  const { status, texts } = addon.excerpt(bytes, byte, allocate);
  if (status !== "ok") throw new Error(`the library returned ${status}`);
  return Buffer.from(texts).utf8Slice();
}

module.exports = {
  LITERAL_OPTIONS, LOOSEST, NO_OPTIONS, addon, allocate, allocated, encoded, excerptAt, limitsAmong, limitsOf, nameOf, namesOf, numberOf, requireBoolean,
  requireOptions, requireString,
};
