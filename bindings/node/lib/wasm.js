// The calls of the WebAssembly module, in the place of the addon's: the same names, arguments and results. The parser is proved; the
// WebAssembly module is the proved code, translated by tools that are tested and not proved.
"use strict";

// A memory of more bytes isn't kept: a module can't give back what it took.
const MUCH = 64 << 20;
const LARGEST_WORD = 2 ** 32 - 1;
const WORD = Uint32Array.BYTES_PER_ELEMENT;
// Which of a result's numbers says how many bytes a packed one has.
const PACKED_SIZE = 7;

// What scripts/wasm/calls.c calls the lists of names and the numbers of the header.
const [STATUSES, KINDS, TOKEN_KINDS, ERROR_KINDS, ERROR_DETAILS, VERSION] = [0, 1, 2, 3, 4, 5];
const [LIMITS_LENGTH, SIZES_LENGTH, MAX_DEPTH, KEPT_SOURCE] = [0, 1, 2, 3];

// What an engine throws where memory is short, as what the package throws. What else is thrown stays.
function orMemoryRanOut(run) {
  try {
    return run();
  } catch (error) {
    throw error instanceof RangeError ? new Error("memory ran out") : error;
  }
}

// An instance of the module, and views of its memory.
class Instance {
  constructor(make) {
    this.exports = orMemoryRanOut(make).exports;
    this.bytes = Buffer.alloc(0);
    this.look();
    [this.limits, this.small, this.packed] = ["limits", "small_source", "small_result"].map((name) => this.exports[name]());
    this.keptLength = this.exports.number(KEPT_SOURCE);
  }

  // Makes the views anew if a call took more memory: then those of before are empty.
  look() {
    const { buffer } = this.exports.memory;
    if (this.bytes.buffer === buffer) return;
    this.bytes = Buffer.from(buffer);
    this.words = new Uint32Array(buffer);
  }

  // Calls an export that returns a number. A trap, and a caller that has little of the engine's stack left, end it wherever it is.
  call(name, ...values) {
    let found;
    try {
      found = this.exports[name](...values) >>> 0;
    } catch (error) {
      throw new Error(`the parser stopped: ${error.message}`);
    }
    this.look();
    return found;
  }

  text(which, number) {
    const at = this.exports.name(which, number);
    return this.bytes.latin1Slice(at, this.bytes.indexOf(0, at));
  }

  // The names of the numbers from 0.
  names(which) {
    const found = [];
    while (this.text(which, found.length) !== "unknown") found.push(this.text(which, found.length));
    return found;
  }

  setLimits(limits) {
    this.words.set(limits, this.limits / WORD);
  }

  copied(at, size, allocate) {
    const copy = allocate(size);
    new Uint8Array(copy).set(this.bytes.subarray(at, at + size));
    return copy;
  }

  // The result whose numbers are there.
  result(place, allocate, statuses) {
    const at = place / WORD;
    const { words } = this;
    const status = statuses[words[at]] ?? this.text(STATUSES, words[at]);
    if (status === "out_of_memory") throw new Error("memory ran out");
    const parts = this.copied(words[at + 1], words[at + 2], allocate);
    const texts = this.copied(words[at + 3], words[at + 4], allocate);
    const complexities = words[at + 6] === 0 ? undefined : this.copied(words[at + 5], words[at + 6], allocate);
    return { status, parts, texts, complexities };
  }

  // What a call of this name finds in a source, with one number more.
  found(name, source, allocate, statuses, other = 0) {
    const place = this.call("source", source.length);
    if (place === 0) throw new Error("memory ran out");
    this.bytes.set(source, place);
    return this.result(this.call(name, place, source.length, other), allocate, statuses);
  }

  // Writes a small source, which is cut off where there is no room for it, and returns how many bytes are written.
  writeSmall(source, limits) {
    this.setLimits(limits);
    return this.bytes.utf8Write(source, this.small, this.keptLength);
  }

  // What a parse finds in a small source: a string, or a result that isn't small; undefined for another source. Node makes a string
  // of memory in less time than an array, and browsers in more: there it isn't packed.
  foundInSmall(source, limits, allocate, statuses) {
    const length = this.writeSmall(source, limits);
    const packs = this.bytes.ucs2Slice === undefined ? 0 : 1;
    const place = this.call("parse_small", length, packs);
    if (place === 0) return undefined;
    const size = this.words[place / WORD + PACKED_SIZE];
    if (size !== 0) return this.bytes.ucs2Slice(this.packed, this.packed + size);
    return { ...this.result(place, allocate, statuses), sourceBytes: length };
  }
}

// Keeps an instance. It is made when it is first called, and anew after an error, and after a call that took much memory.
class Keeper {
  #make;
  #instance;

  constructor(make) {
    this.#make = make;
  }

  // What this returns for the instance.
  use(run) {
    try {
      this.#instance ??= new Instance(this.#make);
      const result = run(this.#instance);
      if (this.#instance.bytes.length > MUCH) this.#instance = undefined;
      return result;
    } catch (error) {
      this.#instance = undefined;
      throw error;
    }
  }
}

// The names and the numbers of the header.
function constantsOf(instance) {
  return {
    KINDS: instance.names(KINDS),
    TOKEN_KINDS: instance.names(TOKEN_KINDS),
    ERROR_KINDS: instance.names(ERROR_KINDS),
    ERROR_DETAILS: instance.names(ERROR_DETAILS),
    LIMITS_LENGTH: instance.exports.number(LIMITS_LENGTH),
    SIZES_LENGTH: instance.exports.number(SIZES_LENGTH),
    MAX_DEPTH: instance.exports.number(MAX_DEPTH),
    VERSION: instance.text(VERSION, 0),
  };
}

// The calls. `make` makes an instance of the module, at once.
function callsOf(make) {
  const keeper = new Keeper(make);
  const statuses = keeper.use((instance) => instance.names(STATUSES));
  const call = (name, source, allocate, other) => keeper.use((instance) => instance.found(name, source, allocate, statuses, other));
  const within = (name, source, limits, allocate) => keeper.use((instance) => {
    instance.setLimits(limits);
    return instance.found(name, source, allocate, statuses);
  });
  return {
    parse: (source, limits, allocate) => within("parse", source, limits, allocate),
    parseValue: (source, limits, allocate) => within("parse_value", source, limits, allocate),
    parseConstant: (source, limits, allocate) => within("parse_constant", source, limits, allocate),
    parseType: (source, limits, allocate) => within("parse_type", source, limits, allocate),
    check: (source, limits, allocate) => within("check", source, limits, allocate),
    complexities: (source, allocate) => call("complexities", source, allocate),
    tokens: (source, most, allocate) => call("tokens", source, allocate, most >= 0 && most < LARGEST_WORD ? most : LARGEST_WORD),
    canonical: (source, allocate) => call("canonical", source, allocate),
    excerpt: (source, byte, allocate) => call("excerpt", source, allocate, byte),
    parsePacked: (source, limits, allocate) => keeper.use((instance) => instance.foundInSmall(source, limits, allocate, statuses)),
    isDocument: (source, limits) => keeper.use((instance) => instance.call("check_small", instance.writeSmall(source, limits)) === 1),
    ...keeper.use(constantsOf),
  };
}

module.exports = { callsOf };
