// A document's nodes.
"use strict";

const { inspect } = require("util");

const { addon, allocate, encoded, excerptAt, namesOf, requireString } = require("./calls");
const { checked } = require("./errors");
const { WORDS_OF_NODE } = require("./found");
const { Fragment, Operation } = require("./parts");
const { Units } = require("./positions");
const { floatOf, integerOf } = require("./values");

// By their numbers.
const KINDS = namesOf(addon.KINDS);

// The kinds of the nodes of definitions.
const DEFINITIONS = new Set(["query", "mutation", "subscription", "fragmentDefinition"]);

// The kinds of nodes that have no name: their bytes are all that the node is written as.
const WITHOUT_NAME = new Set(["type", "null", "int", "largeInt", "float", "string", "blockString", "boolean"]);

// The numbers of 32 bits of a node, in their order: its kind, its descendants, the start's and the end's index, line, column
// and byte, the name's bytes, the value's low and high half, the value's length, and one without a meaning.
const START = 2;
const END = 6;
const NAME = 10;
const VALUE = 12;
const LENGTH = 14;

// The numbers of an operation, which come after its node's index.
// tables.toml: complexity as a list
const NUMBERS = ["fields", "aliases", "directives", "rootFields", "depth"];
// tables.toml: end

// How large each operation is, by the index of its node.
function byOperation(words) {
  const found = new Map();
  for (let at = 0; at < words.length; at += 1 + NUMBERS.length)
    found.set(words[at], Object.freeze(Object.fromEntries(NUMBERS.map((name, i) => [name, words[at + 1 + i]]))));
  return found;
}

/** A part of a document, as the library writes it. */
class Node {
  #document;
  #at;

  constructor(document, index) {
    this.#document = document;
    this.#at = WORDS_OF_NODE * index;
    this.index = index;
  }

  #word(number) {
    return this.#document.word(this.#at + number);
  }

  get document() {
    return this.#document;
  }

  get kind() {
    return KINDS[this.#word(0)];
  }

  get descendants() {
    return this.#word(1);
  }

  get start() {
    return this.#document.position(this.#at + START);
  }

  get end() {
    return this.#document.position(this.#at + END);
  }

  get line() {
    return this.start.line + 1;
  }

  get column() {
    return this.start.column + 1;
  }

  get excerpt() {
    return excerptAt(this.#document.bytes, this.start.byte);
  }

  get text() {
    return this.#document.source.slice(this.start.index, this.end.index);
  }

  get name() {
    const from = this.#word(NAME);
    const to = this.#word(NAME + 1);
    return from === to || WITHOUT_NAME.has(this.kind) ? null : this.#document.nameAt(from, to);
  }

  get value() {
    const from = this.#word(VALUE);
    const to = from + this.#word(LENGTH);
    switch (this.kind) {
      case "int":
        return from | 0;
      case "boolean":
        return from === 1;
      case "largeInt":
        return integerOf(this.text);
      case "float":
        return floatOf(this.text);
      case "string":
      case "blockString":
      case "type":
        return this.#document.texts.utf8Slice(from, to);
      case "fragmentDefinition":
        return this.#document.nameAt(from, to);
      case "enum":
      case "variable":
        return this.name;
      default:
        return null;
    }
  }

  get children() {
    return this.#document.between(this.index + 1, this.index + 1 + this.descendants);
  }

  get parent() {
    const parent = this.#document.parents[this.index];
    return parent < 0 ? null : this.#document.node(parent);
  }

  toJSON() {
    const { kind, name, start, end } = this;
    // JSON has no such numbers.
    const value = kind === "largeInt" ? this.text : valueOrText(this);
    const children = this.children.map((child) => child.toJSON());
    return { kind, name, value, start, end, children };
  }

  [inspect.custom]() {
    // The class's prototype is no node.
    if (!Object.keys(this).includes("index")) return this;
    const { kind, name, start, end, children } = this;
    return Object.assign(new Shown(), { kind, name, value: valueOrText(this), start, end, children });
  }
}

// What inspect shows of a node, under the same name.
const Shown = { Node: class {} }.Node;

// A node's value; the text of a number that has none.
function valueOrText(node) {
  try {
    return node.value;
  } catch (error) {
    if (!(error instanceof RangeError)) throw error;
    return node.text;
  }
}

/** A document's nodes, each part before the parts in it. */
class Document {
  #found;
  #bytes;
  #units;
  #parents;
  #byOperation;

  constructor(source, sourceName, found) {
    this.source = source;
    this.sourceName = sourceName;
    this.#found = found;
    this.length = found.nodes;
  }

  // A number of the nodes.
  word(index) {
    return this.#found.word(index);
  }

  get texts() {
    return this.#found.texts;
  }

  // The source as the library read it.
  get bytes() {
    this.#bytes ??= encoded(this.source);
    return this.#bytes;
  }

  // The name from a byte of the source to another. It is ASCII; what is before it may be longer in bytes than in units.
  nameAt(from, to) {
    return this.#found.sourceBytes === this.source.length ? this.source.slice(from, to) : this.bytes.latin1Slice(from, to);
  }

  get units() {
    this.#units ??= new Units(this.source);
    return this.#units;
  }

  // The position whose numbers begin there.
  position(at) {
    return this.units.position(this.word(at), this.word(at + 1), this.word(at + 2), this.word(at + 3));
  }

  // The index of each node's parent, and -1 of a definition.
  get parents() {
    if (this.#parents === undefined) {
      const parents = new Float64Array(this.length);
      const around = [[-1, this.length]];
      for (let index = 0; index < this.length; index++) {
        while (around[around.length - 1][1] === index) around.pop();
        parents[index] = around[around.length - 1][0];
        around.push([index, index + 1 + this.word(WORDS_OF_NODE * index + 1)]);
      }
      this.#parents = parents;
    }
    return this.#parents;
  }

  // How large the operation of a node is. They are found when one is first asked for, unless the source was parsed within limits
  // on them.
  complexityOf(index) {
    this.#byOperation ??= byOperation(this.#found.complexities ?? this.#complexitiesOfSource());
    return this.#byOperation.get(index);
  }

  #complexitiesOfSource() {
    return new Uint32Array(checked(this.source, this.sourceName, addon.complexities(this.bytes, allocate)).complexities);
  }

  node(index) {
    if (!Number.isInteger(index) || index < 0 || index >= this.length) throw new RangeError(`there is no node ${index}`);
    return new Node(this, index);
  }

  // Whether it is a value or a type that was parsed alone.
  get isLiteral() {
    return !DEFINITIONS.has(this.node(0).kind);
  }

  get definitions() {
    return this.isLiteral ? [] : this.between(0, this.length);
  }

  get operations() {
    return this.definitions.filter((node) => node.kind !== "fragmentDefinition").map((node) => new Operation(node));
  }

  get fragments() {
    return this.definitions.filter((node) => node.kind === "fragmentDefinition").map((node) => new Fragment(node));
  }

  operation(name) {
    const { operations } = this;
    if (name === undefined || name === null) return operations.length === 1 ? operations[0] : null;
    requireString("name", name);
    return operations.find((operation) => operation.name === name) ?? null;
  }

  fragment(name) {
    requireString("name", name);
    return this.fragments.find((fragment) => fragment.name === name) ?? null;
  }

  between(index, end) {
    const found = [];
    while (index < end) {
      const node = this.node(index);
      found.push(node);
      index += 1 + node.descendants;
    }
    return found;
  }

  *[Symbol.iterator]() {
    for (let index = 0; index < this.length; index++) yield this.node(index);
  }

  toJSON() {
    return { definitions: this.definitions.map((definition) => definition.toJSON()) };
  }
}

module.exports = { Document, KINDS, LENGTH, NAME, Node, VALUE };
