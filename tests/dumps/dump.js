#!/usr/bin/env node
// Writes what Node's package exposes of each text of a corpus, as tests/c/dump.c --utf-16 does of the library.
//
//     node tests/dumps/dump.js PACKAGE CORPUS
"use strict";

const fs = require("node:fs");
const path = require("node:path");
const { texts } = require("../corpus.js");

const firthnapkin = require(path.resolve(process.argv[2]));

// The names of the library: `fragment_spread` for `fragmentSpread`.
const snake = (name) => name && name.replace(/[A-Z]/g, (letter) => `_${letter.toLowerCase()}`);
const position = ({ index, line, column, byte }) => [index, line, column, byte];

function errorOf(error) {
  if (!(error instanceof firthnapkin.FirthnapkinError)) throw error;
  const [{ line, column }] = error.locations;
  return {
    kind: snake(error.kind),
    detail: snake(error.detail),
    character: error.character === null ? 0 : error.character.codePointAt(0),
    message: error.reason,
    start: position(error.start),
    end: position(error.end),
    line,
    column,
    excerpt: error.excerpt,
  };
}

function orError(call) {
  try {
    return call();
  } catch (error) {
    return errorOf(error);
  }
}

// Of a source of more bytes parts have no excerpts, and the last tokens and nodes are written.
const [LONG, LAST] = [10_000, 100];
let isLong = false;
const lastOf = (items) => (isLong ? [...items].slice(-LAST) : [...items]);

const tokensOf = (text) =>
  lastOf(firthnapkin.tokens(text)).map((it) => [
    snake(it.kind), position(it.start), position(it.end), it.line, it.column, it.text, it.unquoted,
  ]);

const WITH_VALUE = ["int", "boolean", "fragmentDefinition", "type", "string", "blockString"];

const nodeOf = (node) => [
  snake(node.kind), node.descendants, position(node.start), position(node.end), node.text, node.name,
  WITH_VALUE.includes(node.kind) ? node.value : null, node.children.map((it) => it.index),
];

// What a value means, beside how it is written: a whole Float is a number as an Int is.
function valueOf(value, node) {
  const kind = node.kind;
  if (kind === "int" || kind === "largeInt") return { int: String(value) };
  if (kind === "float") {
    const bits = Buffer.alloc(8);
    bits.writeDoubleBE(value);
    return { float: bits.toString("hex") };
  }
  if (value instanceof firthnapkin.EnumValue) return { enum: value.name };
  if (value instanceof firthnapkin.Variable) return { variable: value.name };
  const children = node.children;
  if (Array.isArray(value)) return value.map((it, i) => valueOf(it, children[i]));
  if (value !== null && typeof value === "object") {
    const last = new Map(children.map((it) => [it.name, it.children[0]]));
    return { object: Object.keys(value).sort().map((key) => [key, valueOf(value[key], last.get(key))]) };
  }
  return value;
}

const part = (it, more) => ({
  node: it.node.index,
  line: it.line,
  column: it.column,
  text: it.text,
  excerpt: isLong ? null : it.excerpt,
  ...more,
});
const argumentsOf = (it) =>
  it.arguments.map((argument) =>
    part(argument, { name: argument.name, value: valueOf(argument.value, argument.node.children[0]) }));
const directives = (it) =>
  it.directives.map((directive) => part(directive, { name: directive.name, arguments: argumentsOf(directive) }));
const selections = (it) => it.selections.map(selection);

function selection(it) {
  const kind = snake(it.kind);
  if (it.kind === "fragmentSpread") return part(it, { name: it.name, kind, directives: directives(it) });
  if (it.kind === "inlineFragment") {
    return part(it, { name: it.typeCondition, kind, directives: directives(it), selections: selections(it) });
  }
  const keys = { alias: it.alias, key: it.responseKey, arguments: argumentsOf(it) };
  return part(it, { name: it.name, kind, ...keys, directives: directives(it), selections: selections(it) });
}

function variable(it) {
  const value = it.node.children.find((inner) => !["type", "directive"].includes(inner.kind));
  const initial = it.defaultValue === undefined ? [] : [valueOf(it.defaultValue, value)];
  return part(it, { name: it.name, type: it.type, default: initial, directives: directives(it) });
}

const operation = (it) =>
  part(it, {
    name: it.name,
    kind: it.kind,
    complexity: orError(() => [
      it.complexity.fields, it.complexity.aliases, it.complexity.directives, it.complexity.rootFields, it.complexity.depth,
    ]),
    variables: it.variables.map(variable),
    directives: directives(it),
    selections: selections(it),
  });

const fragment = (it) =>
  part(it, { name: it.name, type: it.typeCondition, directives: directives(it), selections: selections(it) });

const documentOf = (document) => ({
  nodes: lastOf(document).map(nodeOf),
  definitions: document.definitions.map((it) => it.index),
  operations: document.operations.map(operation),
  fragments: document.fragments.map(fragment),
});

function valueAlone(text) {
  const found = firthnapkin.parseValue(text);
  return part(found, { nodes: lastOf(found.node.document).map(nodeOf), value: valueOf(found.value, found.node) });
}

function typeAlone(text) {
  const found = firthnapkin.parseType(text);
  return part(found, { nodes: lastOf(found.node.document).map(nodeOf), type: found.type });
}

function lineOf(text) {
  let document = null;
  const error = orError(() => {
    document = firthnapkin.parse(text);
    return null;
  });
  const within = orError(() => {
    firthnapkin.parse(text, { depth: 3, maxTokens: 20 });
    return null;
  });
  return {
    tokens: orError(() => tokensOf(text)),
    canonical: orError(() => firthnapkin.canonical(text)),
    error,
    within,
    value: orError(() => valueAlone(text)),
    constant: orError(() => {
      firthnapkin.parseValue(text, { constant: true, depth: 3, maxTokens: 20 });
      return null;
    }),
    type: orError(() => typeAlone(text)),
    document: document && documentOf(document),
  };
}

for (const text of texts(process.argv[3])) {
  isLong = Buffer.byteLength(text) > LONG;
  fs.writeFileSync(process.stdout.fd, `${JSON.stringify(lineOf(text))}\n`);
}
