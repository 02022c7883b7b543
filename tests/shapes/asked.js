#!/usr/bin/env node
// Measures each public property and method of each part that Node's package returns for a corpus's texts, as tests/corpus.py
// writes one.
//
//     node tests/shapes/asked.js PACKAGE CORPUS
//
// For each text it writes a line: an object with a list for each class and name, of the time that it takes to ask it of each part of
// the class, in nanoseconds, of the size of what they return, and of the number of parts. `walk` is all of it on a new document.
"use strict";

const fs = require("node:fs");
const path = require("node:path");
const { inspect } = require("node:util");
const { texts } = require("../corpus.js");

const firthnapkin = require(path.resolve(process.argv[2]));

const isClass = (it) => /^class\b/.test(it);
const CLASSES = new Set(Object.values(firthnapkin).filter(isClass));
const OPTIONS = { depth: firthnapkin.MAX_DEPTH };
// What reads the source each time, and returns no part: a walk leaves it out.
const READING = ["excerpt"];
// What any object can be asked, beside its properties and methods.
const OF_ANY = [["inspect", (part) => inspect(part)]];

const isPart = (it) => typeof it === "object" && it !== null && CLASSES.has(it.constructor);

// What a method returns that takes nothing, or one argument: a name, or a number.
function called(part, name) {
  try {
    return part[name]("b");
  } catch (error) {
    if (error instanceof RangeError) return part[name](0);
    throw error;
  }
}

// What a class has: its properties, and its methods that take nothing or one argument.
function askedOf(kind) {
  const found = new Map(OF_ANY);
  if (kind.prototype[Symbol.iterator] !== undefined) found.set("iterator", (part) => [...part]);
  for (let of = kind.prototype; of !== Object.prototype && of !== Error.prototype; of = Object.getPrototypeOf(of)) {
    for (const [name, member] of Object.entries(Object.getOwnPropertyDescriptors(of))) {
      if (name === "constructor" || found.has(name)) continue;
      if (member.get !== undefined) found.set(name, (part) => part[name]);
      else if (typeof member.value === "function" && member.value.length < 2) found.set(name, (part) => called(part, name));
    }
  }
  return found;
}

const ASKED = new Map([...CLASSES].map((kind) => [kind, askedOf(kind)]));

// What a part returns, or the words of its error.
function answer(ask, part) {
  try {
    return ask(part);
  } catch (error) {
    return String(error);
  }
}

function sizeOf(found) {
  const around = [found];
  let size = 0;
  while (around.length > 0) {
    const it = around.pop();
    size++;
    if (typeof it === "string") size += it.length;
    else if (typeof it === "object" && it !== null && !isPart(it) && !ArrayBuffer.isView(it)) around.push(...Object.values(it));
  }
  return size;
}

// A name for a part, which no other part of its class has.
const keyOf = (part) => `${part.constructor.name} ${part.index ?? part.node?.index ?? ""}`;

// All parts that can be reached from these, each once, by their class.
function partsOf(roots) {
  const [seen, found, around] = [new Set(), new Map(), [...roots]];
  while (around.length > 0) {
    const part = around.pop();
    if (!isPart(part) || seen.has(keyOf(part))) continue;
    seen.add(keyOf(part));
    if (!found.has(part.constructor)) found.set(part.constructor, []);
    found.get(part.constructor).push(part);
    for (const [name, ask] of ASKED.get(part.constructor)) {
      const returned = READING.includes(name) ? null : answer(ask, part);
      if (Array.isArray(returned)) around.push(...returned);
      else around.push(returned);
    }
  }
  return found;
}

// How long the process ran, in nanoseconds.
function used() {
  const { user, system } = process.cpuUsage();
  return 1000 * (user + system);
}

// V8 compiles and collects in between, so what few parts are asked is asked more often, and the least time counts.
function measured(ask, parts) {
  let [least, results] = [Infinity, []];
  for (let i = 0; i < (parts.length < 10 ? 5 : 1); i++) {
    const begin = used();
    results = parts.map((part) => answer(ask, part));
    least = Math.min(least, used() - begin);
  }
  return [least, sizeOf(results), parts.length];
}

function rootsOf(text) {
  try {
    firthnapkin.parse(`${text} )`, OPTIONS);
  } catch (error) {
    return [firthnapkin.parse(text, OPTIONS), firthnapkin.tokens(text), error];
  }
  throw new Error("an error is expected");
}

const FUNCTIONS = {
  parse: (text) => firthnapkin.parse(text, OPTIONS),
  check: (text) => firthnapkin.check(text, OPTIONS),
  tokens: (text) => firthnapkin.tokens(text),
  canonical: (text) => firthnapkin.canonical(text),
  toGraphQL: (text) => firthnapkin.toGraphQL(firthnapkin.parse(text, OPTIONS)),
};

// What is given the text of the first value of a document, or of its first type, and not all of it.
const LITERALS = {
  parseValue: (text) => firthnapkin.parseValue(text, OPTIONS),
  parseType: (text) => firthnapkin.parseType(text, OPTIONS),
};
// The other public functions. Each is asked of every text.
const functions = new Set(
  Object.entries(firthnapkin).filter(([name, it]) => typeof it === "function" && !isClass(it) && !(name in LITERALS)).map(([name]) => name),
);

function literalsOf(text) {
  const nodes = [...firthnapkin.parse(text, OPTIONS)];
  const first = { parseValue: nodes.find((it) => it.kind === "argument")?.children[0], parseType: nodes.find((it) => it.kind === "type") };
  return Object.entries(first).filter(([, node]) => node !== undefined).map(([name, node]) => [name, node.text]);
}

function lineOf(text) {
  const found = {};
  for (const [name, call] of Object.entries(FUNCTIONS)) found[name] = measured(call, [text]);
  const literals = literalsOf(text);
  for (const [name, literal] of literals) found[name] = measured(LITERALS[name], [literal]);
  for (const name of Object.keys(found)) functions.delete(name);
  const begin = used();
  const reached = partsOf([...rootsOf(text), ...literals.map(([name, literal]) => LITERALS[name](literal))]);
  const walked = used() - begin;
  for (const [kind, parts] of reached)
    for (const [name, ask] of ASKED.get(kind)) found[`${kind.name}.${name}`] = measured(ask, parts);
  // What can be reached from a part includes what each returns.
  found.walk = [walked, Object.values(found).reduce((sum, [, size]) => sum + size, 0), 1];
  return found;
}

// What was not measured yet is compiled by V8 meanwhile: the first text is measured twice.
const all = texts(process.argv[3]);
lineOf(all[0]);
for (const text of all) fs.writeFileSync(process.stdout.fd, `${JSON.stringify(lineOf(text))}\n`);
if (functions.size > 0) throw new Error(`${[...functions].join(", ")} are not asked`);
