// Compares index.d.ts, and limits.d.ts, with what the package returns: names, types, and each alternative of a type, over samples of each kind.
"use strict";

const assert = require("assert");
const fs = require("fs");
const { test } = require("node:test");
const path = require("path");
const { inspect } = require("util");

const firthnapkin = require("..");
const { declaration } = require("../lib/limits");

const { check, parse, parseType, parseValue, tokens, canonical, FirthnapkinError } = firthnapkin;

// What a program may find at run time and has no use for.
const INTERNAL = {
  Document: ["word", "texts", "bytes", "nameAt", "units", "position", "parents", "between", "complexityOf", "isLiteral"],
  Tokens: ["units", "position"],
};

const [index, ofLimits] = ["index.d.ts", "lib/limits.d.ts"].map((name) => fs.readFileSync(path.join(__dirname, "..", name), "utf8"));
const text = (index + ofLimits).replace(/\/\*[^]*?\*\/|^ *\/\/ .*$/gm, "");

/** The members of a type between braces: for each name its type and the names of its parameters, where it has some. */
function membersOf(body) {
  const members = new Map();
  // A semicolon between braces ends no member of this type.
  for (const line of body.match(/(?:\{[^{}]*\}|[^;])+/g)) {
    const member = /^(?:readonly )?(\w+)(\?)?(?:\((.*)\))?: ([^]*)$/.exec(line.trim());
    if (member) members.set(member[1], { isOptional: member[2] !== undefined, parameters: member[3], type: member[4] });
    else assert.match(line.trim(), /^(private constructor\(\)|constructor\(name: string\)|readonly \[name: string\]: Value)?$/);
  }
  return members;
}

const unions = new Map(Array.from(text.matchAll(/^export type (\w+) =([^;]*);/gm), ([, name, type]) => [name, type]));
// A type has the members of those that it extends, which are before it.
const objects = new Map();
const extended = new Set();
for (const [, name, heading, body] of text.matchAll(/^export (?:interface|class) (\w+)([^{]*)\{\n([^]*?)^\}/gm)) {
  const base = /extends (\w+) $/.exec(heading)?.[1];
  const isHere = base !== undefined && base !== "Error";
  objects.set(name, new Map([...(isHere ? objects.get(base) : []), ...membersOf(body)]));
  if (isHere) extended.add(base);
}
const functions = new Map(
  Array.from(text.matchAll(/^export function (\w+)\((.*)\): (\w+);/gm), ([, name, parameters, type]) => [name, { parameters, type }]),
);
const constants = new Map(Array.from(text.matchAll(/^export const (\w+): (\w+);/gm), ([, name, type]) => [name, type]));
const classes = Array.from(text.matchAll(/^export class (\w+)/gm), ([, name]) => name);

// The interfaces and classes that classes are of.
const CLASSES = [
  "Node", "Document", "Operation", "Fragment", "Field", "FragmentSpread", "InlineFragment", "VariableDefinition", "Directive",
  "Argument", "ParsedValue", "ParsedType", "EnumValue", "Variable", "Tokens", "Token", "FirthnapkinError",
];

/** The alternatives of a type, each without spaces around. */
function alternativesOf(type) {
  const parts = [];
  let depth = 0;
  for (const piece of type.split(/([|<>{}])/)) {
    if (piece === "|" && depth === 0) parts.push("");
    else parts.push((parts.pop() ?? "") + piece);
    depth += ["<", "{"].includes(piece) ? 1 : [">", "}"].includes(piece) ? -1 : 0;
  }
  return parts.map((part) => part.trim()).filter((part) => part !== "");
}

// The alternatives that a value was of, each after where its type is written.
const seen = new Set();

function isOf(alternative, value, where) {
  const array = /^ReadonlyArray<(.*)>$/.exec(alternative) ?? /^(\w+)\[\]$/.exec(alternative);
  if (array) return Array.isArray(value) && value.every((item) => has(array[1], item, where));
  if (alternative === "null") return value === null;
  if (alternative.startsWith('"')) return value === JSON.parse(alternative);
  if (alternative.startsWith("{")) return hasMembers(membersOf(alternative.slice(1, -1)), value, where);
  if (unions.has(alternative)) return has(unions.get(alternative), value, alternative);
  // Those that contain others are compared one by one, below.
  if (CLASSES.includes(alternative)) return value instanceof firthnapkin[alternative];
  if (alternative === "any") return true;
  if (["undefined", "void"].includes(alternative)) return value === undefined;
  if (alternative === "ObjectValue")
    return typeof value === "object" && value !== null && Object.getPrototypeOf(value) === null
      && Object.values(value).every((item) => has("Value", item, where));
  if (objects.has(alternative)) return hasMembers(objects.get(alternative), value, alternative);
  assert.ok(["boolean", "number", "bigint", "string", "object"].includes(alternative), `${alternative} is no type that is known here`);
  return typeof value === alternative;
}

/** Whether a value is of a type; the alternative is noted. */
function has(type, value, where) {
  const found = alternativesOf(type).find((alternative) => isOf(alternative, value, where));
  if (found !== undefined) seen.add(`${where}: ${found}`);
  return found !== undefined;
}

function hasMembers(members, value, where) {
  const names = Array.from(members.keys());
  return (
    typeof value === "object" && value !== null
    && Object.keys(value).sort().join() === names.sort().join()
    && names.every((name) => has(members.get(name).type, value[name], `${where}.${name}`))
  );
}

/** The names that an object has itself or from its class, without Object's and Error's. */
function namesOf(object) {
  const names = Object.keys(object);
  for (let at = Object.getPrototypeOf(object); ![Object.prototype, Error.prototype].includes(at); at = Object.getPrototypeOf(at))
    names.push(...Object.getOwnPropertyNames(at));
  return Array.from(new Set(names)).filter((name) => name !== "constructor");
}

// What methods are given that take a name, or an index.
const NAMES = ["Q", "F", "b", "e", "nothing"];

/** An object of a class: it has the members that its type has, and no others. */
function compared(type, object) {
  const internal = INTERNAL[type] ?? [];
  const declared = objects.get(type);
  assert.deepStrictEqual(namesOf(object).sort(), [...declared.keys(), ...internal].sort(), type);
  for (const [name, member] of declared) {
    const isCall = member.parameters !== undefined;
    if (isCall) assert.strictEqual(object[name].length, member.parameters.split(",").filter((word) => word !== "").length, name);
    const words = member.parameters?.includes("string") ? NAMES : [0];
    for (const value of isCall ? words.map((word) => object[name](word)) : [object[name]])
      assert.ok(has(member.type, value, `${type}.${name}`), `${type}.${name} is no ${member.type}: ${inspect(value)}`);
  }
}

/** A part by its name, and those in it. */
function comparedParts(part) {
  compared(part.constructor.name, part);
  for (const name of ["variables", "directives", "selections", "arguments"]) for (const inner of part[name] ?? []) comparedParts(inner);
}

const DOCUMENTS = [
  'query Q($v: [T!]! = [1] @d, $w: Int) { x: a(b: {c: -1.5, d: 99999999999999999999, e: E, f: $v, g: true, h: null, i: "s", j: """t"""}) ...F @e } fragment F on T { f }',
  "mutation { m @d(b: 1) @e } subscription S @d { ... on T @e { s } ... { u } } fragment F on T @d(e: 2) { f }",
];
const ERRORS = [
  ["{ a ) }"], ["{"], ["{ \u00e9 }"], ["{a(b: 01)}"], ['{a(b: "'], ['{a(b: "\0")}'], ['{a(b: "\\q")}'], ["{a(b: -"], ["\ud800"],
  ["{a{b}}", { depth: 1 }], ["{a}", { maxTokens: 1 }], ["{ a b }", { maxFields: 1 }], ["{ ...A }", { maxFields: 1 }],
  ["{ ...A } fragment A on T { ...A }", { maxFields: 1 }], ["{", { name: "pets.graphql" }],
];

test("documents and nodes are what index.d.ts says", () => {
  for (const source of DOCUMENTS) {
    const document = parse(source);
    compared("Document", document);
    compared("Document", parse(source, { name: "pets.graphql" }));
    for (const node of document) compared("Node", node);
    for (const part of [...document.operations, ...document.fragments]) comparedParts(part);
  }
  const beyond = parse("{ a(b: 1e400) }").node(4).toJSON();
  assert.ok(has("NodeParts", beyond, "NodeParts"), "a Float beyond the largest number, as JSON");
});

test("tokens are what index.d.ts says", () => {
  const found = tokens('{a(b: [-1, 1.5, "s", """t""", $v!], c = @ | ...)}');
  compared("Tokens", found);
  for (const token of found) compared("Token", token);
});

test("enums and variables are what index.d.ts says", () => {
  for (const name of ["EnumValue", "Variable"]) compared(name, new firthnapkin[name]("a"));
});

test("values and types alone are what index.d.ts says", () => {
  for (const value of ["1", '"s"', '"""t"""', "1.5", "99999999999999999999", "null", "true", "E", "$v", "[1]", "{a: 1}"]) compared("ParsedValue", parseValue(value));
  compared("ParsedType", parseType("[T!]"));
});

test("errors are what index.d.ts says", () => {
  for (const words of ERRORS) {
    assert.throws(() => parse(...words), (error) => {
      assert.ok(error instanceof FirthnapkinError && error instanceof Error);
      compared("FirthnapkinError", error);
      return true;
    });
  }
});

test("what is exported is what index.d.ts says", () => {
  for (const [name, type] of constants) assert.ok(has(type, firthnapkin[name], name), name);
  for (const [name, { parameters, type }] of functions) {
    const required = parameters.split(",").filter((word) => !word.includes("?"));
    assert.strictEqual(firthnapkin[name].length, required.length, name);
    const given = { toGraphQL: parse("{ a }"), parseValue: "[1]", parseType: "[T]" }[name] ?? "{ a }";
    assert.ok(has(type, firthnapkin[name](given), name), name);
  }
  assert.deepStrictEqual(classes, ["EnumValue", "Variable", "FirthnapkinError"]);
  // The classes of what is returned are there for `instanceof`.
  const names = [...functions.keys(), ...constants.keys(), ...CLASSES];
  assert.deepStrictEqual(Object.keys(firthnapkin).sort(), names.sort());
});

test("a module imports each name", async () => {
  const imported = await import("../index.js");
  for (const name of Object.keys(firthnapkin)) assert.strictEqual(imported[name], firthnapkin[name], name);
});

test("limits.d.ts is of the list of limits, and index.d.ts exports its type", () => {
  assert.strictEqual(ofLimits, declaration());
  assert.match(index, /^import \{ Options \} from "\.\/lib\/limits\.js";\nexport \{ Options \};$/m);
});

test("the options are those of index.d.ts", () => {
  for (const [type, call, wanted] of [
    ...[parse, check].map((call) => [
      "Options", call, ["depth", "maxAliases", "maxDirectives", "maxFieldDepth", "maxFields", "maxRootFields", "maxTokens", "name"],
    ]),
    ["TypeOptions", parseType, ["depth", "maxTokens", "name"]], ["ValueOptions", parseValue, ["constant", "depth", "maxTokens", "name"]],
    ["TokenOptions", tokens, ["maxTokens", "name"]], ["CanonicalOptions", canonical, ["name"]],
  ]) {
    const options = objects.get(type);
    assert.deepStrictEqual(Array.from(options.keys()).sort(), wanted);
    assert.strictEqual(functions.get(call.name).parameters, `source: string, options?: ${type}`);
    for (const [name, member] of options) {
      assert.ok(member.isOptional, name);
      for (const value of [5, 5n, "5", true, null, undefined]) {
        const run = () => call([parseType, parseValue].includes(call) ? "T" : "{ a }", { [name]: value });
        if (value === undefined || has(member.type, value, `${type}.${name}`)) run();
        else assert.throws(run, TypeError);
      }
    }
  }
});

test("the module that toGraphQL is given", () => {
  const { type, isOptional } = objects.get("GraphQLOptions").get("graphql");
  assert.deepStrictEqual([isOptional, functions.get("toGraphQL").parameters], [true, "document: Document, options?: GraphQLOptions"]);
  // graphql-js itself is given in other tests.
  for (const [graphql, isObject] of [[{}, true], [5, false], ["graphql", false], [true, false]]) {
    assert.strictEqual(has(type, graphql, "GraphQLOptions.graphql"), isObject);
    assert.throws(() => firthnapkin.toGraphQL(parse("{ a }"), { graphql }), TypeError);
  }
});

test("each alternative of a type of index.d.ts is of some value", () => {
  const wanted = Array.from(unions, ([name, type]) => [name, type]);
  for (const [type, members] of Array.from(objects).filter(([type]) => !extended.has(type)))
    for (const [name, member] of members) wanted.push([`${type}.${name}`, member.type]);
  for (const [where, type] of wanted)
    for (const alternative of alternativesOf(type)) assert.ok(seen.has(`${where}: ${alternative}`), `${where}: never ${alternative}`);
});
