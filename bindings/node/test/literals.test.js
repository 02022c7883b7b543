// Sources that are one value or one type.
"use strict";

const assert = require("assert");
const path = require("path");
const { test } = require("node:test");
const { inspect } = require("util");

const { parse, parseType, parseValue, toGraphQL, EnumValue, FirthnapkinError, ParsedType, ParsedValue, Variable, MAX_DEPTH } = require("..");

const parseConstant = (source, options) => parseValue(source, { ...options, constant: true });
const CALLS = [parseValue, parseConstant, parseType];

// An object without a prototype.
const objectOf = (fields) => Object.assign(Object.create(null), fields);

const CONSTANTS = [
  ["null", null],
  ["true", true],
  ["-7", -7],
  ["9007199254740993", 9007199254740993n],
  ["-1.5e3", -1500],
  ['"\\u00e9\\n𝄞"', "é\n𝄞"],
  ['"""\n  x\n   y\n """', "x\n y"],
  ["on", new EnumValue("on")],
  ["[]", []],
  ["{}", objectOf({})],
  ["[1, [E], null]", [1, [new EnumValue("E")], null]],
  ["{a: 1, b: {c: 2.5}, a: 3}", objectOf({ a: 3, b: objectOf({ c: 2.5 }) })],
  ["\ufeff # é\n ,7, #", 7],
];
const VALUES = [...CONSTANTS, ["$a", new Variable("a")], ["[$a {b: $ c}]", [new Variable("a"), objectOf({ b: new Variable("c") })]]];
const TYPES = [["T", "T"], ["ID!", "ID!"], ["[T]", "[T]"], [" [ [ T ] , ! ] #é\n!\n", "[[T]!]!"], ["\ufeffon", "on"]];

function thrownBy(call, ...rest) {
  try {
    call(...rest);
  } catch (error) {
    return error;
  }
  throw new Error(`nothing is thrown for ${rest[0]}`);
}

test("values and types", () => {
  for (const [source, value] of VALUES) {
    assert.deepStrictEqual(parseValue(source).value, value);
    assert.deepStrictEqual(parseValue(source, { constant: false, name: undefined, depth: undefined }).value, value);
    assert.deepStrictEqual(parse(`{a(b:${source}\n)}`).operation().selections[0].argument("b").value, value);
  }
  for (const [source, value] of CONSTANTS) assert.deepStrictEqual(parseConstant(source).value, value);
  for (const [source, type] of TYPES) assert.strictEqual(parseType(source).type, type);
  assert.throws(() => parseValue("[1e999]").value, RangeError);
});

test("their parts", () => {
  const source = '# é\n  ["𝄞" {a: 1}]';
  const value = parseValue(source, { name: "é.txt" });
  assert.ok(value instanceof ParsedValue);
  assert.deepStrictEqual([value.kind, value.line, value.column, value.text], ["list", 2, 3, '["𝄞" {a: 1}]']);
  assert.strictEqual(value.excerpt, '1 | # é\n2 |   ["𝄞" {a: 1}]\n  |   ^');
  const last = value.node.children[1].children[0].children[0];
  assert.deepStrictEqual([last.kind, last.start], ["int", { index: 16, line: 1, column: 12, byte: 19 }]);
  assert.strictEqual(inspect(value), 'ParsedValue ["𝄞" {a: 1}]');
  assert.deepStrictEqual(value.toJSON(), value.node.toJSON());
  const type = parseType(" [ T ]");
  assert.ok(type instanceof ParsedType);
  assert.deepStrictEqual([type.kind, type.column, type.text, type.type, type.node.children], ["type", 2, "[ T ]", "[T]", []]);
  for (const [part, name, length] of [[value, "é.txt", 5], [type, null, 1]]) {
    const { document } = part.node;
    assert.deepStrictEqual([document.source.endsWith(part.text), document.sourceName, document.length], [true, name, length]);
    assert.deepStrictEqual([document.definitions, document.operations, document.fragments], [[], [], []]);
    assert.deepStrictEqual([document.operation(), document.operation("Q"), document.fragment("F")], [null, null, null]);
    assert.deepStrictEqual([part.node.index, part.node.parent], [0, null]);
    assert.deepStrictEqual(document.toJSON(), { definitions: [] });
  }
});

test("their errors", () => {
  for (const [call, source, reason, start, end] of [
    [parseValue, "", "Unexpected end of input", 0, 0],
    [parseValue, "1 2", 'Unexpected "2"', 2, 3],
    [parseValue, "{a}", 'Unexpected "}"', 2, 3],
    [parseValue, "$", "Unexpected end of input", 1, 1],
    [parseValue, "query Q { a }", 'Unexpected "Q"', 6, 7],
    [parseValue, "[é]", 'Unknown character "é"', 1, 1],
    [parseValue, '["𝄞" )]', 'Unexpected ")"', 6, 7],
    [parseConstant, "$a", 'Unexpected "$"', 0, 1],
    [parseConstant, "[1, {a: $b}]", 'Unexpected "$"', 8, 9],
    [parseType, "T!!", 'Unexpected "!"', 2, 3],
    [parseType, "[T", "Unexpected end of input", 2, 2],
    [parseType, "{ a }", 'Unexpected "{"', 0, 1],
    [parseType, '"d" type T', 'Unexpected ""d""', 0, 3],
    [parseValue, '"\ud800"', "Lone surrogate U+D800", 1, 2],
  ]) {
    const error = thrownBy(call, source);
    assert.ok(error instanceof FirthnapkinError);
    assert.deepStrictEqual([error.reason, error.start.index, error.end.index, error.sourceName], [reason, start, end, null]);
    assert.strictEqual(thrownBy(call, source, { name: "é.txt" }).sourceName, "é.txt");
  }
  assert.strictEqual(thrownBy(parseValue, "[\n 1 )]").excerpt, "1 | [\n2 |  1 )]\n  |    ^");
});

test("their limits", () => {
  for (const [call, source, depth, maxTokens] of [
    [parseValue, "[{a: $b}]", 2, 8], [parseConstant, "{a: [1]}", 2, 7], [parseType, "[[T]!]!", 2, 7], [parseType, "T", 0, 1],
  ]) {
    assert.strictEqual(call(source, { depth, maxTokens }).text, source);
    assert.strictEqual(thrownBy(call, source, { depth, maxTokens: maxTokens - 1 }).kind, "tooManyTokens");
    if (depth > 0) assert.strictEqual(thrownBy(call, source, { depth: depth - 1 }).kind, "tooDeep");
  }
  const deep = "[".repeat(1000) + "T" + "]".repeat(1000);
  for (const call of CALLS) {
    assert.strictEqual(thrownBy(call, deep).kind, "tooDeep");
    assert.strictEqual(call(deep, { depth: MAX_DEPTH }).text, deep);
    for (const source of [null, undefined, 5, Buffer.from("T")]) assert.throws(() => call(source), TypeError);
    for (const options of [{ maxFields: 1 }, { depth: "5" }, { depth: null }, { name: 5 }, { nonsense: undefined }])
      assert.throws(() => call("T", options), TypeError);
    for (const options of [{ depth: -1 }, { depth: 1001 }, { depth: 1.5 }, { maxTokens: -1 }]) assert.throws(() => call("T", options), RangeError);
  }
  for (const constant of [null, 1, "true"]) assert.throws(() => parseValue("T", { constant }), TypeError);
  for (const options of [null, 5, []]) assert.throws(() => parseValue("T", options), TypeError);
  assert.throws(() => parseType("T", { constant: true }), TypeError);
});

test("large ones", () => {
  assert.strictEqual(parseValue(`[${"1 ".repeat(100000)}]`).value.length, 100000);
  assert.strictEqual(parseValue(`"${"é".repeat(100000)}"`).value, "é".repeat(100000));
  assert.strictEqual(parseType(`[${"T".repeat(100000)}]`).type.length, 100002);
});

test("as graphql-js has them", (context) => {
  const folder = process.env.FIRTHNAPKIN_GRAPHQL_JS ?? "graphql";
  let graphql;
  try {
    graphql = require(path.isAbsolute(folder) ? folder : require.resolve(folder));
  } catch {
    return context.skip("no graphql-js");
  }
  const plain = (node) => JSON.parse(JSON.stringify(node));
  const located = (node) => [node.loc.start, node.loc.end, node.loc.startToken.kind, node.loc.endToken.kind];
  const rows = [
    ...VALUES.map(([source]) => [source, parseValue(source), graphql.parseValue]),
    ...CONSTANTS.map(([source]) => [source, parseConstant(source), graphql.parseConstValue]),
    ...TYPES.map(([source]) => [source, parseType(source), graphql.parseType]),
  ];
  for (const [source, part, own] of rows) {
    const { document } = part.node;
    assert.deepStrictEqual(plain(toGraphQL(document)), plain(own(source, { noLocation: true })));
    const found = toGraphQL(document, { graphql });
    assert.deepStrictEqual(plain(found), plain(own(source)));
    assert.deepStrictEqual(located(found), located(own(source)));
    assert.strictEqual(graphql.print(found), graphql.print(own(source)));
  }
});
