"use strict";

const assert = require("assert");
const { execFileSync } = require("child_process");
const fs = require("fs");
const { test } = require("node:test");
const path = require("path");
const { Worker } = require("worker_threads");

const { parse, FirthnapkinError, MAX_DEPTH, version } = require("..");

function errorOf(source, options) {
  try {
    parse(source, options);
  } catch (error) {
    assert.ok(error instanceof FirthnapkinError, String(error));
    return error;
  }
  throw new Error(`${JSON.stringify(source).slice(0, 40)} has a document`);
}

// gqlcheck's words for the kinds that it names otherwise.
const WORDS = {
  fragmentDefinition: "fragment", variableDefinitions: "variables", variableDefinition: "variable", fragmentSpread: "spread",
  inlineFragment: "inline", variable: "reference", objectField: "key",
};
for (const kind of ["int", "largeInt", "float", "string", "blockString", "boolean"]) WORDS[kind] = "scalar";

/** What gqlcheck writes for a source: positions count characters there, and from 0, and nothing is said of schemas and of descriptions. */
function lines(source) {
  let document;
  try {
    document = parse(source);
  } catch (error) {
    if (!(error instanceof FirthnapkinError)) throw error;
    const { index, line, column } = error.start;
    return `${error.reason.replace(/: (this is a schema's definition, not|a description before) a request.*$/, "")}. At ${line}:${Array.from(source.slice(index - column, index)).length}`;
  }
  const characters = (index) => Array.from(source.slice(0, index)).length;
  return Array.from(document, (node) => {
    let line = `${WORDS[node.kind] ?? node.kind} ${characters(node.start.index)} ${characters(node.end.index)}`;
    if (node.kind === "type") line += ` ${node.value}`;
    else if (node.kind === "fragmentDefinition") line += ` ${node.name} ${node.value}`;
    else if (node.name !== null) line += ` ${node.name}`;
    return line;
  }).join("\n");
}

const ROWS = process.env.FIRTHNAPKIN_ROWS;

test("the rows of the language, which tests/rows.py writes", { skip: ROWS ? false : "FIRTHNAPKIN_ROWS names no file" }, () => {
  let count = 0;
  for (const row of fs.readFileSync(ROWS, "latin1").trim().split("\n")) {
    const [source, wanted] = row.split(" ").map((word) => Buffer.from(word, "hex"));
    // Bytes that aren't UTF-8 can't be a string.
    if (wanted.toString() === "Not UTF-8") continue;
    assert.strictEqual(lines(source.toString()), wanted.toString());
    count++;
  }
  assert.ok(count >= 1500, `${count} rows`);
});

test("values", () => {
  for (const [text, kind, value] of [
    ["-7", "int", -7],
    ["-0", "int", 0],
    ["-2147483648", "int", -2147483648],
    ["2147483647", "int", 2147483647],
    ["-2147483649", "largeInt", -2147483649],
    ["2147483648", "largeInt", 2147483648],
    ["9007199254740991", "largeInt", 2 ** 53 - 1],
    ["9007199254740992", "largeInt", 2n ** 53n],
    ["9007199254740993", "largeInt", 2n ** 53n + 1n],
    ["-9007199254740991", "largeInt", 1 - 2 ** 53],
    ["-9007199254740992", "largeInt", -(2n ** 53n)],
    ["9".repeat(4300), "largeInt", 10n ** 4300n - 1n],
    ["-" + "9".repeat(4300), "largeInt", 1n - 10n ** 4300n],
    ["-1.5", "float", -1.5],
    ["true", "boolean", true],
    ["false", "boolean", false],
    ["null", "null", null],
    ['"\\u00e9\\n𝄞"', "string", "é\n𝄞"],
    ['"""\n  x\n """', "blockString", "x"],
    ["E", "enum", "E"],
    ["$v", "variable", "v"],
  ]) {
    const node = parse(`{ a(b: ${text}) }`).node(4);
    assert.deepStrictEqual([node.kind, node.value, node.text], [kind, value, text]);
    assert.strictEqual(node.name, ["enum", "variable"].includes(kind) ? value : null);
  }
  const many = "9".repeat(4301);
  for (const [text, kind, message] of [
    ["1e400", "float", "a Float beyond the largest number: the text has it"],
    ["-1e400", "float", "a Float beyond the largest number: the text has it"],
    [many, "largeInt", "an Int of 4301 digits: the text has it"],
    ["-" + many, "largeInt", "an Int of 4301 digits: the text has it"],
  ]) {
    const node = parse(`{ a(b: ${text}) }`).node(4);
    assert.deepStrictEqual([node.kind, node.text], [kind, text]);
    assert.throws(() => node.value, { name: "RangeError", message });
  }
});

test("positions in UTF-16 units", () => {
  const source = '# Größe 𝄞\n{ b(x: "𝄞", y: "é") }';
  const nodes = Array.from(parse(source)).filter((node) => node.kind === "string");
  assert.deepStrictEqual(nodes.map((node) => node.text), ['"𝄞"', '"é"']);
  assert.deepStrictEqual(nodes.map((node) => node.value), ["𝄞", "é"]);
  assert.deepStrictEqual(nodes[1].start, { index: source.indexOf('"é"'), line: 1, column: 16, byte: 33 });
  assert.deepStrictEqual(nodes[1].end, { index: source.indexOf('"é"') + 3, line: 1, column: 19, byte: 37 });
});

test("children, parents and definitions", () => {
  const document = parse("{ a { b(c: 1) { d } e } f } fragment F on T { g }");
  assert.deepStrictEqual(document.definitions.map((node) => node.kind), ["query", "fragmentDefinition"]);
  assert.deepStrictEqual(document.node(0).children.map((node) => node.name), ["a", "f"]);
  assert.deepStrictEqual(document.node(2).children.map((node) => node.kind), ["arguments", "field"]);
  assert.deepStrictEqual(
    Array.from(document, (node) => node.parent && node.parent.index),
    [null, 0, 1, 2, 3, 4, 2, 1, 0, null, 9],
  );
  assert.strictEqual(document.length, 11);
  for (const index of [-1, 11, 1.5, NaN, "0", null]) assert.throws(() => document.node(index), RangeError);
});

test("errors, with their positions", () => {
  for (const [source, kind, detail, character, start, end, words] of [
    ["{\n  a )\n}", "unexpectedToken", null, null, [6, 1, 4, 6], [7, 1, 5, 7], 'Unexpected ")". At 2:5'],
    ["", "unexpectedEnd", null, null, [0, 0, 0, 0], [0, 0, 0, 0], "Unexpected end of input. At 1:1"],
    ["{ é }", "lexical", "unknownCharacter", "é", [2, 0, 2, 2], [2, 0, 2, 2], 'Unknown character "é". At 1:3'],
    ["{ .a }", "lexical", "unexpectedCharacter", ".", [2, 0, 2, 2], [2, 0, 2, 2], 'Unexpected character ".". At 1:3'],
    ['{a(b:"c', "lexical", "unterminatedString", null, [7, 0, 7, 7], [7, 0, 7, 7], "Unterminated string literal. At 1:8"],
    ['{a(b:"\0")}', "lexical", "unknownCharacterInString", "\0", [6, 0, 6, 6], [6, 0, 6, 6],
      'Unknown character "\0" in string literal. At 1:7'],
    ['{a(b:"\\q")}', "lexical", "unknownEscape", null, [7, 0, 7, 7], [7, 0, 7, 7],
      'Unknown escape sequence "\\q" in string. At 1:8'],
    ["{a(b:-", "lexical", "unexpectedEndInToken", null, [6, 0, 6, 6], [6, 0, 6, 6], "Unexpected end of input. At 1:7"],
    ["{a".repeat(201), "tooDeep", null, null, [400, 0, 400, 400], [401, 0, 401, 401], "Too deeply nested. At 1:401"],
    // Columns count UTF-16 units, as JavaScript's strings do.
    ["#𝄞\n{a(b:\"𝄞\") ) }", "unexpectedToken", null, null, [15, 1, 11, 19], [16, 1, 12, 20], 'Unexpected ")". At 2:12'],
    ['{\n"é\ud800"}', "surrogate", null, null, [4, 1, 2, 5], [5, 1, 3, 8], "Lone surrogate U+D800. At 2:3"],
    ["\udc00", "surrogate", null, null, [0, 0, 0, 0], [1, 0, 1, 3], "Lone surrogate U+DC00. At 1:1"],
    ["\n\udfff", "surrogate", null, null, [1, 1, 0, 1], [2, 1, 1, 4], "Lone surrogate U+DFFF. At 2:1"],
    // A character of two units: at it, at the next character, and after two of them.
    ["#𝄞", "unexpectedEnd", null, null, [3, 0, 3, 5], [3, 0, 3, 5], "Unexpected end of input. At 1:4"],
    ['{a(b:"𝄞', "lexical", "unterminatedString", null, [8, 0, 8, 10], [8, 0, 8, 10], "Unterminated string literal. At 1:9"],
    ["{ 𝄞 }", "lexical", "unknownCharacter", "𝄞", [2, 0, 2, 2], [2, 0, 2, 2], 'Unknown character "𝄞". At 1:3'],
    ["#𝄞\n𝄞", "lexical", "unknownCharacter", "𝄞", [4, 1, 0, 6], [4, 1, 0, 6], 'Unknown character "𝄞". At 2:1'],
    ['{a(b:"𝄞"𝄞', "lexical", "unknownCharacter", "𝄞", [9, 0, 9, 11], [9, 0, 9, 11], 'Unknown character "𝄞". At 1:10'],
    ['{a(b:"𝄞𝄞" \u{10ffff}', "lexical", "unknownCharacter", "\u{10ffff}", [12, 0, 12, 16], [12, 0, 12, 16],
      'Unknown character "\u{10ffff}". At 1:13'],
    ["{a(b:-𝄞", "lexical", "unexpectedCharacter", "𝄞", [6, 0, 6, 6], [6, 0, 6, 6], 'Unexpected character "𝄞". At 1:7'],
    ["{ \uffff }", "lexical", "unknownCharacter", "\uffff", [2, 0, 2, 2], [2, 0, 2, 2], 'Unknown character "\uffff". At 1:3'],
    // A token may be written like the end of a message.
    ['{ "a. At b" }', "unexpectedToken", null, null, [2, 0, 2, 2], [11, 0, 11, 11], 'Unexpected ""a. At b"". At 1:3'],
    ['{ "a. At 1:1" }', "unexpectedToken", null, null, [2, 0, 2, 2], [13, 0, 13, 13], 'Unexpected ""a. At 1:1"". At 1:3'],
  ]) {
    const error = errorOf(source);
    const position = ([index, line, column, byte]) => ({ index, line, column, byte });
    assert.deepStrictEqual([error.kind, error.detail, error.character], [kind, detail, character]);
    assert.deepStrictEqual([error.start, error.end], [position(start), position(end)]);
    assert.deepStrictEqual([error.name, error.message, error.reason], ["FirthnapkinError", words, words.slice(0, words.lastIndexOf(". At "))]);
    assert.deepStrictEqual(error.locations, [{ line: start[1] + 1, column: start[2] + 1 }]);
  }
  for (const length of [1, 200, 243, 244, 255, 256, 257, 1024, 5000]) {
    const name = "n".repeat(length);
    assert.strictEqual(errorOf(`query a ${name}`).message, `Unexpected "${name}". At 1:9`);
  }
});

// Indexes, lines, columns, bytes, parents and tokens that 16 bits don't hold.
test("large positions, and a document of 70,001 nodes", () => {
  const error = errorOf(`#é${"\n".repeat(70000)}${" ".repeat(70001)})`);
  assert.deepStrictEqual(error.start, { index: 140003, line: 70000, column: 70001, byte: 140004 });
  assert.deepStrictEqual(error.end, { index: 140004, line: 70000, column: 70002, byte: 140005 });
  const document = parse(`{${"a{b}".repeat(35000)}}`);
  assert.strictEqual(document.length, 70001);
  for (const index of [2, 128, 130, 256, 258, 32768, 32770, 65536, 65538, 70000])
    assert.strictEqual(document.node(index).parent.index, index - 1);
  for (const index of [1, 129, 257, 32769, 65537, 69999]) assert.strictEqual(document.node(index).parent.index, 0);
  assert.strictEqual(document.node(0).children.length, 35000);
  assert.strictEqual(document.node(0).descendants, 70000);
});

test("options", () => {
  for (const [options, words] of [
    [null, "null"], [5, "number"], [5n, "bigint"], ["5", "string"], ["", "string"], [true, "boolean"], [[], "array"], [[5], "array"],
    [() => 5, "function"], [Symbol("depth"), "symbol"],
  ])
    assert.throws(() => parse("{a}", options), { name: "TypeError", message: `options must be an object, not ${words}` });
  for (const options of [{ dept: 5 }, { depth: 5, maxToken: 5 }, { Depth: 5 }, { [Symbol("depth")]: 5 }, { 0: 5 }, new Map(), ["a"]]) {
    if (options instanceof Map) assert.strictEqual(parse("{a}", options).length, 2);
    else assert.throws(() => parse("{a}", options), TypeError);
  }
  assert.throws(() => parse("{a}", { dept: 5 }), { name: "TypeError", message: "there is no option dept, only depth, maxTokens, maxFields, maxAliases, maxDirectives, maxRootFields, maxFieldDepth and name" });
  assert.throws(() => ["{a}"].map(parse), TypeError);
  for (const options of [undefined, {}, { depth: 1 }, { maxTokens: 3 }, { depth: undefined, maxTokens: undefined }, Object.create(null)])
    assert.strictEqual(parse("{a}", options).length, 2);
  class Limits {
    depth = 0;
  }
  assert.throws(() => parse("{a}", new Limits()), FirthnapkinError);
});

test("depths", () => {
  assert.strictEqual(MAX_DEPTH, 1000);
  for (const source of ["{a".repeat(200000), "{a}", "", "\ud800"]) {
    for (const depth of [-1, 1001, 2 ** 31, 2 ** 32 - 1, 2 ** 32, 2 ** 32 + 5, 1e300, 0.5, 1.5, NaN, Infinity, -Infinity])
      assert.throws(() => parse(source, { depth }), RangeError, String(depth));
    for (const depth of [null, "5", [], {}, true, 5n]) assert.throws(() => parse(source, { depth }), TypeError);
    assert.throws(() => parse(source, null), TypeError);
    assert.throws(() => parse(source, { depth: null }), { message: "depth must be a number, not null" });
    assert.throws(() => parse(source, { depth: -1 }), { message: "depth must be an integer from 0 to 1000" });
  }
  for (const depth of [0, 1, 2, 199, 200, 1000]) {
    if (depth > 0) assert.strictEqual(parse("{a".repeat(depth) + "}".repeat(depth), { depth }).length, depth + 1);
    const error = errorOf("{a".repeat(depth + 1), { depth });
    assert.deepStrictEqual([error.kind, error.start.index], ["tooDeep", 2 * depth]);
  }
  assert.strictEqual(parse("{a".repeat(200) + "}".repeat(200)).length, 201);
  assert.strictEqual(parse("{a".repeat(200) + "}".repeat(200), { depth: undefined }).length, 201);
});

test("tokens", () => {
  const source = '{ a(b: "é𝄞") ...F }';
  const starts = [0, 2, 3, 4, 5, 7, 12, 14, 17, 19];
  for (const maxTokens of [10, 11, 2 ** 32 - 1, 2 ** 32, 2 ** 53 - 1, undefined]) assert.ok(parse(source, { maxTokens }));
  starts.forEach((start, maxTokens) => {
    const error = errorOf(source, { maxTokens });
    assert.deepStrictEqual([error.kind, error.detail, error.start.index], ["tooManyTokens", null, start]);
    assert.strictEqual(error.message, `Too many tokens. At 1:${start + 1}`);
    assert.strictEqual(error.excerpt, `1 | ${source}\n  |${" ".repeat(Array.from(source.slice(0, start)).length + 1)}^`);
  });
  // No error after the first token too many counts, and there is no token after a lexical error.
  assert.strictEqual(errorOf('{ a ) } "', { maxTokens: 2 }).kind, "tooManyTokens");
  assert.strictEqual(errorOf('{ a ) } "', { maxTokens: 4 }).kind, "lexical");
  assert.strictEqual(errorOf("{a".repeat(1000), { maxTokens: 1999 }).kind, "tooManyTokens");
  assert.strictEqual(errorOf("{a".repeat(1000), { maxTokens: 2000 }).kind, "tooDeep");
  const many = `{${"a ".repeat(1000001)}`;
  for (const maxTokens of [65535, 65536, 65537, 999999, 1000000, 1000001])
    assert.deepStrictEqual(errorOf(many, { maxTokens }).start.index, 2 * maxTokens - 1);
  assert.strictEqual(errorOf(many, { maxTokens: 1000002 }).kind, "unexpectedEnd");
  for (const maxTokens of [-1, 0.5, NaN, Infinity, -Infinity, 2 ** 53, 1e300])
    assert.throws(() => parse(source, { maxTokens }), RangeError);
  for (const maxTokens of [null, "5", [], {}, true, 5n]) assert.throws(() => parse(source, { maxTokens }), TypeError);
});

test("sources", () => {
  for (const source of [undefined, null, 5, Buffer.from("{a}"), ["{a}"], { toString: () => "{a}" }, Symbol("{a}")])
    assert.throws(() => parse(source), { name: "TypeError", message: /^source must be a string, not / });
  for (const source of ["", "\0", "{a\0}", "\ufeff", "{}", "#", '"', '"""', "\u{10ffff}"]) errorOf(source);
  assert.strictEqual(parse("\ufeff{a}").node(1).start.byte, 4);
  const large = parse(`{${" ".repeat(2 ** 26 - 3)}a}`);
  assert.strictEqual(large.node(1).start.index, 2 ** 26 - 2);
  // Any number of tokens, if no limit is given.
  assert.strictEqual(parse(`{${"a ".repeat(2 ** 20)}}`).length, 2 ** 20 + 1);
  assert.strictEqual(errorOf(`{${"a".repeat(2 ** 26)}`).start.byte, 2 ** 26 + 1);
  const strings = parse(`{a(b:[${'"\\n0123456789" '.repeat(5000)}])}`);
  assert.strictEqual(strings.node(strings.length - 1).value, "\n0123456789");
});

const DEEP = `
  const { parse, FirthnapkinError } = require(${JSON.stringify(path.join(__dirname, ".."))});
  for (const part of ["{...", "{a", "{a(x:{k:", "query($a:["])
    for (const depth of [200, 1000])
      try { parse(part.repeat(5000), { depth }); } catch (error) { if (!(error instanceof FirthnapkinError)) throw error; }
  const length = parse("{...".repeat(199) + "{a}" + "}".repeat(199)).length;
  if (length !== 201) throw new Error("a tree of " + length);
`;

test("a worker", async () => {
  const worker = new Worker(DEEP, { eval: true });
  assert.strictEqual(await new Promise((resolve, reject) => worker.on("exit", resolve).on("error", reject)), 0);
});

// The WebAssembly module runs on this stack, while the addon's calls have one of their own: wasm.test.js has deep callers.
if (process.env.FIRTHNAPKIN_WASM !== "1") test("a process of small stack", { skip: process.platform === "win32" }, () => {
  execFileSync("sh", ["-c", 'ulimit -s 256 && exec "$0" --stack-size=150 -e "$1"', process.execPath, DEEP]);
});

test("the version", () => {
  assert.strictEqual(version, require("../package.json").version);
});
