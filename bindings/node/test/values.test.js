// What values become.
"use strict";

const assert = require("assert");
const { execFileSync } = require("child_process");
const { test } = require("node:test");
const path = require("path");

const { parse, EnumValue, FirthnapkinError, Variable } = require("..");

/** The value of the only argument of a field. */
function valueIn(text) {
  const argument = parse(`query ($v: Int) { a(b: ${text}) }`).operation().selections[0].argument("b");
  assert.strictEqual(argument.text, `b: ${text}`);
  return argument.value;
}

/** An object without a prototype. */
function objectOf(fields) {
  return Object.assign(Object.create(null), fields);
}

test("values as JavaScript's own data", () => {
  for (const [text, value] of [
    ["null", null],
    ["true", true],
    ["false", false],
    ["-7", -7],
    ["-0", 0],
    ["2147483648", 2147483648],
    ["9007199254740991", Number.MAX_SAFE_INTEGER],
    ["-9007199254740991", Number.MIN_SAFE_INTEGER],
    ["9007199254740992", 9007199254740992n],
    ["9007199254740993", 9007199254740993n],
    ["-9007199254740992", -9007199254740992n],
    ["9".repeat(4300), 10n ** 4300n - 1n],
    ["-1.5", -1.5],
    ["1e3", 1000],
    ["-0.0", -0],
    ["1e-999", 0],
    ["1.7976931348623157e308", Number.MAX_VALUE],
    ['"\\u00e9\\n𝄞"', "é\n𝄞"],
    ['""', ""],
    ['"""\n  x\n   y\n """', "x\n y"],
    ["E", new EnumValue("E")],
    ["$v", new Variable("v")],
    ["[]", []],
    ["[1, [E], null]", [1, [new EnumValue("E")], null]],
    ["[[], [1], {}, 2]", [[], [1], objectOf({}), 2]],
    ["{}", objectOf({})],
    ['{a: {b: [$v]}, c: "E"}', objectOf({ a: objectOf({ b: [new Variable("v")] }), c: "E" })],
  ])
    assert.deepStrictEqual(valueIn(text), value, text);
});

test("doubled keys: at the first position, the last value", () => {
  assert.deepStrictEqual(Object.entries(valueIn("{a: 1, b: 2, a: 3}")), [["a", 3], ["b", 2]]);
  assert.deepStrictEqual(Object.entries(valueIn("{a: {c: 1}, b: 2, a: [{}]}")), [["a", [objectOf({})]], ["b", 2]]);
});

test("a key may be any name", () => {
  const value = valueIn("{__proto__: {x: 1}, constructor: 2, toString: 3, hasOwnProperty: 4}");
  assert.deepStrictEqual(Object.keys(value), ["__proto__", "constructor", "toString", "hasOwnProperty"]);
  assert.deepStrictEqual([Object.getPrototypeOf(value), value.x, value.__proto__.x], [null, undefined, 1]);
});

test("an enum is no string, and a variable is neither", () => {
  const [string, enumValue, variable, other] = valueIn('["a", a, $v, "$v"]');
  assert.ok(enumValue instanceof EnumValue && variable instanceof Variable);
  assert.deepStrictEqual([typeof string, enumValue.name, variable.name, other], ["string", "a", "v", "$v"]);
  assert.ok(enumValue !== string && enumValue !== "a" && variable !== "$v");
});

test("numbers that JavaScript has no value for", () => {
  for (const [text, message] of [
    ["1e999", "a Float beyond the largest number: the text has it"],
    ["-1e999", "a Float beyond the largest number: the text has it"],
    ["9".repeat(4301), "an Int of 4301 digits: the text has it"],
  ]) {
    const [field] = parse(`query ($v: Float = ${text}) { a(b: ${text}, c: {d: [1, ${text}]}) }`).operation().selections;
    assert.throws(() => field.argument("b").value, { name: "RangeError", message });
    assert.throws(() => field.argument("c").value, { name: "RangeError", message });
    assert.strictEqual(field.argument("b").text, `b: ${text}`);
    assert.throws(() => field.node.document.operation().variables[0].defaultValue, { name: "RangeError", message });
  }
});

test("a half of a surrogate pair, written as an escape", () => {
  for (const text of ['"\\ud800"', '"\\udc00"', '"\\ud800\\u0041"'])
    assert.throws(() => valueIn(text), (error) => error instanceof FirthnapkinError && error.detail === "unknownEscape");
});

// Values nested as deep as a document may be, on a small stack.
const DEEP = `
  const { parse } = require(${JSON.stringify(path.join(__dirname, ".."))});
  for (const [begin, end, key] of [["[", "]", 0], ["{k: ", "}", "k"]]) {
    const source = "{ a(b: " + begin.repeat(998) + "1" + end.repeat(998) + ") }";
    let value = parse(source, { depth: 1000 }).operation().selections[0].argument("b").value;
    let levels = 0;
    for (; value !== 1; levels++) value = value[key];
    console.log(levels);
  }
`;

// The WebAssembly module runs on this stack, and its parse needs more: wasm.test.js has such values on a stack of usual size.
if (process.env.FIRTHNAPKIN_WASM !== "1") test("values nested a thousand deep", () => {
  assert.strictEqual(execFileSync(process.execPath, ["--stack-size=60", "-e", DEEP], { encoding: "utf8" }), "998\n998\n");
});
