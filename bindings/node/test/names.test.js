// Errors with the name of their source.
"use strict";

const assert = require("assert");
const { test } = require("node:test");
const { parse, tokens, canonical, FirthnapkinError } = require("..");

function errorOf(call) {
  try {
    call();
  } catch (error) {
    assert.ok(error instanceof FirthnapkinError, String(error));
    return error;
  }
  throw new Error("nothing was thrown");
}

// Calls that throw: each with its source, other options, what the message says, and where.
const CALLS = [
  [parse, "{\n a )", {}, 'Unexpected ")"', "2:4"],
  [parse, "{ ?", {}, 'Unknown character "?"', "1:3"],
  [parse, "{ \ud800", {}, "Lone surrogate U+D800", "1:3"],
  [parse, "{a{b}}", { depth: 1 }, "Too deeply nested", "1:3"],
  [parse, "{a b}", { maxTokens: 2 }, "Too many tokens", "1:4"],
  [parse, "query Q {a b}", { maxFields: 1 }, 'Too many fields in operation "Q": 2, with a limit of 1', "1:1"],
  [parse, "{...A}", { maxFields: 1 }, "Unknown fragment", "1:2"],
  [(source, options) => parse(source, options).operations[0].complexity, "{...A}", {}, "Unknown fragment", "1:2"],
  [tokens, "{ ?", {}, 'Unknown character "?"', "1:3"],
  [tokens, "{ a", { maxTokens: 1 }, "Too many tokens", "1:3"],
  [tokens, "\udfff", {}, "Lone surrogate U+DFFF", "1:1"],
  [canonical, '\n"', {}, "Unterminated string literal", "2:2"],
  [canonical, "{ \ud800", {}, "Lone surrogate U+D800", "1:3"],
];

test("each error has the name of its source, and shows it before the line", () => {
  for (const [call, source, options, reason, place] of CALLS) {
    for (const name of ["pets.graphql", "a b:c\n\0%s$&", "é𝄞", "\ud800", ":", ""]) {
      const error = errorOf(() => call(source, { ...options, name }));
      assert.deepStrictEqual([error.message, error.reason], [`${reason}. At ${name}:${place}`, reason]);
      assert.deepStrictEqual([error.sourceName, error.name], [name, "FirthnapkinError"]);
      assert.strictEqual(error.excerpt, errorOf(() => call(source, options)).excerpt);
    }
    for (const given of [{}, { name: undefined }]) {
      const error = errorOf(() => call(source, { ...options, ...given }));
      assert.deepStrictEqual([error.message, error.sourceName], [`${reason}. At ${place}`, null]);
    }
  }
});

test("a document has the name of its source, each time that its complexities are asked for", () => {
  const document = parse("{ ...A }", { name: "pets.graphql" });
  assert.deepStrictEqual([document.sourceName, parse("{ a }").sourceName], ["pets.graphql", null]);
  for (let i = 0; i < 2; i++)
    assert.strictEqual(errorOf(() => document.operations[0].complexity).message, "Unknown fragment. At pets.graphql:1:3");
});

test("a name that is no string is refused before the source is read", () => {
  for (const [call, source] of CALLS) {
    for (const [name, word] of [
      [null, "null"], [5, "number"], [5n, "bigint"], [true, "boolean"], [["a"], "array"], [{}, "object"], [() => "a", "function"],
      [Symbol("a"), "symbol"], [Object("a"), "object"],
    ])
      assert.throws(() => call(source, { name }), { name: "TypeError", message: `name must be a string, not ${word}` });
  }
});

test("what canonical is given beside a source", () => {
  for (const options of [null, 5, [], "a"]) assert.throws(() => canonical("{a}", options), TypeError);
  assert.throws(() => canonical("{a}", { maxTokens: 5 }), { name: "TypeError", message: "there is no option maxTokens, only name" });
  assert.strictEqual(canonical("{ a }", { name: "pets.graphql" }), "{a}");
});
