"use strict";
// The limits of the calls: the words of the library that each option goes to.

const assert = require("node:assert");
const test = require("node:test");

const { addon } = require("../lib/addon");
const { parse, tokens } = require("..");
const { limitsOf } = require("../lib/calls");

const LARGEST_WORD = 2 ** 32 - 1;
const NO_SIZES = new Array(5).fill(LARGEST_WORD);
const SIZES = ["maxFields", "maxAliases", "maxDirectives", "maxRootFields", "maxFieldDepth"];

// What a call of the addon is given when this runs, which may throw.
function given(name, run) {
  const own = addon[name];
  const found = [];
  addon[name] = (...words) => {
    found.push(words);
    return own(...words);
  };
  try { run(); } catch (error) { if (error.name !== "FirthnapkinError") throw error; }
  addon[name] = own;
  return found;
}

test("each limit goes to its word, and the words that no limit has are 0", () => {
  for (const [options, depth, most] of [
    [{}, 200, LARGEST_WORD], [undefined, 200, LARGEST_WORD], [{ depth: 7, maxTokens: 9 }, 7, 9], [{ maxTokens: 9, depth: 7 }, 7, 9],
    [{ depth: 7 }, 7, LARGEST_WORD], [{ maxTokens: 9 }, 200, 9], [{ depth: 0, maxTokens: 0 }, 0, 0],
    [{ depth: 1000, maxTokens: LARGEST_WORD - 1 }, 1000, LARGEST_WORD - 1],
    ...[undefined, LARGEST_WORD, 2 ** 32, 2 ** 32 + 5, Number.MAX_SAFE_INTEGER].map((maxTokens) => [{ maxTokens }, 200, LARGEST_WORD]),
  ]) {
    const [[, limits]] = given("parsePacked", () => parse("{a}", options));
    assert.deepStrictEqual(limits, Uint32Array.of(depth, most, 0, 0, 0, 0, 0, 0, ...NO_SIZES));
  }
});

test("each limit on operations goes to its word, and no limit is the largest word", () => {
  SIZES.forEach((name, i) => {
    for (const [limit, wanted] of [[undefined, LARGEST_WORD], [0, 0], [7, 7], [LARGEST_WORD - 1, LARGEST_WORD - 1]]) {
      const sizes = NO_SIZES.map((word, k) => (k === i ? wanted : word));
      const [[, limits]] = given("parsePacked", () => parse("{a}", { [name]: limit }));
      assert.deepStrictEqual(limits, Uint32Array.of(200, LARGEST_WORD, 0, 0, 0, 0, 0, 0, ...sizes), name);
    }
    for (const limit of [-1, 1.5, NaN, Infinity, LARGEST_WORD, 2 ** 32, Number.MAX_SAFE_INTEGER])
      assert.throws(() => parse("\ud800", { [name]: limit }), { name: "RangeError", message: `${name} must be an integer from 0 to 4294967294` });
    for (const limit of [null, "5", 5n, true, {}]) assert.throws(() => parse("\ud800", { [name]: limit }), TypeError);
  });
});

test("the number of tokens alone", () => {
  for (const [maxTokens, wanted] of [[undefined, Number.MAX_SAFE_INTEGER], [0, 0], [9, 9], [2 ** 32, 2 ** 32]])
    assert.deepStrictEqual(given("tokens", () => tokens("{a}", { maxTokens })).map((words) => words[1]), [wanted]);
});

test("what is before a schema's definition is parsed within the loosest limits", () => {
  const run = () => parse("{a} type", { depth: 5, maxTokens: 9 });
  // The WebAssembly module's first call has the error, too.
  const again = process.env.FIRTHNAPKIN_WASM === "1" ? [] : [["parse", 5, 9]];
  for (const [name, depth, most] of [["parsePacked", 5, 9], ...again, ["check", 1000, LARGEST_WORD]]) {
    const found = given(name, run).map((words) => Array.from(words[1]));
    assert.deepStrictEqual(found, [[depth, most, 0, 0, 0, 0, 0, 0, ...NO_SIZES]], name);
  }
});

test("limits are those of one call", () => {
  const first = limitsOf({ depth: 5 });
  limitsOf({ depth: 6 });
  assert.strictEqual(first[0], 5);
});
