// What becomes of each status of the library, and of what is thrown in between: an error of its own, with words of its own.
"use strict";

const assert = require("node:assert");
const { test } = require("node:test");

const { FirthnapkinError, canonical, check, parse, tokens } = require("..");
const { addon, allocate, allocated } = require("../lib/calls");
const { checked } = require("../lib/errors");

// The statuses that come with an error of the source, each with the kind of the error.
const WITH_ERROR = {
  syntax_error: "unexpectedEnd", too_deep: "tooDeep", too_many_tokens: "tooManyTokens", unknown_fragment: "unknownFragment",
  fragment_cycle: "fragmentCycle", operation_too_large: "operationTooLarge",
};
const OTHERS = ["not_utf8", "out_of_memory", "buffer_too_small", "source_too_long", "invalid_limit", "invalid_error", "unknown"];
// The numbers of kinds; one that the library doesn't have is that of an operation beyond a limit.
const KINDS = { unexpectedEnd: 1, tooDeep: 3, tooManyTokens: 4, unknownFragment: 6, fragmentCycle: 7, operationTooLarge: 101 };

// Each function that makes a call of the addon, and the calls that it makes.
const document = parse("{ a }");
const CALLS = [
  ["parse", { parsePacked: undefined }, () => parse("{ a }")],
  ["check", { isDocument: false }, () => check("{ a }")],
  ["tokens", {}, () => tokens("{ a }")],
  ["canonical", {}, () => canonical("{ a }")],
  ["complexities", {}, () => parse("{ a }").operations[0].complexity],
];

// What a function throws while calls of the addon return these.
function thrownBy(run, returned) {
  const own = Object.fromEntries(Object.keys(returned).map((name) => [name, addon[name]]));
  for (const [name, value] of Object.entries(returned)) addon[name] = () => value;
  try {
    run();
  } catch (error) {
    return error;
  } finally {
    Object.assign(addon, own);
  }
  return assert.fail("nothing is thrown");
}

test("each status that comes with no error of the source", () => {
  for (const [name, before, run] of CALLS) {
    for (const status of OTHERS) {
      const error = thrownBy(run, { ...before, [name]: { status } });
      assert.deepStrictEqual([error.constructor, error.message], [Error, `the library returned ${status}`], name);
    }
  }
  for (const status of [...OTHERS, ...Object.keys(WITH_ERROR)]) {
    const error = thrownBy(() => document.node(1).excerpt, { excerpt: { status } });
    assert.deepStrictEqual([error.constructor, error.message], [Error, `the library returned ${status}`]);
  }
});

test("each status that comes with an error of the source", () => {
  const texts = Uint8Array.from(Buffer.from("It is so")).buffer;
  for (const [name, before, run] of CALLS) {
    for (const [status, kind] of Object.entries(WITH_ERROR)) {
      const parts = Uint32Array.of(KINDS[kind], 0, 0, 2, 0, 2, 2, 3, 0, 3, 3, 2, 2).buffer;
      const error = thrownBy(run, { ...before, [name]: { status, parts, texts } });
      assert.deepStrictEqual([error.constructor, error.kind, error.message], [FirthnapkinError, kind, "It is so. At 1:3"], name);
    }
  }
});

test("statuses that the library returns", () => {
  const limits = (depth) => Uint32Array.of(depth, 5, 0, 0, 0, 0, 0, 0, ...new Array(5).fill(2 ** 32 - 1));
  const returned = (run) => thrownBy(() => checked("{ a }", null, run()), {}).message;
  const wrong = Buffer.from([0x7b, 0xff]);
  for (const call of [addon.parse, addon.check]) {
    assert.strictEqual(returned(() => call(wrong, limits(5), allocate)), "the library returned not_utf8");
    assert.strictEqual(returned(() => call(Buffer.from("{ a }"), limits(1001), allocate)), "the library returned invalid_limit");
  }
  assert.strictEqual(returned(() => addon.tokens(wrong, 5, allocate)), "the library returned not_utf8");
  assert.strictEqual(returned(() => addon.canonical(wrong, allocate)), "the library returned not_utf8");
  assert.strictEqual(returned(() => addon.complexities(wrong, allocate)), "the library returned not_utf8");
  assert.strictEqual(returned(() => addon.excerpt(Buffer.from("a"), 2, allocate)), "the library returned invalid_error");
});

// Memory runs out where V8 throws a RangeError as it allocates. Anything else that is thrown stays as it is.
test("what is thrown while memory is taken", () => {
  const thrown = (error) => thrownBy(() => allocated(() => { throw error; }), {});
  assert.deepStrictEqual([thrown(new RangeError("a")).constructor, thrown(new RangeError("a")).message], [Error, "memory ran out"]);
  for (const error of [new TypeError("a"), new Error("a"), new FirthnapkinError("a", parse("{ a }").node(0), "", null), 5, null])
    assert.strictEqual(thrown(error), error);
  const own = new TypeError("b");
  const limits = Uint32Array.of(5, 5, 0, 0, 0, 0, 0, 0, ...new Array(5).fill(2 ** 32 - 1));
  const refuses = () => { throw own; };
  const source = Buffer.from("{ a }");
  for (const run of [
    () => addon.parse(source, limits, refuses), () => addon.tokens(source, 5, refuses), () => addon.canonical(source, refuses),
    () => addon.check(source, limits, refuses), () => addon.complexities(source, refuses), () => addon.excerpt(source, 1, refuses),
  ]) assert.strictEqual(thrownBy(run, {}), own);
});
