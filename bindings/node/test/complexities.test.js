"use strict";
// How large operations are, and the limits on that.

const assert = require("node:assert");
const test = require("node:test");

const { addon } = require("../lib/addon");
const { parse, FirthnapkinError } = require("..");

const SIZES = ["maxFields", "maxAliases", "maxDirectives", "maxRootFields", "maxFieldDepth"];
const NAMES = ["fields", "aliases", "directives", "rootFields", "depth"];
const NOUNS = ["fields", "aliases", "directives", "root fields", "levels of fields"];
const LARGEST = 2 ** 32 - 1;

const TWO =
  "query A @d { x: a { y: b c } ...F z: e { ...G @d } }\nfragment F on T @d { g: a { h } }\n" +
  "query B { i: a ...H }\nfragment G on T { j: a @d }\nfragment H on T @d { k: a l: c m }";
const NUMBERS = [[7, 5, 4, 3, 2], [4, 3, 1, 4, 1]];

// Sources with the numbers of their operations, counted by hand.
const COUNTED = [
  ["{a}", [[1, 0, 0, 1, 1]]],
  ["{ a a @skip(if: true) x: b { c } }", [[4, 1, 1, 3, 2]]],
  ["query ($v: [Int! ] = [1] @n) @a @b { c: a @d { b ...F @e ... @g { h } } } fragment F on T @f { i: j { k } }", [[5, 2, 7, 1, 3]]],
  ["{ ...F ...F @a } fragment F on T @b { c @d }", [[2, 0, 5, 2, 1]]],
  ['query A { ...F } fragment F on T { a(b: "\u00e9") } mutation B { b { ...F } }', [[1, 0, 0, 1, 1], [2, 0, 0, 1, 2]]],
  ["fragment F on T { a }", []],
  ["{ ...A } fragment A on T { a } fragment A on T { b c }", [[1, 0, 0, 1, 1]]],
  ["fragment A on T { ...A ...B } { a }", [[1, 0, 0, 1, 1]]],
  ["{a".repeat(200) + "}".repeat(200), [[200, 0, 0, 1, 200]]],
  ["{a}".repeat(999) + "{a b}", [...new Array(999).fill([1, 0, 0, 1, 1]), [2, 0, 0, 2, 1]]],
  [TWO, NUMBERS],
];

// Sources of which an operation can't be expanded, with the kind, and where the spread is.
const FAULTY = [
  ["{ ...A }", "unknownFragment", 2, 6],
  ["{ ...A } fragment A on T { ...A }", "fragmentCycle", 27, 31],
  ['{ ...A }\nfragment A on T { a(x: "\u{1d11e}") { ...B @c } }\nfragment B on T { ...A }', "fragmentCycle", 70, 74],
  ["{ ...A ...X } fragment A on T { ...Y ...A }", "unknownFragment", 32, 36],
  ["{ a b c } query B { ...X }", "unknownFragment", 20, 24],
];
const WORDS = { unknownFragment: "Unknown fragment", fragmentCycle: "Fragment spread within itself" };

function errorOf(run) {
  try {
    run();
  } catch (error) {
    assert.ok(error instanceof FirthnapkinError, String(error));
    return error;
  }
  throw new Error("there is no error");
}

function numbersOf(document) {
  return document.operations.map(({ complexity }) => NAMES.map((name) => complexity[name]));
}

// So many fragments, each a field and twice the next one.
function doubled(count) {
  const parts = Array.from({ length: count - 1 }, (_, i) => `fragment F${i + 1} on T { a ...F${i + 2} ...F${i + 2} }`);
  return ["query Large { ...F1 }", ...parts, `fragment F${count} on T { a }`].join(" ");
}

test("the numbers are the same whether they are found by the parse or later", () => {
  for (const [source, wanted] of COUNTED)
    for (const options of [{}, { maxFields: 2000 }, { maxFieldDepth: 2000, maxTokens: 5000 }])
      assert.deepStrictEqual(numbersOf(parse(source, options)), wanted, source.slice(0, 60));
  const deep = parse("{a".repeat(1000) + "}".repeat(1000), { depth: 1000 });
  assert.deepStrictEqual(numbersOf(deep), [[1000, 0, 0, 1, 1000]]);
});

test("a number that 32 bits don't hold is the largest of them", () => {
  for (const [count, fields] of [[1, 1], [31, 2 ** 31 - 1], [32, LARGEST], [33, LARGEST], [65, LARGEST]])
    for (const options of [{}, { maxAliases: 0 }]) assert.deepStrictEqual(numbersOf(parse(doubled(count), options)), [[fields, 0, 0, fields, 1]]);
});

test("the numbers can't be changed", () => {
  const { complexity } = parse("{a}").operations[0];
  assert.throws(() => { complexity.fields = 5; }, TypeError);
  assert.deepStrictEqual(Object.keys(complexity), NAMES);
});

// How many calls of the library a parse and the numbers of both operations take.
function calls(source, options) {
  const own = { parse: addon.parse, parsePacked: addon.parsePacked, complexities: addon.complexities };
  const counts = { parse: 0, parsePacked: 0, complexities: 0 };
  for (const name of Object.keys(own))
    addon[name] = (...words) => {
      counts[name]++;
      return own[name](...words);
    };
  try {
    const document = parse(source, options);
    assert.strictEqual(counts.complexities, 0);
    for (let i = 0; i < 2; i++) assert.deepStrictEqual(numbersOf(document), NUMBERS);
  } finally {
    Object.assign(addon, own);
  }
  return [counts.parsePacked, counts.parse, counts.complexities];
}

test("the library is called once more if nothing was limited, and not at all if something was", () => {
  // A large source is parsed in memory of its own.
  for (const [source, large] of [[TWO, 0], [TWO + " ".repeat(20000), 1]]) {
    assert.deepStrictEqual(calls(source, {}), [1, large, 1]);
    for (const name of SIZES) {
      assert.deepStrictEqual(calls(source, { [name]: undefined }), [1, large, 1]);
      assert.deepStrictEqual(calls(source, { [name]: 50 }), [1, large, 0]);
    }
  }
});

test("the number itself is allowed; with a lower limit the first operation beyond it is refused, where it begins", () => {
  const { operations } = parse(TWO);
  SIZES.forEach((name, i) => {
    const numbers = NUMBERS.map((of) => of[i]);
    for (let limit = 0; limit <= Math.max(...numbers); limit++) {
      const which = numbers.findIndex((number) => number > limit);
      const run = () => parse(TWO, { [name]: limit });
      if (which < 0) {
        assert.deepStrictEqual(numbersOf(run()), NUMBERS);
        continue;
      }
      const { start, end } = operations[which].node;
      const error = errorOf(run);
      const reason = `Too many ${NOUNS[i]} in operation "${"AB"[which]}": ${numbers[which]}, with a limit of ${limit}`;
      assert.deepStrictEqual([error.kind, error.reason, error.start, error.end], ["operationTooLarge", reason, start, end]);
      assert.strictEqual(error.message, `${reason}. At ${start.line + 1}:${start.column + 1}`);
      assert.strictEqual(error.excerpt, operations[which].excerpt);
    }
  });
});

test("the first operation comes before the second one, and its first number before the others", () => {
  const exact = Object.fromEntries(SIZES.map((name, i) => [name, [7, 5, 4, 4, 2][i]]));
  assert.deepStrictEqual(numbersOf(parse(TWO, exact)), NUMBERS);
  for (const [from, to, noun, name] of [
    [0, 1, "fields", "A"], [1, 3, "aliases", "A"], [2, 5, "directives", "A"], [3, 4, "root fields", "B"], [3, 5, "levels of fields", "A"],
  ]) {
    const lower = Object.fromEntries(SIZES.slice(from, to).map((it) => [it, exact[it] - 1]));
    const { reason } = errorOf(() => parse(TWO, { ...exact, ...lower }));
    assert.ok(reason.startsWith(`Too many ${noun} in operation "${name}": `), reason);
  }
});

test("the words of an operation without a name, of a long name, and of a number that 32 bits don't hold", () => {
  const reason = (source, options) => errorOf(() => parse(source, options)).reason;
  assert.strictEqual(reason("{ a b }", { maxFields: 1 }), "Too many fields in an operation without a name: 2, with a limit of 1");
  const name = "n".repeat(5000);
  assert.strictEqual(reason(`query ${name} { a }`, { maxRootFields: 0 }), `Too many root fields in operation "${name}": 1, with a limit of 0`);
  for (const limit of [0, LARGEST - 1])
    assert.strictEqual(reason(doubled(61), { maxFields: limit }), `Too many fields in operation "Large": 4294967295 or more, with a limit of ${limit}`);
});

test("positions count UTF-16 units", () => {
  const source = '# \u00e9\u{1d11e}\n{ a(b: "\u00e9") } query B { a b }';
  const { start, end } = errorOf(() => parse(source, { maxFields: 1 }));
  assert.strictEqual(source.slice(start.index, end.index), "query B { a b }");
  assert.deepStrictEqual(start, { index: 20, line: 1, column: 14, byte: 24 });
});

test("a spread that can't be expanded is refused with a limit, and otherwise when a number is asked for, each time", () => {
  for (const [source, kind, start, end] of FAULTY) {
    const document = parse(source);
    const runs = [...document.operations, ...document.operations].map((operation) => () => operation.complexity);
    for (const name of SIZES) for (const limit of [0, LARGEST - 1]) runs.push(() => parse(source, { [name]: limit }));
    for (const run of runs) {
      const error = errorOf(run);
      assert.deepStrictEqual([error.kind, error.reason], [kind, WORDS[kind]]);
      assert.deepStrictEqual([error.start.index, error.end.index], [start, end]);
    }
  }
  assert.deepStrictEqual(numbersOf(parse("{ a } fragment A on T { ...A ...X }", { maxFields: 1 })), [[1, 0, 0, 1, 1]]);
});

test("what is no document, or can't be expanded, comes first", () => {
  for (const [source, options, kind] of [
    ["{ a b } {", { maxFields: 1 }, "unexpectedEnd"], ["{ a b } ?", { maxFields: 1 }, "lexical"],
    ["{ a { b } }", { maxFields: 1, depth: 1 }, "tooDeep"], ["{ a b }", { maxFields: 1, maxTokens: 3 }, "tooManyTokens"],
    ["{ a b } query B { ...X }", { maxFields: 1 }, "unknownFragment"],
  ])
    assert.strictEqual(errorOf(() => parse(source, options)).kind, kind);
});
