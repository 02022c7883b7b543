// Small sources are parsed in memory that each thread keeps, and large ones in memory of their own.
"use strict";

const assert = require("assert");
const { execFileSync } = require("child_process");
const { test } = require("node:test");
const path = require("path");
const { Worker } = require("worker_threads");

const { addon } = require("../lib/addon");
const { parse, FirthnapkinError } = require("..");
const { allocate, limitsOf } = require("../lib/calls");

const MAIN = JSON.stringify(path.join(__dirname, ".."));

// No more than these fit into what is kept: bytes of the source, with five beside, nodes and operations.
const [MOST_BYTES, MOST_NODES, MOST_OPERATIONS] = [(1 << 14) - 5, 1 << 10, 1 << 6];

function isPacked(source, options = {}) {
  return typeof addon.parsePacked(source, limitsOf(options), allocate) === "string";
}

/** All that a document has, and what its nodes have. */
function contents(document) {
  const nodes = Array.from(document, ({ kind, descendants, start, end, name, text, line, column, excerpt, value, parent }) => [
    kind, descendants, start, end, name, text, line, column, excerpt, value, parent && parent.index,
  ]);
  const complexities = document.operations.map((operation) => ({ ...operation.complexity }));
  return [document.source, document.sourceName, document.length, nodes, complexities];
}

const SOURCES = [
  "{a}", "query Q($a: [T! ]! = 5) @b { c(d: -7, e: \"f\\u00e9\", g: \"\"\"\n h\n\"\"\") }", "# \u00e9\u{1d11e}\n{ a(b: \"\u00e9\u{1d11e}\", c: $d) }",
  "{ a(b: [-2147483648, 2147483647, 2147483648, -0, 1.5e3, true, false, null, E, {k: []}]) }",
  "{ ...F } fragment F on T { g h } mutation M { i { j } } subscription { ... on U @v { x: w } }",
];

test("a document is the same whether it is small or large", () => {
  for (const source of SOURCES) {
    // White space is in no node.
    const large = source + " ".repeat(MOST_BYTES);
    assert.deepStrictEqual([isPacked(source), isPacked(large)], [true, false]);
    for (const options of [{}, { maxFields: 50, name: "pets.graphql" }]) {
      const [, ...found] = contents(parse(large, options));
      const [, ...wanted] = contents(parse(source, options));
      // Lines of excerpts show the white space.
      for (const nodes of [found[2], wanted[2]]) for (const node of nodes) node[8] = null;
      assert.deepStrictEqual(found, wanted, source);
    }
  }
});

test("sources that just fit, and those that don't", () => {
  for (const [fill, bytes] of [[".", 1], ["\u00e9", 2], ["\u4e16", 3], ["\u{1d11e}", 4]]) {
    for (let beyond = -8; beyond <= 8; beyond++) {
      const rest = MOST_BYTES + beyond - Buffer.byteLength("#\n{ a bc }");
      const source = `#${fill.repeat(Math.floor(rest / bytes))}${".".repeat(rest % bytes)}\n{ a bc }`;
      assert.strictEqual(Buffer.byteLength(source), MOST_BYTES + beyond);
      // One that ends with a character of four bytes may be counted as cut off.
      assert.strictEqual(isPacked(source), beyond <= 0, `${bytes} ${beyond}`);
      const { name, start, end } = parse(source).node(2);
      const index = source.length - "bc }".length;
      assert.deepStrictEqual([name, start.index, start.line, start.byte, end.byte], ["bc", index, 1, MOST_BYTES + beyond - 4, MOST_BYTES + beyond - 2]);
    }
  }
});

test("nodes and operations that just fit, and those that don't", () => {
  for (const beyond of [-1, 0, 1]) {
    const source = `{${"a ".repeat(MOST_NODES - 1 + beyond)}}`;
    assert.strictEqual(isPacked(source), beyond <= 0);
    const document = parse(source);
    assert.deepStrictEqual([document.length, document.node(document.length - 1).start.index], [MOST_NODES + beyond, 2 * (MOST_NODES + beyond) - 3]);
    const queries = Array.from({ length: MOST_OPERATIONS + beyond }, (_, i) => `query Q${i} {${" a".repeat(i % 9 + 1)} }`).join(" ");
    assert.deepStrictEqual([isPacked(queries), isPacked(queries, { maxFields: 9 }), isPacked(queries, { maxFields: 8 })], [true, beyond <= 0, false]);
    const { operations } = parse(queries, { maxFields: 9 });
    assert.deepStrictEqual(operations.map(({ name, complexity }) => [name, complexity.fields]), operations.map((_, i) => [`Q${i}`, i % 9 + 1]));
    assert.strictEqual(operations.length, MOST_OPERATIONS + beyond);
  }
  // As many bytes of texts as there are of the source.
  const [field] = parse(`{a(b:"${"c".repeat(MOST_BYTES - 9)}")}`).operation().selections;
  assert.strictEqual(field.argument("b").value, "c".repeat(MOST_BYTES - 9));
});

// Each length of texts, after nodes and complexities.
test("texts of each length", () => {
  for (let length = 0; length < 40; length++) {
    const value = "\u00e9".repeat(length % 3) + "c".repeat(length);
    for (const options of [{}, { maxFields: 1 }]) {
      const document = parse(`query Q($a: T) { b(c: "${value}", d: """${value}""", e: "\\u00e9") }`, options);
      const [field] = document.operation().selections;
      assert.deepStrictEqual(field.arguments.map((argument) => argument.value), [value, value, "\u00e9"]);
      assert.deepStrictEqual([document.operation().variables[0].type, document.operation().complexity.fields], ["T", 1]);
    }
  }
});

test("a document stays what it is, whatever is parsed later", () => {
  const others = ["{z}", "{ z(y: \"xxxxxxxxxxxxxxxxxxxxxxxxxxxx\") }", "{ ) }", "\ud800", `{${"z ".repeat(5000)}}`, "query Z($z: [Z]) { z }"];
  for (const source of SOURCES) {
    const before = parse(source);
    const limited = parse(source, { maxFields: 50 });
    const wanted = contents(parse(source));
    for (const other of others)
      for (const options of [{}, { maxFields: 5 }])
        try { parse(other, options).node(0).value; } catch (error) { if (!(error instanceof FirthnapkinError)) throw error; }
    assert.deepStrictEqual([contents(before), contents(limited)], [wanted, wanted]);
  }
});

test("options that parse while they are read", () => {
  const inner = [];
  const options = {
    get depth() {
      inner.push(parse("{ inner(a: \"b\") { c } }", { maxFields: 5 }), parse(`{${"z ".repeat(5000)}}`));
      return 1;
    },
    get maxFields() {
      assert.throws(() => parse("{", { depth: 0, maxTokens: 7 }), FirthnapkinError);
      return 2;
    },
    get name() {
      assert.throws(() => parse("{ a b c }", { maxFields: 1, name: "inner" }), { sourceName: "inner" });
      return "outer";
    },
  };
  const document = parse("{ x: outer }", options);
  assert.deepStrictEqual([document.node(1).name, document.sourceName, { ...document.operation().complexity }], [
    "outer", "outer", { fields: 1, aliases: 1, directives: 0, rootFields: 1, depth: 1 },
  ]);
  assert.deepStrictEqual([inner[0].node(1).name, inner[0].node(4).value, inner[1].length], ["inner", "b", 5001]);
  assert.throws(() => parse("{ a { b } }", options), { kind: "tooDeep", sourceName: "outer" });
  assert.throws(() => parse("{ a b c }", options), { reason: "Too many fields in an operation without a name: 3, with a limit of 2" });
  // What throws is thrown, and the next call is as any.
  assert.throws(() => parse("{ a }", { get depth() { throw new SyntaxError("own"); } }), { name: "SyntaxError", message: "own" });
  assert.strictEqual(parse("{ a }").length, 2);
});

// Documents of one source after the other, in a thread of its own.
const THREAD = `
  const { parse } = require(${MAIN});
  const { parentPort, workerData } = require("worker_threads");
  const kept = [];
  for (let i = 0; i < 20000; i++) {
    const word = "w" + workerData + "x" + i % 7;
    const document = parse("{ " + word + '(a: "' + word + '") }' + " ".repeat(i % 1000 === 0 ? 20000 : 0), i % 2 ? { maxFields: 1 } : {});
    if (i % 100 === 0) kept.push([document, word]);
    if (document.node(1).name !== word || document.node(4).value !== word) throw new Error(word);
  }
  for (const [document, word] of kept) if (document.node(1).name !== word || document.node(4).value !== word) throw new Error(word);
  parentPort.postMessage(kept.length);
`;

test("threads parse at once, each in memory of its own", async () => {
  const counts = await Promise.all([1, 2, 3, 4].map((workerData) => new Promise((resolve, reject) => {
    new Worker(THREAD, { eval: true, workerData }).on("message", resolve).on("error", reject);
  })));
  assert.deepStrictEqual(counts, [200, 200, 200, 200]);
});

// Threads that end leave nothing, and neither do large sources once they are let go.
const GROWTH = `
  const { parse } = require(${MAIN});
  const { Worker } = require("worker_threads");
  const megabytes = () => { gc(); gc(); return process.memoryUsage().rss / 2 ** 20; };
  const large = "{" + "a ".repeat(1 << 19) + "}";
  const code = "const { parse } = require(" + ${JSON.stringify(MAIN)} + "); parse('{' + 'a '.repeat(1000) + '}'); parse('{a}#' + '.'.repeat(16000))";
  const thread = () => new Promise((resolve) => new Worker(code, { eval: true }).on("exit", resolve));
  (async () => {
    parse(large); parse("{a}");
    for (let i = 0; i < 5; i++) await thread();
    const before = megabytes();
    for (let i = 0; i < 20; i++) { parse(large); parse("{a}"); }
    const after = megabytes();
    for (let i = 0; i < 120; i++) await thread();
    console.log(after - before, megabytes() - after);
  })();
`;

test("a large source, then a small one: nothing of the large one is kept, and nothing of a thread that ended", () => {
  const env = { ...process.env, MALLOC_MMAP_THRESHOLD_: "65536", MALLOC_TRIM_THRESHOLD_: "65536", MALLOC_ARENA_MAX: "2" };
  const written = execFileSync(process.execPath, ["--expose-gc", "-e", GROWTH], { encoding: "utf8", env });
  const [large, threads] = written.trim().split(" ").map(Number);
  // The large source has 32 megabytes of nodes, and a thread's memory is a tenth of a megabyte.
  assert.ok(large < 20 && threads < 7, `the process grew by ${written} megabytes`);
});

// How many bytes each of some documents takes, beside its source: on the JavaScript heap, and outside.
const KEPT = `
  const { parse } = require(${MAIN});
  const [begin, part, times, end, count, options] = JSON.parse(process.argv[1]);
  const source = begin + part.repeat(times) + end;
  const used = () => { gc(); gc(); const { heapUsed, arrayBuffers } = process.memoryUsage(); return [heapUsed, arrayBuffers]; };
  const kept = new Array(count).fill(null);
  parse(source, options);
  const before = used();
  for (let i = 0; i < count; i++) kept[i] = parse(source, options);
  console.log(JSON.stringify(used().map((bytes, i) => Math.round((bytes - before[i]) / count))), kept.length);
`;

test("what documents that are kept take, as the README says", () => {
  for (const [source, count, options, inHeap, outside] of [
    [["{ a(b: \"", "c", 4, "\") }"], 20000, {}, 64 * 5 + 4, 0], [["", "{a}", 64, ""], 2000, { maxFields: 1 }, 64 * 128 + 24 * 64, 0],
    [["{", "a ", 100000, "}"], 10, {}, 0, 64 * 100001], [["{", "a ", 100000, "}"], 10, { maxFields: 100000 }, 0, 64 * 100001 + 24],
  ]) {
    const words = JSON.stringify([...source, count, options]);
    const written = execFileSync(process.execPath, ["--expose-gc", "-e", KEPT, words], { encoding: "utf8" });
    const [heap, arrays] = JSON.parse(written.split(" ")[0]);
    // Objects, and what the process itself needs or lets go meanwhile. A string whose units are all below 256 takes a byte for each.
    const own = count > 10 ? 0 : 40000;
    assert.ok(heap >= 0.4 * inHeap - own && heap <= inHeap + 400 + own, `${heap} bytes on the heap, not ${inHeap}: ${source}`);
    assert.ok(arrays >= outside && arrays <= outside + 400, `${arrays} bytes outside, not ${outside}: ${source}`);
  }
});

test("what a small document takes", () => {
  // Each node 64 bytes, each operation 24 if there is a limit, the texts up to a multiple of four, and four counts.
  const taken = (source, options) => 2 * addon.parsePacked(source, limitsOf(options), allocate).length;
  for (const [source, nodes, operations, texts] of [["{a}", 2, 1, 0], ["query ($a: Int) { b } { c }", 7, 2, 4], ['{a(b:"cdefg")}', 5, 1, 8]]) {
    assert.strictEqual(taken(source, {}), 64 * nodes + texts + 16);
    assert.strictEqual(taken(source, { maxFields: 9 }), 64 * nodes + 24 * operations + texts + 16);
  }
});
