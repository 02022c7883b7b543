// What becomes of memory: nothing is kept after a call, and a process that is short of it goes on.
"use strict";

const assert = require("assert");
const { execFileSync, spawnSync } = require("child_process");
const { test } = require("node:test");
const path = require("path");

const MAIN = JSON.stringify(path.join(__dirname, ".."));

/** Runs a program in a process of its own, with these words for Node, and returns what it writes. */
function written(program, ...words) {
  return execFileSync(process.execPath, [...words, "-e", `const { parse, FirthnapkinError } = require(${MAIN});\n${program}`], {
    encoding: "utf8",
    // A block of memory that is freed goes back to the system.
    env: { ...process.env, MALLOC_MMAP_THRESHOLD_: "65536", MALLOC_TRIM_THRESHOLD_: "65536" },
    stdio: ["ignore", "pipe", "pipe"],
  });
}

// A call that keeps its nodes, its texts or an error's words keeps half a megabyte or more here, each time.
const GROWTH = `
  const sources = [
    "{a}".repeat(4000),
    '{a(b: "' + "c".repeat(1 << 19) + '")}',
    "query a " + "n".repeat(1 << 19),
    "{a}".repeat(4000) + ")",
  ];
  const grown = sources.map((source) => {
    const tried = (run) => { try { run(); } catch (error) { if (!(error instanceof FirthnapkinError)) throw error; } };
    const round = () => {
      tried(() => parse(source));
      tried(() => parse(source, { maxFields: 0 }));
      tried(() => parse(source, { maxFields: 9 }));
      tried(() => parse(source).operations[0].complexity);
    };
    for (let i = 0; i < 10; i++) round();
    gc();
    const before = process.memoryUsage().rss;
    for (let i = 0; i < 80; i++) { round(); if (i % 10 === 9) gc(); }
    gc();
    return Math.round((process.memoryUsage().rss - before) / 2 ** 20);
  });
  console.log(JSON.stringify(grown));
`;

test("nothing is kept after a call", () => {
  const grown = JSON.parse(written(GROWTH, "--expose-gc"));
  assert.strictEqual(grown.length, 4);
  for (const megabytes of grown) assert.ok(megabytes < 20, `the process grew by ${grown} megabytes`);
});

// Leaves the process so much more address space than it has.
const LIMITED = `
  const size = () => 1024 * /VmSize:\\s+(\\d+)/.exec(require("fs").readFileSync("/proc/self/status", "latin1"))[1];
  function limit(bytes) {
    require("child_process").execFileSync("prlimit", ["--pid", process.pid, "--as=" + (size() + bytes) + ":"]);
  }
`;

// What a source's result may be, however little memory there is for it. Most take 10 to 40 megabytes, so that Node itself, which
// ends where it has none left, always has enough. Memory that was let go is given back before there is little.
const LITTLE = `${LIMITED}
  const source = "{a}".repeat(1 << 17);
  const spreads = (count) => "{" + "...F ".repeat(count) + "} fragment F on T { a }";
  const several = spreads(1 << 17);
  const many = spreads(1 << 18);
  const results = new Set();
  // What is given to it is made while there is enough.
  function add(megabytes, run, given = () => {}) {
    limit(2 ** 33);
    const value = given();
    gc();
    gc();
    limit(megabytes << 20);
    try { results.add(run(value)); } catch (error) { results.add(error.name + ": " + error.message); }
  }
  for (let megabytes = 100; megabytes >= 10; megabytes -= 10) {
    add(megabytes, () => "nodes: " + parse(source).length);
    add(megabytes, () => parse(source + ")"));
    add(megabytes, () => "within: " + parse(several, { maxFields: 131072 }).operations[0].complexity.fields);
    add(megabytes, () => parse(several, { maxFields: 131071 }));
    add(megabytes, (operation) => "fields: " + operation.complexity.fields, () => parse(many).operations[0]);
  }
  limit(2 ** 33);
  console.log(JSON.stringify([...results].sort()), parse("{ a }").length);
`;

// Why no memory is limited.
const hasLimits = process.platform === "linux" && spawnSync("prlimit", ["--version"]).status === 0;
let unlimited = hasLimits ? false : "no prlimit, so memory is not limited";
if ("FIRTHNAPKIN_IS_EMULATED" in process.env) unlimited = "under qemu-user the memory of qemu would be limited";
// The tests of the addon alone aren't those of the WebAssembly module, which wasm.test.js has: a module's memory is reserved when it is
// loaded, so that a limit on the process limits no call, and what its calls take is what lib/calls.js passes.
const isAddon = process.env.FIRTHNAPKIN_WASM !== "1";

if (isAddon) test("a process with little memory", { skip: unlimited }, () => {
  const wanted = [
    "Error: memory ran out", "FirthnapkinError: Too many fields in an operation without a name: 131072, with a limit of 131071. At 1:1",
    'FirthnapkinError: Unexpected ")". At 1:393217', "fields: 262144", "nodes: 262144", "within: 131072",
  ];
  assert.strictEqual(written(LITTLE, "--expose-gc").trim(), `${JSON.stringify(wanted)} 2`);
});

test("memory that JavaScript can't allocate", () => {
  const program = `
    const results = [];
    for (const [object, name] of [[globalThis, "ArrayBuffer"], [Buffer, "from"], [globalThis, "Uint32Array"]]) {
      const own = object[name];
      object[name] = function (...words) {
        // A view of what is there allocates nothing.
        if (typeof words[0] !== "object") throw new RangeError("Array buffer allocation failed");
        return new.target ? new own(...words) : own(...words);
      };
      for (const source of ["{ a }", "{ ) }", "{ \u{1d11e} }", "{ a #\u{1d11e}\\n }", "{ a #" + ".".repeat(20000) + "\\n }"]) {
        try { const node = parse(source).node(1); node.name; node.start; node.excerpt; } catch (error) { results.push(error.name + ": " + error.message); }
      }
      object[name] = own;
    }
    console.log(JSON.stringify(results), parse("{ a }").length);
  `;
  const lines = written(program).trim();
  const wanted = new Array(15).fill("Error: memory ran out");
  // The module reads a small source without a buffer of it, and so has its error.
  if (!isAddon) wanted.splice(6, 2, 'FirthnapkinError: Unexpected ")". At 1:3', 'FirthnapkinError: Unknown character "\u{1d11e}". At 1:3');
  assert.strictEqual(lines, `${JSON.stringify(wanted)} 2`);
});

if (isAddon) test("the addon takes no other arguments", () => {
  const { addon } = require("../lib/addon");
  const allocate = (size) => new ArrayBuffer(size);
  const source = Buffer.from("{ a }");
  const limits = Uint32Array.of(5, 5, 0, 0, 0, 0, 0, 0, ...new Array(5).fill(2 ** 32 - 1));
  assert.strictEqual(addon.parse(source, limits, allocate).parts.byteLength, 128);
  assert.strictEqual(addon.check(source, limits, allocate).parts.byteLength, 0);
  assert.deepStrictEqual([addon.parsePacked("{ a }", limits).length, addon.isDocument("{ a }", limits)], [72, true]);
  const others = [5, 5n, "5", null, undefined, {}, Array.from(limits), limits.subarray(1), new Uint32Array(8), new Uint32Array(14), new Uint32Array(0)];
  others.push(limits.buffer, new Int32Array(13), new Float32Array(13), new Uint8Array(13), new Uint8Array(52), new DataView(limits.buffer));
  for (const words of [[], [source], [source, limits], ["{ a }", limits, allocate], ...others.map((other) => [source, other, allocate])])
    for (const name of ["parse", "check"]) assert.throws(() => addon[name](...words), { message: `${name} takes a buffer, limits and a function` });
  for (const words of [[], ["{ a }"], [source, limits], [5, limits], [null, limits], ...others.map((other) => ["{ a }", other])])
    for (const name of ["parsePacked", "isDocument"]) assert.throws(() => addon[name](...words), { message: `${name} takes a string and limits` });
  for (const other of [5, () => 5, () => new ArrayBuffer(0), (size) => new ArrayBuffer(size + 1), (size) => Buffer.alloc(size)])
    assert.throws(() => addon.parse(source, limits, other), { message: "the result was not made" });
  // A depth out of range is refused by the library, and so is a word that has no limit. A number out of range is the largest one.
  const status = (...words) => addon.parse(source, Uint32Array.from({ length: 13 }, (_, word) => words[word] ?? (word < 8 ? 0 : 2 ** 32 - 1)), allocate).status;
  for (const depth of [1001, 2 ** 31, 2 ** 32 - 1]) assert.strictEqual(status(depth, 5), "invalid_limit");
  for (let reserved = 0; reserved < 6; reserved++)
    assert.strictEqual(status(5, 5, ...new Array(reserved).fill(0), 1), "invalid_limit");
  assert.deepStrictEqual([status(0, 5), status(1, 2), status(1000, 2 ** 32 - 1)], ["too_deep", "too_many_tokens", "ok"]);
  for (const tokens of [-1, NaN, Infinity, 2 ** 32, 1e300]) assert.strictEqual(addon.tokens(source, tokens, allocate).status, "ok");
  for (const words of [[], [source], [source, 5], [source, "5", allocate], ["{ a }", 5, allocate]]) {
    assert.throws(() => addon.tokens(...words), { message: "tokens takes a buffer, a number of tokens and a function" });
    assert.throws(() => addon.excerpt(...words), { message: "excerpt takes a buffer, a byte and a function" });
  }
  for (const words of [[], [source], ["{ a }", allocate]]) {
    assert.throws(() => addon.canonical(...words), { message: "canonical takes a buffer and a function" });
    assert.throws(() => addon.complexities(...words), { message: "complexities takes a buffer and a function" });
  }
  assert.deepStrictEqual(addon.complexities(source, allocate).complexities, Uint32Array.of(0, 1, 0, 0, 1, 1).buffer);
  assert.strictEqual(addon.complexities(Buffer.from("fragment F on T { a }"), allocate).complexities, undefined);
  for (const byte of [6, 2 ** 32, -1, NaN, 1e300]) assert.strictEqual(addon.excerpt(source, byte, allocate).status, "invalid_error");
});

test("a small heap", () => {
  const program = `
    const source = "{a(b:\\"" + "\\u{1d11e}".repeat(1 << 21) + "\\") }";
    const document = parse(source);
    const end = document.node(document.length - 1).end.index;
    console.log(end === source.length - 3, document.parents === undefined);
  `;
  assert.strictEqual(written(program, "--max-old-space-size=24").trim(), "true false");
});
