// The calls of the WebAssembly module, as lib/wasm.js makes them: its memory, its stack, and what it says beside the addon.
"use strict";

const assert = require("assert");
const { execFileSync } = require("child_process");
const fs = require("fs");
const { test } = require("node:test");
const path = require("path");
const { nameFor } = require("../lib/addon");
const { callsOf } = require("../lib/wasm");

const ROOT = path.join(__dirname, "..");
const FILE = path.join(ROOT, "firthnapkin.wasm");
const MAIN = JSON.stringify(ROOT);
// In the repository ./c-library --target wasm32 builds the module, and build.js copies it.
const skip = fs.existsSync(FILE) ? false : "the WebAssembly module is not built";

const allocate = (size) => new ArrayBuffer(size);
const limits = Uint32Array.of(200, 2 ** 32 - 1, 0, 0, 0, 0, 0, 0, ...new Array(5).fill(2 ** 32 - 1));
const GROWING = `{a(b:[${"1 ".repeat(200000)}])}`;

// The calls of a module, and how many instances were made.
function made(bytes = fs.readFileSync(FILE), change = (exports) => exports) {
  const compiled = new WebAssembly.Module(bytes);
  const counts = { instances: 0 };
  const make = () => {
    counts.instances++;
    return { exports: change({ ...new WebAssembly.Instance(compiled).exports }, counts) };
  };
  return [callsOf(make), counts];
}

const parsed = (calls, source) => calls.parse(Buffer.from(source), limits, allocate);
const SMALL = "{ a(b: [1, 2]) }";

/** Runs a program in a process of its own, over the module, and returns what it writes. */
function written(program, ...words) {
  const env = { ...process.env, FIRTHNAPKIN_WASM: "1" };
  return execFileSync(process.execPath, [...words, "-e", `const { parse, FirthnapkinError } = require(${MAIN});\n${program}`], { encoding: "utf8", env });
}

test("the module takes nothing of its host", { skip }, () => {
  assert.deepStrictEqual(WebAssembly.Module.imports(new WebAssembly.Module(fs.readFileSync(FILE))), []);
});

test("a source and a result that memory grows for", { skip }, () => {
  // The first source is larger than the memory before it, and of the second one the nodes are.
  for (const source of [`{${" ".repeat(1 << 21)}a}`, GROWING]) {
    const [calls] = made();
    const small = parsed(calls, SMALL);
    const { status, parts } = parsed(calls, source);
    assert.strictEqual(status, "ok");
    const numbers = new Uint32Array(parts);
    assert.strictEqual(numbers.length, 16 * (source === GROWING ? 200005 : 2));
    assert.strictEqual(numbers[numbers.length - 16], calls.KINDS.indexOf(source === GROWING ? "int" : "field"));
    assert.deepStrictEqual(parsed(calls, SMALL), small);
  }
});

test("an instance after a call that took much memory", { skip }, () => {
  const [calls, counts] = made();
  parsed(calls, GROWING);
  const before = counts.instances;
  parsed(calls, `{${" ".repeat(70 << 20)}a}`);
  assert.strictEqual(counts.instances, before);
  assert.strictEqual(parsed(calls, SMALL).status, "ok");
  assert.strictEqual(counts.instances, before + 1);
});

test("an instance after a trap", { skip }, () => {
  const [calls, counts] = made(undefined, (exports, { instances }) => ({
    ...exports,
    canonical: instances > 1 ? exports.canonical : () => { throw new WebAssembly.RuntimeError("unreachable"); },
  }));
  const canonical = () => Buffer.from(calls.canonical(Buffer.from("{ a, b }"), allocate).texts).toString();
  assert.strictEqual(parsed(calls, SMALL).status, "ok");
  assert.throws(canonical, { name: "Error", message: "the parser stopped: unreachable" });
  assert.deepStrictEqual([canonical(), counts.instances], ["{a b}", 2]);
});

// A module whose memory has at most so many pages: the section of memories has a limit in the place of none.
function withMost(bytes, pages) {
  const number = (value) => (value < 128 ? [value] : [(value & 127) | 128, ...number(value >> 7)]);
  const read = (at) => (bytes[at] < 128 ? [bytes[at], at + 1] : (([rest, end]) => [(bytes[at] & 127) + 128 * rest, end])(read(at + 1)));
  for (let at = 8; at < bytes.length; ) {
    const [size, begin] = read(at + 1);
    if (bytes[at] === 5) {
      const [least] = read(begin + 2);
      const section = [1, 1, ...number(least), ...number(least + pages)];
      return Buffer.concat([bytes.subarray(0, at), Buffer.from([5, ...number(section.length), ...section]), bytes.subarray(begin + size)]);
    }
    at = begin + size;
  }
  throw new Error("no section of memories");
}

test("memory that can't grow", { skip }, () => {
  for (const pages of [0, 1, 20, 100]) {
    const [calls] = made(withMost(fs.readFileSync(FILE), pages));
    for (const run of [
      () => parsed(calls, GROWING), () => parsed(calls, `{${" ".repeat(1 << 23)}a}`), () => calls.tokens(Buffer.from(GROWING), 2 ** 32, allocate),
    ])
      assert.throws(run, { message: "memory ran out" });
    assert.strictEqual(parsed(calls, SMALL).status, "ok");
    assert.strictEqual(calls.isDocument(SMALL, limits), true);
  }
});

// Callers that are themselves deep: each call either ends with its result or with an error, and the next one is as any.
const DEEP = `
  const source = "{a".repeat(999) + "{a}" + "}".repeat(999);
  const wanted = 1001;
  let stopped = 0, found = 0;
  function deep(left) {
    if (left > 0) return deep(left - 1);
    try {
      if (parse(source, { depth: 1000 }).length !== wanted) throw new TypeError("another document");
      found++;
    } catch (error) {
      if (error.constructor !== Error || !error.message.startsWith("the parser stopped: ")) throw error;
      stopped++;
    }
  }
  for (let depth = 0; depth < 20000; depth += 50) {
    try { deep(depth); } catch (error) { if (!(error instanceof RangeError)) throw error; }
    if (parse("{ a(b: 1) }").length !== 5) throw new Error("the next call");
  }
  console.log(found > 0, stopped > 0);
`;

test("deep callers", { skip }, () => {
  assert.strictEqual(written(DEEP).trim(), "true true");
});

test("values nested a thousand deep, on a stack of usual size", { skip }, () => {
  const program = `
    for (const [begin, end, key] of [["[", "]", 0], ["{k: ", "}", "k"]]) {
      let value = parse("{ a(b: " + begin.repeat(998) + "1" + end.repeat(998) + ") }", { depth: 1000 }).operation().selections[0].argument("b").value;
      let levels = 0;
      for (; value !== 1; levels++) value = value[key];
      console.log(levels);
    }
  `;
  assert.strictEqual(written(program), "998\n998\n");
});

test("what the module says beside the addon", { skip: skip || (fs.existsSync(path.join(ROOT, nameFor(process.arch))) ? false : "no addon") }, () => {
  const addon = require(`../${nameFor(process.arch)}`);
  const [calls] = made();
  const constants = (of) => Object.fromEntries(Object.entries(of).filter(([, value]) => typeof value !== "function"));
  assert.deepStrictEqual(constants(calls), constants(addon));
  assert.deepStrictEqual(Object.keys(calls).sort(), Object.keys(addon).sort());
});

test("a host without either", () => {
  const folder = fs.mkdtempSync(path.join(require("os").tmpdir(), "firthnapkin-"));
  try {
    fs.cpSync(path.join(ROOT, "lib"), path.join(folder, "lib"), { recursive: true });
    fs.copyFileSync(path.join(ROOT, "index.js"), path.join(folder, "index.js"));
    for (const [chosen, words] of [["", `neither ${nameFor(process.arch)} nor firthnapkin.wasm is loaded: `], ["1", "firthnapkin.wasm is not loaded: "]]) {
      const program = `try { require(${JSON.stringify(folder)}); } catch (error) { console.log(error.message); }`;
      const said = execFileSync(process.execPath, ["-e", program], { encoding: "utf8", env: { ...process.env, FIRTHNAPKIN_WASM: chosen } });
      assert.ok(said.startsWith(`firthnapkin: ${words}`), said);
    }
  } finally {
    fs.rmSync(folder, { recursive: true });
  }
});

test("where the addon doesn't load", { skip }, () => {
  const folder = fs.mkdtempSync(path.join(require("os").tmpdir(), "firthnapkin-"));
  try {
    for (const name of ["lib", "index.js", "firthnapkin.wasm"]) fs.cpSync(path.join(ROOT, name), path.join(folder, name), { recursive: true });
    fs.writeFileSync(path.join(folder, nameFor(process.arch)), "of another machine");
    assert.strictEqual(require(folder).parse(SMALL).length, 7);
  } finally {
    fs.rmSync(folder, { recursive: true });
  }
});
