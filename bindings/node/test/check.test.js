// A check of a source, which builds no document.
"use strict";

const assert = require("assert");
const { execFileSync, spawnSync } = require("child_process");
const fs = require("fs");
const { test } = require("node:test");
const path = require("path");

const { addon } = require("../lib/addon");
const { check, parse, FirthnapkinError } = require("..");

/** What a call throws for a source, without the stack; undefined if it returns. */
function thrown(call, ...words) {
  try {
    assert.ok(["undefined", "object"].includes(typeof call(...words)));
  } catch (error) {
    const { name, message, reason, kind, detail, character, start, end, locations, sourceName, excerpt } = error;
    return { type: error.constructor, name, message, reason, kind, detail, character, start, end, locations, sourceName, excerpt };
  }
  return undefined;
}

/** An error's kind, where it begins, and its reason. */
function refused(source, options) {
  const { type, kind, start, reason } = thrown(check, source, options);
  assert.strictEqual(type, FirthnapkinError);
  return [kind, start.index, reason];
}

test("a document within limits", () => {
  for (const [source, options] of [
    ["{a}", undefined], ["{a}", {}], ["{a}", { depth: 1, maxTokens: 3 }], ["# \u00e9\u{1d11e}\n{a}", {}],
    ["{ a b }", { maxFields: 2, maxAliases: 0, maxDirectives: 0, maxRootFields: 2, maxFieldDepth: 1 }],
    ["{ x: a @b { c } }", { maxFields: 2, maxAliases: 1, maxDirectives: 1, maxRootFields: 1, maxFieldDepth: 2 }],
    ["fragment F on T { ...F ...G }", { maxFields: 0 }],
    ["{ ...X }", {}],
    ["{a}".repeat(10000), {}], ["{a}".repeat(10000), { maxFields: 1 }], [`{${"a ".repeat(100000)}}`, { maxFields: 100000, maxTokens: 100002 }],
    [`{a}#${"\u00e9".repeat(100000)}`, { maxFields: 1, name: "pets.graphql" }],
  ])
    assert.strictEqual(check(source, options), undefined, source.slice(0, 40));
});

test("what isn't a document, or is beyond a limit", () => {
  for (const [source, options, kind, index, reason] of [
    ["", {}, "unexpectedEnd", 0, "Unexpected end of input"],
    ["{ a ) }", {}, "unexpectedToken", 4, 'Unexpected ")"'],
    ["{ a } type", {}, "unexpectedToken", 6, "Unexpected \"type\": this is a schema's definition, not a request's"],
    ["{ \u00e9 }", {}, "lexical", 2, 'Unknown character "\u00e9"'],
    ["{ \ud800 }", {}, "surrogate", 2, "Lone surrogate U+D800"],
    ["{a{b}}", { depth: 1 }, "tooDeep", 2, "Too deeply nested"],
    ["{a".repeat(201) + "}".repeat(201), {}, "tooDeep", 400, "Too deeply nested"],
    ["{ a b }", { maxTokens: 3 }, "tooManyTokens", 6, "Too many tokens"],
    ["{a} query Q { a b }", { maxFields: 1 }, "operationTooLarge", 4, 'Too many fields in operation "Q": 2, with a limit of 1'],
    ["{ x: a }", { maxAliases: 0 }, "operationTooLarge", 0, "Too many aliases in an operation without a name: 1, with a limit of 0"],
    ["{ a @b }", { maxDirectives: 0 }, "operationTooLarge", 0, "Too many directives in an operation without a name: 1, with a limit of 0"],
    ["{ a b }", { maxRootFields: 1 }, "operationTooLarge", 0, "Too many root fields in an operation without a name: 2, with a limit of 1"],
    ["{ a { b } }", { maxFieldDepth: 1 }, "operationTooLarge", 0, "Too many levels of fields in an operation without a name: 2, with a limit of 1"],
    ["{ ...X }", { maxFields: 1 }, "unknownFragment", 2, "Unknown fragment"],
    ["{ ...F } fragment F on T { ...F }", { maxFields: 1 }, "fragmentCycle", 27, "Fragment spread within itself"],
  ]) {
    assert.deepStrictEqual(refused(source, options), [kind, index, reason]);
    // The same before much white space, and after it.
    const space = " ".repeat(20000);
    if (kind !== "unexpectedEnd") assert.deepStrictEqual(refused(source + space, options), [kind, index, reason]);
    assert.deepStrictEqual(refused(space + source, options), [kind, index + 20000, reason]);
  }
  // The last of many operations.
  for (const count of [63, 64, 65, 10000])
    assert.deepStrictEqual(refused(`${"{a}".repeat(count)}query Z {a b}`, { maxFields: 1 }), [
      "operationTooLarge", 3 * count, 'Too many fields in operation "Z": 2, with a limit of 1',
    ]);
});

const ROWS = process.env.FIRTHNAPKIN_ROWS;
const OPTIONS = [
  undefined, { name: "pets.graphql" }, { depth: 3 }, { maxTokens: 9 }, { maxFields: 1 }, { maxAliases: 0, maxDirectives: 0 },
  { maxRootFields: 1 }, { maxFieldDepth: 1, name: "\u00e9" },
];

test("each row of the language is refused as by a parse", { skip: ROWS ? false : "FIRTHNAPKIN_ROWS names no file" }, () => {
  let count = 0;
  for (const row of fs.readFileSync(ROWS, "latin1").trim().split("\n")) {
    const source = Buffer.from(row.split(" ")[0], "hex").toString();
    for (const options of OPTIONS) assert.deepStrictEqual(thrown(check, source, options), thrown(parse, source, options), source);
    count++;
  }
  assert.ok(count >= 1500, `${count} rows`);
});

test("wrong arguments are refused as by a parse, before the source is read", () => {
  const message = (words) => `there is no option ${words}, only depth, maxTokens, maxFields, maxAliases, maxDirectives, maxRootFields, maxFieldDepth and name`;
  for (const source of ["{a}", "{", "\ud800"]) {
    for (const [options, name, words] of [
      [null, "TypeError", "options must be an object, not null"], [5, "TypeError", "options must be an object, not number"],
      [{ maxField: 5 }, "TypeError", message("maxField")], [{ [Symbol("depth")]: 5 }, "TypeError", message("Symbol(depth)")],
      [{ maxFields: "5" }, "TypeError", "maxFields must be a number, not string"], [{ depth: null }, "TypeError", "depth must be a number, not null"],
      [{ maxTokens: 5n }, "TypeError", "maxTokens must be a number, not bigint"], [{ name: 5 }, "TypeError", "name must be a string, not number"],
      [{ depth: 1001 }, "RangeError", "depth must be an integer from 0 to 1000"], [{ maxFields: NaN }, "RangeError", "maxFields must be an integer from 0 to 4294967294"],
      [{ maxTokens: -1 }, "RangeError", "maxTokens must be an integer from 0 to 9007199254740991"],
    ])
      assert.throws(() => check(source, options), { name, message: words });
  }
  for (const source of [undefined, null, 5, Buffer.from("{a}"), Object("{a}"), Symbol("{a}")])
    assert.throws(() => check(source), { name: "TypeError", message: /^source must be a string, not / });
});

test("options that check while they are read", () => {
  const options = {
    get maxFields() {
      check("{ a b }", { maxFields: 2 });
      assert.throws(() => check("{", { depth: 0 }), FirthnapkinError);
      return 1;
    },
  };
  assert.strictEqual(check("{ a }", options), undefined);
  assert.throws(() => check("{ a b }", options), { kind: "operationTooLarge" });
});

// How often each of the addon's calls is made.
function calls(run) {
  const counts = {};
  const own = { ...addon };
  for (const [name, call] of Object.entries(own))
    if (typeof call === "function") addon[name] = (...words) => { counts[name] = (counts[name] ?? 0) + 1; return call(...words); };
  try { run(); } catch (error) { if (!(error instanceof FirthnapkinError)) throw error; }
  Object.assign(addon, own);
  return counts;
}

test("the library is called once for a small source, and nothing is parsed into a document", () => {
  const large = `{${"a ".repeat(20000)}}`;
  for (const options of [{}, { maxFields: 20000 }]) {
    assert.deepStrictEqual(calls(() => check("{ a }", options)), { isDocument: 1 });
    assert.deepStrictEqual(calls(() => check(large, options)), { isDocument: 1, check: 1 });
    assert.deepStrictEqual(calls(() => check("{", options)), { isDocument: 1, check: 1 });
  }
});

// Why no memory is limited.
const hasLimits = process.platform === "linux" && spawnSync("prlimit", ["--version"]).status === 0;
let unlimited = hasLimits ? false : "no prlimit, so memory is not limited";
if ("FIRTHNAPKIN_IS_EMULATED" in process.env) unlimited = "under qemu-user the memory of qemu would be limited";

// A source whose nodes would take 256 megabytes, with room for 160 more than the process has.
const LITTLE = `
  const { check, parse } = require(${JSON.stringify(path.join(__dirname, ".."))});
  const size = 1024 * /VmSize:\\s+(\\d+)/.exec(require("fs").readFileSync("/proc/self/status", "latin1"))[1];
  const source = "{" + "a ".repeat(1 << 22) + "}";
  require("child_process").execFileSync("prlimit", ["--pid", process.pid, "--as=" + (size + (160 << 20)) + ":"]);
  const results = [];
  for (const run of [
    () => check(source), () => check(source, { maxFields: 1 << 22 }), () => check(source, { maxFields: 5 }), () => check(source + ")"), () => parse(source),
  ])
    try { results.push(String(run())); } catch (error) { results.push(error.message); }
  console.log(JSON.stringify(results));
`;

// A module's memory is reserved when it is loaded, so that a limit on the process limits no call.
if (process.env.FIRTHNAPKIN_WASM !== "1") test("a check takes no memory for nodes", { skip: unlimited }, () => {
  assert.deepStrictEqual(JSON.parse(execFileSync(process.execPath, ["-e", LITTLE], { encoding: "utf8" })), [
    "undefined", "undefined", "Too many fields in an operation without a name: 4194304, with a limit of 5. At 1:1",
    'Unexpected ")". At 1:8388611', "memory ran out",
  ]);
});
