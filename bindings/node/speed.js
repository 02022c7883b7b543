// Measures how fast requests are checked and parsed, without options and with limits, and how fast that is with a walk over their
// nodes: the best of six half seconds, of each the mean time of a call, in microseconds. The calls take turns. If there is a C
// compiler, the library's own call from C takes turns, too: its best time. So does graphql-js's parser, if its folder is named.
//
//     node speed.js [FOLDER]
"use strict";

const { spawnSync } = require("child_process");
const fs = require("fs");
const os = require("os");
const path = require("path");
const { check, parse } = require(".");

const SMALL = `query Film($id: ID!) {
  film(id: $id) {
    id
    title
    cast(first: 9) { name, role }
  }
}
`;

// With the request of bindings/request.graphql, a request of 943 bytes.
const MORE = `
query Basket($customer: ID!, $locale: Locale = DE) {
  customer(id: $customer) {
    id
    displayName(locale: $locale)
    basket {
      items(first: 5, sort: {by: ADDED, up: true}) {
        product { id, title(locale: $locale), price(currency: EUR) { amount, currency } }
        quantity
      }
      shipping { carrier, days }
    }
  }
}
`;

const LIMITS = { depth: 50, maxTokens: 1000000, maxFields: 100000 };

function walk(source) {
  let length = 0;
  for (const node of parse(source)) length += node.kind.length + (node.name ?? "").length;
  return length;
}

const calls = {
  check,
  "check with limits": (source) => check(source, LIMITS),
  parse,
  "parse with limits": (source) => parse(source, LIMITS),
  "parse and walk": walk,
};
if (process.argv[2]) calls["graphql-js"] = require(path.resolve(process.argv[2], "language", "parser.js")).parse;

// The call of the library from C, as a program that is given a file, or null.
function callFromC() {
  const root = path.join(__dirname, "..", "..");
  const program = path.join(fs.mkdtempSync(path.join(os.tmpdir(), "firthnapkin-")), "speed");
  const words = ["-O2", "-o", program, path.join(root, "tests", "c", "speed.c"), path.join(root, "out", "libfirthnapkin.a")];
  return spawnSync(process.env.CC || "cc", words, { stdio: "inherit" }).status === 0 ? program : null;
}

// The best time of a call from C, in milliseconds.
function bestFromC(program, source) {
  const file = `${program}.graphql`;
  fs.writeFileSync(file, source);
  const rounds = Math.ceil(50e6 / (source.length + 1000));
  const { stderr } = spawnSync(program, [file, rounds], { encoding: "utf8" });
  return Buffer.byteLength(source) / 1000 / Number(/from C ([\d.]+) MB/.exec(stderr)[1]);
}

// The mean time of a call in half a second, in milliseconds. Between two looks at the clock some 10 KB are parsed.
function mean(call, source) {
  const often = Math.ceil(10000 / source.length);
  const begin = performance.now();
  let count = 0;
  let end;
  do {
    for (let i = 0; i < often; i++) call(source);
    count += often;
    end = performance.now();
  } while (end < begin + 500);
  return (end - begin) / count;
}

// The least mean of each call, and the best time from C.
function best(source, program) {
  const found = Object.fromEntries(Object.keys(calls).map((name) => [name, Infinity]));
  if (program !== null) found["from C"] = Infinity;
  for (let round = 0; round < 6; round++) {
    for (const [name, call] of Object.entries(calls)) found[name] = Math.min(found[name], mean(call, source));
    if (program !== null) found["from C"] = Math.min(found["from C"], bestFromC(program, source));
  }
  return found;
}

const request = fs.readFileSync(path.join(__dirname, "..", "request.graphql"), "utf8");
const program = callFromC();
for (const source of ["{a}", SMALL, request, request + MORE, ...[3, 17, 170, 1700].map((count) => request.repeat(count))]) {
  const times = Object.entries(best(source, program)).map(([name, time]) => `${name} ${(1000 * time).toFixed(2)}`);
  console.log(`${source.length} bytes: ${times.join(", ")}`);
}
if (program !== null) fs.rmSync(path.dirname(program), { recursive: true });
