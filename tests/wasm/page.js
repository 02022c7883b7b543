#!/usr/bin/env node
// Tests the page of docs/playground and the ES module in a headless browser, Chromium or Firefox: what they show and return is compared
// with the package over Node's addon. The last line is 'N passed, M failed'.
//
//     node tests/wasm/page.js BROWSER MODULE          the program, and firthnapkin.wasm, of which both are made
//     node tests/wasm/page.js BROWSER PACKAGE PAGE    those of a release: the folders of Node's package and of the page
"use strict";

const { execFileSync } = require("child_process");
const fs = require("fs");
const http = require("http");
const os = require("os");
const path = require("path");
const { pathToFileURL } = require("url");

const ROOT = path.join(__dirname, "..", "..");
const [program, given, released] = process.argv.slice(2);
const { Browser } = require(path.basename(program).startsWith("firefox") ? "./firefox" : "./chromium");
const firthnapkin = require(released ? path.resolve(given) : path.join(ROOT, "bindings", "node"));
let [passed, failed] = [0, 0];

function expect(what, found, wanted) {
  const [a, b] = [found, wanted].map((value) => JSON.stringify(value));
  if (a === b) {
    passed++;
  } else {
    failed++;
    console.log(`FAILED ${what}: ${a}, not ${b}`);
  }
}

function bundle(...words) {
  execFileSync(process.execPath, [path.join(ROOT, "scripts", "wasm", "bundle.js"), ...words]);
}

const errorOf = (run) => {
  try {
    run();
    return null;
  } catch (error) {
    return error;
  }
};

const REQUEST = `query Q($v: [T!]! = [1, "é"] @d) { k: a(x: "𝄞\\n", y: {b: 1.5, c: E, d: $v, e: 99999999999}) @d { ...F } ... on T { b(n: null) } }
fragment F on T { b @d(z: """
 é
""") ... @d { c: d(l: [true, null, -7]) } }`;
// Ways of nesting: what stands before, what is repeated, what is in the middle, what is repeated, what is after. Each becomes a source of
// a depth of 1,000, or with a repetition more of a larger one.
const NESTED = [
  ["", "{ a", "", " }", ""], ["", "{ ... on T ", "{ a }", " }", ""], ["{ a(b: ", "[", "1", "]", ") }"], ["{ a(b: ", "{ c: ", "1", " }", ") }"],
  ["query($v: ", "[", "T", "]!", ") { a }"], ["query($v: T = ", "[{ c: ", "E", " }]", ") { a }"],
].map(([before, opening, middle, closing, after]) => (more) => {
  const [outer, level, inner] = [before, opening, middle].map((text) => text.replace(/[^({[]/g, "").length);
  const count = Math.floor((1000 - outer - inner) / level) + more;
  return before + opening.repeat(count) + middle + closing.repeat(count) + after;
});

const ERRORS = ["{ user(id: 4 { name } }", "{\n  𝄞 }", "query { a(b: \"\\q\") }", '{ a(b: "é𝄞") ? }', "{".repeat(300), "type T { a: Int }", ""];

// What the page shows.
const SHOWN = {
  nodes: `[...document.querySelectorAll("#panel li > span")].map((it) => it.textContent)`,
  depths: `[...document.querySelectorAll("#panel li > span")].map((it) => { let depth = 0; for (let at = it.closest("ul"); at.parentElement.closest("ul"); at = at.parentElement.closest("ul")) depth++; return depth; })`,
  cells: `[...document.querySelectorAll("#panel tbody tr")].map((row) => [...row.children].map((it) => it.textContent))`,
  panel: `document.querySelector("#panel").textContent`,
  status: `document.querySelector("#status").textContent`,
  excerpt: `(({ hidden, textContent }) => hidden ? null : textContent)(document.querySelector("#excerpt"))`,
  // What is before the mark of an error, and what is marked.
  marked: `((it) => it && [it.previousSibling.textContent, it.textContent])(document.querySelector("#backdrop mark.bad"))`,
  invalid: `document.querySelector("#source").getAttribute("aria-invalid")`,
  focus: `document.activeElement.id`,
  selected: `[...document.querySelectorAll('[role="tab"]')].filter((it) => it.ariaSelected === "true").map((it) => it.id)`,
};

const shown = (page, ...names) => Promise.all(names.map((name) => page.evaluate(SHOWN[name])));

function rowOf(node) {
  const words = [node.kind];
  if (node.name !== null) words.push(node.name);
  const isText = ["string", "blockString"].includes(node.kind);
  if (["int", "largeInt", "float", "boolean", "null", "type"].includes(node.kind) || isText)
    words.push(isText ? JSON.stringify(node.value) : String(node.value));
  return words.join(" ");
}

function depthOf(node) {
  let depth = 0;
  for (let at = node.parent; at !== null; at = at.parent) depth++;
  return depth;
}

async function choose(page, name) {
  await page.evaluate(`document.querySelector("#tab-${name}").click()`);
}

async function testRequest(page) {
  await page.evaluate(`document.querySelector("#source").focus()`);
  await page.type(REQUEST);
  const document = firthnapkin.parse(REQUEST);
  await choose(page, "nodes");
  const [nodes, depths, status, excerpt, marked, invalid] = await shown(page, "nodes", "depths", "status", "excerpt", "marked", "invalid");
  expect("nodes", nodes, [...document].map(rowOf));
  expect("how nodes are nested", depths, [...document].map(depthOf));
  expect("the status", [status, excerpt, marked, invalid], [`A document with ${document.length} nodes`, null, null, "false"]);
  await choose(page, "tokens");
  expect("tokens", (await shown(page, "cells"))[0], [...firthnapkin.tokens(REQUEST)].map((it) => [`${it.line}:${it.column}`, it.kind, it.text]));
  await choose(page, "canonical");
  expect("the canonical text", (await shown(page, "panel"))[0], firthnapkin.canonical(REQUEST));
  await choose(page, "complexity");
  expect("complexities", (await shown(page, "cells"))[0], document.operations.map((it) => [
    `${it.kind} ${it.name}`, ...["fields", "aliases", "directives", "rootFields", "depth"].map((name) => String(it.complexity[name])),
  ]));
  await choose(page, "nodes");
}

async function testErrors(page) {
  await page.evaluate(`document.querySelector("#source").focus()`);
  for (const source of ERRORS) {
    await page.type(source);
    const error = errorOf(() => firthnapkin.parse(source));
    const marked = [source.slice(0, error.start.index), source.slice(error.start.index, error.end.index) || " "];
    expect(`the error of ${source.slice(0, 30)}`, await shown(page, "status", "excerpt", "marked", "invalid", "panel"), [
      error.message, error.excerpt, marked, "true", `Nothing to show. ${error.message}`,
    ]);
  }
  const unknown = "{ a { ...Missing } }";
  await page.type(unknown);
  const document = firthnapkin.parse(unknown);
  const error = errorOf(() => document.operations[0].complexity);
  expect("an unknown fragment", await shown(page, "status", "excerpt", "nodes"), [
    `A document with ${document.length} nodes. ${error.message}`, error.excerpt, [...document].map(rowOf),
  ]);
}

async function testExamples(page) {
  const count = await page.evaluate(`document.querySelectorAll("#examples button").length`);
  expect("that there are examples", count >= 3, true);
  for (let i = 0; i < count; i++) {
    await page.evaluate(`document.querySelectorAll("#examples button")[${i}].click()`);
    const source = await page.evaluate(`document.querySelector("#source").value`);
    const error = errorOf(() => firthnapkin.parse(source).operations.forEach((it) => it.complexity));
    const [status, excerpt] = await shown(page, "status", "excerpt");
    expect(`example ${i}`, [status.endsWith(error ? error.message : " nodes"), excerpt], [true, error ? error.excerpt : null]);
  }
}

// The tabs by the keyboard alone, from the source on.
async function testKeyboard(page) {
  await page.evaluate(`document.querySelector("#source").focus()`);
  await page.type("{ a }");
  const count = await page.evaluate(`document.querySelectorAll("#examples button").length`);
  for (let i = 0; i < count + 1; i++) await page.press("Tab");
  expect("the key Tab", await shown(page, "focus"), ["tab-nodes"]);
  for (const [key, name] of [
    ["ArrowRight", "tokens"], ["ArrowRight", "canonical"], ["ArrowLeft", "tokens"], ["End", "complexity"], ["ArrowRight", "nodes"],
    ["ArrowLeft", "complexity"], ["Home", "nodes"],
  ]) {
    await page.press(key);
    expect(`the key ${key}`, await shown(page, "focus", "selected"), [`tab-${name}`, [`tab-${name}`]]);
  }
  await page.press("Tab");
  expect("the panel's focus", await shown(page, "focus"), ["panel"]);
}

// The accessibility tree: roles with their names.
async function testNames(page) {
  await page.send("Accessibility.enable");
  const { nodes } = await page.send("Accessibility.getFullAXTree");
  const found = nodes.filter((node) => !node.ignored).map((node) => `${node.role?.value} ${node.name?.value ?? ""}`.trim());
  for (const wanted of [
    "textbox Request", "status", "tablist What is shown", "tab Nodes", "tab Tokens", "tab Canonical text", "tab Complexity", "tabpanel Nodes",
    "heading Firthnapkin", "group Examples", "button an error",
  ])
    expect(`in the accessibility tree: ${wanted}`, found.includes(wanted), true);
}

// The contrast of text and ground, light and dark, is that of WCAG's level AA.
const CONTRAST = `(() => {
  const light = (color) => {
    const [r, g, b] = color.match(/[0-9.]+/g).map((part) => part / 255).map((part) => (part <= 0.03928 ? part / 12.92 : ((part + 0.055) / 1.055) ** 2.4));
    return 0.2126 * r + 0.7152 * g + 0.0722 * b;
  };
  const of = (a, b) => { const [x, y] = [light(a), light(b)].sort((p, q) => q - p); return (x + 0.05) / (y + 0.05); };
  const color = (name) => getComputedStyle(document.querySelector(name)).color;
  const ground = getComputedStyle(document.body).backgroundColor;
  return [["body", color("body")], ["header p", color("header p")], ["#status", color("#status")], ["#examples button", color("#examples button")]]
    .filter(([, ink]) => of(ink, ground) < 4.5).map(([name]) => name).concat(light(ground) < 0.5 ? "dark" : "light");
})()`;

async function testColors(page) {
  for (const value of ["light", "dark"]) {
    await page.send("Emulation.setEmulatedMedia", { features: [{ name: "prefers-color-scheme", value }] });
    expect(`the colours, ${value}`, await page.evaluate(CONTRAST), [value]);
  }
}

async function testPage(browser, folder) {
  if (!released) bundle("page", folder, given);
  const page = await browser.open(pathToFileURL(path.join(folder, "index.html")).href);
  await page.until(`document.querySelector("#status").textContent.startsWith("A document")`);
  expect("the version", await page.evaluate(`document.querySelector("#version").textContent`), `Version ${firthnapkin.version}.`);
  const tests = [testRequest, testErrors, testExamples, testKeyboard];
  if (browser.name === "Chromium") tests.push(testNames, testColors);
  for (const test of tests) await test(page);
  const others = browser.requests.filter((url) => !url.startsWith("file:") && url !== "about:blank");
  expect("what the page asks of the network", others, []);
}

// Nesting as deep as a limit may be, and a level more, in the browser's own stack.
async function testNesting(page) {
  for (const nested of NESTED) {
    const wanted = [0, 1].map((more) => outcomeOf(firthnapkin, nested(more)));
    expect(`that a depth of 1,000 is the most: ${nested(0).slice(0, 30)}`, wanted.map((it) => it.length), [2, 1]);
    const sources = JSON.stringify([nested(0), nested(1)]);
    const found = await page.evaluate(`import("/firthnapkin.mjs").then((it) => ${sources}.map((source) => (${outcomeOf})(it, source)))`);
    expect(`what is nested deeply: ${nested(0).slice(0, 30)}`, found, wanted);
  }
}

// The nodes of a source within the largest depth, as their number and where each begins and ends; or the error.
function outcomeOf({ parse, MAX_DEPTH }, source) {
  try {
    const document = parse(source, { depth: MAX_DEPTH });
    return [document.length, [...document].map((it) => [it.kind, it.start.index, it.end.index].join(" ")).join()];
  } catch (error) {
    return [error.message];
  }
}

// The ES module, with the module beside it, over HTTP.
async function testModule(browser, folder) {
  if (!released) {
    fs.copyFileSync(given, path.join(folder, "firthnapkin.wasm"));
    bundle("module", path.join(folder, "firthnapkin.mjs"));
  }
  const types = { ".mjs": "text/javascript", ".wasm": "application/wasm" };
  const server = http.createServer((request, response) => {
    const type = types[path.extname(request.url)];
    response.writeHead(200, { "content-type": type ?? "text/html" });
    response.end(type ? fs.readFileSync(path.join(folder, path.basename(request.url))) : "<title>module</title>");
  });
  await new Promise((resolve) => server.listen(0, "127.0.0.1", resolve));
  try {
    const page = await browser.open(`http://127.0.0.1:${server.address().port}/`);
    const said = await page.evaluate(`import("/firthnapkin.mjs").then((found) => [
      Object.keys(found).sort(), JSON.stringify([...found.parse(${JSON.stringify(REQUEST)})]), found.canonical(${JSON.stringify(REQUEST)}),
      (() => { try { found.check("{ a )"); } catch (error) { return [error.message, error.excerpt]; } })(),
    ])`);
    const error = errorOf(() => firthnapkin.check("{ a )"));
    expect(`the ES module in ${browser.name}`, said, [
      [...Object.keys(firthnapkin), "default"].sort(), JSON.stringify([...firthnapkin.parse(REQUEST)]), firthnapkin.canonical(REQUEST),
      [error.message, error.excerpt],
    ]);
    await testNesting(page);
  } finally {
    server.closeAllConnections?.();
    server.close();
  }
}

async function main() {
  const folder = fs.mkdtempSync(path.join(os.tmpdir(), "playground-"));
  const browser = new Browser(program);
  try {
    await testPage(browser, released ? path.resolve(released) : folder);
    await testModule(browser, released ? path.resolve(given) : folder);
  } catch (error) {
    expect("the tests", String(error), "no error");
  } finally {
    await browser.close();
    fs.rmSync(folder, { recursive: true, force: true });
  }
  console.log(`${passed} passed, ${failed} failed`);
  process.exit(failed === 0 ? 0 : 1);
}

main();
