#!/usr/bin/env node
// Makes what browsers load, of the package for Node and the WebAssembly module: its files, each as a function of one script.
//
//     scripts/wasm/bundle.js module FILE           an ES module, FILE, which loads the firthnapkin.wasm beside it
//     scripts/wasm/bundle.js page FOLDER MODULE    the page of docs/playground, whose script has the module inside, so that it is
//                                                  opened as a file. The script sets `firthnapkin` to a promise of the package
"use strict";

const fs = require("fs");
const path = require("path");

const NODE = path.join(__dirname, "..", "..", "bindings", "node");
const read = (...parts) => fs.readFileSync(path.join(...parts), "utf8");
const LICENSE = read(NODE, "..", "..", "LICENSE").trim().split("\n").map((line) => ` * ${line}`.trimEnd()).join("\n");

// What index.js exports, by its text.
function exported() {
  const [, names] = /module\.exports = \{([^}]*)\};/.exec(read(NODE, "index.js"));
  return names.split(",").map((name) => name.trim()).filter(Boolean);
}

// The files by the names by which others require them. The calls come from the module, and so addon.js is left out.
function files() {
  const own = fs.readdirSync(path.join(NODE, "lib")).filter((name) => name.endsWith(".js") && name !== "addon.js");
  const found = { index: read(NODE, "index.js"), platform: read(__dirname, "platform.js") };
  for (const name of own) found[path.basename(name, ".js")] = read(NODE, "lib", name);
  return found;
}

// A function `load`, which makes the package of a compiled module.
function body() {
  return `/*
${LICENSE}
 */
const files = {
${Object.entries(files()).map(([name, text]) => `${name}(module, require, Buffer) {\n${text}}`).join(",\n")},
};

function load(compiled) {
  const loaded = {};
  const make = () => new WebAssembly.Instance(compiled);
  function need(name) {
    if (name === "util") return need("platform").util;
    const base = name.replace(/^.*\\//, "");
    if (loaded[base] !== undefined) return loaded[base];
    const module = { exports: {} };
    if (base === "addon") module.exports = { addon: need("wasm").callsOf(make) };
    else files[base](module, need, base === "platform" ? undefined : need("platform").Buffer);
    loaded[base] = module.exports;
    return loaded[base];
  }
  return need("index");
}
`;
}

function esModule() {
  return `${body()}
const url = new URL("firthnapkin.wasm", import.meta.url);
// Node's fetch reads no files.
const bytes = url.protocol === "file:" && typeof process === "object"
  ? await (await import("node:fs/promises")).readFile(url)
  : await (await fetch(url)).arrayBuffer();
const all = load(await WebAssembly.compile(bytes));
export const { ${exported().join(", ")} } = all;
export default all;
`;
}

function script(wasm) {
  return `globalThis.firthnapkin = (async () => {
${body()}
const text = atob("${fs.readFileSync(wasm).toString("base64")}");
return load(await WebAssembly.compile(Uint8Array.from(text, (letter) => letter.charCodeAt(0))));
})();
`;
}

function writePage(folder, wasm) {
  fs.cpSync(path.join(__dirname, "..", "..", "docs", "playground"), folder, { recursive: true });
  fs.writeFileSync(path.join(folder, "firthnapkin.js"), script(wasm));
}

const [kind, target, wasm] = process.argv.slice(2);
if (kind === "page") writePage(target, wasm);
else fs.writeFileSync(target, esModule());
