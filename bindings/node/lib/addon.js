// The library's calls: those of the addon for this processor and this C library, of which a release has one for each, and where
// it doesn't load, those of the WebAssembly module. FIRTHNAPKIN_WASM=1 chooses the module.
"use strict";

const fs = require("fs");
const path = require("path");
const { callsOf } = require("./wasm");

const MODULE = path.join(__dirname, "..", "firthnapkin.wasm");

// The path of the loader that a program of 64 bits names, and "" if it names none.
function loaderOf(program) {
  const file = fs.openSync(program, "r");
  try {
    const header = Buffer.alloc(64);
    const entry = Buffer.alloc(56);
    fs.readSync(file, header, 0, 64, 0);
    if (header.toString("latin1", 0, 6) !== "\x7fELF\x02\x01") return "";
    for (let number = 0; number < header.readUInt16LE(56); number++) {
      fs.readSync(file, entry, 0, 56, Number(header.readBigUInt64LE(32)) + number * header.readUInt16LE(54));
      if (entry.readUInt32LE(0) !== 3) continue;
      const loader = Buffer.alloc(Number(entry.readBigUInt64LE(32)));
      fs.readSync(file, loader, 0, loader.length, Number(entry.readBigUInt64LE(8)));
      return loader.toString().replace(/\0$/, "");
    }
    return "";
  } finally {
    fs.closeSync(file);
  }
}

// musl's loader, if this Node was linked with musl, and "" otherwise.
function muslLoader() {
  try {
    const loader = process.platform === "linux" ? loaderOf(process.execPath) : "";
    return loader.includes("ld-musl-") ? loader : "";
  } catch {
    return "";
  }
}

// The name of the addon for a processor and a C library, beside package.json.
function nameFor(processor, isMusl) {
  return `firthnapkin${processor === "arm64" ? "-arm64" : ""}${isMusl ? "-musl" : ""}.node`;
}

function ofModule() {
  const compiled = new WebAssembly.Module(fs.readFileSync(MODULE));
  return callsOf(() => new WebAssembly.Instance(compiled));
}

// What one of these returns; if none does, an error with these words and the reason of each.
function first(words, ...makes) {
  const reasons = [];
  for (const make of makes) {
    try {
      return make();
    } catch (error) {
      reasons.push(error.message);
    }
  }
  throw new Error(`firthnapkin: ${words}: ${reasons.join("; ")}`);
}

function loaded() {
  if (process.env.FIRTHNAPKIN_WASM === "1") return first("firthnapkin.wasm is not loaded", ofModule);
  const name = nameFor(process.arch, muslLoader() !== "");
  return first(`neither ${name} nor firthnapkin.wasm is loaded`, () => require(`../${name}`), ofModule);
}

let addon;

module.exports = {
  muslLoader,
  nameFor,
  get addon() {
    addon ??= loaded();
    return addon;
  },
};
