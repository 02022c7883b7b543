// Which addon is loaded: that for the processor and for the C library with which Node was linked.
"use strict";

const assert = require("assert");
const fs = require("fs");
const os = require("os");
const path = require("path");
const test = require("node:test");
const { addon, muslLoader, nameFor } = require("../lib/addon");

// The first bytes of a program of 64 bits whose only segment names this loader.
function programOf(loader) {
  const program = Buffer.alloc(160 + loader.length + 1);
  program.write("\x7fELF\x02\x01", "latin1");
  program.writeBigUInt64LE(64n, 32);
  program.writeUInt16LE(56, 54);
  program.writeUInt16LE(1, 56);
  program.writeUInt32LE(3, 64);
  program.writeBigUInt64LE(160n, 72);
  program.writeBigUInt64LE(BigInt(loader.length + 1), 96);
  program.write(loader, 160);
  return program;
}

// What is said of musl if Node's program has these bytes; without any there is none.
function loaderOf(content) {
  const folder = fs.mkdtempSync(path.join(os.tmpdir(), "firthnapkin-"));
  const own = process.execPath;
  try {
    process.execPath = path.join(folder, "node");
    if (content) fs.writeFileSync(process.execPath, content);
    return muslLoader();
  } finally {
    process.execPath = own;
    fs.rmSync(folder, { recursive: true });
  }
}

const onLinux = { skip: process.platform === "linux" ? false : "this isn't Linux" };

test("a Node that was linked with musl", onLinux, () => {
  for (const loader of ["/lib/ld-musl-x86_64.so.1", "/usr/lib/ld-musl-aarch64.so.1"])
    assert.strictEqual(loaderOf(programOf(loader)), loader);
});

test("a Node that wasn't linked with musl, or of which that can't be read", onLinux, () => {
  const musl = programOf("/lib/ld-musl-x86_64.so.1");
  const others = [programOf("/lib64/ld-linux-x86-64.so.2"), Buffer.from("#!/bin/sh\n"), musl.subarray(0, 90), undefined];
  for (const change of [(it) => it.writeUInt8(1, 4), (it) => it.writeUInt32LE(1, 64), (it) => it.writeUInt16LE(0, 56)]) {
    others.push(Buffer.from(musl));
    change(others[others.length - 1]);
  }
  for (const content of others) assert.strictEqual(loaderOf(content), "");
});

test("the name of an addon", () => {
  assert.strictEqual(nameFor("x64", false), "firthnapkin.node");
  assert.strictEqual(nameFor("arm64", false), "firthnapkin-arm64.node");
  assert.strictEqual(nameFor("x64", true), "firthnapkin-musl.node");
  assert.strictEqual(nameFor("arm64", true), "firthnapkin-arm64-musl.node");
  // FIRTHNAPKIN_WASM=1 chooses the module.
  if (process.env.FIRTHNAPKIN_WASM !== "1") assert.strictEqual(addon, require(`../${nameFor(process.arch, muslLoader() !== "")}`));
});
