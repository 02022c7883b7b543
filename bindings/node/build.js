// Builds the addon with a C compiler, over the archive and the headers that Node comes with, and writes lib/limits.d.ts. A release has
// both, and the archive: if this Node loads the addon, nothing is left to do. In the repository ./c-library builds the archive.
//
// Where there is no addon, the package uses its WebAssembly module. In the repository ./c-library --target wasm32 builds the module,
// which is copied here, and an ES module is made for browsers.
//
//     node build.js [PROCESSOR [musl]]    for another processor or C library, which $CC compiles for: x64 or arm64
"use strict";

const { execFileSync, spawnSync } = require("child_process");
const fs = require("fs");
const os = require("os");
const path = require("path");
const { muslLoader, nameFor } = require("./lib/addon");

const loader = muslLoader();
const processor = process.argv[2] || process.arch;
const isMusl = process.argv[2] ? process.argv[3] === "musl" : loader !== "";
const isForThisNode = processor === process.arch && isMusl === (loader !== "");
const folder = processor === "arm64" ? "aarch64" : "";
const inside = path.join(__dirname, "native");
const isRelease = fs.existsSync(inside);
const root = path.join(__dirname, "..", "..");
const library = path.join(isRelease ? inside : path.join(root, "out"), folder, "libfirthnapkin.a");
const headers = path.join(path.dirname(fs.realpathSync(process.execPath)), "..", "include", "node");
const output = path.join(__dirname, nameFor(processor, isMusl));
const module32 = path.join(root, "out", "wasm32", "firthnapkin.wasm");
const [copied, forBrowsers] = ["firthnapkin.wasm", "firthnapkin.mjs"].map((name) => path.join(__dirname, name));

// A release goes on with its WebAssembly module, if it has one.
function fail(words) {
  const goesOn = isRelease && fs.existsSync(copied);
  console.error(`firthnapkin${words}${goesOn ? ". The WebAssembly module is used" : ""}`);
  process.exit(goesOn ? 0 : 1);
}

// Copies the module that is built; one of before isn't left.
function takeModule() {
  for (const file of [copied, forBrowsers]) fs.rmSync(file, { force: true });
  if (!fs.existsSync(module32)) return;
  fs.copyFileSync(module32, copied);
  execFileSync(process.execPath, [path.join(root, "scripts", "wasm", "bundle.js"), "module", forBrowsers]);
}

// Whether a version is this one or a later one.
function isFrom(version, firstMajor, firstMinor) {
  const [major, minor] = version.split(".").map(Number);
  return major > firstMajor || (major === firstMajor && minor >= firstMinor);
}

// The C library of this Node, as messages name it, and whether the archive works with it. musl's loader writes its version where it is
// run without a program.
function cLibrary() {
  const glibc = process.report.getReport().header.glibcVersionRuntime;
  if (glibc) return [`glibc ${glibc}`, isFrom(glibc, 2, 17)];
  const [, musl] = (loader && /^Version ([0-9.]+)/m.exec(String(spawnSync(loader).stderr))) || [];
  return musl ? [`musl ${musl}`, isFrom(musl, 1, 2)] : ["a C library that is neither glibc nor musl", false];
}

function checkMachine() {
  const [name, suffices] = cLibrary();
  const machine = ["x64", "arm64"].includes(process.arch) && os.machine ? os.machine() : process.arch;
  const isKnown = ["x64", "x86_64", "arm64", "aarch64"].includes(machine);
  if (process.platform !== "linux" || !isKnown || !suffices) {
    const wanted = "Linux on x86-64 or aarch64 with glibc 2.17 or later, or musl 1.2 or later";
    fail(`'s addon is for ${wanted}, and this machine is ${os.type()} on ${machine} with ${name}`);
  }
}

function isBuilt() {
  try {
    require(output);
    return true;
  } catch {
    return false;
  }
}

function build() {
  for (const [file, hint] of [
    [library, `./c-library${folder && ` --target ${folder}`} builds it, in the repository's folder`],
    [path.join(headers, "node_api.h"), "it comes with Node's headers"],
  ]) {
    if (!fs.existsSync(file)) fail(`: ${file} is not there: ${hint}`);
  }
  const folders = isRelease ? [inside, headers] : [path.join(root, "include"), path.join(root, "bindings"), headers];
  const words = ["-O2", "-Wall", "-Wextra", "-fPIC", "-shared", "-pthread", ...folders.map((folder) => `-I${folder}`)];
  try {
    execFileSync(process.env.CC || "cc", [...words, "-o", output, path.join(__dirname, "addon.c"), library], { stdio: "inherit" });
  } catch (error) {
    fail(`: the addon is not built: ${error.message.split("\n")[0]}`);
  }
  if (isForThisNode) fs.writeFileSync(path.join(__dirname, "lib", "limits.d.ts"), require("./lib/limits").declaration());
}

if (!isRelease) takeModule();
checkMachine();
if (!isRelease || !isBuilt()) build();
