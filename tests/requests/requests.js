#!/usr/bin/env node
// Makes each call of Node's package on each text of a corpus, as tests/corpus.py writes one, between two lines of standard output:
// tests/refusing_malloc.c notes how many bytes each requests.
//
//     node tests/requests/requests.js PACKAGE CORPUS
"use strict";

const fs = require("node:fs");
const path = require("node:path");
const { texts } = require("../corpus.js");

const firthnapkin = require(path.resolve(process.argv[2]));

const CALLS = [
  (text) => firthnapkin.parse(text),
  (text) => firthnapkin.check(text),
  (text) => firthnapkin.tokens(text),
  (text) => firthnapkin.canonical(text),
  (text) => firthnapkin.parse(text, { maxFields: 2 ** 31 }),
  (text) => firthnapkin.check(text, { maxFields: 2 ** 31 }),
  (text) => firthnapkin.parse(text).operations[0].complexity,
  (text) => firthnapkin.parse(text).node(0).excerpt,
  (text) => { for (const node of firthnapkin.parse(text)) node.value; },
];

function tried(call, text) {
  try {
    call(text);
  } catch (error) {
    if (!(error instanceof firthnapkin.FirthnapkinError)) throw error;
  }
}

// V8 requests memory of its own where a function is called for the first time.
for (const text of ["{ a(b: [1, \"c\"]) }", "{ 𝄞"]) for (const call of CALLS) tried(call, text);

for (const text of texts(process.argv[3])) {
  for (const call of CALLS) {
    fs.writeSync(1, "\n");
    tried(call, text);
    fs.writeSync(1, "\n");
  }
}
