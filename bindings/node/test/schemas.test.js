// What errors say of definitions that no document has, and of descriptions.
"use strict";

const assert = require("assert");
const { test } = require("node:test");
const { parse, tokens, FirthnapkinError } = require("..");

const SCHEMA = ": this is a schema's definition, not a request's";
const DESCRIPTION = ": a description before a request isn't in the specification of October 2021";

function errorOf(source, options = { depth: 1000 }) {
  try {
    parse(source, options);
  } catch (error) {
    if (error instanceof FirthnapkinError) return error;
    throw error;
  }
  throw new Error(`${source.slice(0, 60)} is a document`);
}

// Fails unless a source is refused at this index with this reason.
function expect(source, index, reason) {
  const { reason: found, start } = errorOf(source);
  assert.deepStrictEqual([found, start.index], [reason, index], source.slice(0, 60));
}

// What may be before a definition: nothing, a comment, and documents, the last as deep as any may be.
const BEFORE = ["", "# é𝄞\n", "{ a } ", "fragment F on T { a }", "{a".repeat(1000) + "}".repeat(1000)];

test("the first token of a schema's definition, or of its description, is an error that says so", () => {
  for (const before of BEFORE) {
    for (const word of "type schema extend directive scalar interface union enum input".split(" ")) {
      expect(`${before}${word} A { b: C }`, before.length, `Unexpected "${word}"${SCHEMA}`);
      expect(`${before}"𝄞" ${word} A { b: C }`, before.length, `Unexpected ""𝄞""${SCHEMA}`);
    }
  }
  assert.strictEqual(errorOf("type A", { maxTokens: 0 }).reason, "Too many tokens");
  parse("{ type { schema(input: enum) } } query type { extend } fragment enum on union { scalar }");
});

test("a description before an operation or a fragment is an error that says so", () => {
  for (const begin of [
    "query Q { a }", "query{a}", "mutation($b: C) { a }", "subscription { a }", "{ a }", "{", "fragment F on T { a }", "query )",
  ])
    for (const before of BEFORE) expect(`${before}"text" ${begin}`, before.length, `Unexpected ""text""${DESCRIPTION}`);
  for (const description of ['"text"', '""', '"query é𝄞"', '"""text"""', '"""\n query\n"""', '""""""']) {
    for (const separator of ["", " ", "\n", ",", "\ufeff", "#, type query\n\t", " # é𝄞\n,, # {\r\n"]) {
      expect(`{ a }${description}${separator}query Q { a }`, 5, `Unexpected "${description}"${DESCRIPTION}`);
      expect(`${description}${separator}union U = A`, 0, `Unexpected "${description}"${SCHEMA}`);
    }
  }
});

test("nothing is said of another unexpected token, and of a description of anything else", () => {
  for (const [before, source] of [
    ["query type ", "type { a }"],
    ["query Q ", "query { a }"],
    ["{ a } ", "b"],
    ["{ a } ", "} query"],
    ["{ a(b: ", ") type }"],
    ["{ a(b: ", ") query }"],
    ["{ a ", '"b" }'],
    ["{ a ", '"b" query }'],
    ["query ($a: ", '"b") { a }'],
    ["query (", '"b" $query: C) { a }'],
    ["", '"b"'],
    ["{ a } ", '"b" # query'],
    ["", '"b" A { b: C }'],
    ["", '"b" "c" query Q { a }'],
    ["", '"b" "query" { a }'],
    ["", '"b" } query { a }'],
    ["", '"b" """c""" type A { b: C }'],
    ["", '"b" queries Q { a }'],
    ["", '"b" Query { a }'],
    ["", '"b" on { a }'],
    ["", '"b" constructor { a }'],
    ["{ a } ", '"b" ) query { a }'],
  ])
    expect(before + source, before.length, `Unexpected "${tokens(source).token(0).text}"`);
});
