// What console.log and JSON.stringify write of nodes and documents.
"use strict";

const assert = require("assert");
const { test } = require("node:test");
const { inspect } = require("util");

const { parse, Field, Node } = require("..");

const position = (index, line, column) => ({ index, line, column, byte: index });

test("JSON of a node and of a document", () => {
  const document = parse("{ a(b: -7)\n  c }");
  const int = { kind: "int", name: null, value: -7, start: position(7, 0, 7), end: position(9, 0, 9), children: [] };
  const argument = { kind: "argument", name: "b", value: null, start: position(4, 0, 4), end: position(5, 0, 5), children: [int] };
  const list = { kind: "arguments", name: null, value: null, start: position(3, 0, 3), end: position(10, 0, 10), children: [argument] };
  const first = { kind: "field", name: "a", value: null, start: position(2, 0, 2), end: position(10, 0, 10), children: [list] };
  const second = { kind: "field", name: "c", value: null, start: position(13, 1, 2), end: position(14, 1, 3), children: [] };
  const query = { kind: "query", name: null, value: null, start: position(0, 0, 0), end: position(16, 1, 5), children: [first, second] };
  assert.deepStrictEqual(document.node(1).toJSON(), first);
  assert.deepStrictEqual(JSON.parse(JSON.stringify(document.node(5))), second);
  assert.deepStrictEqual(JSON.parse(JSON.stringify(document)), { definitions: [query] });
  assert.deepStrictEqual(JSON.parse(JSON.stringify([...document]))[0], query);
});

test("JSON of values that it doesn't have", () => {
  for (const [text, value] of [
    ["99999999999", "99999999999"],
    ["9".repeat(5000), "9".repeat(5000)],
    ["1e400", "1e400"],
    ["-1e400", "-1e400"],
    ["1e300", 1e300],
    ["true", true],
    ["E", "E"],
    ["$v", "v"],
    ['"\\u00e9"', "é"],
  ]) {
    assert.strictEqual(JSON.parse(JSON.stringify(parse(`{ a(b: ${text}) }`).node(4))).value, value);
  }
});

test("a deep document as JSON, and shown", () => {
  const document = parse("{a(b:{c:".concat("[".repeat(990), "1", "]".repeat(990), "})}"), { depth: 1000 });
  assert.strictEqual(JSON.stringify(document).split('"list"').length - 1, 990);
  const lists = parse(`{a(b:${"[".repeat(100)}${"]".repeat(100)})}`);
  assert.strictEqual(inspect(lists.node(0), { depth: null }).split("'list'").length - 1, 100);
});

test("what console.log shows of a node", () => {
  const document = parse("{ a(b: 99999999999999999999, c: 1e400) { d } }");
  const shown = inspect(document.node(1), { breakLength: Infinity });
  assert.match(shown, /^Node \{ kind: 'field', name: 'a', value: null, start: \{ index: 2, line: 0, column: 2, byte: 2 \}, end: \{/);
  assert.match(shown, /children: \[ Node \{ kind: 'arguments', .*children: \[Array\] \}, Node \{ kind: 'field', name: 'd'/);
  assert.match(inspect(document.node(4)), /value: 99999999999999999999n/);
  assert.match(inspect(document.node(6)), /value: '1e400'/);
  assert.match(inspect(parse(`{ a(b: ${"9".repeat(4301)}) }`).node(4)), /value: '9999/);
  assert.match(inspect([document.node(7)], { depth: 0 }), /^\[ \[Node\] \]$/);
  assert.match(inspect(Node, { showHidden: true }), /\[class Node\]/);
});

test("what is shown of a part, and its JSON", () => {
  const [field] = parse("{ x: a(b: 1) { c } }").operation().selections;
  assert.strictEqual(inspect([field, field.arguments[0]]), "[ Field x: a(b: 1) { c }, Argument b: 1 ]");
  assert.deepStrictEqual(JSON.parse(JSON.stringify(field)), field.node.toJSON());
  assert.match(inspect(Field, { showHidden: true }), /\[class Field extends Part\]/);
});
