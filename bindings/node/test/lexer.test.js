// The tokens of a source, and its canonical text.
"use strict";

const assert = require("assert");
const { test } = require("node:test");

const { canonical, parse, tokens, FirthnapkinError } = require("..");

const WHOLE = '#é\n{a(b:"é𝄞\\"" c:""" \n𝄞"""),...F} -1 0.5 [!$@=:|]';

/** The position at an index: each is counted in UTF-16 units, but for the bytes. */
function positionAt(text, index) {
  const before = text.slice(0, index);
  const column = index - (before.lastIndexOf("\n") + 1);
  return { index, line: before.split("\n").length - 1, column, byte: Buffer.byteLength(before) };
}

test("each kind of token, with its texts and positions", () => {
  const wanted = [
    ["curlyOpen", "{", "{"], ["name", "a", "a"], ["parenOpen", "(", "("], ["name", "b", "b"], ["colon", ":", ":"],
    ["string", '"é𝄞\\""', 'é𝄞\\"'], ["name", "c", "c"], ["colon", ":", ":"], ["blockString", '""" \n𝄞"""', " \n𝄞"],
    ["parenClose", ")", ")"], ["ellipsis", "...", "..."], ["name", "F", "F"], ["curlyClose", "}", "}"], ["int", "-1", "-1"],
    ["float", "0.5", "0.5"], ["bracketOpen", "[", "["], ["exclamationMark", "!", "!"], ["dollar", "$", "$"], ["at", "@", "@"],
    ["equals", "=", "="], ["colon", ":", ":"], ["pipe", "|", "|"], ["bracketClose", "]", "]"], ["endOfFile", "", ""],
  ];
  const found = tokens(WHOLE);
  assert.deepStrictEqual(Array.from(found, (token) => [token.kind, token.text, token.unquoted]), wanted);
  assert.deepStrictEqual([found.length, found.source], [24, WHOLE]);
  let at = 0;
  for (const { start, end, text, line, column } of found) {
    at = text === "" ? WHOLE.length : WHOLE.indexOf(text, at);
    assert.deepStrictEqual([start, end], [positionAt(WHOLE, at), positionAt(WHOLE, at + text.length)]);
    assert.deepStrictEqual([line, column], [start.line + 1, start.column + 1]);
    at += text.length;
  }
  assert.strictEqual(found.token(3).excerpt.split("\n")[2], "  |    ^");
  assert.strictEqual(found.token(3).index, 3);
  for (const index of [-1, 24, 1.5, NaN, "0", null]) assert.throws(() => found.token(index), RangeError);
});

test("numbers of tokens around the capacities that are tried, and large ones", () => {
  for (const count of [0, 1, 15, 16, 17, 18, 100, 5000, 300000]) {
    for (const part of ["a ", "!"]) {
      const found = tokens(part.repeat(count));
      const last = found.token(found.length - 1);
      assert.deepStrictEqual([found.length, last.kind, last.start.index], [count + 1, "endOfFile", count * part.length]);
    }
  }
});

test("what is no document has tokens", () => {
  assert.deepStrictEqual(Array.from(tokens(") type {"), (token) => token.text), [")", "type", "{", ""]);
  assert.strictEqual(tokens("{".repeat(100000)).length, 100001);
});

test("canonical texts", () => {
  for (const [source, wanted] of [
    ["", ""],
    [" # all\n,", ""],
    ['{ a, b(c: "d") } # all', '{a b(c:"d")}'],
    ["\ufeffquery Q ($v : [ T ! ] = 1) { a ... on T { b } ...F }", "query Q($v:[T!]=1){a ...on T{b}...F}"],
    ['{a(b: "é  ,#" , c: """\n # 𝄞\n""")}', '{a(b:"é  ,#" c:"""\n # 𝄞\n""")}'],
    [") } type", ")}type"],
    ["a\r\nb\tc", "a b c"],
    ['1a""'.repeat(100000), '1 a "" '.repeat(100000).trim()],
  ]) {
    assert.strictEqual(canonical(source), wanted);
    assert.strictEqual(canonical(wanted), wanted);
  }
});

function errorOf(call, ...words) {
  try {
    call(...words);
  } catch (error) {
    assert.ok(error instanceof FirthnapkinError, String(error));
    return error;
  }
  throw new Error("no error");
}

test("lexical errors", () => {
  for (const [source, detail, message] of [
    ["} é ?", "unknownCharacter", 'Unknown character "é". At 1:3'],
    ["a\n01", "unexpectedCharacter", 'Unexpected character "1". At 2:2'],
    ['{{{ "é', "unterminatedString", "Unterminated string literal. At 1:7"],
    ["# é\n-", "unexpectedEndInToken", "Unexpected end of input. At 2:2"],
    [`${"a".repeat(5000)}"\\é`, "unknownEscape", 'Unknown escape sequence "\\é" in string. At 1:5003'],
    ['\n"\ud800', null, "Lone surrogate U+D800. At 2:2"],
  ]) {
    for (const call of [tokens, canonical, parse]) {
      const error = errorOf(call, source);
      assert.deepStrictEqual([error.detail, error.message], [detail, message], call.name);
      assert.strictEqual(error.kind, detail === null ? "surrogate" : "lexical");
    }
  }
});

test("limits on tokens", () => {
  const count = tokens(WHOLE).length - 1;
  for (const maxTokens of [count, count + 1, 2 ** 32 - 1, 2 ** 32, 2 ** 53 - 1, undefined])
    assert.strictEqual(tokens(WHOLE, { maxTokens }).length, count + 1);
  for (const [maxTokens, token] of Array.from(tokens(WHOLE)).slice(0, count).entries()) {
    const error = errorOf(tokens, WHOLE, { maxTokens });
    assert.deepStrictEqual([error.kind, error.reason], ["tooManyTokens", "Too many tokens"]);
    assert.deepStrictEqual([error.start, error.end], [token.start, token.end]);
  }
});

test("arguments that are refused", () => {
  for (const maxTokens of [-1, 0.5, NaN, Infinity, 2 ** 53]) assert.throws(() => tokens("{", { maxTokens }), RangeError);
  for (const maxTokens of [null, "5", [], {}, true, 5n]) assert.throws(() => tokens("{", { maxTokens }), TypeError);
  for (const options of [null, 5, [], "a"]) assert.throws(() => tokens("{", options), TypeError);
  assert.throws(() => tokens("{", { depth: 5 }), { name: "TypeError", message: "there is no option depth, only maxTokens and name" });
  for (const source of [undefined, null, 5, Buffer.from("{a}"), { toString: () => "{a}" }]) {
    assert.throws(() => tokens(source), { name: "TypeError", message: /^source must be a string, not / });
    assert.throws(() => canonical(source), { name: "TypeError", message: /^source must be a string, not / });
  }
});
