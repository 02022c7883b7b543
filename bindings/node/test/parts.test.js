// The parts of a document by their names.
"use strict";

const assert = require("assert");
const { test } = require("node:test");

const { parse, Field, FirthnapkinError, FragmentSpread, InlineFragment } = require("..");

const PETS = `query Pets($first: Int! = 10 @show(as: "limit"), $tags: [ String ! ]) @live @cached(for: 5) {
  cats: pets(first: $first, tags: $tags) @include(if: true) { name ...Owner @defer }
  ... on Cat @skip(if: false) { lives }
  ... { id }
}
mutation { feed }
subscription Births { birth }
fragment Owner on Person @private { email }`;

const texts = (parts) => parts.map((part) => part.text);

test("operations", () => {
  const document = parse(PETS);
  assert.deepStrictEqual(
    document.operations.map(({ kind, name }) => [kind, name]),
    [["query", "Pets"], ["mutation", null], ["subscription", "Births"]],
  );
  const [pets, feed] = document.operations;
  assert.deepStrictEqual(texts(pets.variables), ['$first: Int! = 10 @show(as: "limit")', "$tags: [ String ! ]"]);
  assert.deepStrictEqual(texts(pets.directives), ["@live", "@cached(for: 5)"]);
  assert.strictEqual(pets.selections.length, 3);
  assert.deepStrictEqual([feed.variables, feed.directives, texts(feed.selections)], [[], [], ["feed"]]);
  assert.strictEqual(pets.text, PETS.slice(0, PETS.indexOf("\nmutation")));
  assert.strictEqual(pets.node.document, document);
});

test("an operation by its name", () => {
  const document = parse("query A { a } query B { b } query A { c }");
  assert.strictEqual(document.operation("A").text, "query A { a }");
  assert.strictEqual(document.operation("B").text, "query B { b }");
  for (const name of ["C", "a", ""]) assert.strictEqual(document.operation(name), null);
  for (const name of [undefined, null]) assert.strictEqual(document.operation(name), null);
  for (const source of ["query A { a }", "{ a }", "{ a } fragment F on T { b }"])
    assert.strictEqual(parse(source).operation().node.index, 0);
  assert.strictEqual(parse("fragment F on T { b }").operation(), null);
  assert.strictEqual(parse("{ a }").operation(""), null);
  for (const name of [5, {}, ["A"], Symbol("A"), true]) {
    assert.throws(() => document.operation(name), { name: "TypeError", message: /^name must be a string, not / });
    assert.throws(() => document.fragment(name), { name: "TypeError", message: /^name must be a string, not / });
  }
});

test("fragments", () => {
  const document = parse(PETS);
  const owner = document.fragment("Owner");
  assert.deepStrictEqual(
    [owner.kind, owner.name, owner.typeCondition, texts(owner.directives), texts(owner.selections)],
    ["fragmentDefinition", "Owner", "Person", ["@private"], ["email"]],
  );
  assert.deepStrictEqual(texts(document.fragments), [owner.text]);
  assert.strictEqual(document.fragment("Pets"), null);
  // The first of two of a name, and both in the list.
  const doubled = parse("fragment F on A { a } fragment F on B { b }");
  assert.deepStrictEqual([doubled.fragment("F").typeCondition, doubled.fragments.length], ["A", 2]);
});

test("selections", () => {
  const [cats, onCat, bare] = parse(PETS).operation("Pets").selections;
  assert.ok(cats instanceof Field && onCat instanceof InlineFragment && bare instanceof InlineFragment);
  assert.deepStrictEqual(
    [cats.kind, cats.alias, cats.name, cats.responseKey, texts(cats.arguments), texts(cats.directives)],
    ["field", "cats", "pets", "cats", ["first: $first", "tags: $tags"], ["@include(if: true)"]],
  );
  const [name, spread] = cats.selections;
  assert.deepStrictEqual(
    [name.alias, name.name, name.responseKey, name.arguments, name.directives, name.selections],
    [null, "name", "name", [], [], []],
  );
  assert.ok(spread instanceof FragmentSpread);
  assert.deepStrictEqual([spread.kind, spread.name, texts(spread.directives)], ["fragmentSpread", "Owner", ["@defer"]]);
  assert.deepStrictEqual(
    [onCat.kind, onCat.typeCondition, texts(onCat.directives), texts(onCat.selections)],
    ["inlineFragment", "Cat", ["@skip(if: false)"], ["lives"]],
  );
  assert.deepStrictEqual([bare.typeCondition, texts(bare.selections)], [null, ["id"]]);
});

test("variable definitions", () => {
  const { variables } = parse("query ($a: [T ! ] ! = [1, null] @d(x: 1), $b: Int, $c: Int = null @e, $d: Int @f(y: 2)) { a }").operation();
  assert.deepStrictEqual(
    variables.map(({ kind, name, type, defaultValue, directives }) => [kind, name, type, defaultValue, texts(directives)]),
    [
      ["variableDefinition", "a", "[T!]!", [1, null], ["@d(x: 1)"]],
      ["variableDefinition", "b", "Int", undefined, []],
      ["variableDefinition", "c", "Int", null, ["@e"]],
      ["variableDefinition", "d", "Int", undefined, ["@f(y: 2)"]],
    ],
  );
  assert.deepStrictEqual(texts(variables), ["$a: [T ! ] ! = [1, null] @d(x: 1)", "$b: Int", "$c: Int = null @e", "$d: Int @f(y: 2)"]);
});

test("arguments and directives", () => {
  const [field] = parse('{ f(a: 1, b: {c: [2]} , a: 3) @g(h: "i", h: E) }').operation().selections;
  const { kind, name, value, text } = field.argument("a");
  // The first of two of a name.
  assert.deepStrictEqual([kind, name, value, text], ["argument", "a", 1, "a: 1"]);
  assert.deepStrictEqual(texts(field.arguments), ["a: 1", "b: {c: [2]}", "a: 3"]);
  const [directive] = field.directives;
  assert.deepStrictEqual(
    [directive.kind, directive.name, directive.argument("h").value, texts(directive.arguments)],
    ["directive", "g", "i", ['h: "i"', "h: E"]],
  );
  for (const part of [field, directive]) {
    assert.strictEqual(part.argument("c"), null);
    for (const word of [undefined, null, 5, {}]) assert.throws(() => part.argument(word), TypeError);
  }
  assert.strictEqual(parse("{ a @b }").operation().selections[0].directives[0].argument("c"), null);
});

test("lines and columns are counted from 1, columns in UTF-16 units", () => {
  const [operation] = parse('# é𝄞\nquery Q($v: Int) {\n  a(b: "é𝄞", c: 1) @d\n}').operations;
  const [field] = operation.selections;
  for (const [part, line, column] of [
    [operation, 2, 1], [operation.variables[0], 2, 9], [field, 3, 3], [field.arguments[0], 3, 5], [field.arguments[1], 3, 15],
    [field.directives[0], 3, 21], [field.node, 3, 3],
  ])
    assert.deepStrictEqual([part.line, part.column], [line, column], part.text);
  const wanted = '2 | query Q($v: Int) {\n3 |   a(b: "é𝄞", c: 1) @d\n  |              ^\n4 | }';
  assert.deepStrictEqual([field.arguments[1].excerpt, field.arguments[1].node.excerpt], [wanted, wanted]);
});

function errorOf(source, options) {
  try {
    parse(source, options);
  } catch (error) {
    if (error instanceof FirthnapkinError) return error;
    throw error;
  }
  throw new Error("a document");
}

test("excerpts of errors", () => {
  for (const [source, wanted] of [
    ["{\n  a )\n}", "1 | {\n2 |   a )\n  |     ^\n3 | }"],
    ["{ a ? }", "1 | { a ? }\n  |     ^"],
    ["\n\n\n\n\n\n\n\n{\r\n)", " 9 | {\n10 | )\n   | ^"],
    ['{\n"é\ud800"}', '1 | {\n2 | "é\ufffd"}\n  |   ^'],
    [`{${"a ".repeat(5000)})`, `1 | ${"a ".repeat(20)})\n  | ${" ".repeat(40)}^`],
  ])
    assert.strictEqual(errorOf(source).excerpt, wanted);
  assert.strictEqual(errorOf("{ a }", { maxTokens: 1 }).excerpt, "1 | { a }\n  |   ^");
  // A program that changes an error's position gets an error.
  const error = errorOf("{");
  error.start.byte = 5;
  assert.throws(() => error.excerpt, { message: "the library returned invalid_error" });
});

test("many parts", () => {
  const { selections } = parse(`{${"a(b: 1) ".repeat(100000)}}`).operation();
  assert.strictEqual(selections.length, 100000);
  const { value, column } = selections[99999].argument("b");
  assert.deepStrictEqual([value, column], [1, 1 + 8 * 99999 + 3]);
});
