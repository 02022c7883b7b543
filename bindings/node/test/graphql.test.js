// Documents as graphql-js has them. FIRTHNAPKIN_GRAPHQL_JS names the folder of its release 16, or it is installed.
"use strict";

const assert = require("assert");
const { execFileSync } = require("child_process");
const fs = require("fs");
const os = require("os");
const { test } = require("node:test");
const path = require("path");

const { parse, toGraphQL, FirthnapkinError } = require("..");

/** graphql-js, if it is a release 16; otherwise undefined. */
function found() {
  try {
    const graphql = require(process.env.FIRTHNAPKIN_GRAPHQL_JS ?? "graphql");
    return graphql.versionInfo.major === 16 ? graphql : undefined;
  } catch {
    return undefined;
  }
}

const graphql = found();
const skip = graphql ? false : "no graphql-js 16: FIRTHNAPKIN_GRAPHQL_JS may name its folder";
const ROWS = process.env.FIRTHNAPKIN_ROWS;

// Sources with each production, each kind of a value, and all that is no token.
const SOURCES = [
  "{a}", "query{a}", "mutation M{a}", "subscription S @a @b(c: 1) {a}", "{ x: a y: b(c: 1) z: d @e f { g } }",
  'query Q($a: T, $b: [T!]! = [1, 2] @c(d: 3) @e, $f: [[T]!] = {g: {}, h: []} $i: T! = null) { j }',
  '{ a(b: null, c: true, d: false, e: E, f: $g, h: -0, i: 2147483647, j: 99999999999999999999, k: -1.50e+3, l: "m", n: """o""") }',
  '{ a(b: "\\u00e9\\n\\"\\\\\\/\\b\\f\\r\\t", c: "", d: "\u00e9\u{1d11e}", e: """\n    f\n      g\n\n    \\""" \u{1d11e}\n  """, h: """""") }',
  "query($a: T @b, $c: [U!] @d(e: 1) @f, $g: V) @h {i}",
  "{ ...A ...B @c ... on D { e } ... on F @g { h } ... @i { j } ... { k } }",
  "fragment A on B { c } fragment D on E @f(g: [[], [1], {h: [{}]}]) @i { ...A } query { j } { k }",
  "\ufeff# \u00e9\u{1d11e}\n#\n\t,,{ a, # b\r\n b,,,\r c #\r }\n\n,# the end", '# a\r\n{ b(c: """d\r\ne\rf\n  g""", h: "i") # j\n  k }#',
  "query type($fragment: on) { query mutation subscription on: true null(on: on) @on ...fragment ... on on { on } } fragment fragment on on { type }",
  "{ \u0061(b: [\"\u4e16\", $\u0062 , 1.0]) \n\n  c:d}",
];

/** The tokens of a document, and its nodes with the indexes of their tokens: the links between tokens would be compared for each. */
function listed(document) {
  const tokens = [];
  for (let token = document.loc.startToken; token !== null; token = token.next) {
    assert.strictEqual(token.prev, tokens[tokens.length - 1] ?? null);
    tokens.push(token);
  }
  const indexes = new Map(tokens.map((token, index) => [token, index]));
  const nodeOf = (value) => {
    if (Array.isArray(value)) return value.map(nodeOf);
    if (typeof value !== "object" || value === null) return value;
    if (!(value instanceof graphql.Location)) return Object.fromEntries(Object.entries(value).map(([key, part]) => [key, nodeOf(part)]));
    assert.strictEqual(value.source, document.loc.source);
    return { ...value, source: null, startToken: indexes.get(value.startToken), endToken: indexes.get(value.endToken) };
  };
  return [document.loc.source, tokens.map((token) => Object.assign(Object.create(Object.getPrototypeOf(token)), { ...token, prev: null, next: null })), nodeOf(document)];
}

function compared(source, options) {
  const document = parse(source, options);
  const body = options?.name === undefined ? source : new graphql.Source(source, options.name);
  assert.deepStrictEqual(toGraphQL(document), graphql.parse(body, { noLocation: true }), source);
  assert.deepStrictEqual(listed(toGraphQL(document, { graphql })), listed(graphql.parse(body)), source);
  // All at once, which takes long for many tokens.
  if (source.length < 60) assert.deepStrictEqual(toGraphQL(document, { graphql }), graphql.parse(body), source);
}

test("sources with each production are as graphql-js has them", { skip }, () => {
  for (const source of SOURCES) {
    compared(source, { depth: 1000 });
    compared(source, { name: "pets.graphql" });
    // In memory of its own.
    compared(`${source}\n${" ".repeat(20000)}`);
  }
  compared("{a".repeat(500) + "}".repeat(500), { depth: 1000 });
  compared(`{a(b:${"[{c:".repeat(200)}1${"}]".repeat(200)})}`, { depth: 1000 });
  compared(`query($a: ${"[".repeat(900)}T${"!]".repeat(900)}) {a}`, { depth: 1000 });
});

test("the rows of the language that both read", { skip: skip || (ROWS ? false : "FIRTHNAPKIN_ROWS names no file") }, () => {
  let count = 0;
  for (const row of fs.readFileSync(ROWS, "latin1").trim().split("\n")) {
    const source = Buffer.from(row.split(" ")[0], "hex").toString();
    try {
      parse(source, { depth: 1000 });
      graphql.parse(source);
    } catch (error) {
      if (!(error instanceof FirthnapkinError || error instanceof graphql.GraphQLError)) throw error;
      continue;
    }
    compared(source, { depth: 1000 });
    count++;
  }
  assert.ok(count >= 170, `${count} rows`);
});

// What graphql-js's documents say of these productions; nothing here asks graphql-js.
const name = (value) => ({ kind: "Name", value });
const field = (value, more = {}) => ({
  kind: "Field", alias: undefined, name: name(value), arguments: [], directives: [], selectionSet: undefined, ...more,
});
const selectionSet = (...selections) => ({ kind: "SelectionSet", selections });
const argument = (key, value) => ({ kind: "Argument", name: name(key), value });

test("a document without locations", () => {
  const source = 'query Q($a: [T!] = E @d) { x: a(b: $c, e: -1, f: 2.5, g: true, h: "i", j: """k""", l: {m: [null]}) ...F ... on U { n } } fragment F on V { o }';
  const variable = (value) => ({ kind: "Variable", name: name(value) });
  const typeOf = (value) => ({ kind: "NamedType", name: name(value) });
  assert.deepStrictEqual(toGraphQL(parse(source)), {
    kind: "Document",
    definitions: [
      {
        kind: "OperationDefinition", operation: "query", name: name("Q"),
        variableDefinitions: [{
          kind: "VariableDefinition", variable: variable("a"),
          type: { kind: "ListType", type: { kind: "NonNullType", type: typeOf("T") } },
          defaultValue: { kind: "EnumValue", value: "E" }, directives: [{ kind: "Directive", name: name("d"), arguments: [] }],
        }],
        directives: [],
        selectionSet: selectionSet(
          field("a", {
            alias: name("x"),
            arguments: [
              argument("b", variable("c")), argument("e", { kind: "IntValue", value: "-1" }),
              argument("f", { kind: "FloatValue", value: "2.5" }), argument("g", { kind: "BooleanValue", value: true }),
              argument("h", { kind: "StringValue", value: "i", block: false }), argument("j", { kind: "StringValue", value: "k", block: true }),
              argument("l", { kind: "ObjectValue", fields: [{ kind: "ObjectField", name: name("m"), value: { kind: "ListValue", values: [{ kind: "NullValue" }] } }] }),
            ],
          }),
          { kind: "FragmentSpread", name: name("F"), directives: [] },
          { kind: "InlineFragment", typeCondition: typeOf("U"), directives: [], selectionSet: selectionSet(field("n")) },
        ),
      },
      { kind: "FragmentDefinition", name: name("F"), typeCondition: typeOf("V"), directives: [], selectionSet: selectionSet(field("o")) },
    ],
  });
});

test("wrong arguments", () => {
  const document = parse("{ a }");
  for (const other of [undefined, null, "{ a }", {}, document.node(0), Object.create(null)])
    assert.throws(() => toGraphQL(other), { name: "TypeError", message: "document must be a Document" });
  for (const [options, message] of [
    [null, "options must be an object, not null"], [5, "options must be an object, not number"],
    [{ noLocation: true }, "there is no option noLocation, only graphql"],
  ])
    assert.throws(() => toGraphQL(document, options), { name: "TypeError", message });
  for (const given of [null, 5, {}, { Lexer() {}, Location: 5, Source() {} }, () => 5])
    assert.throws(() => toGraphQL(document, { graphql: given }), { name: "TypeError", message: /^graphql must be graphql-js's module, which has / });
  assert.strictEqual(toGraphQL(document, { graphql: undefined }).loc, undefined);
});

test("a source that graphql-js's lexer refuses, or reads otherwise", { skip }, () => {
  // A name follows a number directly.
  const document = parse("{ a(b: [1c]) }");
  assert.strictEqual(toGraphQL(document).definitions.length, 1);
  assert.throws(() => toGraphQL(document, { graphql }), { name: "GraphQLError" });
  class Lexer extends graphql.Lexer {
    constructor(source) {
      super(new graphql.Source(`${source.body} b`));
    }
  }
  assert.throws(() => toGraphQL(parse("{ a }"), { graphql: { ...graphql, Lexer, Location: graphql.Location, Source: graphql.Source } }), {
    message: "graphql-js has other tokens for this source",
  });
});

/** What a program writes in a folder in which both packages are installed, with the wrapper that the README shows. */
function written(program) {
  const folder = fs.mkdtempSync(path.join(os.tmpdir(), "firthnapkin-"));
  try {
    const readme = fs.readFileSync(path.join(__dirname, "..", "README.md"), "utf8");
    const [, shown] = /```js\n((?:(?!```)[^])*graphql\/language\/parser(?:(?!```)[^])*)```/.exec(readme);
    fs.mkdirSync(path.join(folder, "node_modules"));
    fs.symlinkSync(path.join(__dirname, ".."), path.join(folder, "node_modules", "firthnapkin"));
    fs.symlinkSync(process.env.FIRTHNAPKIN_GRAPHQL_JS ?? path.dirname(require.resolve("graphql")), path.join(folder, "node_modules", "graphql"));
    fs.writeFileSync(path.join(folder, "limits.js"), shown);
    fs.writeFileSync(path.join(folder, "main.js"), program);
    return JSON.parse(execFileSync(process.execPath, ["main.js"], { cwd: folder, encoding: "utf8" }));
  } finally {
    fs.rmSync(folder, { recursive: true });
  }
}

// A server that has loaded the wrapper.
const SERVER = `
  const { buildSchema, execute, graphql, parse, Source } = require("graphql");
  const schema = buildSchema("type Query { pet: Pet } type Pet { name: String, friend: Pet }");
  const rootValue = { pet: { name: "Rex", friend: { name: "Tom", friend: { name: "Ann" } } } };
  const before = parse("{ pet { name } }");
  require("./limits");
  const requests = [
    "{ pet { name friend { name } } }", new Source("{ pet { name } }", "pets.graphql"), "{\\n  pet { name \\u00e9 }\\n}", "{ pet ) }",
    "{ pet { " + "friend { ".repeat(30) + "name" + " }".repeat(32), "{ pet { ...F ...F } } fragment F on Pet { " + "name ".repeat(300) + "}",
    "{ pet { ...F } } fragment F on Pet { ...F }", new Source("{ pet ) }", "pets.graphql"), "{ other }",
    '{ pet(a: "\\u00e9") ) }',
  ];
  (async () => {
    const results = [];
    for (const source of requests) {
      const { data, errors } = await graphql({ schema, source, rootValue });
      results.push({ data, errors: errors?.map((error) => error.toJSON()), shown: errors?.map(String) });
    }
    const executed = execute({ schema, document: parse("{ pet { name } }"), rootValue });
    console.log(JSON.stringify([results, executed, parse("{ pet { name } }").definitions.length, before.definitions.length]));
  })();
`;

test("graphql-js executes requests with the wrapper that the README shows", { skip }, () => {
  const [results, executed, ...lengths] = written(SERVER);
  const excerpts = [];
  for (const { errors } of results) {
    const extensions = errors?.[0].extensions;
    if (extensions === undefined) continue;
    excerpts.push(extensions.excerpt);
    delete extensions.excerpt;
  }
  const extensions = { code: "GRAPHQL_PARSE_FAILED" };
  const wanted = [
    { data: { pet: { name: "Rex", friend: { name: "Tom" } } } },
    { data: { pet: { name: "Rex" } } },
    { errors: [{ message: 'Unknown character "\u00e9"', locations: [{ line: 2, column: 14 }], extensions }] },
    { errors: [{ message: 'Unexpected ")"', locations: [{ line: 1, column: 7 }], extensions }] },
    { errors: [{ message: "Too deeply nested", locations: [{ line: 1, column: 178 }], extensions }] },
    { errors: [{ message: "Too many fields in an operation without a name: 601, with a limit of 500", locations: [{ line: 1, column: 1 }], extensions }] },
    { errors: [{ message: "Fragment spread within itself", locations: [{ line: 1, column: 38 }], extensions }] },
    { errors: [{ message: 'Unexpected ")"', locations: [{ line: 1, column: 7 }], extensions }] },
    { errors: [{ message: 'Cannot query field "other" on type "Query".', locations: [{ line: 1, column: 3 }] }] },
    // The character takes one unit, and two bytes.
    { errors: [{ message: 'Unexpected ")"', locations: [{ line: 1, column: 15 }], extensions }] },
  ];
  assert.deepStrictEqual(results.map(({ data, errors }) => (errors ? { errors } : { data })), wanted);
  assert.strictEqual(results[7].shown[0], 'Unexpected ")"\n\npets.graphql:1:7\n1 | { pet ) }\n  |       ^');
  const [unknown, token, deep, large, cycle, named, argument] = excerpts;
  assert.strictEqual(unknown, "1 | {\n2 |   pet { name \u00e9 }\n  |              ^\n3 | }");
  assert.deepStrictEqual([token, named], Array(2).fill("1 | { pet ) }\n  |       ^"));
  assert.strictEqual(cycle, `1 | { pet { ...F } } fragment F on Pet { ...F }\n  | ${" ".repeat(37)}^`);
  assert.strictEqual(argument, `1 | { pet(a: "\u00e9") ) }\n  | ${" ".repeat(14)}^`);
  // Of long lines a part is shown.
  for (const excerpt of [deep, large]) assert.match(excerpt, /^1 \| .+\n  \| *\^$/);
  assert.deepStrictEqual([executed, lengths], [{ data: { pet: { name: "Rex" } } }, [1, 1]]);
});

// A server whose middleware is the README's. What that passes on gets a response of its own.
const MIDDLEWARE = `
  const http = require("http");
  const { checkBody } = require("./limits");
  const server = http.createServer(async (request, response) => {
    let body = "";
    for await (const part of request) body += part;
    if (body !== "") request.body = JSON.parse(body);
    request.query = Object.fromEntries(new URL(request.url, "http://localhost").searchParams);
    checkBody(request, response, (error) => response.end(JSON.stringify({ passed: error === undefined })));
  });
  const send = async (address, body) => {
    const { port } = server.address();
    const words = body === undefined ? {} : { method: "POST", body: JSON.stringify(body) };
    const response = await fetch("http://127.0.0.1:" + port + "/graphql" + address, words);
    return [response.status, response.headers.get("content-type"), await response.json()];
  };
  server.listen(0, "127.0.0.1", async () => {
    const found = [];
    for (const [address, body] of [
      ["", { query: "{ pet { name } }" }], ["?query={pet}"], [""], ["", { id: 5 }], ["", [{ query: "{ pet }" }, null, { query: "{ name }" }]],
      ["", { query: "{ pet ) }" }], ["?query={pet)}"], ["", [{ query: "{ pet }" }, { query: "{ pet ) }" }]], ["?query={pet}", { query: "{ pet ) }" }],
    ])
      found.push(await send(address, body));
    server.close();
    // No response is written for another error.
    const own = new RangeError("own");
    checkBody({ get body() { throw own; } }, null, (error) => found.push(error === own));
    console.log(JSON.stringify(found));
  });
`;

test("a server responds to requests with an error by the middleware that the README shows", { skip }, () => {
  const found = written(MIDDLEWARE);
  const readme = fs.readFileSync(path.join(__dirname, "..", "README.md"), "utf8");
  const [shown] = /^ {4}\{\n {6}"errors"(?:.|\n {4})*/m.exec(readme);
  const refused = [400, "application/json", JSON.parse(shown)];
  const short = structuredClone(refused);
  Object.assign(short[2].errors[0], { locations: [{ line: 1, column: 5 }] });
  short[2].errors[0].extensions.excerpt = "1 | {pet)}\n  |     ^";
  const passed = Array(5).fill([200, null, { passed: true }]);
  assert.deepStrictEqual(found, [...passed, refused, short, refused, refused, true]);
});
