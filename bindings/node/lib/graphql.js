// A document as the nodes of graphql-js 16: each method makes those of a production of the grammar, in the order of the source.
"use strict";

const { requireOptions } = require("./calls");
const { Document, KINDS, LENGTH, NAME, VALUE } = require("./document");
const { WORDS_OF_NODE } = require("./found");

// What graphql-js names values of these kinds.
const VALUES = new Map([
  ["int", "IntValue"], ["largeInt", "IntValue"], ["float", "FloatValue"], ["enum", "EnumValue"],
]);

// The tokens of a source by graphql-js's own lexer, and the locations that are of them.
class Locations {
  #graphql;
  #source;
  #lexer;

  constructor(graphql, source, name) {
    this.#graphql = graphql;
    this.#source = new graphql.Source(source, name ?? undefined);
    this.#lexer = new graphql.Lexer(this.#source);
  }

  // The next token.
  get token() {
    return this.#lexer.token;
  }

  advance() {
    this.#lexer.advance();
  }

  // Advances over the end.
  finish() {
    if (this.token.kind !== "<EOF>") throw new Error("graphql-js has other tokens for this source");
    this.advance();
  }

  // Adds the location from a token to the last one that was advanced over.
  add(start, node) {
    node.loc = new this.#graphql.Location(start, this.#lexer.lastToken, this.#source);
  }
}

const NO_LOCATIONS = { token: undefined, advance() {}, finish() {}, add() {} };

class Converter {
  #document;
  #locations;
  #index = 0;

  constructor(document, locations) {
    this.#document = document;
    this.#locations = locations;
  }

  // A number of the next node, its kind, and the index after the parts in it.
  #word(number) {
    return this.#document.word(WORDS_OF_NODE * this.#index + number);
  }

  get #kind() {
    return KINDS[this.#word(0)];
  }

  get #end() {
    return this.#index + 1 + this.#word(1);
  }

  get #nameOfNode() {
    return this.#document.nameAt(this.#word(NAME), this.#word(NAME + 1));
  }

  get #hasName() {
    return this.#word(NAME) !== this.#word(NAME + 1);
  }

  get #text() {
    return this.#document.texts.utf8Slice(this.#word(VALUE), this.#word(VALUE) + this.#word(LENGTH));
  }

  // A node of graphql-js, which begins at a token.
  #node(start, node) {
    this.#locations.add(start, node);
    return node;
  }

  #nameOf(value) {
    const start = this.#locations.token;
    this.#locations.advance();
    return this.#node(start, { kind: "Name", value });
  }

  // What one makes of each node before an end.
  #all(end, one) {
    const found = [];
    while (this.#index < end) found.push(one());
    return found;
  }

  // The node of a value or a type that was parsed alone.
  literal() {
    this.#locations.advance();
    const node = this.#kind === "type" ? this.#type(this.#text) : this.#value();
    this.#locations.finish();
    return node;
  }

  whole() {
    return this.#document.isLiteral ? this.literal() : this.document();
  }

  document() {
    const start = this.#locations.token;
    this.#locations.advance();
    const definitions = this.#all(this.#document.length, () => this.#definition());
    this.#locations.finish();
    return this.#node(start, { kind: "Document", definitions });
  }

  #definition() {
    return this.#kind === "fragmentDefinition" ? this.#fragmentDefinition() : this.#operationDefinition();
  }

  #operationDefinition() {
    const start = this.#locations.token;
    const end = this.#end;
    const operation = this.#kind;
    // A query may begin with its selections.
    if (start?.kind !== "{") this.#locations.advance();
    const name = this.#hasName ? this.#nameOf(this.#nameOfNode) : undefined;
    this.#index++;
    return this.#node(start, {
      kind: "OperationDefinition",
      operation,
      name,
      variableDefinitions: this.#list(end, "variableDefinitions", () => this.#variableDefinition()),
      directives: this.#directives(end),
      selectionSet: this.#selectionSet(end),
    });
  }

  // The parts of the next node, if it is of a kind that is written between parentheses.
  #list(end, kind, one) {
    if (this.#index === end || this.#kind !== kind) return [];
    const last = this.#end;
    this.#index++;
    this.#locations.advance();
    const found = this.#all(last, one);
    this.#locations.advance();
    return found;
  }

  #variableDefinition() {
    const start = this.#locations.token;
    const end = this.#end;
    const variable = this.#variable();
    this.#locations.advance();
    const type = this.#type(this.#text);
    this.#index++;
    let defaultValue;
    if (this.#index < end && this.#kind !== "directive") {
      this.#locations.advance();
      defaultValue = this.#value();
    }
    return this.#node(start, { kind: "VariableDefinition", variable, type, defaultValue, directives: this.#directives(end) });
  }

  #variable() {
    const start = this.#locations.token;
    this.#locations.advance();
    const name = this.#nameOf(this.#nameOfNode);
    this.#index++;
    return this.#node(start, { kind: "Variable", name });
  }

  // A type that is written so, without spaces.
  #type(text) {
    const start = this.#locations.token;
    const inner = text.endsWith("!") ? text.slice(0, -1) : text;
    const type = inner.startsWith("[") ? this.#listType(inner.slice(1, -1)) : this.#namedType(inner);
    if (inner === text) return type;
    this.#locations.advance();
    return this.#node(start, { kind: "NonNullType", type });
  }

  #listType(text) {
    const start = this.#locations.token;
    this.#locations.advance();
    const type = this.#type(text);
    this.#locations.advance();
    return this.#node(start, { kind: "ListType", type });
  }

  #namedType(text) {
    const start = this.#locations.token;
    return this.#node(start, { kind: "NamedType", name: this.#nameOf(text) });
  }

  #selectionSet(end) {
    if (this.#index === end) return undefined;
    const start = this.#locations.token;
    this.#locations.advance();
    const selections = this.#all(end, () => this.#selection());
    this.#locations.advance();
    return this.#node(start, { kind: "SelectionSet", selections });
  }

  #selection() {
    if (this.#kind === "field") return this.#field();
    return this.#kind === "fragmentSpread" ? this.#fragmentSpread() : this.#inlineFragment();
  }

  #field() {
    const start = this.#locations.token;
    const end = this.#end;
    const ownName = this.#nameOfNode;
    this.#index++;
    const alias = this.#index < end && this.#kind === "alias" ? this.#alias() : undefined;
    return this.#node(start, {
      kind: "Field",
      alias,
      name: this.#nameOf(ownName),
      arguments: this.#arguments(end),
      directives: this.#directives(end),
      selectionSet: this.#selectionSet(end),
    });
  }

  #alias() {
    const alias = this.#nameOf(this.#nameOfNode);
    this.#locations.advance();
    this.#index++;
    return alias;
  }

  #arguments(end) {
    return this.#list(end, "arguments", () => this.#named("Argument"));
  }

  // An argument or a field of an object.
  #named(kind) {
    const start = this.#locations.token;
    const name = this.#nameOf(this.#nameOfNode);
    this.#locations.advance();
    this.#index++;
    return this.#node(start, { kind, name, value: this.#value() });
  }

  #fragmentSpread() {
    const start = this.#locations.token;
    const end = this.#end;
    this.#locations.advance();
    const name = this.#nameOf(this.#nameOfNode);
    this.#index++;
    return this.#node(start, { kind: "FragmentSpread", name, directives: this.#directives(end) });
  }

  #inlineFragment() {
    const start = this.#locations.token;
    const end = this.#end;
    this.#locations.advance();
    const typeCondition = this.#hasName ? this.#typeCondition(this.#nameOfNode) : undefined;
    this.#index++;
    return this.#node(start, {
      kind: "InlineFragment",
      typeCondition,
      directives: this.#directives(end),
      selectionSet: this.#selectionSet(end),
    });
  }

  // A type condition after its `on`.
  #typeCondition(name) {
    this.#locations.advance();
    return this.#namedType(name);
  }

  #fragmentDefinition() {
    const start = this.#locations.token;
    const end = this.#end;
    this.#locations.advance();
    const name = this.#nameOf(this.#nameOfNode);
    const from = this.#word(VALUE);
    const typeCondition = this.#typeCondition(this.#document.nameAt(from, from + this.#word(LENGTH)));
    this.#index++;
    return this.#node(start, {
      kind: "FragmentDefinition",
      name,
      typeCondition,
      directives: this.#directives(end),
      selectionSet: this.#selectionSet(end),
    });
  }

  #value() {
    switch (this.#kind) {
      case "variable":
        return this.#variable();
      case "list":
        return this.#between("ListValue", "values", () => this.#value());
      case "object":
        return this.#between("ObjectValue", "fields", () => this.#named("ObjectField"));
      default:
        return this.#scalar();
    }
  }

  // A list or an object.
  #between(kind, property, one) {
    const start = this.#locations.token;
    const end = this.#end;
    this.#index++;
    this.#locations.advance();
    const parts = this.#all(end, one);
    this.#locations.advance();
    return this.#node(start, { kind, [property]: parts });
  }

  #scalar() {
    const start = this.#locations.token;
    const scalar = this.#valueOfNode();
    this.#locations.advance();
    this.#index++;
    return this.#node(start, scalar);
  }

  #valueOfNode() {
    switch (this.#kind) {
      case "null":
        return { kind: "NullValue" };
      case "boolean":
        return { kind: "BooleanValue", value: this.#word(VALUE) === 1 };
      case "string":
        return { kind: "StringValue", value: this.#text, block: false };
      case "blockString":
        return { kind: "StringValue", value: this.#text, block: true };
      default:
        return { kind: VALUES.get(this.#kind), value: this.#nameOfNode };
    }
  }

  #directives(end) {
    const found = [];
    while (this.#index < end && this.#kind === "directive") found.push(this.#directive());
    return found;
  }

  #directive() {
    const start = this.#locations.token;
    const end = this.#end;
    this.#locations.advance();
    const name = this.#nameOf(this.#nameOfNode);
    this.#index++;
    return this.#node(start, { kind: "Directive", name, arguments: this.#arguments(end) });
  }
}

/** The nodes of graphql-js 16 that a document has; index.d.ts says what is thrown. */
function toGraphQL(document, options = {}) {
  if (!(document instanceof Document)) throw new TypeError("document must be a Document");
  requireOptions(options, ["graphql"]);
  const { graphql } = options;
  if (graphql === undefined) return new Converter(document, NO_LOCATIONS).whole();
  for (const name of ["Lexer", "Location", "Source"])
    if (typeof graphql?.[name] !== "function") throw new TypeError(`graphql must be graphql-js's module, which has ${name}`);
  return new Converter(document, new Locations(graphql, document.source, document.sourceName)).whole();
}

module.exports = { toGraphQL };
