// A proved parser of GraphQL's executable documents (October 2021).
//
//     const { parse } = require("firthnapkin");
//     for (const field of parse("{ user(id: 4) { name } }").operation().selections) console.log(field.name, field.argument("id").value);
"use strict";

const { NO_OPTIONS, addon, limitsOf, nameOf, requireString } = require("./lib/calls");
const { Document, Node } = require("./lib/document");
const { FirthnapkinError } = require("./lib/errors");
const { foundIn, requireDocument } = require("./lib/found");
const { toGraphQL } = require("./lib/graphql");
const { Token, Tokens, canonical, tokens } = require("./lib/lexer");
const { ParsedType, ParsedValue, parseType, parseValue } = require("./lib/literals");
const {
  Argument, Directive, Field, Fragment, FragmentSpread, InlineFragment, Operation, VariableDefinition,
} = require("./lib/parts");
const { EnumValue, Variable } = require("./lib/values");

const { MAX_DEPTH, VERSION: version } = addon;

/** The document that a source is; index.d.ts says what is thrown. */
function parse(source, options = NO_OPTIONS) {
  requireString("source", source);
  const limits = limitsOf(options);
  const name = nameOf(options);
  return new Document(source, name, foundIn(source, name, limits));
}

/** Throws an error unless a source is a document within limits; index.d.ts says which. */
function check(source, options = NO_OPTIONS) {
  requireString("source", source);
  const limits = limitsOf(options);
  requireDocument(source, nameOf(options), limits);
}

// Node finds the names of a literal for `import { parse } from "firthnapkin"`.
module.exports = {
  check, parse, parseValue, parseType, ParsedValue, ParsedType, tokens, canonical, toGraphQL, Document, Operation, Fragment, Field, FragmentSpread, InlineFragment, VariableDefinition, Directive,
  Argument, EnumValue, Variable, Node, Tokens, Token, FirthnapkinError, MAX_DEPTH, version,
};
