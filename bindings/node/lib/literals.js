// Sources that are one value or one type, and then end.
"use strict";

const { LITERAL_OPTIONS, NO_OPTIONS, addon, allocate, limitsAmong, nameOf, requireBoolean, requireString } = require("./calls");
const { Document } = require("./document");
const { bytesOf, checked } = require("./errors");
const { Arrays } = require("./found");
const { Part } = require("./parts");
const { valueOf } = require("./values");

/** A value that was parsed alone. */
class ParsedValue extends Part {
  get value() {
    return valueOf(this.node);
  }
}

/** A type that was parsed alone. */
class ParsedType extends Part {
  get type() {
    return this.node.value;
  }
}

// Nothing is said of a token where no definition is wanted.
const noWords = () => "";

// The first node of what a call of the addon finds in a source.
function nodeOf(call, source, name, limits) {
  const bytes = bytesOf(source, name);
  const found = checked(source, name, call(bytes, limits, allocate), noWords);
  return new Document(source, name, new Arrays(found, bytes.length)).node(0);
}

/** The value that a source is; index.d.ts says what is thrown. */
function parseValue(source, options = NO_OPTIONS) {
  requireString("source", source);
  const limits = limitsAmong(options, [...LITERAL_OPTIONS, "constant"]);
  const { constant = false } = options;
  requireBoolean("constant", constant);
  return new ParsedValue(nodeOf(constant ? addon.parseConstant : addon.parseValue, source, nameOf(options), limits));
}

/** The type that a source is; index.d.ts says what is thrown. */
function parseType(source, options = NO_OPTIONS) {
  requireString("source", source);
  const limits = limitsAmong(options, LITERAL_OPTIONS);
  return new ParsedType(nodeOf(addon.parseType, source, nameOf(options), limits));
}

module.exports = { ParsedType, ParsedValue, parseType, parseValue };
