// What values of a source become.
"use strict";

// A number of more digits takes more time than in proportion.
const MOST_DIGITS = 4300;

/** The value of an enum. */
class EnumValue {
  constructor(name) {
    this.name = name;
  }
}

/** A variable used as a value. */
class Variable {
  constructor(name) {
    this.name = name;
  }
}

// The number of an Int; a bigint if a number doesn't hold it.
function integerOf(text) {
  const number = Number(text);
  if (Number.isSafeInteger(number)) return number;
  const digits = text.length - (text.startsWith("-") ? 1 : 0);
  if (digits > MOST_DIGITS) throw new RangeError(`an Int of ${digits} digits: the text has it`);
  return BigInt(text);
}

// The number of a Float.
function floatOf(text) {
  const number = Number(text);
  if (!Number.isFinite(number)) throw new RangeError("a Float beyond the largest number: the text has it");
  return number;
}

function scalarOf(node) {
  switch (node.kind) {
    case "enum":
      return new EnumValue(node.name);
    case "variable":
      return new Variable(node.name);
    default:
      return node.value;
  }
}

// The value of a node, without a call for each level: a list or an object is around the values that come before its end.
function valueOf(node) {
  const around = [];
  let found;
  const put = (value) => {
    const inner = around[around.length - 1];
    if (inner === undefined) found = value;
    else if (Array.isArray(inner.value)) inner.value.push(value);
    else inner.value[inner.key] = value;
  };
  const end = node.index + 1 + node.descendants;
  for (let index = node.index; index < end; index++) {
    while (around.length > 0 && around[around.length - 1].end <= index) around.pop();
    const part = node.document.node(index);
    if (part.kind === "objectField") {
      around[around.length - 1].key = part.name;
    } else if (part.kind === "list" || part.kind === "object") {
      const value = part.kind === "list" ? [] : Object.create(null);
      put(value);
      around.push({ value, end: index + 1 + part.descendants });
    } else {
      put(scalarOf(part));
    }
  }
  return found;
}

module.exports = { EnumValue, Variable, floatOf, integerOf, valueOf };
