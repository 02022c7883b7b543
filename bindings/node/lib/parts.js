// The parts of a document by their names. Each is made when it is asked for, over a node of the document.
"use strict";

const { inspect } = require("util");

const { requireString } = require("./calls");
const { valueOf } = require("./values");

function childOf(node, kind) {
  return node.children.find((child) => child.kind === kind) ?? null;
}

function childrenOf(node, kind) {
  return node.children.filter((child) => child.kind === kind);
}

/** A part of a document. */
class Part {
  #node;

  constructor(node) {
    this.#node = node;
  }

  get node() {
    return this.#node;
  }

  get kind() {
    return this.#node.kind;
  }

  get text() {
    return this.#node.text;
  }

  get line() {
    return this.#node.line;
  }

  get column() {
    return this.#node.column;
  }

  get excerpt() {
    return this.#node.excerpt;
  }

  toJSON() {
    return this.#node.toJSON();
  }

  [inspect.custom]() {
    // The class's prototype is no part.
    return this === this.constructor.prototype ? this : `${this.constructor.name} ${this.text}`;
  }
}

// The text up to the end of the last part in a node, which itself ends with its name.
function wholeText(node) {
  const last = node.children[node.children.length - 1];
  return node.document.source.slice(node.start.index, last.end.index);
}

function directivesOf(node) {
  return childrenOf(node, "directive").map((child) => new Directive(child));
}

function argumentsOf(node) {
  return (childOf(node, "arguments")?.children ?? []).map((child) => new Argument(child));
}

// The first argument of this name.
function argumentOf(node, name) {
  requireString("name", name);
  return argumentsOf(node).find((argument) => argument.name === name) ?? null;
}

function selectionsOf(node) {
  const found = [];
  for (const child of node.children) {
    const Selection = SELECTIONS.get(child.kind);
    if (Selection !== undefined) found.push(new Selection(child));
  }
  return found;
}

/** A query, a mutation or a subscription. */
class Operation extends Part {
  get name() {
    return this.node.name;
  }

  get complexity() {
    return this.node.document.complexityOf(this.node.index);
  }

  get variables() {
    return (childOf(this.node, "variableDefinitions")?.children ?? []).map((child) => new VariableDefinition(child));
  }

  get directives() {
    return directivesOf(this.node);
  }

  get selections() {
    return selectionsOf(this.node);
  }
}

/** The definition of a fragment. */
class Fragment extends Part {
  get name() {
    return this.node.name;
  }

  get typeCondition() {
    return this.node.value;
  }

  get directives() {
    return directivesOf(this.node);
  }

  get selections() {
    return selectionsOf(this.node);
  }
}

/** A field that is selected. */
class Field extends Part {
  get alias() {
    return childOf(this.node, "alias")?.name ?? null;
  }

  get name() {
    return this.node.name;
  }

  get responseKey() {
    return this.alias ?? this.name;
  }

  get arguments() {
    return argumentsOf(this.node);
  }

  argument(name) {
    return argumentOf(this.node, name);
  }

  get directives() {
    return directivesOf(this.node);
  }

  get selections() {
    return selectionsOf(this.node);
  }
}

/** The use of a fragment by its name. */
class FragmentSpread extends Part {
  get name() {
    return this.node.name;
  }

  get directives() {
    return directivesOf(this.node);
  }
}

/** A fragment without a name. */
class InlineFragment extends Part {
  get typeCondition() {
    return this.node.name;
  }

  get directives() {
    return directivesOf(this.node);
  }

  get selections() {
    return selectionsOf(this.node);
  }
}

const SELECTIONS = new Map([["field", Field], ["fragmentSpread", FragmentSpread], ["inlineFragment", InlineFragment]]);

/** The definition of a variable by an operation. */
class VariableDefinition extends Part {
  get text() {
    return wholeText(this.node);
  }

  get name() {
    return this.node.name;
  }

  get type() {
    return childOf(this.node, "type").value;
  }

  get defaultValue() {
    const value = this.node.children[1];
    return value === undefined || value.kind === "directive" ? undefined : valueOf(value);
  }

  get directives() {
    return directivesOf(this.node);
  }
}

/** A directive of a part of a document. */
class Directive extends Part {
  get name() {
    return this.node.name;
  }

  get arguments() {
    return argumentsOf(this.node);
  }

  argument(name) {
    return argumentOf(this.node, name);
  }
}

/** An argument of a field or a directive. */
class Argument extends Part {
  get text() {
    return wholeText(this.node);
  }

  get name() {
    return this.node.name;
  }

  get value() {
    return valueOf(this.node.children[0]);
  }
}

module.exports = { Argument, Directive, Field, Fragment, FragmentSpread, InlineFragment, Operation, Part, VariableDefinition };
