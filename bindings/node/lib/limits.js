// The limits of `parse`: the options that it takes beside the name of the source, and their types for TypeScript.
"use strict";

const { MAX_DEPTH } = require("./addon").addon;

const ANY = Number.MAX_SAFE_INTEGER;
// The largest number of an operation stands for all above it, too, so it is no limit.
const UNLIMITED = 2 ** 32 - 1;

// Each is a line, in the order of firthnapkin_limits: its default, its largest number, and what its type says. In later ones 0 is none.
const LIMITS = {
  depth: [200, MAX_DEPTH, "How deep brackets may be nested: an integer from 0 to MAX_DEPTH; 200 if it isn't given."],
  maxTokens: [ANY, ANY, "How many tokens the source may have, its end not counted; any number if it isn't given."],
};

// Those on each operation's complexity are a line, too, in the order of firthnapkin_complexity.
const SIZES = {
  // tables.toml: complexity as limits
  maxFields: "How many fields an operation may have, with every fragment expanded.",
  maxAliases: "How many aliases an operation may have.",
  maxDirectives: "How many directives an operation may have.",
  maxRootFields: "How many fields of an operation may be in no other field.",
  maxFieldDepth: "How deep fields may be nested in one another.",
  // tables.toml: end
};
for (const [name, about] of Object.entries(SIZES)) SIZES[name] = [UNLIMITED, UNLIMITED - 1, about];

const ABOUT_NAME = "The name of the source, as that of its file: errors have it as `sourceName`.";

/** The text of limits.d.ts, which build.js writes. */
function declaration() {
  const limits = Object.entries({ ...LIMITS, ...SIZES }).map(([name, [, , about]]) => [name, "number", about]);
  const members = [...limits, ["name", "string", ABOUT_NAME]];
  return `export interface Options {\n${members.map(([name, type, about]) => `  /** ${about} */\n  ${name}?: ${type};\n`).join("")}}\n`;
}

module.exports = { LIMITS, SIZES, declaration };
