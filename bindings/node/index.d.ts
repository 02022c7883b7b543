/** The kind of a node. */
export type Kind =
  // tables.toml: kinds
  /** An operation that only reads. */
  | "query"
  /** An operation that writes. */
  | "mutation"
  /** A long-lived operation. */
  | "subscription"
  /** The definition of a fragment. */
  | "fragmentDefinition"
  /** The variable definitions of an operation. */
  | "variableDefinitions"
  /** A variable definition, by its name. */
  | "variableDefinition"
  /** The type of a variable. */
  | "type"
  /** A field that is selected. */
  | "field"
  /** The alias of a field. */
  | "alias"
  /** The use of a fragment by its name. */
  | "fragmentSpread"
  /** A fragment without a name; its name is its type condition. */
  | "inlineFragment"
  /** The use of a directive. */
  | "directive"
  /** The arguments of a field or a directive. */
  | "arguments"
  /** An argument, by its name. */
  | "argument"
  /** The value null. */
  | "null"
  /** A value of an enum. */
  | "enum"
  /** A variable used as a value. */
  | "variable"
  /** A list of values. */
  | "list"
  /** An object, with its fields. */
  | "object"
  /** A field of an object, by its name. */
  | "objectField"
  /** An Int that 32 bits hold. */
  | "int"
  /** An Int that 32 bits don't hold. */
  | "largeInt"
  /** A number with a fraction or an exponent. */
  | "float"
  /** A String between quotes. */
  | "string"
  /** A String between three quotes on each side. */
  | "blockString"
  /** True or false. */
  | "boolean";
  // tables.toml: end

/** How much comes before a position: UTF-16 units of the source, line feeds, units of the line, bytes of UTF-8. So each is counted from 0. */
export interface Position {
  readonly index: number;
  readonly line: number;
  readonly column: number;
  readonly byte: number;
}

/** What is shown to people of a part of a source. */
export interface Shown {
  /** The text of the source from the start to the end: of a number how it is written. */
  readonly text: string;
  /** The line where it starts, counted from 1. Lines end at line feeds. */
  readonly line: number;
  /** The column where it starts, in UTF-16 units, counted from 1. */
  readonly column: number;
  /** The lines around its start, numbered from 1, with a caret below it. Made anew each time. */
  readonly excerpt: string;
}

/** A part of a document, as the library writes it. */
export interface Node extends Shown {
  readonly document: Document;
  /** The index among the document's nodes. */
  readonly index: number;
  readonly kind: Kind;
  /** How many of the nodes after this one are of parts in it. */
  readonly descendants: number;
  readonly start: Position;
  /** The position after the last character. */
  readonly end: Position;
  /** The name, without `$` and `@`; of an inline fragment its type condition. */
  readonly name: string | null;
  /**
   * What a scalar means; of an Int that a number doesn't hold exactly a bigint. A type without spaces; the name of an enum or a
   * variable; a fragment's type condition. Throws a RangeError if a Float is beyond the largest number, and if an Int has
   * more than 4,300 digits.
   */
  readonly value: null | boolean | number | bigint | string;
  /** The nodes of the parts in this one that are in no other part in it. */
  readonly children: Node[];
  /** The node of the part that this one is in; null for a definition. */
  readonly parent: Node | null;
  /** What JSON.stringify writes: the parts that console.log shows, too. */
  toJSON(): NodeParts;
}

/** A node and the parts in it, as JSON has them. */
export interface NodeParts {
  readonly kind: Kind;
  readonly name: string | null;
  /** The node's value. Of a `largeInt`, and of a Float beyond the largest number, the text. */
  readonly value: null | boolean | number | string;
  readonly start: Position;
  readonly end: Position;
  readonly children: NodeParts[];
}

/**
 * A document: its parts by their names, and its nodes, each part before the parts in it. Each is made when one is read. No later call
 * changes it. It keeps its source alive, and takes at most 64 bytes for each node, at most 24 for each operation if there was a limit
 * on them, and the values of its Strings and its types. The README says what it keeps of what is asked for.
 */
export interface Document extends Iterable<Node> {
  readonly source: string;
  /** The name of the source, if `parse` was given one. */
  readonly sourceName: string | null;
  /** How many nodes there are. */
  readonly length: number;
  readonly operations: Operation[];
  readonly fragments: Fragment[];
  /** The first operation of a name; without a name the only operation, whatever its name, and null if there are several. */
  operation(name?: string | null): Operation | null;
  /** The first fragment of a name. */
  fragment(name: string): Fragment | null;
  /** The nodes of the operations and fragments. */
  readonly definitions: Node[];
  /** The node of this index; throws a RangeError if there is none. */
  node(index: number): Node;
  /** What JSON.stringify writes. */
  toJSON(): DocumentParts;
}

/** A part of a document by its name. */
export interface Part extends Shown {
  /** The part's node, whose positions count from 0. */
  readonly node: Node;
  /** What JSON.stringify writes: that of the node. console.log shows the part's text. */
  toJSON(): NodeParts;
}

/**
 * How large an operation is with every fragment expanded. Numbers saturate at 4294967295. They are those of the source alone:
 * no schema gives a field a weight, equal fields aren't merged, and `@skip` and `@include` leave nothing out.
 */
export interface Complexity {
  // tables.toml: complexity as fields
  /** The fields, at every depth. */
  readonly fields: number;
  /** The fields with an alias. */
  readonly aliases: number;
  /** The directives of the operation and of all in it, and of a fragment each time that it is spread. */
  readonly directives: number;
  /** The fields that are in no other field. */
  readonly rootFields: number;
  /** How many fields are nested in one another at most: 1 if no field is in another. */
  readonly depth: number;
  // tables.toml: end
}

/** A query, a mutation or a subscription. */
export interface Operation extends Part {
  readonly kind: "query" | "mutation" | "subscription";
  readonly name: string | null;
  /**
   * How large it is. Those of all operations are found at once, when one is first read. Throws a FirthnapkinError if an operation
   * of the document reaches a spread that names no fragment, or that is within the fragment that it names.
   */
  readonly complexity: Complexity;
  readonly variables: VariableDefinition[];
  readonly directives: Directive[];
  readonly selections: Selection[];
}

/** The definition of a fragment. */
export interface Fragment extends Part {
  readonly kind: "fragmentDefinition";
  readonly name: string;
  readonly typeCondition: string;
  readonly directives: Directive[];
  readonly selections: Selection[];
}

/** What is selected: `kind` tells which. */
export type Selection = Field | FragmentSpread | InlineFragment;

/** A field that is selected. */
export interface Field extends Part {
  readonly kind: "field";
  readonly alias: string | null;
  /** The name of the field, whatever its alias. */
  readonly name: string;
  /** The alias, or the name if there is none: the key of the field in a response. */
  readonly responseKey: string;
  readonly arguments: Argument[];
  /** The first argument of a name. */
  argument(name: string): Argument | null;
  readonly directives: Directive[];
  /** What is selected in the field. */
  readonly selections: Selection[];
}

/** The use of a fragment by its name. */
export interface FragmentSpread extends Part {
  readonly kind: "fragmentSpread";
  readonly name: string;
  readonly directives: Directive[];
}

/** A fragment without a name. */
export interface InlineFragment extends Part {
  readonly kind: "inlineFragment";
  readonly typeCondition: string | null;
  readonly directives: Directive[];
  readonly selections: Selection[];
}

/** The definition of a variable by an operation. The text is all of it. */
export interface VariableDefinition extends Part {
  readonly kind: "variableDefinition";
  /** The name, without `$`. */
  readonly name: string;
  /** The type without spaces, as `[ID!]!`. */
  readonly type: string;
  /** The default value; undefined if there is none. Throws a RangeError as `Argument.value` does. */
  readonly defaultValue: Value | undefined;
  readonly directives: Directive[];
}

/** The use of a directive. */
export interface Directive extends Part {
  readonly kind: "directive";
  /** The name, without `@`. */
  readonly name: string;
  readonly arguments: Argument[];
  /** The first argument of a name. */
  argument(name: string): Argument | null;
}

/** An argument of a field or a directive. The text is the name and the value. */
export interface Argument extends Part {
  readonly kind: "argument";
  readonly name: string;
  /** The value. Throws a RangeError if a Float in it is beyond the largest number, or an Int has more than 4,300 digits. */
  readonly value: Value;
}

/**
 * A value as JavaScript's own data: a string is what a String means. An Int that a number doesn't hold exactly is a bigint. An
 * object has no prototype, so a key may be any name; a key that is there twice is at its first position, with its last value.
 */
export type Value = null | boolean | number | bigint | string | EnumValue | Variable | Value[] | ObjectValue;

/** An object: a value for each name, of equal names the last. */
export interface ObjectValue {
  readonly [name: string]: Value;
}

/** The value of an enum: `instanceof` tells it from an object. */
export class EnumValue {
  constructor(name: string);
  readonly name: string;
}

/** A variable used as a value: `instanceof` tells it from an object. */
export class Variable {
  constructor(name: string);
  /** The name, without `$`. */
  readonly name: string;
}

/** A document's parts, as JSON has them. */
export interface DocumentParts {
  readonly definitions: NodeParts[];
}

/** The kind of an error. */
export type ErrorKind =
  /** An operation exceeds a limit, with every fragment expanded: the message has the number and the limit. */
  | "operationTooLarge"
  /** A half of a surrogate pair is alone, so the string can't be encoded as UTF-8. */
  | "surrogate"
  // tables.toml: errors without invalid_scalar
  /** No document could have the token there. */
  | "unexpectedToken"
  /** The source ends within a document. */
  | "unexpectedEnd"
  /** There is no token here: the detail says why. */
  | "lexical"
  /** The token is nested too deep. */
  | "tooDeep"
  /** The token is the first past the limit. */
  | "tooManyTokens"
  /** The spread names no fragment of the document. */
  | "unknownFragment"
  /** The spread is within the fragment that it names, itself or through others. */
  | "fragmentCycle";
  // tables.toml: end

/** Why there is no token. */
export type ErrorDetail =
  // tables.toml: details without none, invalid_number
  /** No token begins with the character. */
  | "unknownCharacter"
  /** A token has begun, and the character can't follow. */
  | "unexpectedCharacter"
  /** The source or the line ends within a string. */
  | "unterminatedString"
  /** The character is not allowed in a string. */
  | "unknownCharacterInString"
  /** What follows a backslash in a string is no escape. */
  | "unknownEscape"
  /** The source ends within a token. */
  | "unexpectedEndInToken";
  // tables.toml: end

/**
 * Why a source isn't a document within the limits, and where. The message ends with the line and the column, as in `locations`. The
 * name of the source is before them, if the call was given one, as it is: `Unexpected ")". At pets.graphql:2:5`.
 */
export class FirthnapkinError extends Error {
  private constructor();
  readonly name: "FirthnapkinError";
  /** The message without the position. */
  readonly reason: string;
  readonly kind: ErrorKind;
  /** What is wrong, if the kind is `lexical`. */
  readonly detail: ErrorDetail | null;
  /** The character of the detail. */
  readonly character: string | null;
  readonly start: Position;
  readonly end: Position;
  /** The line and the column in UTF-16 units, both counted from 1, as in the errors of a response. */
  readonly locations: ReadonlyArray<{ readonly line: number; readonly column: number }>;
  /** The lines around the error, numbered from 1, with a caret below its character. Made anew each time. */
  readonly excerpt: string;
  /** The name of the source, if the call was given one. */
  readonly sourceName: string | null;
}

import { Options } from "./lib/limits.js";
export { Options };

/**
 * Throws what `parse` throws if a source isn't a document within limits, and returns nothing otherwise. It is for a server to call
 * before it parses a request: no document is built, so it takes less time than `parse`, and no memory for nodes.
 */
export function check(source: string, options?: Options): void;

/**
 * Parses a source. Throws
 *
 * - a FirthnapkinError if the source isn't a document, is nested too deep, has a token past the limit or an operation past one, or,
 *   with a limit on operations, if one reaches a spread of an unknown or cyclic fragment
 * - a TypeError if the source or its name is no string, a limit no number, or the options are no object or have an unknown name
 * - a RangeError if a limit is no integer of its range
 * - an Error if memory runs out
 */
export function parse(source: string, options?: Options): Document;

/** A value that was parsed alone. Its document has the value's nodes, and no definitions. */
export interface ParsedValue extends Part {
  readonly kind: "null" | "enum" | "variable" | "list" | "object" | "int" | "largeInt" | "float" | "string" | "blockString" | "boolean";
  /** What the value means, as `Argument.value`. */
  readonly value: Value;
}

/** A type that was parsed alone. Its document has one node, and no definitions. */
export interface ParsedType extends Part {
  readonly kind: "type";
  /** The type without spaces, as `[ID!]!`. */
  readonly type: string;
}

/** The options of `parse` that say something of a source that is no document. */
export interface TypeOptions {
  depth?: number;
  maxTokens?: number;
  name?: string;
}

/** What `parseValue` takes. */
export interface ValueOptions extends TypeOptions {
  /** Whether the value is constant: then a variable in it is an error. */
  constant?: boolean;
}

/**
 * The value that a source is, as `{a: [1, $b]}`. Throws what `parse` throws, if the source isn't one value, and a TypeError if
 * `constant` is no boolean.
 */
export function parseValue(source: string, options?: ValueOptions): ParsedValue;

/** The type that a source is, as `[ID!]!`. Throws what `parse` throws, if the source isn't one type. */
export function parseType(source: string, options?: TypeOptions): ParsedType;

/** The kind of a token. */
export type TokenKind =
  // tables.toml: tokens
  /** The end of the source, which has no characters. */
  | "endOfFile"
  /** A name or a word of the language. */
  | "name"
  /** A text between quotes. */
  | "string"
  /** A text between three quotes on each side. */
  | "blockString"
  /** A number with a fraction or an exponent. */
  | "float"
  /** A number without either. */
  | "int"
  /** `!` */
  | "exclamationMark"
  /** `$` */
  | "dollar"
  /** `(` */
  | "parenOpen"
  /** `)` */
  | "parenClose"
  /** `[` */
  | "bracketOpen"
  /** `]` */
  | "bracketClose"
  /** `{` */
  | "curlyOpen"
  /** `}` */
  | "curlyClose"
  /** `...` */
  | "ellipsis"
  /** `:` */
  | "colon"
  /** `=` */
  | "equals"
  /** `@` */
  | "at"
  /** `|` */
  | "pipe";
  // tables.toml: end

/** A token of a source. */
export interface Token extends Shown {
  /** The index among the source's tokens. */
  readonly index: number;
  readonly kind: TokenKind;
  readonly start: Position;
  /** The position after the last character. */
  readonly end: Position;
  /** The text without the quotes of a string: escapes and lines are as they are written. */
  readonly unquoted: string;
}

/** A source's tokens, the last of which is its end. A token is made each time that one is read. */
export interface Tokens extends Iterable<Token> {
  readonly source: string;
  readonly length: number;
  /** The token of this index; throws a RangeError if there is none. */
  token(index: number): Token;
}

/** What `tokens` takes. */
export interface TokenOptions {
  /** How many tokens the source may have, its end not counted; any number if it isn't given. */
  maxTokens?: number;
  /** The name of the source, as that of its file: errors have it as `sourceName`. */
  name?: string;
}

/** What `canonical` takes. */
export interface CanonicalOptions {
  /** The name of the source, as that of its file: errors have it as `sourceName`. */
  name?: string;
}

/**
 * The tokens of a source, which may be a document or not. White space, line ends, commas, comments and byte order marks are no
 * tokens. Throws a FirthnapkinError at the first position that has no token, or at the first token too many; otherwise what
 * `parse` throws.
 */
export function tokens(source: string, options?: TokenOptions): Tokens;

/**
 * The canonical text of a source, one for each query whatever its white space and comments: its tokens as they are written, with a
 * space between two neighbours of which neither is a punctuator, and before `...` after a token that is no punctuator. Throws a
 * FirthnapkinError at the first position that has no token; a TypeError if the source or its name is no string, or the options are
 * no object or have another name; an Error if memory runs out.
 */
export function canonical(source: string, options?: CanonicalOptions): string;

/** What `toGraphQL` takes. */
export interface GraphQLOptions {
  /** graphql-js's module, as `require("graphql")`: nodes then have `loc`, of its classes, with the tokens of its lexer. */
  graphql?: object;
}

/**
 * A document as graphql-js 16 has it, a `DocumentNode`, and that of a `ParsedValue` or a `ParsedType` as its `ValueNode` or `TypeNode`: equal to what its `parse` returns with the option `noLocation`, or to what it
 * returns without if it is given its module. Throws a TypeError if it is given no document, or other options; with the module also
 * what graphql-js's lexer throws, which refuses a number that a name follows directly. Each level of nesting is a call, as in
 * graphql-js: JavaScript throws a RangeError if its stack is too small.
 */
export function toGraphQL(document: Document, options?: GraphQLOptions): any;

/** The largest depth. */
export const MAX_DEPTH: number;

/** The library's version. */
export const version: string;
