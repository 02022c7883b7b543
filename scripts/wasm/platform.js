// What the package takes of Node, for browsers: bytes with some of Buffer's methods, and a symbol of util.
"use strict";

const encoder = new TextEncoder();
const decoder = new TextDecoder("utf-8", { ignoreBOM: true });

class Bytes extends Uint8Array {
  static from(value) {
    if (typeof value !== "string") return new Bytes(value);
    const { buffer, byteOffset, length } = encoder.encode(value);
    return new Bytes(buffer, byteOffset, length);
  }

  static alloc(size) {
    return new Bytes(size);
  }

  static byteLength(text) {
    return encoder.encode(text).length;
  }

  // Writes a string, up to so many bytes of it, and returns how many are written.
  utf8Write(text, at, most) {
    return encoder.encodeInto(text, this.subarray(at, at + most)).written;
  }

  utf8Slice(from = 0, to = this.length) {
    return decoder.decode(this.subarray(from, to));
  }

  // A name, which is ASCII.
  latin1Slice(from, to) {
    let text = "";
    for (let i = from; i < to; i++) text += String.fromCharCode(this[i]);
    return text;
  }
}

const util = { inspect: { custom: Symbol.for("nodejs.util.inspect.custom") } };

module.exports = { Buffer: Bytes, util };
