// Positions of a source in UTF-16 units, as JavaScript's strings count.
"use strict";

const { allocated } = require("./calls");

// The indexes in characters of a source's characters that take two units. The array may be large, so it is no part of the
// JavaScript heap.
function pairsOf(source) {
  const isFirst = (index) => (source.charCodeAt(index) & 0xfc00) === 0xd800;
  let count = 0;
  // A source without them needs no loop.
  const length = /[\ud800-\udbff]/.test(source) ? source.length : 0;
  for (let index = 0; index < length; index++) if (isFirst(index)) count++;
  const pairs = allocated(() => new Uint32Array(count));
  count = 0;
  for (let index = 0; index < length; index++) if (isFirst(index)) pairs[count] = index - count++;
  return pairs;
}

// Counts a source's characters in UTF-16 units.
class Units {
  constructor(source) {
    this.pairs = pairsOf(source);
  }

  // How many units come before the character of this index.
  before(index) {
    let low = 0;
    let high = this.pairs.length;
    while (low < high) {
      const middle = (low + high) >> 1;
      if (this.pairs[middle] < index) low = middle + 1;
      else high = middle;
    }
    return index + low;
  }

  // The position of an index and a column that count characters.
  position(characters, line, column, byte) {
    const index = this.before(characters);
    return { index, line, column: index - this.before(characters - column), byte };
  }
}

module.exports = { Units };
