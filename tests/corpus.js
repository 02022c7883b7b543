// Reads the texts that tests/corpus.py writes: for each the number of its bytes in a line, and its UTF-8 in the next.
"use strict";

const fs = require("node:fs");

function texts(file) {
  const bytes = fs.readFileSync(file);
  const found = [];
  for (let at = 0; at < bytes.length; ) {
    const feed = bytes.indexOf("\n", at);
    const end = feed + 1 + Number(bytes.toString("latin1", at, feed));
    found.push(bytes.toString("utf8", feed + 1, end));
    at = end + 1;
  }
  return found;
}

module.exports = { texts };
