#!/usr/bin/env python3
"""Reads the rows of the language from files.

A row is a line of a kind's word, a space and a text, and below it the lines of its answer, each after two spaces. Lines that
are empty or begin with `#` are ignored. In texts and answers `\\n`, `\\r`, `\\t` and `\\\\` stand for a line feed, a carriage
return, a tab and a backslash, `\\u{F}` for the character of that number in hexadecimal digits, and `\\x{F}` for the byte. A
backslash before anything else stands for itself.

    tests/rows.py    writes a line for each row of gqlcheck that has the same result with every scalar type: its text, and the
                     expected lines, each as hexadecimal digits of its bytes. `-` stands for no bytes. For a text that is no
                     UTF-8 the expected line is 'Not UTF-8'
"""

import os
import re
from typing import Iterator, List, NamedTuple

ROOT = os.path.join(os.path.dirname(os.path.abspath(__file__)), "..")
FOLDERS = (os.path.join(ROOT, "tests", "rows"), os.path.join(ROOT, "tests", "rows", "calls"))
ESCAPE = re.compile(rb"\\(n|r|t|\\|u\{[0-9A-Fa-f]+\}|x\{[0-9A-Fa-f]+\})")


class Row(NamedTuple):
    """The number of its line, the word of its kind, its text, and the expected lines as they are written."""

    number: int
    kind: str
    text: bytes
    wanted: List[str]


def plain(written: str) -> bytes:
    """A written text with its escapes replaced."""

    def replaced(match: "re.Match[bytes]") -> bytes:
        word = match[1].decode()
        if word[0] == "u":
            return chr(int(word[2:-1], 16)).encode()
        if word[0] == "x":
            return bytes([int(word[2:-1], 16)])
        return {"n": b"\n", "r": b"\r", "t": b"\t", "\\": b"\\"}[word]

    return ESCAPE.sub(replaced, written.encode())


def rows(name: str) -> Iterator[Row]:
    """The rows of the file of this name, in their order."""
    path = next(path for path in (os.path.join(folder, name) for folder in FOLDERS) if os.path.exists(path))
    row = None
    with open(path, encoding="utf-8", newline="\n") as file:
        for number, line in enumerate(file, 1):
            line = line.rstrip("\n")
            if line.startswith("  "):
                if row is not None:
                    row.wanted.append(line[2:])
            elif line and not line.startswith("#"):
                if row is not None:
                    yield row
                kind, _, text = line.partition(" ")
                row = Row(number, kind, plain(text), [])
    if row is not None:
        yield row


def is_other_scalar(wanted: List[str]) -> bool:
    """Whether a refusal is one of gqlcheck's scalar type, which reads no Float and no Int beyond 32 bits."""
    first = wanted[0] if wanted else ""
    return first.startswith("There needs to be") or re.match(r'Unexpected "-?[0-9]{10,}"\. At ', first) is not None


def gqlcheck(name: str) -> Iterator[Row]:
    """The rows of a file with the output of gqlcheck, of a tree or of an error."""
    for row in rows(name):
        if row.kind == "gqlcheck" and not is_other_scalar(row.wanted):
            yield row._replace(wanted=[plain(line).decode() for line in row.wanted[:-1]])


def main() -> None:
    for name in ("gqlcheck.rows", "peer.rows"):
        for row in gqlcheck(name):
            print(row.text.hex() or "-", "\n".join(row.wanted).encode().hex() or "-")


if __name__ == "__main__":
    main()
