#!/usr/bin/env python3
"""Makes the texts that the packages are compared on: those of the rows, the shapes of scripts/growth, made ones, and large ones.

    tests/corpus.py [COUNT]    writes them: for each the number of its bytes in a line, and its UTF-8 in the next. COUNT documents are made

Made texts are the same in each run. Of each document that the grammar gives, one other text is made, with a few characters or
tokens left out, doubled or replaced.
"""

import random
import re
import sys
from pathlib import Path
from typing import Callable, Iterator, List

sys.path.append(str(Path(__file__).resolve().parent))
sys.path.append(str(Path(__file__).resolve().parent.parent / "scripts"))
import growth_rows  # noqa: E402
import rows  # noqa: E402

# How many documents are made. There are as many other texts. And how many values and types are made, each alone.
MADE = 1000
LITERALS = 200
# About how many bytes a shape has.
SHAPES = (60, 700)
FILES = ("gqlcheck.rows", "peer.rows", "canonical.rows", "completed.rows", "complexities.rows", "lexer.rows", "limits.rows")

NAMES = "a b id name on2 query type null_ True E_1 _ __typename mutation x9 fragment input".split()
CHARACTERS = "é ß и 世 𝄞 😀 \u00a0 \u2028 \ufffd \U0010ffff a b , # { } ) \\u".split(" ")
BLANKS = (" ", " ", " ", "\n", "\r\n", "\r", "\t", ",", "\ufeff", "# é 𝄞 comment\n", "\n\n  ")
SCALARS = (
    "0 -0 7 -12 2147483647 2147483648 -2147483648 -2147483649 9007199254740993 -9223372036854775808 18446744073709551616 "
    "1.5 -0.0 1e3 2.5E-7 0.1 123456789.125 5e-324 1.7976931348623157e308 4.35 1e22 1e23 true false null E on Ab_9 $v $_x"
).split()
STRINGS = (
    '""',
    '"two words"',
    '"é 世 𝄞"',
    r'"caf\u00e9 \u4E16 \"\\\/\b\f\n\r\t"',
    '""""""',
    '""" block """',
    r'''""" \""" quoted"""''',
    '"""\n    first\n      second\n\n    third\n  """',
    '"""a\r\n  b\r  c\n"""',
    '"""\n  é 𝄞\n """',
)


class Writer:
    """Makes a document, as a list of tokens and of what is between them."""

    def __init__(self, number: int) -> None:
        self.random = random.Random(number)
        self.parts: List[str] = []
        self.is_blank = self.random.random() < 0.5
        # The fragments that may be spread now. Each is defined at the end, and spreads those after it.
        self.fragments = ["F", "G", "H"][: self.random.randrange(4)]

    def some(self, chance: float) -> bool:
        return self.random.random() < chance

    def put(self, *tokens: str) -> None:
        for token in tokens:
            blanks = self.random.randrange(1, 4) if self.is_blank and self.some(0.3) else 1
            self.parts.append("".join(self.random.choice(BLANKS if self.is_blank else (" ",)) for _ in range(blanks)))
            self.parts.append(token)

    def name(self) -> str:
        return self.random.choice(NAMES)

    def often(self, most: int, make: Callable[[], None]) -> None:
        for _ in range(self.random.randrange(1, most + 1)):
            make()

    def value(self, depth: int = 0, is_constant: bool = False) -> None:
        kind = self.random.randrange(8)
        if kind == 0 and depth < 4:
            self.put("[")
            for _ in range(self.random.randrange(4)):
                self.value(depth + 1, is_constant)
            self.put("]")
        elif kind == 1 and depth < 4:
            self.put("{")
            for _ in range(self.random.randrange(4)):
                self.put(self.name(), ":")
                self.value(depth + 1, is_constant)
            self.put("}")
        elif kind == 2:
            self.put(self.random.choice(STRINGS))
        elif kind == 3:
            self.put('"' + "".join(self.random.choice(CHARACTERS[:-1]) for _ in range(self.random.randrange(6))) + '"')
        else:
            scalar = self.random.choice(SCALARS)
            self.put("null" if is_constant and scalar.startswith("$") else scalar)

    def arguments(self) -> None:
        if self.some(0.25):
            self.put("(")
            self.often(3, self.argument)
            self.put(")")

    def argument(self) -> None:
        self.put(self.name(), ":")
        self.value()

    def directives(self) -> None:
        while self.some(0.2):
            self.put("@", self.name())
            self.arguments()

    def selections(self, depth: int) -> None:
        self.put("{")
        self.often(3, lambda: self.selection(depth))
        self.put("}")

    def selection(self, depth: int) -> None:
        kind = self.random.randrange(6)
        if kind == 0 and (self.fragments or self.some(0.02)):
            self.put("...", self.random.choice(self.fragments or ["X", "F"]))
            self.directives()
        elif kind == 1 and depth < 4:
            self.put("...")
            if self.some(0.6):
                self.put("on", self.name())
            self.directives()
            self.selections(depth + 1)
        else:
            if self.some(0.3):
                self.put(self.name(), ":")
            self.put(self.name())
            self.arguments()
            self.directives()
            if depth < 3 and self.some(0.3):
                self.selections(depth + 1)

    def type(self, depth: int = 0) -> None:
        if depth < 3 and self.some(0.3):
            self.put("[")
            self.type(depth + 1)
            self.put("]")
        else:
            self.put(self.name())
        if self.some(0.3):
            self.put("!")

    def variable(self) -> None:
        self.put("$", self.name(), ":")
        self.type()
        if self.some(0.4):
            self.put("=")
            self.value(is_constant=True)
        self.directives()

    def definition(self) -> None:
        if self.some(0.7):
            self.put(self.random.choice(("query", "mutation", "subscription")))
            if self.some(0.7):
                self.put(self.name())
            if self.some(0.4):
                self.put("(")
                self.often(3, self.variable)
                self.put(")")
            self.directives()
        self.selections(0)

    def fragment(self, name: str) -> None:
        self.put("fragment", name, "on", self.name())
        self.directives()
        self.selections(1)

    def document(self) -> str:
        self.often(3, self.definition)
        while self.fragments:
            self.fragment(self.fragments.pop(0))
        return "".join(self.parts)

    def broken(self) -> str:
        """A text like the one that was made, most of them no document."""
        parts = list(self.parts)
        for _ in range(self.random.randrange(1, 4)):
            at = self.random.randrange(len(parts))
            parts[at] = self.random.choice(("", parts[at] * 2, self.random.choice(parts), self.random.choice(CHARACTERS)))
        text = "".join(parts)
        at = self.random.randrange(len(text) + 1)
        return self.random.choice((text, text[:at], text[:at] + self.random.choice('"?\\{!}\0\x7f&-.0"') + text[at:]))


def of_rows() -> Iterator[str]:
    for name in FILES:
        for row in rows.rows(name):
            try:
                yield row.text.decode()
            except UnicodeDecodeError:
                pass


def made(count: int = MADE) -> Iterator[str]:
    for number in range(count):
        writer = Writer(number)
        yield writer.document()
        yield writer.broken()


def literals() -> Iterator[str]:
    """Values and types alone, and texts like them."""
    for number in range(LITERALS):
        for make in (Writer.value, lambda writer: writer.value(is_constant=True), Writer.type):
            writer = Writer(number)
            make(writer)
            yield "".join(writer.parts)
            yield writer.broken()


SMALL = (
    'query Q($v: [T!]! = [1, "é"] @d) { k: a(x: "𝄞\\n", y: {b: 1.5, c: E, d: $v, e: -7}) @d { ...F } ... on T { b } }\n'
    'fragment F on T { b @d(z: """\n é\n""") ... @d { c: d(l: [true, null, 9007199254740993]) } }'
)
# Each kind of part with more parts in it than made documents have.
MARKS = "@d(x: 1) " * 9
WIDE = (
    f"query Q({'$v: [T] = [1] ' * 9} $w: T = [{'1 ' * 9}] {MARKS}) {MARKS} {{ {'b: a ' * 9} f({'x: 1 ' * 9} y: {{{'k: 1 ' * 9}}}) {MARKS}"
    f"{{{'c ' * 9}}} ... on T {MARKS}{{{'c ' * 9}}} ...F {MARKS} }} fragment F on T {MARKS}{{{'c ' * 9}}}"
)
# More than 16 bits count.
MANY = 70_000


def large() -> Iterator[str]:
    """The same document, and a value or a type, behind many nodes, tokens, lines, columns, characters, bytes of texts, parts and
    operations; and with a long name, a long string, a long list."""
    for before in ("\n" * MANY, " " * MANY, "#" + "é𝄞" * (MANY // 2) + "\n"):
        # The second is a value, and a type.
        yield from (before + SMALL, before + "[T]")
    yield from (SMALL.replace("T", "T" * MANY), "T" * MANY, '"' + "x" * MANY + '"', "[" + "1 " * MANY + '"é"]')
    yield "{a(b:[" + "1 " * MANY + "])}" + SMALL
    yield '{a(b:"' + "x" * MANY + '")}' + SMALL
    yield "{" + "a" * MANY + "}" + SMALL
    yield "{a(" + "b:1 " * MANY + ")}" + SMALL
    yield "".join("query A{" + "a " * (number % 3 + 1) + "}" for number in range(MANY)) + SMALL
    yield "{a(b:[" + "1 " * MANY + '])}\n"' + "é" * MANY + '"'


# Which begin as a request and go on as something else: the packages say more of these than the library.
SCHEMAS = [
    f"{before}{words}"
    for before in ("", "{ a } ", '"about" ', '{ a }\n"""about"""\n')
    for words in ("type T { a: Int }", "extend type T { a: Int }", "schema { query: Q }", "query Q { a }", "{ a }", "a", "")
]

# A number that may be a Float beyond the largest double: the languages don't agree on what its value is.
BEYOND = re.compile(r"[0-9][eE]\+?[0-9]{4}|[0-9]{309}")


def texts(count: int = MADE) -> List[str]:
    shapes = [shape(size) for shape in growth_rows.TEXTS.values() for size in SHAPES]
    every = dict.fromkeys([*of_rows(), WIDE, *SCHEMAS, *shapes, *made(count), *literals(), *large()])
    return [text for text in every if not BEYOND.search(text)]


def written(text: str) -> bytes:
    """A text as it is in a corpus."""
    source = text.encode()
    return b"%d\n%s\n" % (len(source), source)


def main() -> None:
    for text in texts(*map(int, sys.argv[1:2])):
        sys.stdout.buffer.write(written(text))


if __name__ == "__main__":
    main()
