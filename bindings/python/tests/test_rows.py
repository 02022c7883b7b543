"""The rows of the language. A text's nodes give the lines that gqlcheck writes, and its error is the same as gqlcheck's. Its
tokens are those that a pattern finds, and its canonical text is the one that gqlcanon writes."""

import os
import sys
import unittest
from typing import Dict, List

import firthnapkin
from firthnapkin import Kind

sys.path.insert(0, os.path.join(os.path.dirname(os.path.abspath(__file__)), "..", "..", "..", "tests"))
from cutting import cut, joined, kind_of, unquoted
from rows import gqlcheck, plain, rows

SCALARS = (Kind.INT, Kind.LARGE_INT, Kind.FLOAT, Kind.STRING, Kind.BLOCK_STRING, Kind.BOOLEAN)
# gqlcheck's words for the kinds that it names otherwise.
WORDS = {
    Kind.FRAGMENT_DEFINITION: "fragment",
    Kind.VARIABLE_DEFINITIONS: "variables",
    Kind.VARIABLE_DEFINITION: "variable",
    Kind.FRAGMENT_SPREAD: "spread",
    Kind.INLINE_FRAGMENT: "inline",
    Kind.VARIABLE: "reference",
    Kind.OBJECT_FIELD: "key",
}


def word_of(kind: Kind) -> str:
    return WORDS.get(kind, kind.name.lower())


KINDS = set(map(word_of, Kind))


def lines(document: firthnapkin.Document) -> List[str]:
    """The lines that gqlcheck writes for a document."""
    written = []
    for node in document:
        word = "scalar" if node.kind in SCALARS else word_of(node.kind)
        line = f"{word} {node.start.index} {node.end.index}"
        if node.kind is Kind.TYPE:
            line += f" {node.value}"
        elif node.kind is Kind.FRAGMENT_DEFINITION:
            line += f" {node.name} {node.value}"
        elif node.name is not None:
            line += f" {node.name}"
        written.append(line)
    return written


def refusal(error: firthnapkin.FirthnapkinError) -> str:
    """The line that gqlcheck writes for an error: its line and its column count from 0, and it says nothing of schemas and
    descriptions."""
    message = error.message.replace(": this is a schema's definition, not a request's", "")
    message = message.replace(": a description before a request isn't in the specification of October 2021", "")
    return f"{message}. At {error.start.line}:{error.start.column}"


class Rows(unittest.TestCase):
    def of_file(self, name: str, least: int) -> None:
        count = 0
        for row in gqlcheck(name):
            with self.subTest(file=name, row=row.number):
                if row.wanted == ["Not UTF-8"]:
                    self.assertRaises(UnicodeDecodeError, row.text.decode)
                    continue
                try:
                    found = lines(firthnapkin.parse(row.text.decode()))
                except firthnapkin.FirthnapkinError as error:
                    found = [refusal(error)]
                self.assertEqual("\n".join(found), "\n".join(row.wanted))
            count += 1
        self.assertGreaterEqual(count, least)

    def test_gqlcheck(self) -> None:
        self.of_file("gqlcheck.rows", 25)

    def test_peer(self) -> None:
        self.of_file("peer.rows", 1500)

    def test_tokens(self) -> None:
        """Kinds and texts of the tokens of each text that can be cut. For each other text of gqlcheck, the error of parse."""
        counts = {"cut": 0, "refused": 0}
        for name in ("gqlcheck.rows", "peer.rows", "canonical.rows"):
            for row in rows(name):
                if row.kind not in ("gqlcheck", "canonical") or row.wanted[-1] == "NotUtf8":
                    continue
                text = row.text.decode()
                with self.subTest(file=name, row=row.number):
                    try:
                        found = firthnapkin.tokens(text)
                    except firthnapkin.FirthnapkinError as error:
                        counts["refused"] += 1
                        for call in (firthnapkin.parse, firthnapkin.canonical):
                            with self.assertRaises(firthnapkin.FirthnapkinError) as raised:
                                call(text)
                            self.assertEqual((str(raised.exception), raised.exception.start), (str(error), error.start))
                        self.assertIs(error.kind, firthnapkin.ErrorKind.LEXICAL)
                        self.assertEqual(refusal(error), plain(row.wanted[0]).decode())
                        continue
                    counts["cut"] += 1
                    wanted = [(kind_of(it), begin, it, unquoted(it)) for begin, it in cut(text)]
                    wanted.append(("END_OF_FILE", len(text), "", ""))
                    self.assertEqual([(it.kind.name, it.start.index, it.text, it.unquoted) for it in found], wanted)
                    made = firthnapkin.canonical(text)
                    self.assertEqual(made, joined([it for _, it in cut(text)]))
                    if row.kind == "canonical":
                        self.assertEqual((row.wanted[-1], made), ("Text", "\n".join(plain(it).decode() for it in row.wanted[:-1])))
        self.assertGreater(counts["cut"], 600)
        self.assertGreater(counts["refused"], 1000)

    def test_documents(self) -> None:
        """A row of documents has the first and the last position of each part, too."""
        count = 0
        for row in rows("documents.rows"):
            if row.kind != "document" or not row.wanted or " " not in row.wanted[0]:
                continue
            with self.subTest(row=row.number):
                found: Dict[str, List[str]] = {}
                try:
                    document = firthnapkin.parse(row.text.decode(), depth=1000)
                except firthnapkin.FirthnapkinError as error:
                    self.assertNotRegex(row.wanted[0], r" (query|mutation|subscription|fragment)\b")
                    position = ":".join(str(n) for n in error.start[:3])
                    self.assertTrue(row.wanted[0].startswith(position + "-"), (row.wanted[0], position))
                else:
                    for node in document:
                        start, end = ("{0.index}:{0.line}:{0.column}".format(p) for p in (node.start, node.end))
                        found.setdefault(f"{start}-{end}", []).append(word_of(node.kind))
                    for line in row.wanted:
                        position, part = line.split(" ", 2)[:2]
                        if part in KINDS and part not in ("alias", "type"):
                            part = "reference" if part == "variable" and "reference" in found.get(position, []) else part
                            self.assertIn(part, found.get(position, []), line)
                count += 1
        self.assertGreaterEqual(count, 20)
