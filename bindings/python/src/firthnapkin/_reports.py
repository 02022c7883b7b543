"""What the tool writes: lines for people and editors, or JSON."""

from __future__ import annotations

import json
import sys
from typing import Any, Dict, Iterable, NamedTuple, Sequence, Union

from .document import Document
from .lexer import Token, TokenKind
from .nodes import Kind, Node

_STRINGS = (Kind.STRING, Kind.BLOCK_STRING)
_STRING_TOKENS = (TokenKind.STRING, TokenKind.BLOCK_STRING)


class Refusal(NamedTuple):
    """Why a file has no request, with the line and the column counted from 1."""

    line: int
    column: int
    kind: str
    message: str
    excerpt: str


class Counts:
    """How many files there were of each sort."""

    def __init__(self) -> None:
        self.passed = self.failed = self.schemas = self.unreadable = 0


# What a terminal might take as a command, or use to show a text in another order than it has.
_CONTROLS = dict.fromkeys([*range(9), *range(11, 32), *range(127, 160), *range(0x202A, 0x202F), *range(0x2066, 0x206A)], "\ufffd")


def plain(text: str) -> str:
    """A text of a stranger as it is shown: without control characters, but for tabs and line feeds."""
    return text.translate(_CONTROLS)


class Lines:
    """Writes `file:line:column: message` and an excerpt for each refusal. What is no result goes to standard error."""

    def refused(self, name: str, refusal: Refusal) -> None:
        print(f"{self._place(name, refusal.line, refusal.column)} {plain(refusal.message)}\n{plain(refusal.excerpt)}")

    def skipped(self, name: str) -> None:
        print(f"{_one_line(name)}: skipped, since it is a schema", file=sys.stderr)

    def unreadable(self, name: str, problem: str) -> None:
        print(f"{_one_line(name)}: {problem}", file=sys.stderr)

    def passed(self, name: str) -> None:
        pass

    def canonical(self, name: str, text: str) -> None:
        print(text)

    def nodes(self, name: str, document: Document) -> None:
        for node in document:
            print(" ".join((self._place(name, node.line, node.column), node.kind.name, *_words_of_node(node))))

    def tokens(self, name: str, tokens: Sequence[Token]) -> None:
        for token in tokens:
            text = json.dumps(token.text, ensure_ascii=False) if token.kind in _STRING_TOKENS else token.text
            print(" ".join((self._place(name, token.line, token.column), token.kind.name, text)).rstrip())

    def end(self, counts: Counts) -> None:
        files = counts.passed + counts.failed + counts.schemas + counts.unreadable
        if files > 1 or counts.schemas:
            numbers = f"{counts.passed} passed, {counts.failed} failed, {counts.schemas} skipped as schemas"
            print(f"{files} {'file' if files == 1 else 'files'}: {numbers}, {counts.unreadable} not read", file=sys.stderr)

    def _place(self, name: str, line: int, column: int) -> str:
        return f"{_one_line(name)}:{line}:{column}:"


def _one_line(name: str) -> str:
    return plain(name).replace("\n", "\ufffd")


def _words_of_node(node: Node) -> Iterable[str]:
    """What a line says of a node after its kind."""
    if node.kind in _STRINGS:
        return [json.dumps(node.value, ensure_ascii=False)]
    if node.kind is Kind.FRAGMENT_DEFINITION:
        return [f"{node.name} on {node.value}"]
    if node.kind is Kind.TYPE:
        return [str(node.value)]
    if node.name is not None:
        return [node.name]
    return [node.text] if node.kind.value >= Kind.INT.value or node.kind is Kind.NULL else []


class Objects:
    """Writes a JSON object for each file, in a line of its own."""

    def refused(self, name: str, refusal: Refusal) -> None:
        self._write({"file": name, "status": "failed", **refusal._asdict()})

    def skipped(self, name: str) -> None:
        self._write({"file": name, "status": "schema"})

    def unreadable(self, name: str, problem: str) -> None:
        self._write({"file": name, "status": "unreadable", "message": problem})

    def passed(self, name: str) -> None:
        self._write({"file": name, "status": "passed"})

    def canonical(self, name: str, text: str) -> None:
        self._write({"file": name, "status": "passed", "canonical": text})

    def nodes(self, name: str, document: Document) -> None:
        self._write_parts(name, "nodes", map(_object_of_node, document))

    def tokens(self, name: str, tokens: Sequence[Token]) -> None:
        self._write_parts(name, "tokens", map(_object_of_token, tokens))

    def end(self, counts: Counts) -> None:
        pass

    def _write(self, found: Dict[str, Any]) -> None:
        print(json.dumps(found))

    def _write_parts(self, name: str, word: str, parts: Iterable[Dict[str, Any]]) -> None:
        """Writes one after the other, since there may be many."""
        head = json.dumps({"file": name, "status": "passed", word: []})
        sys.stdout.write(head[:-2])
        for index, part in enumerate(parts):
            sys.stdout.write((", " if index else "") + json.dumps(part))
        print("]}")


def _object_of_node(node: Node) -> Dict[str, Any]:
    found: Dict[str, Any] = {**_place_of(node), "name": node.name, "value": None, "descendants": node.descendants}
    try:
        found["value"] = node.value
    except OverflowError:
        # The text has the number.
        pass
    # The texts of parts around others would together be far longer than the source.
    return {**found, "text": node.text} if node.kind.value >= Kind.INT.value else found


def _object_of_token(token: Token) -> Dict[str, Any]:
    return {**_place_of(token), "text": token.text}


def _place_of(part: Union[Node, Token]) -> Dict[str, Any]:
    return {"kind": part.kind.name, "line": part.line, "column": part.column, "start": part.start.index, "end": part.end.index}
