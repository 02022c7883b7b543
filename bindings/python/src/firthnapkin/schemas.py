"""How schemas and descriptions are recognised, which this parser doesn't read."""

from __future__ import annotations

import re

from . import _parser
from .limits import packed

_OK = 0

_LOOSEST = packed(_parser.MAX_DEPTH, _parser.MAX_TOKENS)

# The words with which a definition of a type system document begins, and the tokens with which one of a request does.
_SCHEMA_WORDS = frozenset(("type", "schema", "extend", "directive", "scalar", "interface", "union", "enum", "input"))
_REQUEST_TOKENS = frozenset(("query", "mutation", "subscription", "fragment", "{"))

# What is ignored after a description, and the name or the brace after that.
_AFTER_DESCRIPTION = re.compile(r"(?:[\ufeff\t\n\r ,]|#[^\n\r]*)*([_A-Za-z][_0-9A-Za-z]*|\{|)")


def note_on(source: str, start: int, end: int) -> str:
    """Returns what the message of an unexpected token says of a schema or a description that begins with it."""
    if begins_schema(source, start, end):
        return ": this is a schema's definition, not a request's"
    # Where a definition may begin, such a token itself is never unexpected.
    if _first_token(source, start, end) in _REQUEST_TOKENS and _begins_definition(source, start):
        return ": a description before a request isn't in the specification of October 2021"
    return ""


def begins_schema(source: str, start: int, end: int) -> bool:
    """Whether an unexpected token begins a definition of a schema, or its description.

    The token is the characters from the start to the end, and no document has it after those before it.
    """
    return _first_token(source, start, end) in _SCHEMA_WORDS and _begins_definition(source, start)


def _first_token(source: str, start: int, end: int) -> str:
    """Returns a token, or in place of a String the name or the opening brace after it, or nothing."""
    token = source[start:end]
    if not token.startswith('"'):
        return token
    found = _AFTER_DESCRIPTION.match(source, end)
    return found[1] if found else ""


def _begins_definition(source: str, start: int) -> bool:
    """Whether a definition may begin here: what is before is a document, or has no tokens."""
    before = str.encode(source[:start], "utf-8", "replace")
    return _parser.parse(before, _LOOSEST)[0] == _OK or _parser.canonical(before)[::2] == (_OK, b"")
