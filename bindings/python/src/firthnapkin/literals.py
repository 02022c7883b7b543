"""Texts that are one value or one type, and then end."""

from __future__ import annotations

from typing import Optional

from . import _parser
from .calls import encoded, given, require_text
from .document import Document
from .nodes import Kind, Node
from .parser import LIMITS
from .syntax import SyntaxPart, numbers_of
from .values import VALUES, Value, value_of

__all__ = ["ParsedType", "ParsedValue", "parse_type", "parse_value"]


class ParsedValue(SyntaxPart):
    """A value, as `parse_value` returns it. Its document has the value's nodes, and no definitions."""

    __slots__ = ()

    _KINDS = VALUES

    @property
    def value(self) -> Value:
        """What the value means. It is made each time.

        Raises OverflowError for an Int of more digits than Python accepts, and for a Float beyond a float. `text` has both.
        """
        return value_of(self._node)


class ParsedType(SyntaxPart):
    """A type, as `parse_type` returns it. Its document has one node, and no definitions."""

    __slots__ = ()

    _KINDS = numbers_of(Kind.TYPE)

    @property
    def type(self) -> str:
        """The type as it is written, without spaces."""
        return str(self._node.value)


def parse_value(
    source: str, *, constant: bool = False, name: Optional[str] = None, depth: int = 200, max_tokens: Optional[int] = None
) -> ParsedValue:
    """Returns the value that a text is, as `{a: [1, $b]}`. A constant is a value without variables: they are errors there.

    The name and the limits are those of `parse`, and so is what it raises, for a text that is not one value.
    """
    require_text(source, name)
    limits = _OF_VALUES.packed(locals())
    return ParsedValue(_node(_parser.AS_CONSTANT if constant else _parser.AS_VALUE, source, name, limits))


def parse_type(source: str, *, name: Optional[str] = None, depth: int = 200, max_tokens: Optional[int] = None) -> ParsedType:
    """Returns the type that a text is, as `[ID!]!`.

    The name and the limits are those of `parse`, and so is what it raises, for a text that is not one type.
    """
    require_text(source, name)
    limits = _OF_TYPES.packed(locals())
    return ParsedType(_node(_parser.AS_TYPE, source, name, limits))


_OF_VALUES = LIMITS.shared_with(parse_value)
_OF_TYPES = LIMITS.shared_with(parse_type)


def _node(what: int, source: str, name: Optional[str], limits: bytes) -> Node:
    """Returns the first node of a text that is parsed as this."""
    written = encoded(source, name)
    status, nodes, texts = _parser.parse_as(written, limits, what)
    nodes, texts = given(source, status, nodes, texts, name=name, is_document=False)
    return Document(source, written, nodes, texts, b"", name)[0]
