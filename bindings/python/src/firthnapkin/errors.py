"""The errors of texts that are no document."""

from __future__ import annotations

import enum
from typing import Any, Optional, Tuple

from .excerpts import excerpt_of
from .parts import Position
from .schemas import begins_schema

__all__ = ["ErrorDetail", "ErrorKind", "FirthnapkinError"]


class ErrorKind(enum.Enum):
    """Why a text isn't a document within the limits."""

    # tables.toml: errors
    #: No document could have the token there.
    UNEXPECTED_TOKEN = 0
    #: The source ends within a document.
    UNEXPECTED_END = 1
    #: There is no token here: the detail says why.
    LEXICAL = 2
    #: The token is nested too deep.
    TOO_DEEP = 3
    #: The token is the first past the limit.
    TOO_MANY_TOKENS = 4
    #: Never reported, since every token of a literal is read.
    INVALID_SCALAR = 5
    #: The spread names no fragment of the document.
    UNKNOWN_FRAGMENT = 6
    #: The spread is within the fragment that it names, itself or through others.
    FRAGMENT_CYCLE = 7
    # tables.toml: end
    #: There is half of a surrogate pair alone: such a str can't be encoded as UTF-8.
    SURROGATE = 100
    #: The operation exceeds a limit, with every fragment expanded.
    OPERATION_TOO_LARGE = 101


class ErrorDetail(enum.Enum):
    """Why there is no token."""

    # tables.toml: details
    #: The error isn't lexical.
    NONE = 0
    #: No token begins with the character.
    UNKNOWN_CHARACTER = 1
    #: A token has begun, and the character can't follow.
    UNEXPECTED_CHARACTER = 2
    #: The source or the line ends within a string.
    UNTERMINATED_STRING = 3
    #: The character is not allowed in a string.
    UNKNOWN_CHARACTER_IN_STRING = 4
    #: What follows a backslash in a string is no escape.
    UNKNOWN_ESCAPE = 5
    #: The source ends within a token.
    UNEXPECTED_END_IN_TOKEN = 6
    #: Never reported.
    INVALID_NUMBER = 7
    # tables.toml: end


class FirthnapkinError(ValueError):
    """Why a text isn't a document within the limits, and where. It can be pickled and copied, with its source."""

    def __init__(
        self,
        message: str,
        kind: ErrorKind,
        start: Position,
        end: Position,
        source: str,
        detail: ErrorDetail = ErrorDetail.NONE,
        character: Optional[str] = None,
        source_name: Optional[str] = None,
    ) -> None:
        where = "" if source_name is None else f"{source_name}:"
        super().__init__(f"{message}. At {where}{start.line + 1}:{start.column + 1}")
        #: The error in words, without its position.
        self.message = message
        self.kind = kind
        self.start = start
        self.end = end
        self.source = source
        self.detail = detail
        #: The character that the detail is about.
        self.character = character
        #: The name that the call was given for the source, and None without one.
        self.source_name = source_name

    @property
    def line(self) -> int:
        """The line, counted from 1. Lines end at line feeds."""
        return self.start.line + 1

    @property
    def column(self) -> int:
        """The column in characters, counted from 1."""
        return self.start.column + 1

    @property
    def lineno(self) -> int:
        """The same as `line`, by the name that Python's own errors have for it."""
        return self.line

    @property
    def colno(self) -> int:
        """The same as `column`, by the name that Python's own errors have for it."""
        return self.column

    @property
    def utf16_column(self) -> int:
        """The column in UTF-16 units, counted from 0, as editors and JavaScript count."""
        before = self.source[self.start.index - self.start.column : self.start.index]
        return len(before) + sum(character > "\uffff" for character in before)

    @property
    def excerpt(self) -> str:
        """The lines around the position, numbered from 1, with a caret below its character. It is made each time.

        They are the line before, the line, the caret, and the line after. Of a line of more than 120 characters the 80 from 40
        before the column are shown. A lone surrogate is shown as a question mark.
        """
        return excerpt_of(_replaced(self.source), len(_replaced(self.source[: self.start.index])))

    @property
    def is_schema(self) -> bool:
        """Whether the error is that a definition of a schema, or its description, begins here. It is looked for each time."""
        return self.kind is ErrorKind.UNEXPECTED_TOKEN and begins_schema(self.source, self.start.index, self.end.index)

    def __reduce__(self) -> Tuple[Any, ...]:
        position = (self.start, self.end, self.source)
        return type(self), (self.message, self.kind, *position, self.detail, self.character, self.source_name), self.__dict__


def _replaced(source: str) -> bytes:
    """The UTF-8 of a str, with a question mark for each lone surrogate, which has none."""
    return str.encode(source, "utf-8", "replace")
