"""The tokens of a text, and its canonical text."""

from __future__ import annotations

import enum
import struct
from typing import Optional

from . import _parser
from .calls import encoded, given, require_text
from .parser import LIMITS
from .parts import Part, Parts

__all__ = ["Token", "TokenKind", "Tokens", "canonical", "tokens"]


class TokenKind(enum.Enum):
    """The kind of a token."""

    # tables.toml: tokens
    #: The end of the source, which has no characters.
    END_OF_FILE = 0
    #: A name or a word of the language.
    NAME = 1
    #: A text between quotes.
    STRING = 2
    #: A text between three quotes on each side.
    BLOCK_STRING = 3
    #: A number with a fraction or an exponent.
    FLOAT = 4
    #: A number without either.
    INT = 5
    #: `!`
    EXCLAMATION_MARK = 6
    #: `$`
    DOLLAR = 7
    #: `(`
    PAREN_OPEN = 8
    #: `)`
    PAREN_CLOSE = 9
    #: `[`
    BRACKET_OPEN = 10
    #: `]`
    BRACKET_CLOSE = 11
    #: `{`
    CURLY_OPEN = 12
    #: `}`
    CURLY_CLOSE = 13
    #: `...`
    ELLIPSIS = 14
    #: `:`
    COLON = 15
    #: `=`
    EQUALS = 16
    #: `@`
    AT = 17
    #: `|`
    PIPE = 18
    # tables.toml: end


_KINDS = {kind.value: kind for kind in TokenKind}


class Token(Part):
    """A token of a text. The end has no characters."""

    __slots__ = ()

    @property
    def kind(self) -> TokenKind:
        """What it is."""
        return _KINDS[self._numbers[0]]

    @property
    def unquoted(self) -> str:
        """The text without the quotes of a string: escapes and lines are as they are written."""
        quotes = self._numbers[1]
        return self._whole.text[self._numbers[2] + quotes : self._numbers[6] - quotes]

    def __repr__(self) -> str:
        return f"<{self.kind.name} {self.text!r}>"


class Tokens(Parts[Token]):
    """A text's tokens. The last one is its end. A token object is made each time that one is asked for."""

    __slots__ = ()

    # kind, quotes, and the start's and the end's index, line, column and byte
    _LAYOUT = struct.Struct("=2I8I")

    def _part(self, index: int) -> Token:
        return Token(self, index)

    def __repr__(self) -> str:
        return f"<{self._count} tokens>"


def tokens(source: str, *, name: Optional[str] = None, max_tokens: Optional[int] = None) -> Tokens:
    """Returns the tokens of a text. The last one is its end. Other threads run meanwhile.

    White space, line ends, commas, comments and byte order marks are no tokens. With `max_tokens`, which doesn't
    count the end, the error is at the first token past the limit. Of the text after that token, only a lone surrogate is an
    error before it. The name is that of the text, as of a file: errors have it as their `source_name`.

    Raises FirthnapkinError, a ValueError, at the first position that has no token, or at the first token past the limit; TypeError
    if the source is no str, the name neither a str nor None, or max_tokens neither an int nor None; ValueError if max_tokens is below 0, or the text has
    4 GiB or more; MemoryError if memory runs out.
    """
    require_text(source, name)
    most = LIMITS.by_name["max_tokens"].word("max_tokens", max_tokens)
    parts, _ = given(source, *_parser.tokens(encoded(source, name), most), name=name)
    return Tokens(source, parts)


def canonical(source: str, *, name: Optional[str] = None) -> str:
    """Returns the canonical text: one for each query, whatever its white space and comments. Other threads run meanwhile.

    It is the tokens of the text as they are written, with a space between two neighbours of which neither is a punctuator, and
    before `...` after a token that is no punctuator. It is never more than twice as long as the text. The call doesn't check
    whether the text is a document. The name is that of the text, as of a file: errors have it as their `source_name`.

    Raises FirthnapkinError, a ValueError, at the first position that has no token; TypeError if the source is no str, or the
    name neither a str nor None; ValueError if the text has 4 GiB or more; MemoryError if memory runs out.
    """
    require_text(source, name)
    _, text = given(source, *_parser.canonical(encoded(source, name)), name=name)
    return text.decode()
