"""graphql-core's locations, whose tokens are made when they are asked for. Sources, copies and pickles have no trace of this."""

from __future__ import annotations

import copy
from typing import Any, Dict, Tuple, TypeVar
from weakref import ref

from graphql.language import Lexer, Source, Token, TokenKind, ast

__all__ = ["DocumentLocation", "Location"]

_Place = TypeVar("_Place", bound="Location")


class _Tokens:
    """The tokens of a source, by where they start and where they end."""

    def __init__(self, source: Source) -> None:
        self.body = source.body
        self.starting: Dict[int, Token] = {}
        self.ending: Dict[int, Token] = {}
        lexer = Lexer(source)
        self.first = lexer.token
        while lexer.token.kind is not TokenKind.EOF:
            token = lexer.advance()
            if token.kind is not TokenKind.EOF:
                self.starting[token.start] = self.ending[token.end] = token
        self.last = lexer.token


# By the identities of a source, which has no hash, and of its body, since that can be set. They go when the source does.
_kept: Dict[Tuple[int, int], Tuple["ref[Source]", _Tokens]] = {}


def _tokens_of(source: Source) -> _Tokens:
    """Returns the tokens of a source, the same ones each time and in each thread."""
    key = id(source), id(source.body)
    found = _kept.get(key)
    if found is None:
        # Of two threads that come here, one sets them.
        found = _kept.setdefault(key, (ref(source, lambda _, forget=_kept.pop: forget(key, None)), _Tokens(source)))
    return found[1]


class Location(ast.Location):
    """A location whose tokens are made when they are asked for."""

    __slots__ = ()

    @property
    def start_token(self) -> Token:  # type: ignore[override]
        return _tokens_of(self.source).starting[self.start]

    @property
    def end_token(self) -> Token:  # type: ignore[override]
        return _tokens_of(self.source).ending[self.end]

    def __reduce__(self) -> Tuple[Any, ...]:
        """A pickle has graphql-core's own location, with its tokens, and needs no other package."""
        return ast.Location, (self.start_token, self.end_token, self.source)

    def __copy__(self: _Place) -> _Place:
        made = object.__new__(type(self))
        made.start, made.end, made.source = self.start, self.end, self.source
        return made

    def __deepcopy__(self: _Place, memo: Dict[int, Any]) -> _Place:
        made = copy.copy(self)
        made.source = copy.deepcopy(self.source, memo)
        return made


class DocumentLocation(Location):
    """The location of a document, which begins and ends with tokens of its own."""

    __slots__ = ()

    @property
    def start_token(self) -> Token:  # type: ignore[override]
        return _tokens_of(self.source).first

    @property
    def end_token(self) -> Token:  # type: ignore[override]
        return _tokens_of(self.source).last
