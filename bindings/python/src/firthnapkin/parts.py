"""Parts of a text, which the library returns as bytes, one part after the other."""

from __future__ import annotations

import operator
import struct
from typing import Any, ClassVar, List, NamedTuple, Sequence, Tuple, TypeVar, Union, overload

from .excerpts import excerpt_of

__all__ = ["Position"]


class Position(NamedTuple):
    """How many characters, line feeds, characters of the line, and bytes of UTF-8 are before a position: all count from 0."""

    index: int  # type: ignore[assignment]
    line: int
    column: int
    byte: int


class Part:
    """A part of a text. Its numbers are two of its own, the eight of its positions, and further ones of its own."""

    __slots__ = ("_whole", "_index", "_numbers", "__weakref__")

    def __init__(self, whole: Parts[Any], index: int) -> None:
        self._whole = whole
        self._index = index
        self._numbers: Tuple[int, ...] = whole._LAYOUT.unpack_from(whole._parts, whole._LAYOUT.size * index)

    @property
    def index(self) -> int:
        """The index among the parts of the text."""
        return self._index

    @property
    def start(self) -> Position:
        return Position(*self._numbers[2:6])

    @property
    def end(self) -> Position:
        """The position after the last character."""
        return Position(*self._numbers[6:10])

    @property
    def text(self) -> str:
        """The source from the start to the end: a number as it is written, a string with its quotes."""
        return self._whole.text[self._numbers[2] : self._numbers[6]]

    @property
    def line(self) -> int:
        """The line of the start, counted from 1. Lines end at line feeds."""
        return self._numbers[3] + 1

    @property
    def column(self) -> int:
        """The column of the start in characters, counted from 1."""
        return self._numbers[4] + 1

    @property
    def excerpt(self) -> str:
        """The lines around the start, with a caret below its character, as `FirthnapkinError.excerpt`. It is made each time."""
        return excerpt_of(self._whole._written(), self._numbers[5])

    def __eq__(self, other: object) -> bool:
        """Whether both are the same part of the result of one call."""
        if not isinstance(other, Part):
            return NotImplemented
        return self._whole is other._whole and self._index == other._index

    def __hash__(self) -> int:
        return hash((id(self._whole), self._index))


P = TypeVar("P", bound=Part)


class Parts(Sequence[P]):
    """The parts of a text. A part's object is made each time that one is asked for."""

    __slots__ = ("_text", "_parts", "_count", "__weakref__")

    #: The layout of a part's numbers in bytes.
    _LAYOUT: ClassVar[struct.Struct]

    def __init__(self, text: str, parts: bytes) -> None:
        self._text = text
        self._parts = parts
        self._count = len(parts) // self._LAYOUT.size

    @property
    def text(self) -> str:
        """The source."""
        return self._text

    def _part(self, index: int) -> P:
        raise NotImplementedError

    def _written(self) -> bytes:
        """The source as UTF-8."""
        return str.encode(self._text)

    def __len__(self) -> int:
        return self._count

    @overload
    def __getitem__(self, index: int) -> P: ...

    @overload
    def __getitem__(self, index: slice) -> Sequence[P]: ...

    def __getitem__(self, index: Union[int, slice]) -> Union[P, Sequence[P]]:
        if isinstance(index, slice):
            found: List[P] = [self._part(i) for i in range(*index.indices(self._count))]
            return found
        return self._part(from_start(index, self._count))

    def __contains__(self, part: object) -> bool:
        return isinstance(part, Part) and part._whole is self


def from_start(index: int, count: int) -> int:
    """Returns an index of a sequence, counted from its start. Raises TypeError if it is no int, IndexError out of range."""
    try:
        found = operator.index(index)
    except TypeError:
        raise TypeError(f"an index must be an int or a slice, not {type(index).__name__}") from None
    if found < 0:
        found += count
    if not 0 <= found < count:
        raise IndexError("index out of range")
    return found
