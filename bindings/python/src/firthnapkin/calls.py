"""What the package's calls of the library share: their sources, and the errors of their statuses."""

from __future__ import annotations

import struct
from typing import Optional, Tuple

from .errors import ErrorDetail, ErrorKind, FirthnapkinError
from .parts import Position
from .schemas import note_on

# The statuses of the library.
# tables.toml: statuses as numbers without not_utf8, out_of_memory, buffer_too_small, invalid_limit, invalid_error
_OK = 0
_SYNTAX_ERROR = 1
_TOO_DEEP = 4
_TOO_MANY_TOKENS = 5
_SOURCE_TOO_LONG = 7
_UNKNOWN_FRAGMENT = 10
_FRAGMENT_CYCLE = 11
# tables.toml: end

# That of an operation beyond a limit, which this package adds.
_OPERATION_TOO_LARGE = 101

_WITH_ERROR = (_SYNTAX_ERROR, _TOO_DEEP, _TOO_MANY_TOKENS, _UNKNOWN_FRAGMENT, _FRAGMENT_CYCLE, _OPERATION_TOO_LARGE)

# kind, detail, character, the positions, and the bytes that the words show
_ERROR = struct.Struct("=3I8I2I")


def require_text(source: str, name: Optional[str]) -> None:
    """Raises TypeError if a source is no str, or its name neither a str nor None."""
    if not isinstance(source, str):
        raise TypeError(f"source must be a str, not {type(source).__name__}")
    if name is not None and not isinstance(name, str):
        raise TypeError(f"name must be a str or None, not {type(name).__name__}")


def encoded(source: str, name: Optional[str]) -> bytes:
    """Returns the UTF-8 of a str. Raises FirthnapkinError if it has a lone surrogate."""
    try:
        return str.encode(source)
    except UnicodeEncodeError as error:
        raise _surrogate(source, error.start, name) from None


def given(
    source: str, status: int, first: bytes, texts: bytes, *, name: Optional[str] = None, is_document: bool = True
) -> Tuple[bytes, bytes]:
    """Returns the results of a call on a source, which may have a name. Raises its error if the status says that it failed."""
    if status == _OK:
        return first, texts
    if status in _WITH_ERROR:
        raise _error(source, first, texts, name, is_document)
    if status == _SOURCE_TOO_LONG:
        raise ValueError("source must have less than 4 GiB")
    raise SystemError(f"the parser returned {status}")


def _error(source: str, numbers: bytes, words: bytes, name: Optional[str], is_document: bool) -> FirthnapkinError:
    kind, detail, character, *positions = _ERROR.unpack(numbers)[:11]
    start, end = Position(*positions[:4]), Position(*positions[4:])
    message = words.decode()
    if is_document and kind == ErrorKind.UNEXPECTED_TOKEN.value:
        message += note_on(source, start.index, end.index)
    return FirthnapkinError(
        message,
        ErrorKind(kind),
        start,
        end,
        source,
        ErrorDetail(detail),
        chr(character) if detail in _WITH_CHARACTER else None,
        name,
    )


_WITH_CHARACTER = (
    ErrorDetail.UNKNOWN_CHARACTER.value,
    ErrorDetail.UNEXPECTED_CHARACTER.value,
    ErrorDetail.UNKNOWN_CHARACTER_IN_STRING.value,
)


def _surrogate(source: str, index: int, name: Optional[str]) -> FirthnapkinError:
    """Returns the error of a str that can't be written as UTF-8."""
    before = source[:index]
    line, column = before.count("\n"), index - (before.rfind("\n") + 1)
    start = Position(index, line, column, len(str.encode(before)))
    # It would take three bytes.
    end = Position(index + 1, line, column + 1, start.byte + 3)
    message = f"Lone surrogate U+{ord(source[index]):04X}"
    return FirthnapkinError(message, ErrorKind.SURROGATE, start, end, source, source_name=name)
