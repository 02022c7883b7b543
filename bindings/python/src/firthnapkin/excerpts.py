"""Excerpts of sources."""

from __future__ import annotations

from . import _parser

_OK, _SOURCE_TOO_LONG = 0, 7


def excerpt_of(source: bytes, byte: int) -> str:
    """Returns the lines around a byte of a source, which is UTF-8, with a caret below its character.

    Raises MemoryError if memory runs out, ValueError if the source has 4 GiB or more.
    """
    status, _, lines = _parser.excerpt(source, byte)
    if status == _OK:
        return lines.decode()
    if status == _SOURCE_TOO_LONG:
        raise ValueError("source must have less than 4 GiB")
    raise SystemError(f"the library returned {status}")
