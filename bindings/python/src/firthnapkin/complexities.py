"""How large operations are."""

from __future__ import annotations

import struct
from typing import NamedTuple

__all__ = ["Complexity"]

# The operation's node, and the numbers below.
_LAYOUT = struct.Struct("=I5I")
_DEFINITION = struct.Struct("=I")


class Complexity(NamedTuple):
    """How large an operation is with every fragment expanded. Numbers saturate at 4294967295.

    The numbers are those of the text alone: no schema gives a field a weight, equal fields aren't merged, and `@skip` and
    `@include` leave nothing out.
    """

    # tables.toml: complexity as fields
    #: The fields, at every depth.
    fields: int
    #: The fields with an alias.
    aliases: int
    #: The directives of the operation and of all in it, and of a fragment each time that it is spread.
    directives: int
    #: The fields that are in no other field.
    root_fields: int
    #: How many fields are nested in one another at most: 1 if no field is in another.
    depth: int
    # tables.toml: end


def complexity_of(complexities: bytes, operation: int) -> Complexity:
    """Returns that of the operation of a node. They are in the order of their nodes."""
    low, high = 0, len(complexities) // _LAYOUT.size
    while high - low > 1:
        middle = (low + high) // 2
        is_before = _DEFINITION.unpack_from(complexities, middle * _LAYOUT.size)[0] <= operation
        low, high = (middle, high) if is_before else (low, middle)
    return Complexity(*_LAYOUT.unpack_from(complexities, low * _LAYOUT.size)[1:])
