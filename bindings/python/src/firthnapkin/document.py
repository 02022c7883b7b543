"""A document: its nodes, and its operations and fragments."""

from __future__ import annotations

import struct
from array import array
from typing import FrozenSet, Optional

from . import _parser
from .calls import given
from .complexities import Complexity, complexity_of
from .definitions import DEFINITIONS, FRAGMENTS, OPERATIONS, Fragment, Operation
from .nodes import Node, Nodes
from .parts import Parts
from .syntax import SyntaxParts, first_named

__all__ = ["Document"]


class Document(Parts[Node]):
    """A document's nodes, each before its children. Node objects are made on request."""

    __slots__ = ("_source", "_texts", "_parent", "_complexities", "_name")

    # kind, descendants, the start's and the end's index, line, column and byte, the name's bytes, value, value's length
    _LAYOUT = struct.Struct("=2I8I2IqI4x")
    _HEAD = struct.Struct("=2I")

    def __init__(
        self, text: str, source: bytes, nodes: bytes, texts: bytes, complexities: bytes, name: Optional[str] = None
    ) -> None:
        super().__init__(text, nodes)
        self._source = source
        self._texts = texts
        self._parent: Optional[array[int]] = None
        # Nothing if they aren't found yet.
        self._complexities = complexities
        # The name of the text, for the error of a fragment that can't be expanded.
        self._name = name

    def _part(self, index: int) -> Node:
        return Node(self, index)

    @property
    def definitions(self) -> Nodes:
        """The operations and fragments. They are looked for each time."""
        return self._siblings(0, self._count, DEFINITIONS)

    @property
    def operations(self) -> SyntaxParts[Operation]:
        """The operations, in the order of the text. They are looked for each time."""
        return SyntaxParts(self._siblings(0, self._count, OPERATIONS), Operation)

    @property
    def fragments(self) -> SyntaxParts[Fragment]:
        """The definitions of fragments, in the order of the text. They are looked for each time."""
        return SyntaxParts(self._siblings(0, self._count, FRAGMENTS), Fragment)

    def operation(self, name: Optional[str] = None) -> Optional[Operation]:
        """Returns the first operation of this name, and without a name the only operation.

        Returns None if no operation has the name, or if no name is given and there are several operations or none.
        """
        operations = self.operations
        if name is None:
            return operations[0] if len(operations) == 1 else None
        return first_named(operations, name)

    def fragment(self, name: str) -> Optional[Fragment]:
        """Returns the first fragment of this name; None if there is none."""
        return first_named(self.fragments, name)

    def _siblings(self, index: int, end: int, kinds: Optional[FrozenSet[int]] = None) -> Nodes:
        """Returns the nodes from an index to another that are in no other node between these, and that are of these kinds."""
        found = array("q")
        while index < end:
            kind, descendants = self._HEAD.unpack_from(self._parts, self._LAYOUT.size * index)
            if kinds is None or kind in kinds:
                found.append(index)
            index += 1 + descendants
        return Nodes(self, found)

    def _written(self) -> bytes:
        return self._source

    def _complexity(self, operation: int) -> Complexity:
        """Returns how large the operation of this node is. They are found when one is first asked for, and kept."""
        if not self._complexities:
            self._complexities, _ = given(self._text, *_parser.complexities(self._source), name=self._name)
        return complexity_of(self._complexities, operation)

    def _parents(self) -> array[int]:
        """The index of each node's parent, and -1 for a definition. They are computed when one is first asked for."""
        if self._parent is None:
            parents, around = array("q"), [(-1, self._count)]
            for index, (_, descendants, *_rest) in enumerate(self._LAYOUT.iter_unpack(self._parts)):
                while around[-1][1] == index:
                    around.pop()
                parents.append(around[-1][0])
                around.append((index, index + 1 + descendants))
            self._parent = parents
        return self._parent

    def __repr__(self) -> str:
        return f"<document of {self._count} nodes>"
