"""The nodes of a document."""

from __future__ import annotations

import enum
from array import array
from typing import TYPE_CHECKING, FrozenSet, Optional, Sequence, Union, overload

from .parts import Part, from_start

if TYPE_CHECKING:
    from .document import Document

__all__ = ["Kind", "Node", "Nodes"]


class Kind(enum.Enum):
    """The kind of a part that a node stands for."""

    # tables.toml: kinds
    #: An operation that only reads.
    QUERY = 0
    #: An operation that writes.
    MUTATION = 1
    #: A long-lived operation.
    SUBSCRIPTION = 2
    #: The definition of a fragment.
    FRAGMENT_DEFINITION = 3
    #: The variable definitions of an operation.
    VARIABLE_DEFINITIONS = 4
    #: A variable definition, by its name.
    VARIABLE_DEFINITION = 5
    #: The type of a variable.
    TYPE = 6
    #: A field that is selected.
    FIELD = 7
    #: The alias of a field.
    ALIAS = 8
    #: The use of a fragment by its name.
    FRAGMENT_SPREAD = 9
    #: A fragment without a name; its name is its type condition.
    INLINE_FRAGMENT = 10
    #: The use of a directive.
    DIRECTIVE = 11
    #: The arguments of a field or a directive.
    ARGUMENTS = 12
    #: An argument, by its name.
    ARGUMENT = 13
    #: The value null.
    NULL = 14
    #: A value of an enum.
    ENUM = 15
    #: A variable used as a value.
    VARIABLE = 16
    #: A list of values.
    LIST = 17
    #: An object, with its fields.
    OBJECT = 18
    #: A field of an object, by its name.
    OBJECT_FIELD = 19
    #: An Int that 32 bits hold.
    INT = 20
    #: An Int that 32 bits don't hold.
    LARGE_INT = 21
    #: A number with a fraction or an exponent.
    FLOAT = 22
    #: A String between quotes.
    STRING = 23
    #: A String between three quotes on each side.
    BLOCK_STRING = 24
    #: True or false.
    BOOLEAN = 25
    # tables.toml: end


_KINDS = {kind.value: kind for kind in Kind}

# The name range of these kinds is all of their text, and no name.
_WITHOUT_NAME = frozenset(
    (Kind.TYPE, Kind.NULL, Kind.INT, Kind.LARGE_INT, Kind.FLOAT, Kind.STRING, Kind.BLOCK_STRING, Kind.BOOLEAN)
)


class Node(Part):
    """A part of a document."""

    __slots__ = ()

    _whole: Document

    @property
    def document(self) -> Document:
        """The document that it is a node of."""
        return self._whole

    @property
    def kind(self) -> Kind:
        """What it is a node of."""
        return _KINDS[self._numbers[0]]

    @property
    def descendants(self) -> int:
        """How many of the nodes after this one are of parts in it."""
        return self._numbers[1]

    @property
    def name(self) -> Optional[str]:
        """The name, without `$` and `@`; of an inline fragment its type condition."""
        numbers = self._numbers
        if self.kind in _WITHOUT_NAME or numbers[10] == numbers[11]:
            return None
        return self._whole._source[numbers[10] : numbers[11]].decode()

    @property
    def value(self) -> Union[None, bool, int, float, str]:
        """The meaning of a scalar; a type without spaces; the name of an enum or a variable; a fragment's type condition.

        Raises OverflowError for an Int of more digits than Python accepts, and for a Float beyond a float. `text` has both.
        """
        numbers, kind = self._numbers, self.kind
        if kind is Kind.INT:
            return numbers[12]
        if kind is Kind.BOOLEAN:
            return numbers[12] == 1
        if kind is Kind.LARGE_INT:
            return _int(self.text)
        if kind is Kind.FLOAT:
            return _float(self.text)
        if kind in (Kind.STRING, Kind.BLOCK_STRING, Kind.TYPE):
            return self._whole._texts[numbers[12] : numbers[12] + numbers[13]].decode()
        if kind is Kind.FRAGMENT_DEFINITION:
            return self._whole._source[numbers[12] : numbers[12] + numbers[13]].decode()
        if kind in (Kind.ENUM, Kind.VARIABLE):
            return self.name
        return None

    @property
    def children(self) -> Nodes:
        """The nodes of the parts in this one that are in no other part in it. They are looked for each time."""
        return self._children()

    def _children(self, kinds: Optional[FrozenSet[int]] = None) -> Nodes:
        """The children of these kinds, and without kinds all."""
        return self._whole._siblings(self._index + 1, self._index + 1 + self.descendants, kinds)

    @property
    def parent(self) -> Optional[Node]:
        """The node of the part that this one is in; None for a definition."""
        parent = self._whole._parents()[self._index]
        return None if parent < 0 else Node(self._whole, parent)

    def __repr__(self) -> str:
        return f"<{self.kind.name} {self.text!r}>"


class Nodes(Sequence[Node]):
    """Some nodes of a document, in its order. A node object is made each time that one is asked for.

    Two are equal, and have the same hash, if they are the same nodes of the same document. A slice is such a sequence, too.
    """

    __slots__ = ("_document", "_indexes", "__weakref__")

    def __init__(self, document: Document, indexes: array[int]) -> None:
        self._document = document
        self._indexes = indexes

    def __len__(self) -> int:
        return len(self._indexes)

    @overload
    def __getitem__(self, index: int) -> Node: ...

    @overload
    def __getitem__(self, index: slice) -> Nodes: ...

    def __getitem__(self, index: Union[int, slice]) -> Union[Node, Nodes]:
        if isinstance(index, slice):
            return Nodes(self._document, self._indexes[index])
        return Node(self._document, self._indexes[from_start(index, len(self._indexes))])

    def __contains__(self, node: object) -> bool:
        return isinstance(node, Node) and node._whole is self._document and node._index in self._indexes

    def __eq__(self, other: object) -> bool:
        if not isinstance(other, Nodes):
            return NotImplemented
        return self._document is other._document and self._indexes == other._indexes

    def __hash__(self) -> int:
        return hash((id(self._document), self._indexes.tobytes()))

    def __repr__(self) -> str:
        return f"<{len(self._indexes)} nodes>"


def _int(text: str) -> int:
    try:
        return int(text)
    except ValueError:
        raise OverflowError(f"an Int of {len(text.lstrip('-'))} digits: the node's text has it") from None


def _float(text: str) -> float:
    number = float(text)
    if number in (float("inf"), float("-inf")):
        raise OverflowError("a Float beyond the largest float: the node's text has it")
    return number
