"""Parts of a document by the names of the specification, and sequences of them."""

from __future__ import annotations

from typing import TYPE_CHECKING, Callable, ClassVar, FrozenSet, Optional, Sequence, TypeVar, Union, overload

from .nodes import Kind, Node, Nodes
from .parts import Position

if TYPE_CHECKING:
    from .document import Document

__all__ = ["SyntaxPart", "SyntaxParts"]


class SyntaxPart:
    """A part of a document. It has its node alone, and what it is asked for comes from that one.

    Two are equal, and have the same hash, if they are the same part of the same document. Raises TypeError if it is made of
    something else than a node, ValueError if the node is of another part.
    """

    __slots__ = ("_node", "__weakref__")

    #: The kinds of its nodes.
    _KINDS: ClassVar[FrozenSet[int]] = frozenset()

    def __init__(self, node: Node) -> None:
        if not isinstance(node, Node):
            raise TypeError(f"node must be a Node, not {type(node).__name__}")
        if node.kind.value not in self._KINDS:
            raise ValueError(f"{node!r} is no {type(self).__name__}")
        self._node = node

    @property
    def node(self) -> Node:
        """Its node. For an argument and for a variable definition that is the node of its name."""
        return self._node

    @property
    def document(self) -> Document:
        """The document that it is a part of."""
        return self._node.document

    @property
    def start(self) -> Position:
        """The position before its first character, whose numbers count from 0."""
        return self._node.start

    @property
    def end(self) -> Position:
        """The position after its last character, whose numbers count from 0."""
        return self._node.end

    @property
    def text(self) -> str:
        """The source from the start to the end."""
        return self.document.text[self.start.index : self.end.index]

    @property
    def line(self) -> int:
        """The line of the start, counted from 1."""
        return self._node.line

    @property
    def column(self) -> int:
        """The column of the start in characters, counted from 1."""
        return self._node.column

    @property
    def excerpt(self) -> str:
        """The lines around the start, with a caret below its character, as `FirthnapkinError.excerpt`."""
        return self._node.excerpt

    def _children(self, kinds: FrozenSet[int]) -> Nodes:
        """The nodes of the parts directly in this one that are of these kinds."""
        return self._node._children(kinds)

    def _child(self, kinds: FrozenSet[int]) -> Optional[Node]:
        """The first of these nodes; None if there is none."""
        return next(iter(self._children(kinds)), None)

    def _listed(self, lists: FrozenSet[int], kinds: FrozenSet[int]) -> Nodes:
        """The nodes of these kinds in a list, which is a node of those kinds directly in this one. None without a list."""
        around = self._child(lists)
        return self._children(kinds) if around is None else around._children(kinds)

    def __eq__(self, other: object) -> bool:
        if not isinstance(other, SyntaxPart):
            return NotImplemented
        return self._node == other._node

    def __hash__(self) -> int:
        return hash(self._node)

    def __repr__(self) -> str:
        return f"<{type(self).__name__} {self.text!r}>"


class NamedPart(SyntaxPart):
    """A part that has a name."""

    __slots__ = ()

    @property
    def name(self) -> str:
        """The name, without `$` and `@`."""
        return self._node.name or ""


class PartWithValue(NamedPart):
    """A part whose node is that of its name, and whose last part is its end."""

    __slots__ = ()

    @property
    def end(self) -> Position:
        """The position after its last character, whose numbers count from 0."""
        return self._node.children[-1].end


S = TypeVar("S", bound=SyntaxPart)
# A sequence of fields is one of parts.
Of = TypeVar("Of", bound=SyntaxPart, covariant=True)


class SyntaxParts(Sequence[Of]):
    """Some parts of a document, in its order. A part's object is made each time that one is asked for.

    Two are equal, and have the same hash, if they are the same parts of the same document. A slice is such a sequence, too.
    """

    __slots__ = ("_nodes", "_make", "__weakref__")

    def __init__(self, nodes: Nodes, make: Callable[[Node], Of]) -> None:
        self._nodes = nodes
        self._make = make

    def __len__(self) -> int:
        return len(self._nodes)

    @overload
    def __getitem__(self, index: int) -> Of: ...

    @overload
    def __getitem__(self, index: slice) -> SyntaxParts[Of]: ...

    def __getitem__(self, index: Union[int, slice]) -> Union[Of, SyntaxParts[Of]]:
        if isinstance(index, slice):
            return SyntaxParts(self._nodes[index], self._make)
        return self._make(self._nodes[index])

    def __contains__(self, part: object) -> bool:
        return isinstance(part, SyntaxPart) and part.node in self._nodes

    def __eq__(self, other: object) -> bool:
        if not isinstance(other, SyntaxParts):
            return NotImplemented
        return bool(self._nodes == other._nodes)

    def __hash__(self) -> int:
        return hash(self._nodes)

    def __repr__(self) -> str:
        return f"<{len(self)} parts>"


def first_named(parts: SyntaxParts[S], name: str) -> Optional[S]:
    """Returns the first of the parts that has this name; None if there is none."""
    return next((part for part in parts if part.node.name == name), None)


def numbers_of(*kinds: Kind) -> FrozenSet[int]:
    """The numbers of kinds."""
    return frozenset(kind.value for kind in kinds)
