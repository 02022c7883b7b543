"""A walk over nodes."""

from __future__ import annotations

import enum
from typing import Callable, List, Optional, Union

from .document import Document
from .nodes import Node

__all__ = ["Step", "Visitor"]


class Step(enum.Enum):
    """What the walk does instead of going on."""

    #: Returned from `enter`: the parts in the node are skipped, and `leave` isn't called for it.
    SKIP = "skip"
    #: The walk ends.
    STOP = "stop"


class Visitor:
    """Walks over nodes. Each part is entered before the parts in it, and left after them.

    A subclass has `enter_KIND` or `leave_KIND` for kinds of its choice, as `enter_field`, and `enter` or `leave` for the
    others. Each takes a node, and returns None or a Step.
    """

    def enter(self, node: Node) -> Optional[Step]:
        """Called before the parts in a node whose kind has no `enter_KIND`."""
        return None

    def leave(self, node: Node) -> Optional[Step]:
        """Called after the parts in a node whose kind has no `leave_KIND`."""
        return None

    def visit(self, part: Union[Document, Node]) -> None:
        """Walks over a document, or a node and the parts in it. It is not recursive, so no nesting is too deep for it."""
        document = part.document if isinstance(part, Node) else part
        index = part.index if isinstance(part, Node) else 0
        end = _end(part) if isinstance(part, Node) else len(part)
        around: List[Node] = []
        while True:
            while around and _end(around[-1]) == index:
                if self._call("leave", around.pop()) is Step.STOP:
                    return
            if index == end:
                return
            node = document[index]
            step = self._call("enter", node)
            if step is Step.STOP:
                return
            if step is Step.SKIP:
                index = _end(node)
            else:
                around.append(node)
                index += 1

    def _call(self, word: str, node: Node) -> Optional[Step]:
        call: Callable[[Node], Optional[Step]] = getattr(self, f"{word}_{node.kind.name.lower()}", getattr(self, word))
        return call(node)


def _end(node: Node) -> int:
    """The index after a node and the parts in it."""
    return node.index + 1 + node.descendants
