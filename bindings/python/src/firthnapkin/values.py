"""What a value means, as data of Python."""

from __future__ import annotations

from dataclasses import dataclass
from typing import Dict, FrozenSet, List, Tuple, Union

from .nodes import Kind, Node

__all__ = ["EnumValue", "Value", "Variable"]


@dataclass(frozen=True)
class EnumValue:
    """An Enum. It is equal to another of the same name, and to no str."""

    name: str

    def __str__(self) -> str:
        return self.name


@dataclass(frozen=True)
class Variable:
    """A variable that is used as a value. It is equal to another of the same name, and to no str."""

    #: The name without `$`.
    name: str

    def __str__(self) -> str:
        return f"${self.name}"


#: What a value means.
Value = Union[None, bool, int, float, str, EnumValue, Variable, List["Value"], Dict[str, "Value"]]

#: The numbers of the kinds of nodes that are values.
VALUES: FrozenSet[int] = frozenset(kind.value for kind in Kind if kind.value >= Kind.NULL.value and kind is not Kind.OBJECT_FIELD)


def value_of(node: Node) -> Value:
    """Returns what the value of a node means. It is not recursive, so no nesting is too deep for it.

    A key that an object has twice keeps its first position and has the last value. Raises OverflowError for an Int of more
    digits than Python accepts, and for a Float beyond a float, also for one within a list or an object.
    """
    document = node.document
    whole: List[Value] = []
    # The lists and objects around the node, each with the index of the node after it.
    around: List[Tuple[int, Union[List[Value], Dict[str, Value]]]] = [(node.index + 1 + node.descendants, whole)]
    key = ""
    for index in range(node.index, node.index + 1 + node.descendants):
        while around[-1][0] == index:
            around.pop()
        part = document[index]
        if part.kind is Kind.OBJECT_FIELD:
            key = part.name or ""
            continue
        made = _made_of(part)
        container = around[-1][1]
        if isinstance(container, dict):
            container[key] = made
        else:
            container.append(made)
        if isinstance(made, (list, dict)):
            around.append((index + 1 + part.descendants, made))
    return whole[0]


def _made_of(node: Node) -> Value:
    """Returns what a value means that has no values in it; an empty list or object for one that may have some."""
    if node.kind is Kind.LIST:
        return []
    if node.kind is Kind.OBJECT:
        return {}
    if node.kind is Kind.ENUM:
        return EnumValue(node.name or "")
    if node.kind is Kind.VARIABLE:
        return Variable(node.name or "")
    return node.value
