"""Operations, fragments, and the definitions of variables."""

from __future__ import annotations

from typing import Optional

from .complexities import Complexity
from .nodes import Kind
from .selections import PartWithDirectives, PartWithSelections
from .syntax import NamedPart, PartWithValue, SyntaxParts, numbers_of
from .values import VALUES, Value, value_of

__all__ = ["Fragment", "Operation", "VariableDefinition"]

OPERATIONS = numbers_of(Kind.QUERY, Kind.MUTATION, Kind.SUBSCRIPTION)
FRAGMENTS = numbers_of(Kind.FRAGMENT_DEFINITION)
DEFINITIONS = OPERATIONS | FRAGMENTS
_TYPES = numbers_of(Kind.TYPE)
_VARIABLE_LISTS = numbers_of(Kind.VARIABLE_DEFINITIONS)


class VariableDefinition(PartWithDirectives, PartWithValue):
    """A variable of an operation: its name without `$`, its type, its default value."""

    __slots__ = ()

    _KINDS = numbers_of(Kind.VARIABLE_DEFINITION)

    @property
    def type(self) -> str:
        """The type as it is written, without spaces."""
        return str(self._children(_TYPES)[0].value)

    @property
    def has_default_value(self) -> bool:
        """Whether it has a default value, which may be null."""
        return self._child(VALUES) is not None

    @property
    def default_value(self) -> Value:
        """What the default value means; None if it has none. It is made each time.

        Raises OverflowError for an Int of more digits than Python accepts, and for a Float beyond a float. `text` has both.
        """
        value = self._child(VALUES)
        return None if value is None else value_of(value)


class Operation(PartWithSelections):
    """An operation: a query, a mutation or a subscription."""

    __slots__ = ()

    _KINDS = OPERATIONS

    @property
    def kind(self) -> Kind:
        """`Kind.QUERY`, `Kind.MUTATION` or `Kind.SUBSCRIPTION`."""
        return self._node.kind

    @property
    def name(self) -> Optional[str]:
        """The name; None if it has none."""
        return self._node.name

    @property
    def variables(self) -> SyntaxParts[VariableDefinition]:
        """The definitions of its variables, as they are written."""
        return SyntaxParts(self._listed(_VARIABLE_LISTS, VariableDefinition._KINDS), VariableDefinition)

    @property
    def complexity(self) -> Complexity:
        """How large it is with every fragment expanded. Those of all operations are found at once, when one is first asked for.

        Raises FirthnapkinError if an operation of the document reaches a spread that names no fragment, or that is within the
        fragment that it names; MemoryError if memory runs out.
        """
        return self.document._complexity(self._node.index)


class Fragment(PartWithSelections, NamedPart):
    """The definition of a fragment."""

    __slots__ = ()

    _KINDS = FRAGMENTS

    @property
    def type_condition(self) -> str:
        """The name of the type that it is for."""
        return str(self._node.value)
