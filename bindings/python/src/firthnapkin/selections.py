"""Fields, uses of fragments, and what is attached to them: arguments and directives."""

from __future__ import annotations

from typing import Callable, Dict, FrozenSet, Optional, Union

from .nodes import Kind, Node
from .syntax import NamedPart, PartWithValue, SyntaxPart, SyntaxParts, first_named, numbers_of
from .values import Value, value_of

__all__ = ["Argument", "Directive", "Field", "FragmentSpread", "InlineFragment", "Selection"]


class Argument(PartWithValue):
    """An argument of a field or a directive: its name and its value."""

    __slots__ = ()

    _KINDS = numbers_of(Kind.ARGUMENT)

    @property
    def value(self) -> Value:
        """What the value means. It is made each time.

        Raises OverflowError for an Int of more digits than Python accepts, and for a Float beyond a float. `text` has both.
        """
        return value_of(self._node.children[0])


class PartWithArguments(NamedPart):
    """A part that may have arguments."""

    __slots__ = ()

    @property
    def arguments(self) -> SyntaxParts[Argument]:
        """The arguments as they are written: two of one name are both there."""
        return SyntaxParts(self._listed(_ARGUMENT_LISTS, Argument._KINDS), Argument)

    def argument(self, name: str) -> Optional[Argument]:
        """Returns the first argument of this name; None if there is none."""
        return first_named(self.arguments, name)


_ARGUMENT_LISTS = numbers_of(Kind.ARGUMENTS)


class Directive(PartWithArguments):
    """A directive: its name without `@`, and its arguments."""

    __slots__ = ()

    _KINDS = numbers_of(Kind.DIRECTIVE)


class PartWithDirectives(SyntaxPart):
    """A part that may have directives."""

    __slots__ = ()

    @property
    def directives(self) -> SyntaxParts[Directive]:
        """The directives as they are written."""
        return SyntaxParts(self._children(Directive._KINDS), Directive)


class PartWithSelections(PartWithDirectives):
    """A part that may have a selection set."""

    __slots__ = ()

    @property
    def selections(self) -> SyntaxParts[Selection]:
        """The selections of its selection set; none if it has no selection set."""
        return SyntaxParts(self._children(_SELECTIONS), selection_of)


class Field(PartWithSelections, PartWithArguments):
    """A field: its name, what is attached to it, and its selections."""

    __slots__ = ()

    _KINDS = numbers_of(Kind.FIELD)

    @property
    def alias(self) -> Optional[str]:
        """The alias; None if it has none."""
        alias = self._child(_ALIASES)
        return None if alias is None else alias.name

    @property
    def response_key(self) -> str:
        """The key that it has in a response: its alias, and its name if it has none."""
        return self.alias or self.name


_ALIASES = numbers_of(Kind.ALIAS)


class FragmentSpread(PartWithDirectives, NamedPart):
    """The use of a fragment, by its name."""

    __slots__ = ()

    _KINDS = numbers_of(Kind.FRAGMENT_SPREAD)


class InlineFragment(PartWithSelections):
    """A fragment without a name, in the place where it is used."""

    __slots__ = ()

    _KINDS = numbers_of(Kind.INLINE_FRAGMENT)

    @property
    def type_condition(self) -> Optional[str]:
        """The name of the type that it is for; None if it has none."""
        return self._node.name


#: A part of a selection set.
Selection = Union[Field, FragmentSpread, InlineFragment]

_MAKERS: Dict[Kind, Callable[[Node], Selection]] = {
    Kind.FIELD: Field,
    Kind.FRAGMENT_SPREAD: FragmentSpread,
    Kind.INLINE_FRAGMENT: InlineFragment,
}

_SELECTIONS: FrozenSet[int] = numbers_of(*_MAKERS)


def selection_of(node: Node) -> Selection:
    return _MAKERS[node.kind](node)
