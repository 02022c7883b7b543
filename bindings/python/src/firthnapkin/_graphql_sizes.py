"""How large the operations of a document of graphql-core's own parser are, counted as the library counts."""

from __future__ import annotations

from collections import deque
from typing import Deque, Dict, List, Mapping, NamedTuple, Optional, Sequence, Set, Tuple, Union

from graphql.language import ast

from . import _parser
from .complexities import Complexity

# It stands for all numbers above it, too.
_LARGEST = _parser.MAX_TOKENS

# What the numbers of a Complexity count, in an error's words.
_NOUNS = (
    # tables.toml: complexity as nouns
    "fields",
    "aliases",
    "directives",
    "root fields",
    "levels of fields",
    # tables.toml: end
)

_Definition = Union[ast.OperationDefinitionNode, ast.FragmentDefinitionNode]

# A spread, and the number of fields around it in its definition.
_Spread = Tuple[ast.FragmentSpreadNode, int]


class Excess(NamedTuple):
    """Why a document is past limits: the words, and the operation or the spread that they are about."""

    words: str
    node: ast.Node


class _Unexpandable(Exception):
    """A spread that can't be expanded."""

    def __init__(self, words: str, spread: ast.FragmentSpreadNode) -> None:
        super().__init__(words)
        self.excess = Excess(words, spread)


def first_excess(document: ast.DocumentNode, limits: Sequence[int]) -> Optional[Excess]:
    """Returns why a document is past these limits on the numbers of each operation's Complexity, or None if it isn't.

    The first spread that can't be expanded comes before the first operation past a limit, and an operation's first number past
    its limit before the others. The largest number is no limit.
    """
    operations = [it for it in document.definitions if isinstance(it, ast.OperationDefinitionNode)]
    expansion = Expansion(document)
    try:
        complexities = [expansion.complexity_of(it) for it in operations]
    except _Unexpandable as error:
        return error.excess
    for operation, complexity in zip(operations, complexities):
        for noun, number, limit in zip(_NOUNS, complexity, limits):
            if number > limit:
                return Excess(_words(operation, noun, number, limit), operation)
    return None


def _words(operation: ast.OperationDefinitionNode, noun: str, number: int, limit: int) -> str:
    name = f'operation "{operation.name.value}"' if operation.name else "an operation without a name"
    return f"Too many {noun} in {name}: {number}{' or more' if number == _LARGEST else ''}, with a limit of {limit}"


class _Part:
    """An operation or a fragment that is being expanded."""

    def __init__(self, name: str, definition: _Definition) -> None:
        self.name = name
        #: With the spreads expanded that come before those below.
        self.complexity, self._spreads = _outline_of(definition)

    def first_unexpanded(self, expanded: Mapping[str, Complexity]) -> Optional[ast.FragmentSpreadNode]:
        """Expands the spreads up to the first one whose fragment isn't expanded yet, and returns that one."""
        while self._spreads:
            spread, level = self._spreads[0]
            other = expanded.get(spread.name.value)
            if other is None:
                return spread
            self._spreads.popleft()
            self.complexity = _sum_of(self.complexity, other, level)
        return None


class Expansion:
    """The fragments of a document. Each is expanded once, and the first of a name stands for all of that name."""

    def __init__(self, document: ast.DocumentNode) -> None:
        self._fragments: Dict[str, ast.FragmentDefinitionNode] = {}
        self._expanded: Dict[str, Complexity] = {}
        for definition in document.definitions:
            if isinstance(definition, ast.FragmentDefinitionNode):
                self._fragments.setdefault(definition.name.value, definition)

    def complexity_of(self, operation: ast.OperationDefinitionNode) -> Complexity:
        """Returns the complexity of an operation. Needs no recursion, and takes time linear in what isn't expanded yet.

        Raises _Unexpandable at the first spread that can't be expanded, where a spread's fragment comes before what is after the
        spread.
        """
        whole = _Part("", operation)
        parts: List[_Part] = [whole]
        begun: Set[str] = set()
        while parts:
            part = parts[-1]
            spread = part.first_unexpanded(self._expanded)
            if spread is not None:
                fragment = _Part(spread.name.value, self._fragment_of(spread, begun))
                parts.append(fragment)
                begun.add(fragment.name)
                continue
            parts.pop()
            if part is not whole:
                self._expanded[part.name] = part.complexity
        return whole.complexity

    def _fragment_of(self, spread: ast.FragmentSpreadNode, begun: Set[str]) -> ast.FragmentDefinitionNode:
        """Returns the fragment of a spread, which isn't expanded. If it has begun, the spread is within it."""
        name = spread.name.value
        if name not in self._fragments:
            raise _Unexpandable("Unknown fragment", spread)
        if name in begun:
            raise _Unexpandable("Fragment spread within itself", spread)
        return self._fragments[name]


def _sum_of(complexity: Complexity, fragment: Complexity, level: int) -> Complexity:
    """Returns a part's complexity with that of a fragment that is spread inside so many of its fields."""
    return Complexity(
        min(complexity.fields + fragment.fields, _LARGEST),
        min(complexity.aliases + fragment.aliases, _LARGEST),
        min(complexity.directives + fragment.directives, _LARGEST),
        complexity.root_fields if level else min(complexity.root_fields + fragment.root_fields, _LARGEST),
        max(complexity.depth, min(level + fragment.depth, _LARGEST)),
    )


def _outline_of(definition: _Definition) -> Tuple[Complexity, Deque[_Spread]]:
    """Returns a definition's complexity with no spread expanded, and its spreads in their order."""
    fields = aliases = root_fields = depth = 0
    directives = len(definition.directives) + sum(len(it.directives) for it in definition.variable_definitions or ())
    spreads: Deque[_Spread] = deque()
    waiting: List[Tuple[ast.SelectionNode, int]] = [(it, 0) for it in reversed(definition.selection_set.selections)]
    while waiting:
        node, level = waiting.pop()
        directives += len(node.directives)
        if isinstance(node, ast.FragmentSpreadNode):
            spreads.append((node, level))
            continue
        if isinstance(node, ast.FieldNode):
            fields += 1
            aliases += node.alias is not None
            root_fields += level == 0
            level += 1
            depth = max(depth, level)
        if node.selection_set is not None:
            waiting += [(it, level) for it in reversed(node.selection_set.selections)]
    return Complexity(fields, aliases, directives, root_fields, depth), spreads
