"""graphql-core's classes of nodes and locations, which the extension makes."""

from __future__ import annotations

from typing import Any, Dict, Iterator, List, Tuple

from ._graphql_release import RULES, VERSION  # before graphql-core's modules, since it checks the release

from graphql.language import OperationType, ast
from graphql.language.parser import parse as _own_parse

from . import _graphql_core
from ._graphql_locations import DocumentLocation, Location

__all__ = ["Location"]

_PLACE = ("start", "end", "source")

# In the order of the extension's classes, each with the attributes that it sets, the location first.
_CLASSES: Tuple[Tuple[Any, Tuple[str, ...]], ...] = (
    (ast.NameNode, ("loc", "value")),
    (ast.DocumentNode, ("loc", "definitions")),
    (ast.OperationDefinitionNode, ("loc", "operation", "name", "variable_definitions", "directives", "selection_set")),
    (ast.VariableDefinitionNode, ("loc", "variable", "type", "default_value", "directives")),
    (ast.SelectionSetNode, ("loc", "selections")),
    (ast.FieldNode, ("loc", "alias", "name", "arguments", "directives", "selection_set")),
    (ast.ArgumentNode, ("loc", "name", "value")),
    (ast.FragmentSpreadNode, ("loc", "name", "directives")),
    (ast.InlineFragmentNode, ("loc", "type_condition", "directives", "selection_set")),
    (ast.FragmentDefinitionNode,
     ("loc", "name", "variable_definitions", "type_condition", "directives", "selection_set")),
    (ast.VariableNode, ("loc", "name")),
    (ast.IntValueNode, ("loc", "value")),
    (ast.FloatValueNode, ("loc", "value")),
    (ast.StringValueNode, ("loc", "value", "block")),
    (ast.BooleanValueNode, ("loc", "value")),
    (ast.NullValueNode, ("loc",)),
    (ast.EnumValueNode, ("loc", "value")),
    (ast.ListValueNode, ("loc", "values")),
    (ast.ObjectValueNode, ("loc", "fields")),
    (ast.ObjectFieldNode, ("loc", "name", "value")),
    (ast.DirectiveNode, ("loc", "name", "arguments")),
    (ast.NamedTypeNode, ("loc", "name")),
    (ast.ListTypeNode, ("loc", "type")),
    (ast.NonNullTypeNode, ("loc", "type")),
)  # fmt: skip

# It has each of these classes, and no descriptions.
_SAMPLE = """query Q($x: [Int!] = 1 @d) @d { b: c(d: {e: $x, f: [1.5, "", true, null, T]}) { ...F ... on T @d { g } } }
fragment F on T { h }"""


def _nodes_in(node: ast.Node) -> Iterator[ast.Node]:
    yield node
    for key in node.keys:
        value = getattr(node, key)
        for part in value if isinstance(value, (list, tuple)) else (value,):
            if isinstance(part, ast.Node):
                yield from _nodes_in(part)


def _samples() -> Dict[type, List[ast.Node]]:
    """Nodes of graphql-core's own parser, by their classes."""
    found: Dict[type, List[ast.Node]] = {}
    for node in _nodes_in(_own_parse(_SAMPLE)):
        found.setdefault(type(node), []).append(node)
    return found


def _rows() -> Iterator[Tuple[Any, Tuple[str, ...], int]]:
    """The classes with all attributes that this release gives them. The first so many are set, and the others are None.

    Raises ImportError if the release lacks an attribute, or gives one of the others something else than None.
    """
    samples = _samples()
    for node_class, given in _CLASSES:
        rest = tuple(key for key in node_class.keys if key not in given)
        lacking = [key for key in given if key not in node_class.keys]
        unknown = [key for key in rest if any(getattr(node, key) is not None for node in samples[node_class])]
        for verb, keys in (("lacks", lacking), ("has", unknown)):
            if keys:
                raise ImportError(
                    f"firthnapkin.graphql_core does not know the nodes of graphql-core {VERSION}:"
                    f" {node_class.__name__} {verb} {', '.join(keys)}"
                )
        yield node_class, given + rest, len(given)
    for location in (Location, DocumentLocation):
        yield location, _PLACE, len(_PLACE)


ROWS = tuple(_rows())
OPERATIONS = (OperationType.QUERY, OperationType.MUTATION, OperationType.SUBSCRIPTION)
_graphql_core.setup(ROWS, OPERATIONS, RULES[1:])
