"""graphql-core's `parse_value`, `parse_const_value` and `parse_type`, by the parser of this package."""

from __future__ import annotations

import operator
from typing import Any, Callable, Mapping, NamedTuple, Optional, Tuple, Union

from ._graphql_release import further_options, may_change_requests  # first: it checks the release

from graphql.language import Source, ast
from graphql.language.parser import Parser

from . import _graphql_core, _parser
from ._graphql_own import own_literal, too_deep, too_little_stack, too_many
from .parser import LIMITS

__all__ = ["parse_const_value", "parse_type", "parse_value"]


class _Form(NamedTuple):
    """What a source is to be: in the numbers of the extension, and how graphql-core's own parser reads it."""

    what: int
    read: Callable[[Parser], Any]


_VALUE = _Form(_parser.AS_VALUE, lambda parser: parser.parse_value_literal(False))
_CONSTANT = _Form(_parser.AS_CONSTANT, lambda parser: parser.parse_const_value_literal())
_TYPE = _Form(_parser.AS_TYPE, lambda parser: parser.parse_type_reference())


def parse_value(
    source: Union[Source, str],
    no_location: bool = False,
    max_tokens: Optional[int] = None,
    allow_legacy_fragment_variables: bool = False,
    *others: Any,
    depth: int = 200,
    **options: Any,
) -> ast.ValueNode:
    """Returns graphql-core's node of a source that is one value.

    The arguments are those of the installed graphql-core's function, `max_tokens` with every release, and `depth`. These limits,
    and what is raised, are those of `parse`.
    """
    own = {"no_location": no_location, "allow_legacy_fragment_variables": allow_legacy_fragment_variables}
    return _literal(_VALUE, source, own, max_tokens, depth, others, options)


def parse_const_value(
    source: Union[Source, str],
    no_location: bool = False,
    max_tokens: Optional[int] = None,
    allow_legacy_fragment_variables: bool = False,
    *others: Any,
    depth: int = 200,
    **options: Any,
) -> ast.ValueNode:
    """Returns graphql-core's node of a source that is one value without variables, otherwise as `parse_value`."""
    own = {"no_location": no_location, "allow_legacy_fragment_variables": allow_legacy_fragment_variables}
    return _literal(_CONSTANT, source, own, max_tokens, depth, others, options)


def parse_type(
    source: Union[Source, str],
    no_location: bool = False,
    max_tokens: Optional[int] = None,
    allow_legacy_fragment_variables: bool = False,
    *others: Any,
    depth: int = 200,
    **options: Any,
) -> ast.TypeNode:
    """Returns graphql-core's node of a source that is one type, otherwise as `parse_value`."""
    own = {"no_location": no_location, "allow_legacy_fragment_variables": allow_legacy_fragment_variables}
    return _literal(_TYPE, source, own, max_tokens, depth, others, options)


_LIMITS = LIMITS.shared_with(parse_value)


def _literal(
    form: _Form,
    source: Union[Source, str],
    own: Mapping[str, Any],
    max_tokens: Any,
    depth: Any,
    others: Tuple[Any, ...],
    options: Mapping[str, Any],
) -> Any:
    """Returns the node of a source that is of this form, by either parser."""
    try:
        limits = _LIMITS.packed({"depth": depth})
        further = further_options(others, options) if others or options else {}
        body = source.body if isinstance(source, Source) else source
        is_limit = max_tokens is None or type(max_tokens) is int
        if type(body) is str and is_limit and not (further and may_change_requests(further)):
            origin = source if isinstance(source, Source) else Source(body)
            found = _found(form, origin, own["no_location"], max_tokens, depth, limits)
            if found is not None:
                return found
        return own_literal(source, {**own, **further}, operator.index(depth), max_tokens, form.read)
    except RecursionError:
        pass
    # The caller has left too little of the stack to call either parser.
    raise too_little_stack(source if isinstance(source, Source) else Source(source), 0)


def _found(form: _Form, origin: Source, no_location: bool, max_tokens: Optional[int], depth: Any, limits: bytes) -> Any:
    """Returns the node by this package's parser, or None if graphql-core's own has to be called.

    Raises GraphQLSyntaxError past a limit.
    """
    try:
        written = origin.body.encode()
    except UnicodeEncodeError:
        # A lone surrogate: graphql-core's own parser decides.
        return None
    most = _parser.MAX_TOKENS if max_tokens is None else min(max(max_tokens, -1), _parser.MAX_TOKENS)
    found = _graphql_core.literal(written, len(origin.body), limits, None if no_location else origin, most, form.what)
    if not isinstance(found, tuple):
        return found
    index, is_deep = found
    if is_deep:
        raise too_deep(origin, index, operator.index(depth))
    raise too_many(origin, index, max_tokens)
