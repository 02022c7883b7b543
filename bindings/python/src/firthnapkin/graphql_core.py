"""graphql-core's `parse`, and what parses values and types, by the parser of this package: for graphql-core 3.2.

    from firthnapkin import graphql_core
    graphql_core.install()

`parse` returns what graphql-core's own returns: its nodes, with their locations, and its errors. graphql-core's own parser is
called if a text is no document for this package's parser, and if graphql-core may read it otherwise. The limits, on nesting, on
the number of tokens and on how large operations are, hold for both parsers.
"""

from __future__ import annotations

import functools
import operator
from typing import Any, Callable, Mapping, Optional, Union

from ._graphql_release import further_options, may_change_requests  # first: it checks the release

from graphql.error import GraphQLError
from graphql.language import Source, ast, parser
from graphql.language.parser import parse as own_parse

from . import _graphql_core, _parser
from ._graphql_literals import parse_const_value, parse_type, parse_value
from ._graphql_nodes import Location
from ._graphql_own import error_after, own_document, too_deep, too_little_stack, too_many
from ._graphql_places import Place
from .parser import LIMITS

__all__ = ["Location", "install", "parse", "parse_const_value", "parse_type", "parse_value", "uninstall"]


def parse(
    source: Union[Source, str],
    no_location: bool = False,
    max_tokens: Optional[int] = None,
    allow_legacy_fragment_variables: bool = False,
    *others: Any,
    depth: int = 200,
    # tables.toml: complexity as parameters
    max_fields: Optional[int] = None,
    max_aliases: Optional[int] = None,
    max_directives: Optional[int] = None,
    max_root_fields: Optional[int] = None,
    max_field_depth: Optional[int] = None,
    # tables.toml: end
    **options: Any,
) -> ast.DocumentNode:
    """Returns graphql-core's DocumentNode of a source.

    The arguments are those of the installed graphql-core's parse, `max_tokens` with every release, `depth`, which is how
    deep brackets may be nested, and the limits on operations of `firthnapkin.parse`. The limits hold for each text, whichever
    parser reads it. What counts against `max_tokens`, comments for instance, is what counts in the installed release.

    Raises GraphQLSyntaxError as graphql-core does; at the first token past `depth` or `max_tokens`, before anything from there on
    is parsed; and at the token that was reached when graphql-core's parser, which recurses, had no more room on the stack.
    Raises GraphQLError at the first operation past a limit on operations; with such a limit, also at a reachable spread of an
    unknown or cyclic fragment.
    Raises TypeError if a limit is no int, and for an argument that graphql-core's parse doesn't have; ValueError if the depth
    is below 0 or above MAX_DEPTH, or another limit below 0. A `max_tokens` that is no int is compared with the number of tokens
    as graphql-core compares it.
    """
    try:
        limits = _LIMITS.packed(locals())
        further = further_options(others, options) if others or options else {}
        body = source.body if isinstance(source, Source) else source
        is_limit = max_tokens is None or type(max_tokens) is int
        is_usual = not allow_legacy_fragment_variables and not (further and may_change_requests(further))
        if type(body) is str and is_limit and is_usual:
            found = _document(source if isinstance(source, Source) else Source(body), no_location, max_tokens, depth, limits)
            if found is not None:
                return found
        own = {"no_location": no_location, "allow_legacy_fragment_variables": allow_legacy_fragment_variables, **further}
        return own_document(source, own, operator.index(depth), max_tokens, limits)
    except RecursionError:
        pass
    # The caller has left too little of the stack to call either parser.
    raise too_little_stack(source if isinstance(source, Source) else Source(source), 0)


# `max_tokens` is none of them: the extension has it beside them, for what counts in the installed release.
_LIMITS = LIMITS.shared_with(parse)


def _document(
    origin: Source, no_location: bool, max_tokens: Optional[int], depth: int, limits: bytes
) -> Optional[ast.DocumentNode]:
    """Returns the document of a source, or None if graphql-core's own parser has to be called.

    Raises GraphQLSyntaxError past a limit, and GraphQLError past one on operations.
    """
    try:
        written = origin.body.encode()
    except UnicodeEncodeError:
        # A lone surrogate: graphql-core's own parser decides.
        return None
    most = _parser.MAX_TOKENS if max_tokens is None else min(max(max_tokens, -1), _parser.MAX_TOKENS)
    found = _graphql_core.document(written, len(origin.body), limits, None if no_location else origin, most)
    if not isinstance(found, tuple):
        return found
    index, why, *end = found
    if isinstance(why, bytes):
        error = error_after(why.decode(), origin, index, end[0], operator.index(depth))
        if error is None:
            return None
        raise error
    if isinstance(why, str):
        raise GraphQLError(f"{why}.", source=origin, positions=[index])
    if why:
        raise too_deep(origin, index, operator.index(depth))
    raise too_many(origin, index, max_tokens)


# graphql-core's functions, and those of this package in their place.
_PLACES = (
    Place(own_parse, parse),
    Place(parser.parse_value, parse_value),
    Place(parser.parse_const_value, parse_const_value),
    Place(parser.parse_type, parse_type),
)


def install(**limits: Optional[int]) -> None:
    """Puts `parse`, `parse_value`, `parse_const_value` and `parse_type` in the place of graphql-core's own, under each name by which
    a module has them by now.

    Modules that are imported later get them from these. What is kept elsewhere, as an attribute of a class, a value of a dict, a
    default argument or a part of a functools.partial, stays graphql-core's own.

    The limits are those of `parse`; the others have `depth` and `max_tokens` of them. A call there that is given a limit has that
    one in place of the one given here. If install is called again, its limits replace all those of the calls before. Raises
    TypeError for an option that is no limit, and, as `parse` does, for a limit that is not accepted; ValueError for one that is
    out of its range.
    """
    for name in limits:
        if name not in LIMITS.by_name:
            raise TypeError(f"install() got an unexpected keyword argument {name!r}")
    LIMITS.packed({**LIMITS.defaults, **limits})
    for place in _PLACES:
        place.replace(_with(place.ours, limits) if limits else place.ours)


def _with(ours: Callable[..., Any], limits: Mapping[str, Optional[int]]) -> Callable[..., Any]:
    """Returns this function with those of these limits that it has, where a call gives no others."""
    has_all = ours is parse
    given_here = {name: limit for name, limit in limits.items() if has_all or name in _OF_EACH}
    most = given_here.pop("max_tokens", None)

    @functools.wraps(ours)
    def limited(
        source: Union[Source, str], no_location: bool = False, max_tokens: Optional[int] = None, *others: Any, **options: Any
    ) -> Any:
        return ours(source, no_location, most if max_tokens is None else max_tokens, *others, **{**given_here, **options})

    return limited


# The limits that are on no operation.
_OF_EACH = ("depth", "max_tokens")


def uninstall() -> None:
    """Puts graphql-core's own back where `install` replaced it, unless something else has been put there since."""
    for place in _PLACES:
        place.put_back()
