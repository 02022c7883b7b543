"""What the installed release of graphql-core does where releases of 3.2 differ. It is asked once, when this is imported."""

from __future__ import annotations

import inspect
from typing import Any, Mapping, NamedTuple, Optional, Tuple

import graphql

VERSION: str = getattr(graphql, "__version__", "a package without a version")

# This comes before the imports of what graphql-core 2 doesn't have.
if getattr(graphql, "version_info", ())[:2] != (3, 2):
    raise ImportError(f"firthnapkin.graphql_core is for graphql-core 3.2, not {VERSION}")

from graphql.error import GraphQLSyntaxError  # noqa: E402
from graphql.language.parser import parse as _own_parse  # noqa: E402

# How a document's token_count counts, in the numbers of the extension.
_TOKENS, _TOKENS_AND_COMMENTS = 1, 2

# The options that firthnapkin.graphql_core.parse names itself.
_NAMED = ("source", "no_location", "max_tokens", "allow_legacy_fragment_variables")

# Options on type system documents, which graphql-core's own parser reads in any case.
_NO_MATTER = ("experimental_directives_on_directive_definitions",)


class Rules(NamedTuple):
    """What counts against a limit on tokens, and what a document's `token_count` counts."""

    #: Whether `parse` has the option `max_tokens`; the first releases of 3.2 have not.
    has_limit: bool
    #: Whether comments count against it.
    limits_comments: bool
    #: Whether it is looked at when the end of the text is read, too: after comments, or if it is below 0.
    limits_end: bool
    #: 0 if documents have no `token_count`, 1 if it is the number of tokens, 2 if comments are counted, too.
    token_count: int


def _is_beyond(text: str, limit: int) -> bool:
    """Whether graphql-core reports that a text has more tokens than a limit."""
    try:
        _own_parse(text, max_tokens=limit)
    except GraphQLSyntaxError as error:
        return f"more than {limit} tokens" in error.message
    return False


def _rules() -> Rules:
    has_limit = "max_tokens" in inspect.signature(_own_parse).parameters
    # Three tokens and two comments.
    found: Optional[int] = getattr(_own_parse("#\n{a}#"), "token_count", None)
    known = {None: 0, 3: _TOKENS, 5: _TOKENS_AND_COMMENTS}
    if found not in known:
        raise ImportError(f"firthnapkin.graphql_core does not know how graphql-core {VERSION} counts tokens")
    return Rules(has_limit, has_limit and _is_beyond("#\n{a}", 3), has_limit and _is_beyond("", -1), known[found])


RULES = _rules()

_FURTHER = inspect.Signature(
    [parameter for name, parameter in inspect.signature(_own_parse).parameters.items() if name not in _NAMED]
)


def further_options(others: Tuple[Any, ...], options: Mapping[str, Any]) -> Mapping[str, Any]:
    """Returns arguments by their names in graphql-core's `parse`, which has them beside those that are named here.

    Raises TypeError if it has not.
    """
    try:
        return _FURTHER.bind(*others, **options).arguments
    except TypeError as error:
        raise TypeError(f"parse() {error}") from None


def may_change_requests(options: Mapping[str, Any]) -> bool:
    """Whether one of these further options may change what is read: it is not known, and not as it is by default."""
    return any(
        name not in _NO_MATTER and value is not _FURTHER.parameters[name].default for name, value in options.items()
    )
