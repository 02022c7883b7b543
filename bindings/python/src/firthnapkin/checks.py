"""The call that checks a text, and builds nothing."""

from __future__ import annotations

from typing import Optional

from . import _parser
from .calls import encoded, given, require_text
from .parser import LIMITS

__all__ = ["check"]


def check(
    source: str,
    *,
    name: Optional[str] = None,
    depth: int = 200,
    max_tokens: Optional[int] = None,
    # tables.toml: complexity as parameters
    max_fields: Optional[int] = None,
    max_aliases: Optional[int] = None,
    max_directives: Optional[int] = None,
    max_root_fields: Optional[int] = None,
    max_field_depth: Optional[int] = None,
    # tables.toml: end
) -> None:
    """Raises the error that `parse` raises for a text within these limits, and returns None for a document.

    No document is built, and nothing is kept. Other threads run meanwhile. A text with an operation past a limit is read twice.
    """
    require_text(source, name)
    # A tuple is made in less time than the dict of all local variables.
    words = (
        depth,
        max_tokens,
        # tables.toml: complexity as arguments
        max_fields,
        max_aliases,
        max_directives,
        max_root_fields,
        max_field_depth,
        # tables.toml: end
    )
    limits = LIMITS.packed(words)
    found = _parser.check(encoded(source, name), limits)
    if found is not None:
        given(source, *found, name=name)
