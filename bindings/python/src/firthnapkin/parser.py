"""The call of the parser, and its limits."""

from __future__ import annotations

from typing import Annotated, Optional

from . import _parser
from .calls import encoded, given, require_text
from .document import Document
from .limits import Limit, Limits, SizeLimit

__all__ = ["parse"]


def parse(
    source: str,
    *,
    name: Optional[str] = None,
    depth: Annotated[int, Limit("how deep brackets may be nested", largest=_parser.MAX_DEPTH)] = 200,
    max_tokens: Annotated[Optional[int], Limit("how many tokens a request may have", unlimited=_parser.MAX_TOKENS)] = None,
    # tables.toml: complexity as limits
    max_fields: Annotated[Optional[int], SizeLimit("how many fields an operation may have, with every fragment expanded")] = None,
    max_aliases: Annotated[Optional[int], SizeLimit("how many aliases an operation may have")] = None,
    max_directives: Annotated[Optional[int], SizeLimit("how many directives an operation may have")] = None,
    max_root_fields: Annotated[Optional[int], SizeLimit("how many fields of an operation may be in no other field")] = None,
    max_field_depth: Annotated[Optional[int], SizeLimit("how deep fields may be nested in one another")] = None,
    # tables.toml: end
) -> Document:
    """Returns the document of a text, with brackets nested at most `depth` deep. Other threads run meanwhile.

    With `max_tokens` the error is at the first token past the limit, and found before anything is built. Of the text after that
    token, only a lone surrogate is an error before it.

    The other limits are on the numbers of each operation's `complexity`, which counts with every fragment expanded. The first
    operation past one of them is an error at its start; the message has the number and the limit. With such a limit, a
    reachable spread of an unknown or cyclic fragment is also an error.

    The name is that of the text, as of a file: errors have it as their `source_name`.

    Raises FirthnapkinError, a ValueError, if the text is no document, or exceeds a limit; TypeError if the source is no str,
    the name neither a str nor None, the depth no int, or another limit neither an int nor None; ValueError if the depth is below 0 or above MAX_DEPTH, another
    limit is below 0, one on operations is above 4294967294, or the text has 4 GiB or more; MemoryError if memory runs out.
    """
    require_text(source, name)
    limits = LIMITS.packed(locals())
    written = encoded(source, name)
    status, nodes, texts, complexities = _parser.parse(written, limits)
    nodes, texts = given(source, status, nodes, texts, name=name)
    return Document(source, written, nodes, texts, complexities, name)


# The signature is the place where limits are written: each is a line of it with a Limit, and they go to the library in its order. A TypedDict
# of them would be shorter where several functions have them all, but mypy before 1.7 reads such options as any.
LIMITS = Limits(parse)
