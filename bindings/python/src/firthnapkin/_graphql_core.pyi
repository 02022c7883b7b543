from typing import Any, Optional, Tuple, Union

from graphql.language import DocumentNode, Source, TypeNode, ValueNode

def setup(
    classes: Tuple[Tuple[type, Tuple[str, ...], int], ...], operations: Tuple[Any, Any, Any], rules: Tuple[bool, bool, int], /
) -> None: ...
def document(
    source: bytes, characters: int, limits: bytes, origin: Optional[Source], tokens: int, /
) -> Union[DocumentNode, Tuple[int, bool], Tuple[int, str], Tuple[int, bytes, int], None]: ...
def literal(
    source: bytes, characters: int, limits: bytes, origin: Optional[Source], tokens: int, what: int, /
) -> Union[TypeNode, ValueNode, Tuple[int, bool], None]: ...
