"""graphql-core's own parser, within the limits of this package, and on a stack that may have little room."""

from __future__ import annotations

from typing import Any, Callable, Mapping, Optional, Union

from ._graphql_release import RULES, VERSION  # before graphql-core's modules, since it checks the release

from graphql.error import GraphQLError, GraphQLSyntaxError
from graphql.language import Lexer, Source, SourceLocation, Token, TokenKind, ast
from graphql.language.parser import Parser

from ._graphql_sizes import Excess, first_excess
from .limits import has_sizes, sizes_of

_NESTING = {
    TokenKind.PAREN_L: 1,
    TokenKind.BRACKET_L: 1,
    TokenKind.BRACE_L: 1,
    TokenKind.PAREN_R: -1,
    TokenKind.BRACKET_R: -1,
    TokenKind.BRACE_R: -1,
}

# What graphql-core puts before the description of a syntax error.
_PREFIX = "Syntax Error: "

_LITTLE_STACK = "The stack is too small for what is nested here."


def too_many(source: Source, index: int, max_tokens: Any) -> GraphQLSyntaxError:
    """Returns an error in the words of graphql-core."""
    return GraphQLSyntaxError(source, index, f"Document contains more than {max_tokens} tokens. Parsing aborted.")


def too_deep(source: Source, index: int, depth: int) -> GraphQLSyntaxError:
    return GraphQLSyntaxError(source, index, f"Brackets are nested deeper than {depth}.")


def too_little_stack(source: Source, index: int) -> GraphQLSyntaxError:
    """Returns the error of a parse that the stack had no room for.

    graphql-core's constructors aren't called, since the stack may have no room for these either.
    """
    error = GraphQLSyntaxError.__new__(GraphQLSyntaxError, f"{_PREFIX}{_LITTLE_STACK}")
    error.message, error.description = error.args[0], _LITTLE_STACK
    error.source, error.positions = source, [index]
    # As Source.get_location counts.
    lines = source.body[:index].splitlines() or [""]
    error.locations = [tuple.__new__(SourceLocation, (len(lines), len(lines[-1]) + 1))]
    error.nodes = error.path = error.original_error = None
    error.extensions = {}
    return error


class _LimitedLexer(Lexer):
    """A lexer that ends at the first token past a limit.

    It reads the tokens up to that one when it is made, so before a parser is called. The parser reads none of them again.
    """

    def __init__(self, source: Source, depth: int, max_tokens: Any) -> None:
        super().__init__(source)
        self._past: Optional[Token] = None
        self._error: Optional[GraphQLSyntaxError] = None
        first = self.token
        try:
            self._find_past(depth, max_tokens)
        except (GraphQLSyntaxError, IndexError):
            # A lexical error, which is an IndexError if the text ends within some escapes. The parser reports it, unless it reports
            # an earlier token.
            pass
        self.token = self.last_token = first

    def _find_past(self, depth: int, max_tokens: Any) -> None:
        """Finds the first token past a limit, and its error. One past both is one too many.

        A limit on tokens that isn't an int is compared as graphql-core does, which raises TypeError for some.
        """
        count = opened = 0
        while self.token.kind is not TokenKind.EOF and self._past is None:
            token = super().advance()
            is_end = token.kind is TokenKind.EOF
            count += not is_end
            if RULES.limits_comments:
                count += self._comments_before(token)
            opened += _NESTING.get(token.kind, 0)
            if max_tokens is not None and (not is_end or RULES.limits_end) and count > max_tokens:
                self._past, self._error = token, too_many(self.source, token.start, max_tokens)
            elif opened > depth:
                self._past, self._error = token, too_deep(self.source, token.start, depth)

    def _comments_before(self, token: Token) -> int:
        """The number of comments between the token before this one and this one."""
        count, comment = 0, self.last_token.next
        while comment is not None and comment is not token:
            count, comment = count + 1, comment.next
        return count

    def advance(self) -> Token:
        token = super().advance()
        if token is self._past:
            assert self._error is not None
            raise self._error
        return token


def _parsed(
    source: Union[Source, str],
    options: Mapping[str, Any],
    depth: int,
    max_tokens: Any,
    read: Callable[[Parser], Any] = lambda parser: parser.parse_document(),
) -> Any:
    """Returns the document of graphql-core's own parser, or what it reads otherwise.

    Raises its errors, and GraphQLSyntaxError past a limit.
    """
    parser = Parser(source, **options)
    parser._lexer = lexer = _LimitedLexer(parser._lexer.source, depth, max_tokens)
    try:
        return read(parser)
    except RecursionError:
        pass
    # Here the error's context and traceback don't keep the frames of that parser.
    raise too_little_stack(lexer.source, lexer.token.start)


def own_document(
    source: Union[Source, str], options: Mapping[str, Any], depth: int, max_tokens: Any, limits: bytes
) -> ast.DocumentNode:
    """Returns the document of graphql-core's own parser with these options, within all limits.

    Raises the errors of that parser. Raises GraphQLSyntaxError at the first token past a limit, and at the token that was
    reached when the stack had no more room. Raises GraphQLError if an operation can't be expanded, or is past a limit.
    """
    document: ast.DocumentNode = _parsed(source, options, depth, max_tokens)
    if has_sizes(limits):
        excess = first_excess(document, sizes_of(limits))
        if excess is not None and excess.node.loc is None:
            # The error has a position, although the document has none.
            excess = first_excess(_parsed(source, {**options, "no_location": False}, depth, max_tokens), sizes_of(limits))
        if excess is not None:
            raise _error_of(excess)
    return document


def own_literal(
    source: Union[Source, str], options: Mapping[str, Any], depth: int, max_tokens: Any, read: Callable[[Parser], Any]
) -> Any:
    """Returns what graphql-core's own parser reads so, if nothing else is in the source. Raises what own_document does."""

    def read_alone(parser: Parser) -> Any:
        parser.expect_token(TokenKind.SOF)
        found = read(parser)
        parser.expect_token(TokenKind.EOF)
        return found

    return _parsed(source, options, depth, max_tokens, read_alone)


def _error_of(excess: Excess) -> GraphQLError:
    location = excess.node.loc
    assert location is not None
    return GraphQLError(f"{excess.words}.", source=location.source, positions=[location.start])


def error_after(before: str, source: Source, start: int, end: int, depth: int) -> Optional[GraphQLSyntaxError]:
    """Returns graphql-core's error at a token of a source, or at its end, or None if its parser reports nothing there.

    Its parser reads that token after what is open before it, in place of all that is before it.
    """
    try:
        _parsed(before + source.body[start:end], {"no_location": True}, depth, None)
    except GraphQLSyntaxError as error:
        if error.positions == [len(before)]:
            return GraphQLSyntaxError(source, start, error.message[len(_PREFIX) :])
    return None


def _require_known_parser() -> None:
    """Raises ImportError if the release's parser doesn't read the tokens of the lexer that it is given here."""
    try:
        _parsed("{a}", {}, 0, None)
    except GraphQLSyntaxError as error:
        if error.positions == [0]:
            return
    raise ImportError(f"firthnapkin.graphql_core does not know the parser of graphql-core {VERSION}")


_require_known_parser()
