"""A proved parser of GraphQL's executable documents (October 2021).

    document = firthnapkin.parse("{ user(id: 4) { name } }")
    for field in document.operations[0].selections:
        print(field.text, field.line, field.column)
"""

from ._parser import MAX_DEPTH, VERSION as __version__
from .checks import check
from .complexities import Complexity
from .definitions import Fragment, Operation, VariableDefinition
from .document import Document
from .errors import ErrorDetail, ErrorKind, FirthnapkinError
from .lexer import Token, TokenKind, Tokens, canonical, tokens
from .literals import ParsedType, ParsedValue, parse_type, parse_value
from .nodes import Kind, Node, Nodes
from .parser import parse
from .parts import Position
from .selections import Argument, Directive, Field, FragmentSpread, InlineFragment, Selection
from .syntax import SyntaxPart, SyntaxParts
from .values import EnumValue, Value, Variable
from .visitor import Step, Visitor

__all__ = [
    "MAX_DEPTH", "Argument", "Complexity", "Directive", "Document", "EnumValue", "ErrorDetail", "ErrorKind", "Field",
    "FirthnapkinError", "Fragment", "FragmentSpread", "InlineFragment", "Kind", "Node", "Nodes", "Operation",
    "ParsedType", "ParsedValue", "Position", "Selection", "Step", "SyntaxPart", "SyntaxParts", "Token", "TokenKind",
    "Tokens", "Value", "Variable", "VariableDefinition", "Visitor", "__version__", "canonical", "check", "parse",
    "parse_type", "parse_value", "tokens",
]  # fmt: skip
