"""Cuts texts into tokens by the specification's grammar, written as one pattern. The programs and the library are compared with
it."""

import re
from typing import List, Tuple

# Ignored tokens, and the one group of all others. It is used only on texts that can be cut.
PIECE = re.compile(
    r'[\ufeff\t\n\r ,]+|#[^\n\r]*|("""(?:\\"""|(?!\\?""").)*"""|"(?:\\.|[^"\\\n\r])*"|\.\.\.|[A-Za-z_][A-Za-z0-9_]*'
    r"|-?(?:0|[1-9][0-9]*)(?:\.[0-9]+)?(?:[eE][+-]?[0-9]+)?|[!$()\[\]{}:=@|])",
    re.DOTALL,
)

PUNCTUATOR = re.compile(r"\.\.\.|[!$()\[\]{}:=@|]")

# The kinds of tokens by their text. A token that matches none of OTHERS is an Int.
PUNCTUATORS = {
    "!": "EXCLAMATION_MARK", "$": "DOLLAR", "(": "PAREN_OPEN", ")": "PAREN_CLOSE", "[": "BRACKET_OPEN", "]": "BRACKET_CLOSE",
    "{": "CURLY_OPEN", "}": "CURLY_CLOSE", "...": "ELLIPSIS", ":": "COLON", "=": "EQUALS", "@": "AT", "|": "PIPE",
}  # fmt: skip
OTHERS = (("BLOCK_STRING", '"""'), ("STRING", '"'), ("NAME", "[A-Za-z_]"), ("FLOAT", "[-0-9]+[.eE]"))


def cut(text: str) -> List[Tuple[int, str]]:
    """Where each token of a text begins, and its text, up to the first place that has no token."""
    tokens, at = [], 0
    while at < len(text):
        piece = PIECE.match(text, at)
        if piece is None:
            break
        if piece[1] is not None:
            tokens.append((at, piece[1]))
        at = piece.end()
    return tokens


def kind_of(token: str) -> str:
    """The name of a token's kind."""
    return PUNCTUATORS.get(token) or next((kind for kind, begin in OTHERS if re.match(begin, token)), "INT")


def unquoted(token: str) -> str:
    """The text of a token without the quotes of a string."""
    return token[3:-3] if token.startswith('"""') else token[1:-1] if token.startswith('"') else token


def joined(tokens: List[str]) -> str:
    """Tokens one after the other, with a space between two non-punctuators, and between a non-punctuator and `...`."""
    parted = (
        not PUNCTUATOR.fullmatch(before) and (after == "..." or not PUNCTUATOR.fullmatch(after))
        for before, after in zip(tokens, tokens[1:])
    )
    return "".join(token + " " * is_parted for token, is_parted in zip(tokens, [*parted, False]))
