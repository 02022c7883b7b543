#!/usr/bin/env python3
"""Cuts the texts of the rows of tests/rows with the library for C. Kinds, texts and places are compared with the tokens that
`cutting` finds, and canonical texts with these tokens joined. The canonical texts of the rows of gqlcanon are compared with the
rows. If a row says that a text can't be cut, the error is compared with the row, and the tokens before it with those that
`cutting` finds. The last line is 'N passed, M failed'.

    tests/check_tokens.py [LIBRARY]     out/libfirthnapkin.so.0 if none is named
"""

import ctypes
import re
import sys
from pathlib import Path
from typing import List, Optional, Tuple

from cutting import cut, joined, kind_of, unquoted
from header import Checks, enum
from rows import Row, plain, rows

ROOT = Path(__file__).resolve().parent.parent
KINDS = {number: word.removeprefix("TOKEN_") for word, number in enum("firthnapkin_token_kind").items()}
STATUS = enum("firthnapkin_status")

# The beginnings of the errors that only a text that can't be cut has.
LEXICAL = re.compile(r"Unknown |Unexpected character |Unterminated string literal")
# The least number of rows, and of rows whose text can't be cut.
ROWS, WITHOUT_CUT = 2168, 1490


class Position(ctypes.Structure):
    _fields_ = [(name, ctypes.c_uint32) for name in ("index", "line", "column", "byte")]

    def numbers(self) -> Tuple[int, ...]:
        return self.index, self.line, self.column, self.byte


class Token(ctypes.Structure):
    _fields_ = [("kind", ctypes.c_uint32), ("quotes", ctypes.c_uint32), ("start", Position), ("end", Position)]


class Error(ctypes.Structure):
    _fields_ = [(name, ctypes.c_uint32) for name in ("kind", "detail", "character")] + [
        ("start", Position), ("end", Position), ("text_start", ctypes.c_uint32), ("text_end", ctypes.c_uint32),
    ]  # fmt: skip


class Answer:
    """The library's results for a text: statuses of both calls, tokens, the canonical text and the errors."""

    def __init__(self, library: ctypes.CDLL, source: bytes) -> None:
        needed, self.error, self.other_error = ctypes.c_size_t(), Error(), Error()
        # Buffers that always suffice.
        tokens = (Token * (len(source) + 1))()
        self.status = library.firthnapkin_tokens(
            source, ctypes.c_size_t(len(source)), ctypes.c_uint32(2**32 - 1), tokens, ctypes.c_size_t(len(tokens)),
            ctypes.byref(needed), ctypes.byref(self.error),
        )  # fmt: skip
        self.tokens = tokens[: needed.value]
        text = ctypes.create_string_buffer(2 * len(source) + 1)
        self.canonical_status = library.firthnapkin_canonical(
            source, ctypes.c_size_t(len(source)), text, ctypes.c_size_t(2 * len(source)), ctypes.byref(needed),
            ctypes.byref(self.other_error),
        )  # fmt: skip
        self.canonical = text.raw[: needed.value].decode()


def place(text: str, index: int) -> Tuple[int, ...]:
    """The numbers of the place after so many characters."""
    before = text[:index]
    return index, before.count("\n"), index - (before.rfind("\n") + 1), len(before.encode())


def returned(source: bytes, token: Token) -> Tuple[str, str, str, Tuple[int, ...], Tuple[int, ...]]:
    """A token as the library returns it: its kind, how it is written, its text, and both places."""
    start, end = token.start.byte, token.end.byte
    text = source[start + token.quotes : end - token.quotes]
    return KINDS[token.kind], source[start:end].decode(), text.decode(), token.start.numbers(), token.end.numbers()


def wanted(text: str, begin: int, token: str) -> Tuple[str, str, str, Tuple[int, ...], Tuple[int, ...]]:
    """The same for a token that is cut here."""
    return kind_of(token), token, unquoted(token), place(text, begin), place(text, begin + len(token))


def is_cut_by_row(row: Row) -> Optional[bool]:
    """Whether a row says that its text can be cut; None if it doesn't say."""
    words, end = (row.wanted[0], row.wanted[-1]) if row.wanted else ("", "")
    if row.kind == "canonical":
        return end == "Text"
    if row.kind != "gqlcheck" or words.startswith("Unexpected end of input"):
        return None
    return end != "NotUtf8" and not (end == "Refused" and LEXICAL.match(words))


def tokens_fault(answer: Answer, source: bytes, text: str) -> Optional[str]:
    """What is wrong with the tokens that are returned; None if nothing is wrong."""
    found = [returned(source, token) for token in answer.tokens]
    here = [wanted(text, *token) for token in cut(text)]
    if answer.status == STATUS["OK"]:
        here.append(("END_OF_FILE", "", "", place(text, len(text)), place(text, len(text))))
    elif here[len(found) :] and here[len(found)][3][0] > answer.error.start.index:
        return "a token stands before the error, and is not returned"
    else:
        here = here[: len(found)]
    return None if found == here else f"{found} is returned, {here} is wanted"


def row_fault(answer: Answer, row: Row) -> Optional[str]:
    """What is wrong with the results according to the row itself; None if nothing is wrong."""
    says = is_cut_by_row(row)
    is_cut = answer.status == STATUS["OK"]
    if answer.status not in (STATUS["OK"], STATUS["SYNTAX_ERROR"]) or answer.canonical_status != answer.status:
        return f"the statuses {answer.status} and {answer.canonical_status}"
    if says is not None and says != is_cut:
        return f"the status {answer.status}"
    if is_cut:
        lines = [plain(line).decode() for line in row.wanted[:-1]]
        return None if row.kind != "canonical" or answer.canonical == "\n".join(lines) else f"the text {answer.canonical!r}"
    at = re.search(r"\. At (\d+):(\d+)$", row.wanted[0])
    start = answer.error.start
    if at is None or (start.line, start.column) != (int(at[1]), int(at[2])):
        return f"an error at {start.line}:{start.column}"
    return None if bytes(answer.error) == bytes(answer.other_error) else "another error for the canonical text"


def try_row(library: ctypes.CDLL, row: Row) -> Tuple[Optional[str], bool]:
    """What is wrong with the results for a row's text, and whether the text can't be cut."""
    answer = Answer(library, row.text)
    try:
        text = row.text.decode()
    except UnicodeDecodeError:
        statuses = [answer.status, answer.canonical_status]
        return None if statuses == [STATUS["NOT_UTF8"]] * 2 else f"the statuses {statuses}", False
    wrong = row_fault(answer, row) or tokens_fault(answer, row.text, text)
    if wrong is None and answer.status == STATUS["OK"]:
        made = joined([token for _, token in cut(text)])
        wrong = None if answer.canonical == made else f"the text {answer.canonical!r}, not {made!r}"
    return wrong, answer.status == STATUS["SYNTAX_ERROR"]


def main() -> None:
    library = ctypes.CDLL(sys.argv[1] if len(sys.argv) > 1 else str(ROOT / "out/libfirthnapkin.so.0"))
    library.firthnapkin_tokens.restype = library.firthnapkin_canonical.restype = ctypes.c_uint32
    checks = Checks()
    without_cut: List[bool] = []
    for path in sorted((ROOT / "tests/rows").glob("*.rows")):
        for row in rows(path.name):
            wrong, is_refused = try_row(library, row)
            without_cut.append(is_refused)
            checks.check(f"{path.name}:{row.number}", wrong, None)
    checks.check("the number of rows", len(without_cut) >= ROWS, True)
    checks.check("the number of texts that can't be cut", sum(without_cut) >= WITHOUT_CUT, True)
    checks.end()


main()
