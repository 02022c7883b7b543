#!/usr/bin/env python3
"""Compares how large the library for C finds the operations of made documents with `complexities`, which expands each fragment at
each of its spreads. The last line is 'N passed, M failed'.

    tests/check_complexities.py [LIBRARY]     out/libfirthnapkin.so.0 if none is named
"""

import ctypes
import sys
from pathlib import Path
from typing import List

from complexities import made
from header import Checks, enum

ROOT = Path(__file__).resolve().parent.parent
STATUS, KIND, ERROR = (enum(f"firthnapkin_{name}") for name in ("status", "kind", "error_kind"))
# The rows' words for a spread that can't be expanded.
WORDS = {"UNKNOWN_FRAGMENT": "Unknown", "FRAGMENT_CYCLE": "Cycle"}
DEFINITIONS = {KIND[word] for word in ("QUERY", "MUTATION", "SUBSCRIPTION", "FRAGMENT_DEFINITION")}
# The 32-bit words of a node, of an operation's numbers and of an error, and the largest number.
NODE, NUMBERS, FAULT, MOST = 16, 6, 13, 2**32 - 1


class Answer:
    """What the library writes for a source, in arrays that always suffice."""

    def __init__(self, library: ctypes.CDLL, source: bytes) -> None:
        size, lengths = ctypes.c_size_t(len(source)), [ctypes.c_size_t() for _ in range(3)]
        self.nodes = (ctypes.c_uint32 * (NODE * len(source)))()
        self.numbers = (ctypes.c_uint32 * (NUMBERS * len(source)))()
        self.fault = (ctypes.c_uint32 * FAULT)()
        texts = ctypes.create_string_buffer(len(source))
        self.status = library.firthnapkin_parse_complexities(
            source, size, (ctypes.c_uint32 * 8)(200, MOST), self.nodes, size, ctypes.byref(lengths[0]), texts, size,
            ctypes.byref(lengths[1]), self.numbers, size, ctypes.byref(lengths[2]), self.fault,
        )  # fmt: skip
        self.count, self.operations = lengths[0].value, lengths[2].value

    def lines(self) -> List[str]:
        """The lines of a row: a definition's index and its numbers, or the first spread that can't be expanded."""
        if self.status == STATUS["OK"]:
            return [self.operation(i) for i in range(self.operations)]
        places = "-".join(":".join(map(str, self.fault[at : at + 3])) for at in (3, 7))
        for name, word in WORDS.items():
            if (self.status, self.fault[0]) == (STATUS[name], ERROR[f"ERROR_{name}"]):
                return [f"{places} {word}"]
        return [f"the status {self.status} with an error of the kind {self.fault[0]}"]

    def operation(self, i: int) -> str:
        at, *numbers = self.numbers[NUMBERS * i : NUMBERS * (i + 1)]
        kinds = [self.nodes[NODE * k] for k in range(at + 1)]
        definition = sum(kind in DEFINITIONS for kind in kinds) - 1
        is_operation = kinds[-1] in DEFINITIONS - {KIND["FRAGMENT_DEFINITION"]}
        return f"{definition}: " + " ".join(map(str, numbers)) if is_operation else f"node {at} is no operation"


def capped(line: str) -> str:
    """A line of a row with numbers of 32 bits."""
    first, *others = line.split(" ")
    return " ".join([first, *(str(min(int(word), MOST)) if word.isdigit() else word for word in others)])


def main() -> None:
    library = ctypes.CDLL(sys.argv[1] if len(sys.argv) > 1 else str(ROOT / "out/libfirthnapkin.so.0"))
    library.firthnapkin_parse_complexities.restype = ctypes.c_uint32
    checks = Checks()
    for row in made(2000):
        checks.check(f"made document {row.number}", Answer(library, row.text).lines(), [capped(line) for line in row.wanted])
    checks.end()


main()
