#!/usr/bin/env python3
"""Makes each call of Python's package on each text of a corpus, as tests/corpus.py writes one, between two lines of standard output:
tests/refusing_malloc.c notes how many bytes each requests.

    tests/requests/requests.py CORPUS
"""

import os
import sys
from typing import Any, Callable, Iterator, List

import firthnapkin as package

CALLS: List[Callable[[str], Any]] = [
    package.parse,
    package.check,
    package.tokens,
    package.canonical,
    lambda text: package.parse(text, max_fields=1 << 31),
    lambda text: package.check(text, max_fields=1 << 31),
    lambda text: package.parse(text).operations[0].complexity,
    lambda text: package.parse(text)[-1].excerpt,
    lambda text: [node.value for node in package.parse(text)] and None,
]


def texts(path: str) -> Iterator[str]:
    with open(path, "rb") as file:
        for line in file:
            yield file.read(int(line)).decode()
            file.read(1)


def tried(call: Callable[[str], Any], text: str) -> None:
    try:
        call(text)
    except package.FirthnapkinError:
        pass


for source in texts(sys.argv[1]):
    for make in CALLS:
        os.write(1, b"\n")
        tried(make, source)
        os.write(1, b"\n")
