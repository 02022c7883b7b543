#!/usr/bin/env python3
"""Measures a check beside the library's own call and beside `parse`, in turn: the best of some seconds' rounds, in microseconds.

    python bench_check.py [SECONDS]    in the repository, with this package installed, a C compiler and what ./c-library built
"""

import ctypes
import random
import subprocess
import sys
import tempfile
import time
from pathlib import Path
from typing import Any, Callable, Dict

import firthnapkin

ROOT = Path(__file__).resolve().parent.parent.parent
TEXTS = {
    "a small request": "query Film($id: ID!) {\n  film(id: $id) {\n    id\n    title\n    cast(first: 9) { name, role }\n  }\n}\n",
    "a request": (ROOT / "bindings/request.graphql").read_text(encoding="utf-8"),
    "requests": (ROOT / "bindings/request.graphql").read_text(encoding="utf-8") * 17,
}

# So many calls of the library without room for nodes: one that checks the document alone, and one with its operations.
PROGRAM = """
#include "firthnapkin.h"

void documents(const char *source, size_t length, int count) {
    static const firthnapkin_limits limits = FIRTHNAPKIN_LIMITS_DEFAULT;
    size_t nodes, texts;
    firthnapkin_error error;
    while (count-- > 0)
        firthnapkin_parse((const uint8_t *)source, length, &limits, NULL, 0, &nodes, NULL, 0, &texts, &error);
}

void operations(const char *source, size_t length, int count) {
    static const firthnapkin_limits limits = FIRTHNAPKIN_LIMITS_DEFAULT;
    firthnapkin_complexity complexities[32];
    size_t nodes, texts, found;
    firthnapkin_error error;
    while (count-- > 0)
        firthnapkin_parse_complexities((const uint8_t *)source, length, &limits, NULL, 0, &nodes, NULL, 0, &texts, complexities,
                                       32, &found, &error);
}
"""


def library() -> ctypes.CDLL:
    """The program's calls."""
    with tempfile.TemporaryDirectory() as folder:
        words = ["cc", "-x", "c", "-O2", "-fPIC", "-shared", "-I", ROOT / "include", "-", "-o", f"{folder}/calls.so"]
        subprocess.run([*words, "-x", "none", ROOT / "out/libfirthnapkin.a"], input=PROGRAM.encode(), check=True)
        return ctypes.CDLL(f"{folder}/calls.so")


def repeated(call: Callable[[str], Any]) -> Callable[[str, int], None]:
    def calls(text: str, count: int) -> None:
        for _ in range(count):
            call(text)

    return calls


def in_c(call: Any) -> Callable[[str, int], None]:
    def calls(text: str, count: int) -> None:
        written = text.encode()
        call(written, ctypes.c_size_t(len(written)), count)

    return calls


def best(calls: Dict[str, Callable[[str, int], None]], text: str, seconds: float) -> Dict[str, float]:
    """The best time of each call. The calls take turns, so that other work of the machine slows all of them."""
    count = max(1, 20_000 // len(text))
    times = {name: float("inf") for name in calls}
    end = time.perf_counter() + seconds
    while time.perf_counter() < end:
        for name, call in random.sample(list(calls.items()), len(calls)):
            begin = time.perf_counter()
            call(text, count)
            times[name] = min(times[name], (time.perf_counter() - begin) / count)
    return times


def main() -> None:
    compiled = library()
    calls = {
        "C": in_c(compiled.documents),
        "check": repeated(firthnapkin.check),
        "C, operations": in_c(compiled.operations),
        "check, operations": repeated(lambda text: firthnapkin.check(text, max_fields=500, max_aliases=30)),
        "parse": repeated(firthnapkin.parse),
    }
    print(f"{'':16} {'bytes':>6}" + "".join(f"{name:>19}" for name in calls))
    for name, text in TEXTS.items():
        times = best(calls, text, float(sys.argv[1]) if len(sys.argv) > 1 else 5.0)
        print(f"{name:16} {len(text.encode()):6}" + "".join(f"{1e6 * it:19.2f}" for it in times.values()))


if __name__ == "__main__":
    main()
