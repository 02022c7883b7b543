#!/usr/bin/env python3
"""Measures how fast texts are parsed by this package, and by graphql-core 3.2 with and without it. It prints the best of a
second's rounds, in microseconds: of both without a limit on tokens and with one that the text keeps, of graphql-core's own
parser, and of the refusal of the 101st token, if there is one. It prints how many times as long graphql-core's own parser takes, too.

    python bench.py    with this package installed, and graphql-core 3.2
"""

import random
import time
from pathlib import Path
from typing import Any, Callable, Dict

import firthnapkin
import graphql
from firthnapkin import graphql_core

REQUEST = (Path(__file__).resolve().parent.parent / "request.graphql").read_text(encoding="utf-8")

SMALL = """query Film($id: ID!) {
  film(id: $id) {
    id
    title
    cast(first: 9) { name, role }
  }
}
"""

BEYOND_ASCII = """# größe, мир и труд, 𝄞
query Q { find(text: "größe 𝄞 мир", other: \"\"\"
  мир
    и труд
\"\"\") { id, name # имя
  } }
"""


def repeated(text: str, size: int) -> str:
    """Definitions with different names, until they have so many bytes."""
    parts, length = [], 0
    while length < size:
        part = text.replace("Order on", f"Order{len(parts)} on").replace("...Order ", f"...Order{len(parts)} ")
        parts.append(part.replace("query Orders", f"query Orders{len(parts)}").replace("query Q", f"query Q{len(parts)}"))
        length += len(parts[-1].encode())
    return "\n".join(parts)


def texts() -> Dict[str, str]:
    return {
        "one field": "{a}",
        "small": SMALL,
        "1 KB": REQUEST,
        "introspection": graphql.get_introspection_query(),
        "10 KB": repeated(REQUEST, 10_000),
        "100 KB": repeated(REQUEST, 100_000),
        "1 KB beyond ASCII": repeated(BEYOND_ASCII, 1_000),
        "10 KB beyond ASCII": repeated(BEYOND_ASCII, 10_000),
        "100 KB beyond ASCII": repeated(BEYOND_ASCII, 100_000),
    }


def best(calls: Dict[str, Callable[[str], Any]], text: str) -> Dict[str, float]:
    """The best time of each call. The calls take turns, so that other work of the machine slows all of them."""
    times = {name: float("inf") for name in calls}
    end = time.perf_counter() + 1.0 * len(calls)
    while time.perf_counter() < end:
        for name, call in random.sample(list(calls.items()), len(calls)):
            begin = time.perf_counter()
            call(text)
            times[name] = min(times[name], time.perf_counter() - begin)
    return times


def nodes_limited(text: str) -> Any:
    return firthnapkin.parse(text, max_tokens=10**6)


def limited(text: str) -> Any:
    return graphql_core.parse(text, max_tokens=10**6)


def refused(text: str) -> None:
    try:
        graphql_core.parse(text, max_tokens=100)
    except graphql.GraphQLSyntaxError:
        return
    raise AssertionError("a text has less than 101 tokens")


def main() -> None:
    calls = {"nodes": firthnapkin.parse, "limited": nodes_limited, "graphql_core": graphql_core.parse,
             "limited ": limited, "own": graphql_core.own_parse, "refused": refused}  # fmt: skip
    print(f"{'':20} {'bytes':>7}" + "".join(f"{name:>13}" for name in calls) + f"{'times':>7}")
    for name, text in texts().items():
        assert graphql_core.parse(text) == graphql_core.own_parse(text)
        has_more = len(firthnapkin.tokens(text)) > 101
        times = best(calls if has_more else {key: call for key, call in calls.items() if call is not refused}, text)
        figures = "".join(f"{1e6 * times[it]:13.1f}" if it in times else f"{'':13}" for it in calls)
        print(f"{name:20} {len(text.encode()):7}{figures}{times['own'] / times['graphql_core']:7.1f}")


if __name__ == "__main__":
    main()
