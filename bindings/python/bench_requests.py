#!/usr/bin/env python3
"""Measures whole requests under graphene, with graphql-core's own parser and with `firthnapkin.graphql_core.install()`: parsed,
validated and executed by resolvers that take no time. It prints the best of some seconds' rounds, in microseconds of the
processor's time, and what part of a request is saved.

    python bench_requests.py [SECONDS]    for each request, by default 3; with this package, graphql-core 3.2 and graphene
"""

import sys
import time
from typing import Any, Dict

import graphene
import graphql
from firthnapkin import graphql_core


class Item(graphene.ObjectType):
    sku = graphene.String()
    title = graphene.String()
    quantity = graphene.Int()

    def resolve_sku(self, info: Any) -> str:
        return "1"

    def resolve_title(self, info: Any) -> str:
        return "a"

    def resolve_quantity(self, info: Any) -> int:
        return 7


class Order(graphene.ObjectType):
    id = graphene.ID()
    note = graphene.String(language=graphene.String())
    items = graphene.List(Item, first=graphene.Int(), after=graphene.String())

    def resolve_id(self, info: Any) -> str:
        return "4"

    def resolve_note(self, info: Any, language: str = "") -> str:
        return language

    def resolve_items(self, info: Any, **_: Any) -> Any:
        return [Item()]


class Query(graphene.ObjectType):
    order = graphene.Field(Order, id=graphene.ID(), tags=graphene.List(graphene.String))

    def resolve_order(self, info: Any, **_: Any) -> Any:
        return Order()


FIELD = """
  o{0}: order(id: "{0}", tags: ["new", "paid"]) {{
    id note(language: "en") items(first: 10, after: "c{0}") {{ ...Parts }}
  }}"""


def request(fields: int) -> str:
    parts = "".join(FIELD.format(i) for i in range(fields))
    return f"query Orders {{{parts}\n}}\nfragment Parts on Item {{ sku title quantity }}\n"


REQUESTS = {
    "two fields": '{ order(id: 1) { id note } }',
    "four orders": request(4),
    "seventy-five orders": request(75),
    "the introspection query": graphql.get_introspection_query(),
}


def best(schema: graphene.Schema, text: str, seconds: float) -> Dict[str, float]:
    """The best time of a request with each parser. They take turns, so that other work of the machine slows both."""
    times = {"own": float("inf"), "ours": float("inf")}
    end = time.perf_counter() + seconds
    while time.perf_counter() < end:
        for name in times:
            if name == "ours":
                graphql_core.install()
            for _ in range(3):
                begin = time.process_time()
                found = schema.execute(text)
                times[name] = min(times[name], time.process_time() - begin)
            graphql_core.uninstall()
            assert not found.errors, found.errors
    return times


def main() -> None:
    seconds = float(sys.argv[1]) if len(sys.argv) > 1 else 3.0
    schema = graphene.Schema(Query)
    print(f"graphene {graphene.__version__}, graphql-core {graphql.version}")
    print(f"{'':24} {'bytes':>6} {'own':>10} {'with this':>10} {'saved':>7}")
    for name, text in REQUESTS.items():
        times = {which: 1e6 * it for which, it in best(schema, text, seconds).items()}
        saved = 1 - times["ours"] / times["own"]
        print(f"{name:24} {len(text.encode()):6} {times['own']:10.1f} {times['ours']:10.1f} {saved:7.1%}")


if __name__ == "__main__":
    main()
