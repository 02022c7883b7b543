"""A plugin for pytest, which tests/check_graphql_core runs. It puts firthnapkin's parse in graphql-core's place if
FIRTHNAPKIN_PARSE is 'ours', and writes the outcome of each test into the file that FIRTHNAPKIN_OUTCOMES names, a line of JSON
each.

If FIRTHNAPKIN_OLD_NAMES is set it defines the names that tests of graphql-core 2.3 import, as far as 3.2 has the same under
another name.
"""

import json
import os
import re
import sys
from typing import Any

import graphql
from graphql import utilities, validation
from graphql.language import ast, parser, visitor
from graphql.type import definition


class Loc:
    """A location as in 2.3: it equals each location with the same start and end."""

    def __init__(self, start: int, end: int, source: Any = None) -> None:
        self.start, self.end, self.source = start, end, source

    def __eq__(self, other: object) -> bool:
        return (self.start, self.end) == (getattr(other, "start", None), getattr(other, "end", None))

    def __repr__(self) -> str:
        return f"<Loc start={self.start} end={self.end} source={self.source}>"


def name_without(ending: str, module: Any, source: Any) -> None:
    """Each name of the source that has the ending is defined in the module without the ending, too."""
    for name, it in list(vars(source).items()):
        if name.endswith(ending) and not hasattr(module, name[: -len(ending)]):
            setattr(module, name[: -len(ending)], it)


def give_old_names() -> None:
    name_without("Node", ast, ast)
    name_without("Rule", validation.rules, validation)
    for name, module in list(sys.modules.items()):
        if name.startswith("graphql.validation.rules."):
            name_without("Rule", module, module)
        if name.startswith("graphql.utilities"):
            sys.modules.setdefault(name.replace("graphql.utilities", "graphql.utils"), module)
    for module, name, it in (
        (parser, "Loc", Loc),
        (visitor, "TypeInfoVisitor", utilities.TypeInfoVisitor),
        (visitor, "_Falsey", object),
        (definition, "GraphQLInputObjectField", definition.GraphQLInputField),
        (graphql.type, "GraphQLInputObjectField", definition.GraphQLInputField),
        (graphql.error, "format_error", lambda error: error.formatted),
    ):
        if not hasattr(module, name):
            setattr(module, name, it)


def pytest_configure() -> None:
    if os.environ["FIRTHNAPKIN_PARSE"] == "ours":
        from firthnapkin import graphql_core

        graphql_core.install()
    if os.environ.get("FIRTHNAPKIN_OLD_NAMES"):
        give_old_names()


def write(report: Any) -> None:
    """Writes a report, without the addresses of objects and the length of a traceback, which differ between two runs."""
    crash = getattr(report.longrepr, "reprcrash", None)
    words = crash.message if crash else str(report.longrepr or "")
    words = re.sub(r"0x[0-9a-f]+|tblen=[0-9]+", "", words)
    with open(os.environ["FIRTHNAPKIN_OUTCOMES"], "a", encoding="utf-8") as file:
        file.write(json.dumps([f"{report.nodeid} {getattr(report, 'when', 'collect')}", report.outcome, words]) + "\n")


def pytest_collectreport(report: Any) -> None:
    if report.failed:
        write(report)


def pytest_runtest_logreport(report: Any) -> None:
    if report.when == "call" or not report.passed:
        write(report)
