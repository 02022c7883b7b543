"""What the README shows in front of a server, run with graphql-core and graphene."""

import asyncio
import json
import os
import re
import unittest
from typing import Any, Dict

from helpers import require_graphql_core

README = os.path.join(os.path.dirname(os.path.abspath(__file__)), "..", "README.md")


def section() -> str:
    """The section of the README."""
    with open(README, encoding="utf-8") as file:
        return file.read().split("## In front of a server\n")[1].split("\n## ")[0]


class Servers(unittest.TestCase):
    """A schema of the README's class, whose resolver counts its calls."""

    def setUp(self) -> None:
        require_graphql_core()
        try:
            import graphene
        except ImportError as error:
            self.skipTest(f"no graphene 3: {error}")
        if graphene.VERSION[:1] < (3,):
            self.skipTest(f"no graphene 3, but {graphene.__version__}")
        self.shown: Dict[str, Any] = {}
        (program,) = re.findall(r"```python\n(import .*?)```", section(), re.S)
        exec(program, self.shown)
        self.calls = 0

        class Pet(graphene.ObjectType):
            hello = graphene.String()
            friend = graphene.Field(lambda: Pet)

            def resolve_hello(_root: Any, info: Any) -> str:
                self.calls += 1
                return "hi"

            def resolve_friend(_root: Any, info: Any) -> "Pet":
                return Pet()

        self.schema = self.shown["CheckedSchema"](Pet)

    def results(self, text: str) -> Any:
        """The formatted results of each way to a server. Those that the check refuses are all the same."""
        from graphql import graphql_sync

        found = [
            self.schema.execute(text),
            self.schema.execute(text, variable_values={}),
            asyncio.run(self.schema.execute_async(text)),
            self.shown["refused"](text) or graphql_sync(self.schema.graphql_schema, text),
        ]
        return [it.formatted for it in found]

    def test_documents(self) -> None:
        """They are executed, and their other errors are the server's."""
        for found in self.results("{ hello friend { hello } }"):
            self.assertEqual(found, {"data": {"hello": "hi", "friend": {"hello": "hi"}}})
        self.assertEqual(self.calls, 8)
        for found in self.results("{ unknown }"):
            self.assertIn("Cannot query field 'unknown'", found["errors"][0]["message"])

    def test_shown_response(self) -> None:
        wanted = json.loads(re.search(r"^    \{\n(?:    .*\n)+", section(), re.M)[0])  # type: ignore[index]
        for found in [*self.results("{ hello ) }"), asyncio.run(self.schema.subscribe("{ hello ) }")).formatted]:
            self.assertEqual(found, wanted)
        self.assertEqual(self.calls, 0)

    def test_each_limit(self) -> None:
        """Nothing of a request past a limit is executed. The location is that of the token or of the operation."""
        deep = "{ hello " + "friend { hello " * 12 + "}" * 13
        for text, code, message, line, column in (
            ("{ hello " + "friend {" * 50, "TOO_DEEP", "Too deeply nested", 1, 8 + 8 * 50),
            ("{" + "\nhello" * 5_000, "TOO_MANY_TOKENS", "Too many tokens", 5_001, 1),
            ("\n  query Q {" + "hello " * 501 + "}", "OPERATION_TOO_LARGE", 'Too many fields in operation "Q": 501, with a limit of 500', 2, 3),
            ("{" + "a: hello " * 31 + "}", "OPERATION_TOO_LARGE",
             "Too many aliases in an operation without a name: 31, with a limit of 30", 1, 1),
            (deep, "OPERATION_TOO_LARGE", "Too many levels of fields in an operation without a name: 13, with a limit of 12", 1, 1),
            ("{ ...F }", "UNKNOWN_FRAGMENT", "Unknown fragment", 1, 3),
            ("{ hello \ud800 }", "SURROGATE", "Lone surrogate U+D800", 1, 9),
        ):  # fmt: skip
            for found in self.results(text):
                (error,) = found["errors"]
                self.assertEqual((found["data"], error["message"], error["extensions"]["code"]), (None, message, code))
                self.assertEqual(error["locations"], [{"line": line, "column": column}])
                self.assertRegex(error["extensions"]["excerpt"], rf"(?m)^ *{line} \| .*\n *\| *\^")
        self.assertEqual(self.calls, 0)
