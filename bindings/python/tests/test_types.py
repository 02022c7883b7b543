"""The types of the parts, as the hints say them, and as mypy reads them."""

import importlib.util
import os
import re
import subprocess
import sys
import tempfile
import typing
import unittest
from typing import Any, Dict, Optional

import firthnapkin
from firthnapkin import (
    Argument,
    Complexity,
    Directive,
    Document,
    Field,
    Fragment,
    FragmentSpread,
    InlineFragment,
    Kind,
    Node,
    Operation,
    ParsedType,
    ParsedValue,
    Position,
    Selection,
    SyntaxParts,
    Value,
    VariableDefinition,
)

# Each part has these, too.
EACH = {"node": Node, "document": Document, "start": Position, "end": Position, "text": str, "line": int, "column": int, "excerpt": str}

PROPERTIES: Dict[type, Dict[str, Any]] = {
    Operation: {"kind": Kind, "name": Optional[str], "variables": SyntaxParts[VariableDefinition], "directives": SyntaxParts[Directive],
                "selections": SyntaxParts[Selection], "complexity": Complexity},
    Fragment: {"name": str, "type_condition": str, "directives": SyntaxParts[Directive], "selections": SyntaxParts[Selection]},
    Field: {"alias": Optional[str], "name": str, "response_key": str, "arguments": SyntaxParts[Argument],
            "directives": SyntaxParts[Directive], "selections": SyntaxParts[Selection]},
    FragmentSpread: {"name": str, "directives": SyntaxParts[Directive]},
    InlineFragment: {"type_condition": Optional[str], "directives": SyntaxParts[Directive], "selections": SyntaxParts[Selection]},
    VariableDefinition: {"name": str, "type": str, "default_value": Value, "has_default_value": bool, "directives": SyntaxParts[Directive]},
    Directive: {"name": str, "arguments": SyntaxParts[Argument]},
    Argument: {"name": str, "value": Value},
    ParsedValue: {"value": Value},
    ParsedType: {"type": str},
}  # fmt: skip

PROGRAM = """
from firthnapkin import Field, FragmentSpread, SyntaxPart, SyntaxParts, parse, parse_type, parse_value

def count(parts: SyntaxParts[SyntaxPart]) -> int:
    return len(parts)

document = parse("{ a(b: 1) }")
reveal_type(document.operations)
reveal_type(document.operation())
reveal_type(document.operations[0].complexity.depth)
reveal_type(document.fragment("F"))
for selection in document.operations[0].selections:
    if isinstance(selection, Field):
        reveal_type(selection.arguments)
        reveal_type(selection.argument("b"))
    elif isinstance(selection, FragmentSpread):
        reveal_type(selection.name)
    else:
        reveal_type(selection)
count(document.operations[0].selections)
reveal_type(parse_value("1", constant=True))
reveal_type(parse_type("T").type)
"""

REVEALED = ["SyntaxParts[Operation]", "Operation | None", "int", "Fragment | None", "SyntaxParts[Argument]", "Argument | None", "str",
            "InlineFragment", "ParsedValue", "str"]  # fmt: skip


# The lines with a call that has a wrong option.
CALLS = """
from firthnapkin import canonical, parse, parse_type, parse_value, tokens

parse("{ a }", depth=5, max_tokens=None)
parse(source="{ a }", max_tokens=5)
parse("{ a }", max_fields=5, max_aliases=5, max_directives=5, max_root_fields=5, max_field_depth=None)
tokens("{ a }", max_tokens=5, name="a.graphql")
canonical("{ a }", name=parse("{ a }", name=None).text)
parse("{ a }", depth="5")
parse("{ a }", depth=None)
parse("{ a }", max_tokens=5.0)
parse("{ a }", dept=5)
parse("{ a }", "a.graphql")
tokens("{ a }", depth=5)
tokens("{ a }", max_fields=5)
parse("{ a }", max_fields="5")
parse("{ a }", name=5)
canonical("{ a }", name=b"a.graphql")
parse_value("1", constant=1.5)
parse_value("1", max_fields=5)
parse_value("1", True)
parse_type("T", constant=True)
parse_type("T", depth=None)
parse_value("1", constant=True, name="a", depth=5, max_tokens=None)
parse_type("T", name="a", depth=5, max_tokens=5)
"""
REFUSED = list(range(9, 24))


def plain(revealed: str) -> str:
    """A type without its modules, and with a bar before None, as newer releases of mypy write it."""
    return re.sub(r"Union\[(.*), None\]$", r"\1 | None", re.sub(r"\b[a-z_]+\.", "", revealed))


def hints(function: Any) -> Dict[str, Any]:
    names = {**vars(sys.modules[function.__module__]), "Document": Document}
    return typing.get_type_hints(function, names)


class Hints(unittest.TestCase):
    def test_properties(self) -> None:
        """Each part has the properties that are listed, of these types, and no others."""
        for part, properties in PROPERTIES.items():
            wanted = {**EACH, **properties}
            found = {name: getattr(part, name) for name in dir(part) if isinstance(getattr(part, name), property)}
            self.assertEqual({name: hints(it.fget)["return"] for name, it in found.items()}, wanted, part)

    def test_calls(self) -> None:
        for call, wanted in [
            (Document.operation, {"name": Optional[str], "return": Optional[Operation]}),
            (Document.fragment, {"name": str, "return": Optional[Fragment]}),
            (Field.argument, {"name": str, "return": Optional[Argument]}),
            (Directive.argument, {"name": str, "return": Optional[Argument]}),
        ]:
            self.assertEqual(hints(call), wanted)


class Mypy(unittest.TestCase):
    def setUp(self) -> None:
        if importlib.util.find_spec("mypy") is None:
            self.skipTest("no mypy")

    def mypy(self, *words: str) -> "subprocess.CompletedProcess[str]":
        """What mypy says of files, strictly, and without keeping anything."""
        command = [sys.executable, "-m", "mypy", "--strict", "--cache-dir", os.devnull, *words]
        package = os.path.dirname(os.path.dirname(firthnapkin.__file__))
        return subprocess.run(command, cwd=package, env={**os.environ, "MYPYPATH": package}, capture_output=True, text=True, check=False)

    def mypy_of(self, name: str, text: str) -> "subprocess.CompletedProcess[str]":
        """What mypy says of a file of this name with this text."""
        with tempfile.TemporaryDirectory() as folder:
            path = os.path.join(folder, name)
            with open(path, "w", encoding="utf-8") as file:
                file.write(text)
            return self.mypy(path)

    def test_a_program(self) -> None:
        ran = self.mypy_of("program.py", PROGRAM)
        found = [plain(line.split('"')[1]) for line in ran.stdout.splitlines() if "Revealed type" in line]
        self.assertEqual(found, REVEALED)
        self.assertEqual(ran.returncode, 0, ran.stdout)

    def test_options(self) -> None:
        """An option of the wrong type is an error, and so is one that a call doesn't have."""
        ran = self.mypy_of("calls.py", CALLS)
        self.assertEqual([int(line) for line in re.findall(r"calls\.py:(\d+): error", ran.stdout)], REFUSED, ran.stdout)

    def test_the_package(self) -> None:
        """The package's own modules, but for those that need graphql-core."""
        folder = os.path.dirname(firthnapkin.__file__)
        names = [name for name in sorted(os.listdir(folder)) if name.endswith(".py") and "graphql" not in name]
        self.assertGreater(len(names), 10)
        ran = self.mypy(*(os.path.join("firthnapkin", name) for name in names))
        self.assertEqual(ran.returncode, 0, ran.stdout)
