"""Values and types in graphql-core's place: the nodes, the errors, the limits, and where the functions are put. Skipped if
graphql-core 3.2 is not installed."""

import copy
import inspect
import pickle
import random
import sys
import types
import unittest
from typing import Any, Callable, Iterator, List, Tuple
from unittest import mock

from helpers import on_stack
from graphql_texts import ASKED, WORDS, answer  # skips if graphql-core 3.2 is not installed

import graphql
from firthnapkin import _graphql_core, _graphql_literals, _parser, graphql_core
from firthnapkin.limits import packed
from graphql import GraphQLSyntaxError, Source
from graphql.language import ast, parser

# graphql-core's functions, and those in their place.
PAIRS: List[Tuple[Callable[..., Any], Callable[..., Any]]] = [
    (parser.parse_value, graphql_core.parse_value),
    (parser.parse_const_value, graphql_core.parse_const_value),
    (parser.parse_type, graphql_core.parse_type),
]
(OWN_VALUE, VALUE), (OWN_CONST, CONST), (OWN_TYPE, TYPE) = PAIRS
HAS_OPTION = "max_tokens" in inspect.signature(OWN_VALUE).parameters

# A value of each kind of node, and a type of each; with characters past ASCII before names and brackets.
WHOLE_VALUE = """ # é𝄞
{ a # é
  : [1, -2.5E3, "q\\n\\u00e9 мир", true, false, null, E, $x, $ # é
  y, [], {}, 99999999999], b: \"\"\" é
      ü
        x
  \"\"\"}"""
WHOLE_TYPE = "#é𝄞\n[ # é\n [Int!] ! , ]#é\n! # é"

# Texts that both read alike.
VALUES = [
    WHOLE_VALUE,
    "1",
    "-0",
    "1.5",
    '""',
    '"é𝄞"',
    "true",
    "on",
    "type",
    "$a",
    "$ a",
    "[]",
    "{}",
    "[[1] $a {b: $c}]",
    "\ufeff7,",
    "#é\r\n7",
]
CONSTANTS = [text for text in VALUES if "$" not in text]
TYPES = [WHOLE_TYPE, "T", "T!", "[T]", "[[T!]!]!", "on", "\ufeff[ID]", "type #"]

# Texts with errors, or with a part that only one of the two parsers reads.
FAULTY = [
    "", "#", "1 2", "[1", "{a}", "{a:}", "{1: 1}", "a: 1", "$", "$1", "$a.b", "...", "1a", "[1a]", "1_", "1.5c", "1.x", "01", "-", "[$a", "{a: $",
    '"\\u{1F600}"', '"\\ud83d\\ude00"', '"\\x"', '"a', '"""a', '"\x01"', "#\x01\n1", "\ud800", '"\ud800"', "?", "T!!", "!", "[T", "[T]]", "[!]",
    "T = 1", "T @d", "[]]", "{a: 1} {", "{ a }", "query Q { a }", '"d" type T', "[T é]", "{é: 1}", "&", "[1 &", "$$a", "{a: b: c}", "[{]}",
]  # fmt: skip
ALL = [*VALUES, *TYPES, *FAULTY]


def made_texts() -> Iterator[str]:
    """Texts of which most are damaged."""
    random.seed(2021)
    for _ in range(1500):
        for text in (WHOLE_VALUE, WHOLE_TYPE, random.choice(ALL)):
            for _ in range(random.randrange(1, 4)):
                i = random.randrange(len(text) + 1)
                text = text[:i] + random.choice(WORDS) + text[i + random.randrange(0, 3) :]
            yield text


def shown(found: Any) -> Any:
    """A node with its locations."""
    return (found, found.to_dict(locations=True), found.loc) if isinstance(found, ast.Node) else found


class Nodes(unittest.TestCase):
    def same(self, text: Any, **options: Any) -> None:
        for own, ours in PAIRS:
            with self.subTest(function=own.__name__, text=text, options=options):
                self.assertEqual(shown(answer(ours, text, **options)), shown(answer(own, text, **options)))

    def test_texts(self) -> None:
        for text in [*ALL, *ASKED]:
            self.same(text)
            self.same(text, no_location=True)
            self.same(Source(text, "é", graphql.SourceLocation(3, 4)))

    def test_made_texts(self) -> None:
        for text in made_texts():
            self.same(text)

    def test_who_reads(self) -> None:
        """graphql-core's own parser isn't called for what both read alike, and is for all else."""
        for texts, ours in ((VALUES, VALUE), (CONSTANTS, CONST), (TYPES, TYPE)):
            for text in texts:
                with mock.patch.object(_graphql_literals, "own_literal", side_effect=AssertionError):
                    self.assertIsInstance(ours(text), ast.Node)
                    self.assertIsNone(ours(text, no_location=True).loc)
                    self.assertIsInstance(ours(text, allow_legacy_fragment_variables=True), ast.Node)
        for texts, ours in (
            (FAULTY[:9], VALUE),
            (["$a", "[1a]"], CONST),
            (['"\\ud83d\\ude00"', "1a", "\ud800"], VALUE),
            (["T!!"], TYPE),
        ):
            for text in texts:
                with mock.patch.object(_graphql_literals, "own_literal", return_value="asked") as asked:
                    self.assertEqual(ours(text, no_location=True), "asked")
                asked.assert_called_once()

    def test_classes(self) -> None:
        """The nodes and the locations are graphql-core's, and the locations have the Source."""
        source = Source("[$a 1]")
        found = VALUE(source)
        self.assertEqual([type(it) for it in (found, *found.values)], [ast.ListValueNode, ast.VariableNode, ast.IntValueNode])
        self.assertIs(found.loc.source, source)
        self.assertEqual((found.loc.start, found.loc.end, found.loc.end_token.kind), (0, 6, graphql.TokenKind.BRACKET_R))
        self.assertEqual(
            [type(it) for it in (TYPE("[T!]"), TYPE("T!"), TYPE("T"))], [ast.ListTypeNode, ast.NonNullTypeNode, ast.NamedTypeNode]
        )

    def test_copies(self) -> None:
        for node in (VALUE(WHOLE_VALUE), TYPE(WHOLE_TYPE)):
            for again in (copy.deepcopy(node), pickle.loads(pickle.dumps(node))):
                self.assertEqual(again.to_dict(locations=True), node.to_dict(locations=True))

    def test_utilities(self) -> None:
        """graphql-core's own functions take the nodes."""
        self.assertEqual(graphql.value_from_ast_untyped(VALUE("{a: [1, $b]}"), {"b": 7}), {"a": [1, 7]})
        self.assertEqual(graphql.print_ast(VALUE(WHOLE_VALUE)), graphql.print_ast(OWN_VALUE(WHOLE_VALUE)))
        schema = graphql.build_schema("type Query { a: Int }")
        self.assertEqual(str(graphql.type_from_ast(schema, TYPE("[Query!]"))), "[Query!]")

    def test_sources(self) -> None:
        """What is no source is what it is to graphql-core."""
        for own, ours in PAIRS:
            for source in (None, 5, b"[T]", ["1"], {}):
                wanted, found = answer(own, source), answer(ours, source)
                self.assertEqual(*((it[0] if isinstance(it, tuple) else it) for it in (found, wanted)))

    def test_the_extension(self) -> None:
        for what in (-1, 0, 4):
            with self.assertRaises(ValueError):
                _graphql_core.literal(b"1", 1, packed(200), None, _parser.MAX_TOKENS, what)


class Limits(unittest.TestCase):
    def test_tokens(self) -> None:
        """Each limit is that of graphql-core, also where the error comes before it."""
        if not HAS_OPTION:
            self.skipTest("this release of graphql-core has no max_tokens")
        for text in [*ALL, "#\n1#", "# a\n[#\n1]", "#\n#\nT#", "[1 2] 3 ?", "[1a 2 3]", "[$a 2 3]"]:
            for most in (-5, *range(-1, 9), None, 2**40, 10**30):
                for own, ours in PAIRS:
                    with self.subTest(function=own.__name__, text=text, most=most):
                        self.assertEqual(shown(answer(ours, text, max_tokens=most)), shown(answer(own, text, max_tokens=most)))
        for own, ours in PAIRS:
            for most in (1.5, True, "5", []):
                self.assertEqual(shown(answer(ours, "[T]", max_tokens=most)), shown(answer(own, "[T]", max_tokens=most)))

    def test_depth(self) -> None:
        for ours, text, index in (
            (VALUE, "[{a: [1]}]", 5),
            (CONST, "{a: {b: []}}", 8),
            (TYPE, "[[[T]]]", 2),
            (VALUE, '[[["\\ud83d\\ude00"]]]', 2),
        ):
            self.assertIsInstance(ours(text, depth=3), ast.Node)
            with self.assertRaises(GraphQLSyntaxError) as raised:
                ours(text, depth=2)
            error = raised.exception
            self.assertEqual((error.message, error.positions), ("Syntax Error: Brackets are nested deeper than 2.", [index]))
        for ours, text in ((VALUE, "[" * 1000 + "]" * 1000), (TYPE, "[" * 1000 + "T" + "]" * 1000)):
            self.assertRaises(GraphQLSyntaxError, ours, text)
            found: List[Any] = []
            on_stack(2**18, lambda: found.append(ours(text, depth=1000)))
            self.assertIsInstance(found[0], (ast.ListValueNode, ast.ListTypeNode))

    def test_the_first_error(self) -> None:
        """An error before the first token past a limit is reported."""
        for own, ours, text in ((OWN_VALUE, VALUE, "[)[[1]]]"), (OWN_CONST, CONST, "[$a [[1]]]"), (OWN_TYPE, TYPE, "[![[T]]]")):
            self.assertEqual(answer(ours, text, depth=1), answer(own, text))
        for ours, text in ((VALUE, "[[)]"), (CONST, "[[$a]]"), (TYPE, "[[!]]")):
            self.assertIn("nested deeper than 1", answer(ours, text, depth=1)[1])

    def test_arguments(self) -> None:
        for _, ours in PAIRS:
            for depth in (-1, 1001):
                self.assertRaises(ValueError, ours, "T", depth=depth)
            for depth in (None, 1.5, "5"):
                self.assertRaises(TypeError, ours, "T", depth=depth)
            for option in ("max_fields", "nonsense"):
                self.assertRaises(TypeError, ours, "T", **{option: 5})

    def test_further_options(self) -> None:
        """What this package doesn't know is passed on, and is graphql-core's own parser's."""
        signature = inspect.signature(lambda fragment_arguments=False: None)
        with mock.patch("firthnapkin._graphql_release._FURTHER", signature):
            for _, ours in PAIRS:
                with mock.patch.object(_graphql_literals, "own_literal", return_value="asked") as asked:
                    self.assertEqual(ours("T", fragment_arguments=True), "asked")
                    self.assertIsInstance(ours("T", fragment_arguments=False), ast.Node)
                self.assertEqual(asked.call_args[0][1]["fragment_arguments"], True)

    def test_little_stack(self) -> None:
        """graphql-core's own parser recurses."""
        text = "[" * 900 + "1a" + "]" * 900
        before = sys.getrecursionlimit()
        sys.setrecursionlimit(400)
        try:
            with self.assertRaisesRegex(GraphQLSyntaxError, "The stack is too small"):
                VALUE(text, depth=1000)
        finally:
            sys.setrecursionlimit(before)


class Installed(unittest.TestCase):
    # Names of this module would be replaced, too.
    OWN = tuple(own for own, _ in PAIRS)

    def setUp(self) -> None:
        self.addCleanup(graphql_core.uninstall)

    def places(self) -> List[Tuple[Any, ...]]:
        return [(it.parse_value, it.parse_const_value, it.parse_type) for it in (graphql, graphql.language, parser)]

    def test_places(self) -> None:
        client = sys.modules["graphql.utilities.build_client_schema"]
        server = types.ModuleType("a_server")
        vars(server).update(read=self.OWN[0])
        with mock.patch.dict(sys.modules, {"a_server": server}):
            graphql_core.install()
            ours = (graphql_core.parse_value, graphql_core.parse_const_value, graphql_core.parse_type)
            self.assertEqual(self.places(), [ours] * 3)
            self.assertEqual((client.parse_value, server.read), (ours[0],) * 2)
            graphql_core.uninstall()
            self.assertEqual(self.places(), [self.OWN] * 3)
            self.assertEqual((client.parse_value, server.read), (self.OWN[0],) * 2)

    def test_default_values(self) -> None:
        """A schema's default values are read by it."""
        schema = graphql.build_schema("type Query { a(b: [Int] = [1, 2]): Int }")
        found = graphql.introspection_from_schema(schema)
        graphql_core.install()
        with mock.patch.object(_graphql_literals, "own_literal", side_effect=AssertionError):
            client = graphql.build_client_schema(found)
        assert client.query_type is not None
        self.assertEqual(client.query_type.fields["a"].args["b"].default_value, [1, 2])

    def test_limits(self) -> None:
        """Of the limits that are given to install those hold that are on no operation."""
        graphql_core.install(depth=2, max_tokens=6, max_fields=1)
        for function, text in ((graphql.parse_value, "[[1]]"), (graphql.parse_const_value, "[[1]]"), (graphql.parse_type, "[[T]]")):
            self.assertIsInstance(function(text), ast.Node)
            self.assertIn("nested deeper than 2", answer(function, f"[{text}]")[1])
            long = "[[T!]!]!" if function is graphql.parse_type else "[1 2 3 4 5 6"
            self.assertIn("more than 6 tokens", answer(function, long)[1])
            self.assertIsInstance(function(f"[{text}]", max_tokens=99, depth=9), ast.Node)
        self.assertIn("Too many fields", answer(graphql.parse, "{a b}")[1])
        graphql_core.install()
        self.assertIs(graphql.parse_value, graphql_core.parse_value)
        self.assertIsInstance(graphql.parse_type("[[[T]]]"), ast.Node)


if __name__ == "__main__":
    unittest.main()
