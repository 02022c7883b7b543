"""In graphql-core's place: results and errors for every text. Skipped if graphql-core 3.2 is not installed."""

import copy
import gc
import pickle
import sys
import threading
import unittest
from typing import Any, Iterator, List, Tuple
from unittest import mock

from graphql_texts import ASKED, USUAL, WHOLE, answer, made_texts, row_texts  # skips if graphql-core 3.2 is not installed

import graphql
from firthnapkin import graphql_core
from graphql import GraphQLSyntaxError, Source
from graphql.language import TokenKind, ast
from graphql.language.parser import parse as own_parse


class Texts(unittest.TestCase):
    def same(self, text: str) -> bool:
        """Checks that both give the same document or the same error. Returns whether it is a document."""
        own, ours = answer(own_parse, text), answer(graphql_core.parse, text, depth=1000)
        self.assertEqual(ours, own)
        if isinstance(own, tuple):
            return False
        self.assertEqual(ours.to_dict(locations=True), own.to_dict(locations=True))
        return True

    def test_rows(self) -> None:
        trees = 0
        for text in row_texts():
            with self.subTest(text=text):
                trees += self.same(text)
        self.assertGreater(trees, 150)

    def test_made_texts(self) -> None:
        trees = 0
        for text in made_texts():
            with self.subTest(text=text):
                trees += self.same(text)
        self.assertGreater(trees, 500)

    def test_ends_within_escapes(self) -> None:
        """graphql-core's lexer raises IndexError at some of them. Its parser reports an earlier error, if there is one."""
        for before in ("", "} ", "{ a ) ", "{ a(b: ", "{ a(b: 1c) ", "type T { a ) } ", "type T { a: B } "):
            for escape in ("\\", "\\u", "\\u004", "\\u0041", "\\ud83d", "\\ud83d\\", "\\ud83d\\ude0", "\\u{", "\\u{4"):
                with self.subTest(before=before, escape=escape):
                    self.same(f'{before}"{escape}')

    def test_no_other_parser_is_asked(self) -> None:
        """Texts that both read alike are read by this package alone."""
        with mock.patch.object(graphql_core, "own_document", side_effect=AssertionError):
            for text in (WHOLE, "{a}", "{a(b:1 c:-0.5e3)}", "query($a:Int=1@d(x:2)){a(b:$a)}"):
                self.assertIsInstance(graphql_core.parse(text), ast.DocumentNode)

    def test_the_other_parser_is_asked(self) -> None:
        """Each difference between the two, and errors that may be another one in graphql-core."""
        for text in ASKED:
            with self.subTest(text=text):
                with mock.patch.object(graphql_core, "own_document", return_value="asked") as asked:
                    self.assertEqual(graphql_core.parse(text), "asked")
                asked.assert_called_once_with(text, USUAL, 200, None, mock.ANY)
                self.same(text)


def locations(node: ast.Node) -> Iterator[Tuple[ast.Node, Any]]:
    for key in node.keys:
        value = getattr(node, key)
        if key == "loc":
            yield node, value
        for part in value if isinstance(value, tuple) else [value]:
            if isinstance(part, ast.Node):
                yield from locations(part)


class Nodes(unittest.TestCase):
    def test_tokens_of_locations(self) -> None:
        own, ours = own_parse(WHOLE), graphql_core.parse(WHOLE)
        count = 0
        for (own_node, own_loc), (node, loc) in zip(locations(own), locations(ours)):
            self.assertIs(type(node), type(own_node))
            self.assertEqual((loc.start, loc.end, loc), (own_loc.start, own_loc.end, own_loc))
            self.assertEqual((loc.start_token, loc.end_token), (own_loc.start_token, own_loc.end_token))
            self.assertIs(loc.start_token, loc.start_token)
            self.assertIs(loc.source, ours.loc.source)
            self.assertIsInstance(loc, ast.Location)
            count += 1
        self.assertGreater(count, 100)
        self.assertEqual(count, len(list(locations(own))))
        tokens, token = 0, ours.loc.start_token
        self.assertIs(token.kind, TokenKind.SOF)
        while token.next:
            self.assertIs(token.next.prev, token)
            token, tokens = token.next, tokens + 1
        self.assertIs(token, ours.loc.end_token)
        self.assertIs(token.kind, TokenKind.EOF)
        self.assertGreater(tokens, 100)

    def test_what_is_done_with_nodes(self) -> None:
        own, ours = own_parse(WHOLE), graphql_core.parse(WHOLE)
        self.assertEqual(hash(ours), hash(own))
        self.assertEqual(graphql.print_ast(ours), graphql.print_ast(own))
        for other in (copy.copy(ours), copy.deepcopy(ours), pickle.loads(pickle.dumps(ours))):
            self.assertEqual(other, own)
            self.assertEqual(repr(other), repr(own))
        node = ours.definitions[0]
        node.name = None
        self.assertIsNone(node.name)
        node.more = "an attribute of the caller's"
        self.assertNotEqual(ours, own)

    def test_execution(self) -> None:
        schema = graphql.build_schema("type Query { a(b: Int!): Int }")
        for parse in (own_parse, graphql_core.parse):
            document = parse("query Q($x: Int!) { a(b: $x) c: a(b: 2) }")
            self.assertEqual(graphql.validate(schema, document), [])
            result = graphql.execute_sync(schema, document, {"a": lambda info, b: b + 1}, variable_values={"x": 7})
            self.assertEqual((result.data, result.errors), ({"a": 8, "c": 3}, None))
        errors = [graphql.validate(schema, parse("{\n  d }")) for parse in (own_parse, graphql_core.parse)]
        self.assertEqual(str(errors[1][0]), str(errors[0][0]))

    def test_search_for_circles(self) -> None:
        """Garbage collection is enabled or disabled as it was before."""
        self.assertTrue(gc.isenabled())
        for text in (WHOLE, "{ a ) }", "{a{b}}"):
            answer(graphql_core.parse, text, depth=1 if text == "{a{b}}" else 200)
            self.assertTrue(gc.isenabled())
            gc.disable()
            try:
                answer(graphql_core.parse, text)
                self.assertFalse(gc.isenabled())
            finally:
                gc.enable()

    def test_nothing_is_kept(self) -> None:
        """All objects that are made are freed, and counts of references stay the same."""
        texts = [WHOLE, "{a(b:1c:2)}", "{a{b}}", "{ a ) }"]
        kept: List[Any] = [graphql.OperationType.QUERY, ast.FieldNode, graphql_core.Location]
        # From 3.12 on these are immortal, and the numbers of their references have no meaning.
        kept += [None, (), True, False] if sys.version_info < (3, 12) else []

        def round_of() -> List[int]:
            for text in texts * 5:
                answer(graphql_core.parse, text)
                answer(graphql_core.parse, text, no_location=True, max_tokens=3)
            gc.collect()
            return [sys.getrefcount(it) for it in kept] + [len(gc.get_objects())]

        round_of()
        before = round_of()
        for _ in range(20):
            after = round_of()
        for a, b in zip(before, after):
            self.assertLess(abs(a - b), 50)


class Arguments(unittest.TestCase):
    def test_no_location(self) -> None:
        own, ours = own_parse(WHOLE, no_location=True), graphql_core.parse(WHOLE, no_location=True)
        self.assertEqual(ours, own)
        self.assertEqual({loc for _, loc in locations(ours)}, {None})
        self.assertEqual(ours, own_parse(WHOLE, True))

    def test_source(self) -> None:
        for source in (Source(WHOLE, "a name", (7, 3)), Source("{ a ) }", "a name", (7, 3))):
            own, ours = answer(own_parse, source), answer(graphql_core.parse, source)
            self.assertEqual(ours, own)
        self.assertEqual(graphql_core.parse("{a}").loc.source.name, "GraphQL request")
        source = Source(WHOLE)
        self.assertIs(graphql_core.parse(source).loc.source, source)

    def test_fragment_variables(self) -> None:
        for text in (WHOLE, "fragment F($a: Int = 1) on T { a }"):
            own = answer(own_parse, text, allow_legacy_fragment_variables=True)
            self.assertEqual(answer(graphql_core.parse, text, allow_legacy_fragment_variables=True), own)

    def test_wrong_kinds(self) -> None:
        for source in (None, b"{a}", 5, 1.5, ["{a}"], Source(None), Source(b"{a}")):  # type: ignore[arg-type]
            self.assertEqual(answer(graphql_core.parse, source)[0], answer(own_parse, source)[0], source)
        for depth in (None, 1.5, "5"):
            self.assertRaises(TypeError, graphql_core.parse, "{a}", depth=depth)
        for depth in (-1, 1001, 2**32 - 1, 2**32 + 5):
            self.assertRaises(ValueError, graphql_core.parse, "{a" * 200000, depth=depth)

    def test_depth(self) -> None:
        for text, options, index in [
            ("{a{b}}", {"depth": 1}, 2),
            ("# é𝄞\n{a{b}}", {"depth": 1}, 7),
            ("{a" * 201, {}, 400),
            ("{a" * 200000, {}, 400),
            ("{a(b:" + "[" * 300, {}, 203),
        ]:
            with self.assertRaises(GraphQLSyntaxError) as raised:
                graphql_core.parse(text, **options)
            limit = options.get("depth", 200)
            self.assertEqual(raised.exception.message, f"Syntax Error: Brackets are nested deeper than {limit}.")
            self.assertEqual((raised.exception.positions, raised.exception.source.body), ([index], text))
        self.assertEqual(graphql_core.parse("{a" * 100 + "}" * 100), own_parse("{a" * 100 + "}" * 100))

    def test_small_stacks(self) -> None:
        found: List[Any] = []

        def work() -> None:
            for part, closing in (("{...", "}"), ("{a", "}")):
                found.append(len(graphql_core.parse("{" + part[1:] + part * 998 + "{a}" + closing * 999, depth=1000).definitions))
            document = graphql_core.parse("query($a:" + "[" * 999 + "T" + "]" * 999 + "){a}", depth=1000)
            found.append(type(document.definitions[0].variable_definitions[0].type).__name__)

        before = threading.stack_size(256 * 1024)
        try:
            thread = threading.Thread(target=work)
            thread.start()
            thread.join()
        finally:
            threading.stack_size(before)
        self.assertEqual(found, [1, 1, "ListTypeNode"])
