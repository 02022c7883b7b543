"""In graphql-core's place: every limit holds for what graphql-core's own parser reads, too, and no RecursionError is raised.
Skipped if graphql-core 3.2 is not installed."""

import math
import random
import sys
import unittest
from itertools import dropwhile
from typing import Any, Callable, Iterator, List, NamedTuple, Optional
from unittest import mock

from helpers import Text, on_stack
from graphql_texts import (
    ASKED,
    READS_DESCRIPTIONS,
    WHOLE,
    answer,
    made_texts,
    row_texts,
)  # skips if graphql-core 3.2 is not installed
from test_graphql_limits import FAULTY, HAS_OPTION, READ, counts, too_many

import graphql
from firthnapkin import _graphql_own, graphql_core
from graphql import GraphQLError, GraphQLSyntaxError, Source
from graphql.language import Lexer, TokenKind, ast
from graphql.language.parser import Parser
from graphql.language.parser import parse as own_parse


class Way(NamedTuple):
    """A way past this package's parser: what is before a request's selections, and the options of the call."""

    before: str
    options: "dict[str, Any]" = {}
    source: Callable[[str], Any] = str
    is_described: bool = False


class Number(int):
    pass


WAYS = [
    Way('""query', is_described=True),
    Way('"""d""" mutation M ', is_described=True),
    Way('query("d" $a: Int)', is_described=True),
    Way('"d" fragment F on T { a } ', is_described=True),
    Way('query @d(x:"\\ud83d\\ude00")'),
    Way('query @d(x:"\\u{41}")'),
    Way('query @d(x:"\x01")'),
    Way("#\x01\n"),
    Way("type T { a: B } "),
    Way("extend scalar S @d "),
    Way("directive @d(a: [Int] = [1]) on FIELD "),
    Way("fragment F($a: Int) on T { a } ", {"allow_legacy_fragment_variables": True}),
    Way("query ", {"allow_legacy_fragment_variables": True}),
    Way("query ", {"max_tokens": math.inf}),
    Way("query ", {"max_tokens": Number(10**6)}),
    Way("query ", {"no_location": True, "max_tokens": 1e6}),
    Way("query ", {}, Text),
    Way('query @d(x:"\\u{41}")', {"no_location": True}, Source),
]


def ways() -> Iterator[Way]:
    """Those of the installed release."""
    return (it for it in WAYS if READS_DESCRIPTIONS or not it.is_described)


def nested(depth: int) -> str:
    """Selections nested so deep."""
    return "{a" * depth + "}" * depth


def deep_at(text: str, depth: int) -> Optional[int]:
    """Where the first token is nested deeper, before the first lexical error."""
    lexer, opened = Lexer(Source(text)), 0
    try:
        while lexer.advance().kind is not TokenKind.EOF:
            opened += (lexer.token.kind.value in "([{") - (lexer.token.kind.value in ")]}")
            if opened > depth:
                return lexer.token.start
    except GraphQLSyntaxError:
        pass
    return None


def too_deep(depth: int, index: int) -> Any:
    return GraphQLSyntaxError, f"Syntax Error: Brackets are nested deeper than {depth}.", [index]


class WaysIn(unittest.TestCase):
    """None of them gets past a limit."""

    def test_depth(self) -> None:
        for way in ways():
            for count in (11, 100, 400, 5000):
                with self.subTest(way=way, count=count):
                    found = answer(graphql_core.parse, way.source(way.before + nested(count)), depth=10, **way.options)
                    self.assertEqual(found, too_deep(10, len(way.before) + 20))
            text = way.before + nested(10)
            self.assertEqual(graphql_core.parse(way.source(text), depth=10, **way.options), own_within(text, way))

    def test_tokens(self) -> None:
        for way in ways():
            text = way.before + "{" + "a " * 300 + "}"
            places = counts(text)
            total = places[-1][1]
            for most in (0, 1, total - 200, total - 1):
                with self.subTest(way=way, most=most):
                    found = answer(graphql_core.parse, way.source(text), **{**way.options, "max_tokens": most})
                    self.assertEqual(found, (GraphQLSyntaxError, too_many(most), [next(at for at, n in places if n > most)]))
            found = graphql_core.parse(way.source(text), **{**way.options, "max_tokens": total})
            self.assertEqual(found, own_within(text, way))

    def test_sizes(self) -> None:
        for way in ways():
            text = way.before + "{" + "a " * 300 + "}"
            start = max(text.find("query"), text.find("mutation")) if way.is_described else text.rfind("query")
            start = text.rfind("{") if start < 0 or "fragment" in text else 0 if way.is_described else start
            with self.subTest(way=way):
                for limit, noun in (("max_fields", "fields"), ("max_root_fields", "root fields")):
                    error = answer_of_error(graphql_core.parse, way.source(text), **{limit: 299}, **way.options)
                    self.assertIs(type(error), GraphQLError)
                    self.assertRegex(error.message, rf"^Too many {noun} in .*: 300, with a limit of 299\.$")
                    self.assertEqual((error.positions, error.source.body), ([start], text))
                    found = graphql_core.parse(way.source(text), **{limit: 300}, **way.options)
                    self.assertEqual(found, own_within(text, way))

    def test_installed(self) -> None:
        """A server gets past no limit either."""
        self.addCleanup(graphql_core.uninstall)
        schema = graphql.build_schema("directive @d(x: String) on QUERY type Query { a: Query b: Int }")
        for limits, words in (
            ({"depth": 5}, "nested deeper"),
            ({"max_fields": 5}, "many fields"),
            ({"max_tokens": 15}, "more than"),
        ):
            graphql_core.install(**limits)
            for before in ("query ", 'query @d(x: "\\u{41}")', 'query @d(x: "\\ud83d\\ude00")', "#\x01\n"):
                text = before + "{a" * 5 + "{b}" + "}" * 5
                found = graphql.graphql_sync(schema, text, {"a": {}})
                self.assertIsNone(found.data)
                self.assertIn(words, found.errors[0].message)
                self.assertIsNone(graphql.graphql_sync(schema, before + "{b}", {"b": 1}).errors)

    def test_each_token_is_read_once(self) -> None:
        """The parser reads none again, and nothing is read after the first token past a limit."""
        text = '"d" type T { a: B } ' + "{" + "a " * 5000 + "}"
        read = Lexer.read_next_token
        # Of the description alone they are read once more.
        for limits, most in (({}, 5015), ({"max_tokens": 100}, 103), ({"depth": 0}, 6), ({"max_tokens": 1e2}, 101)):
            with mock.patch.object(Lexer, "read_next_token", autospec=True, side_effect=read) as calls:
                answer(graphql_core.parse, text, **limits)
            self.assertLessEqual(calls.call_count, most)


def own_within(text: str, way: Way) -> Any:
    """The document of graphql-core's own parser with the options of a way, without its limit."""
    return own_parse(text, **{name: value for name, value in way.options.items() if name != "max_tokens"})


def answer_of_error(parse: Callable[..., Any], *arguments: Any, **options: Any) -> Any:
    """The error of a text that is refused."""
    try:
        parse(*arguments, **options)
    except GraphQLError as error:
        return error
    raise AssertionError(f"{arguments} is within {options}")


class EveryText(unittest.TestCase):
    """Each text that the tests of the fallback have, before a request that is deep, long and large."""

    def test_in_each_way(self) -> None:
        texts = [(text, way) for text in (*ASKED, *FAULTY, *READ[1:]) for way in WAYS]
        # The others have an error before the request.
        self.assertGreater(sum(self.limited(text, way) for text, way in texts), 300)

    def test_rows_and_made_texts(self) -> None:
        """Each row in three of the ways, and some of the made texts in one."""
        random.seed(2025)
        texts = [(text, way) for i, text in enumerate(row_texts()) for way in WAYS[i % 6 :: 6]]
        texts += [(text, random.choice(WAYS)) for text in random.sample(list(made_texts()), 200)]
        self.assertGreater(sum(self.limited(text, way) for text, way in texts), 500)

    def limited(self, text: str, way: Way) -> bool:
        """Checks that a request after a text gets past no limit. Returns whether it is reported, and no error before it."""
        text = f"{text}\n{way.before}{nested(30)}"
        options = {name: value for name, value in way.options.items() if name != "max_tokens"}
        own, deep = answer(own_parse, text, **options), deep_at(text, 12)
        is_first = isinstance(own, tuple) and own[0] is GraphQLSyntaxError and (deep is None or own[2][0] < deep)
        with self.subTest(text=text, way=way):
            wanted = own if is_first or deep is None else too_deep(12, deep)
            self.assertEqual(answer(graphql_core.parse, way.source(text), depth=12, **way.options), wanted)
            if own.__class__ is tuple and own[0] is GraphQLSyntaxError:
                return not is_first
            options["max_tokens"] = len(text) // 9
            error = answer_of_error(graphql_core.parse, way.source(text), depth=1000, **options)
            self.assertEqual(error.message, too_many(len(text) // 9))
            if isinstance(own, tuple) or any(isinstance(it, ast.OperationDefinitionNode) for it in own.definitions):
                error = answer_of_error(graphql_core.parse, way.source(text), depth=1000, max_fields=20, **way.options)
                self.assertRegex(
                    error.message, r"^Too many fields in |^Unknown fragment\.$|^Fragment spread within itself\.$|stack"
                )
        return True


class Order(unittest.TestCase):
    """The first error is reported, as graphql-core would."""

    def test_before_what_is_too_deep(self) -> None:
        for text, depth in [
            ("type T { a: ) } { b { c } }", 1), ('"d" query { a ? { b } }', 1), ("type T { a(b: 1c): [[B]] }", 2), ('{ a(b: "\\u{41}") ) { c { d } } }', 2),
            ('{ a(b: "\\u{41}", c: "\\u{110000}" d: {}) }', 2), ("query($a: [T] = [$b] @d(x: [[1]])) { c }", 2), ('"d" { a }', 0),
            ("directive @d(a: [Int] = [[1]]) on NOWHERE { a { b } }", 3),
        ]:  # fmt: skip
            own = answer(own_parse, text)
            self.assertIs(own[0], GraphQLSyntaxError)
            self.assertEqual(answer(graphql_core.parse, text, depth=depth), own, text)

    def test_after_what_is_too_deep(self) -> None:
        for text, depth, index in [
            ("type T { a(b: 1c): [B] }", 0, 7), ("type T { a(b: [[1c]]): B }", 2, 14), ("schema { ? }", 0, 7), ("{ a(b: [[$c) }", 2, 7),
            ("#\x01\n{ a { b ) } }", 1, 7), ("extend type T @d(x: [[[", 2, 21),
        ]:  # fmt: skip
            self.assertEqual(answer(graphql_core.parse, text, depth=depth), too_deep(depth, index), text)

    def test_at_the_token_before(self) -> None:
        """graphql-core says nothing of some names until it has read the next token. A limit that this one is past comes first."""
        for text, depth, index in [
            ("schema { a(b: C) }", 1, 10),
            ("extend schema @d { a { b } }", 1, 21),
            ("directive @d on a[", 0, 17),
        ]:
            own = answer(own_parse, text)
            self.assertEqual(own[1], "Syntax Error: Unexpected Name 'a'.")
            self.assertLess(own[2], [index])
            most = [count for start, count in counts(text) if start < index][-1]
            self.assertEqual(answer(graphql_core.parse, text, depth=depth), too_deep(depth, index))
            for parse in (graphql_core.parse, own_parse) if HAS_OPTION else (graphql_core.parse,):
                self.assertEqual(answer(parse, text, max_tokens=most), (GraphQLSyntaxError, too_many(most), [index]))
            self.assertEqual(answer(graphql_core.parse, text, depth=depth + 1, max_tokens=most + 1), own)

    def test_one_past_both_limits(self) -> None:
        """It is reported as one too many, as by this package's parser."""
        for text in ("{a{b}}", "#\x01\n{a{b}}", "type T {a(b:C):D}"):
            index = deep_at(text, 1)
            before = [count for start, count in counts(text) if start < index][-1]
            at = next(count for start, count in counts(text) if start == index)
            self.assertEqual(
                answer(graphql_core.parse, text, depth=1, max_tokens=before), (GraphQLSyntaxError, too_many(before), [index])
            )
            self.assertEqual(answer(graphql_core.parse, text, depth=1, max_tokens=at), too_deep(1, index))


def below(frames: int, work: Callable[[], None]) -> None:
    """Runs below so many frames."""
    if frames:
        below(frames - 1, work)
    else:
        work()


def found_by(parse: Callable[..., Any], text: Any, **options: Any) -> Any:
    """A document or an error, without any call besides the one of the parser."""
    try:
        return parse(text, **options)
    except GraphQLError as error:
        return error.__class__, error.message, error.positions
    except RecursionError:
        return RecursionError


STACK = "Syntax Error: The stack is too small for what is nested here."

# Texts that this package's parser doesn't read, with what is nested in them.
NESTED: List[Callable[[int], str]] = [
    lambda n: "type T { a: B } " + nested(n),
    lambda n: "#\x01\n{a(b:" + "[" * (n - 2) + "]" * (n - 2) + ")}",
    lambda n: "#\x01\n{a(b:" + "{c:" * (n - 2) + "1" + "}" * (n - 2) + ")}",
    lambda n: "#\x01\nquery($a: " + "[" * (n - 1) + "T" + "]" * (n - 1) + "){a}",
    lambda n: "type T { a(b: [Int] = " + "[" * (n - 2) + "]" * (n - 2) + "): Int }",
    lambda n: "type T { a: " + "[" * (n - 1) + "T" + "]" * (n - 1) + " }",
    lambda n: "#\x01\n" + "{...@d" * n + "{a}" + "}" * n,
    lambda n: nested(n)[:-1] + ")",
    lambda n: "{a" * n,
]


def deep_before(text: str, index: int) -> int:
    """How many brackets are open before a place."""
    return sum(text[:index].count(it) for it in "([{") - sum(text[:index].count(it) for it in ")]}")


class Stacks(unittest.TestCase):
    """A text that graphql-core's own parser has no room for is a GraphQLSyntaxError, on any stack."""

    def test_largest_depth(self) -> None:
        """It is at the token that was reached, as it is for graphql-core's parser."""
        for make in NESTED:
            text = make(995)
            self.assertRaises(RecursionError, own_parse, text)
            error = answer_of_error(graphql_core.parse, text, depth=1000)
            self.assertEqual((type(error), error.message), (GraphQLSyntaxError, STACK))
            (index,) = error.positions
            self.assertIn(index, [start for start, _ in counts(text)])
            # Each level takes graphql-core's parser from one to ten frames, and this test has few.
            self.assertGreater(deep_before(text, index), 80)
            self.assertLess(deep_before(text, index), 990)

    def test_deep_callers(self) -> None:
        """From a stack of 800 frames fewer levels have room, and what this package reads has enough."""
        found: List[Any] = []

        def work() -> None:
            found.append([answer(graphql_core.parse, make(250), depth=1000)[:2] for make in NESTED[:7]])
            found.append(graphql_core.parse(nested(1000), depth=1000).kind)
            found.append(answer(graphql_core.parse, 'query @d(x: "\\u{41}") ' + nested(10)).kind)

        on_stack(2**26, lambda: below(800, work))
        self.assertEqual(found, [[(GraphQLSyntaxError, STACK)] * 7, "document", "document"])

    def test_hardly_any_room(self) -> None:
        """No RecursionError is raised if two calls, one in the other, have room below `parse`."""
        for text, options in [
            ("{a}", {}), ("{a}", {"max_fields": 1}), (nested(900), {"depth": 1000}), ("{ a ) }", {}), ("{a{b}}", {"depth": 1}),
            (NESTED[0](900), {"depth": 1000}), (NESTED[0](3), {}), (NESTED[0](3), {"max_fields": 3}), (NESTED[0](3), {"depth": 2}),
            (NESTED[0](3), {"max_tokens": 7}), (NESTED[0](3), {"max_fields": 3, "no_location": True}),
            (Source(NESTED[0](3)), {"max_fields": 2}), ("type T { a ) }", {}), ("?", {}), ("\ud800", {}),
        ]:  # fmt: skip
            with self.subTest(text=str(text)[:30], options=options):
                found = self.from_the_end(text, options)
                # At first neither the call of `parse` has room, nor one in it, nor one in that one.
                later = list(dropwhile(lambda it: it is RecursionError, found))
                self.assertLessEqual(len(found) - len(later), 3)
                self.assertNotIn(RecursionError, later)
                # With little room the error is that of the stack. From one point on it is what is returned elsewhere.
                self.assertEqual(later[0], (GraphQLSyntaxError, STACK, [0]))
                is_stack = [isinstance(it, tuple) and it[:2] == (GraphQLSyntaxError, STACK) for it in later]
                self.assertEqual(is_stack, sorted(is_stack, reverse=True))
                if len(getattr(text, "body", text)) < 1000:
                    self.assertEqual(found[-1], found_by(graphql_core.parse, text, **options))

    def from_the_end(self, text: Any, options: Any) -> List[Any]:
        """What is found from each of the last frames of a stack, from the last one on, each time on a stack of its own."""
        found: List[Any] = []

        def work() -> None:
            found.append(found_by(graphql_core.parse, text, **options))

        def from_frame(frames: int) -> None:
            try:
                below(frames, work)
            except RecursionError:
                # Not even the call above has room.
                pass

        limit = sys.getrecursionlimit()
        for frames in range(limit, limit - 130, -1):
            on_stack(2**26, lambda frames=frames: from_frame(frames))
        return found

    def test_what_the_error_has(self) -> None:
        """It is as graphql-core's constructor makes it."""
        source = Source("{\r\n# é𝄞\n\n  a b }", "a name", (3, 4))
        for index in range(len(source.body) + 1):
            found = _graphql_own.too_little_stack(source, index)
            wanted = GraphQLSyntaxError(source, index, STACK[len("Syntax Error: ") :])
            self.assertEqual((type(found), found, str(found), repr(found)), (type(wanted), wanted, str(wanted), repr(wanted)))
            self.assertEqual((found.args, found.formatted, vars(found)), (wanted.args, wanted.formatted, vars(wanted)))
            self.assertEqual(found.original_error, wanted.original_error)
        error = answer_of_error(graphql_core.parse, NESTED[0](900), depth=1000)
        # Otherwise it would keep each frame of graphql-core's parser.
        self.assertEqual((error.__context__, error.__cause__), (None, None))


class Releases(unittest.TestCase):
    def test_an_unknown_parser(self) -> None:
        """One that doesn't read the tokens of the lexer that it is given."""

        class Other(Parser):
            _lexer = property(lambda self: self.__dict__["own"], lambda self, lexer: self.__dict__.setdefault("own", lexer))

        with mock.patch.object(_graphql_own, "Parser", Other):
            with self.assertRaises(ImportError) as raised:
                _graphql_own._require_known_parser()
        self.assertIn(f"does not know the parser of graphql-core {graphql.version}", str(raised.exception))
