"""Limits on how large operations are, in graphql-core's place. Skipped if graphql-core 3.2 is not installed."""

import inspect
import sys
import types
import unittest
from typing import Any, Callable, List, Tuple
from unittest import mock

from helpers import LOW_LIMITS, NO_LIMITS, resident, words_of
from graphql_texts import WHOLE, answer  # skips if graphql-core 3.2 is not installed
from test_complexities import FAULTY, NOUNS, NUMBERS, SIZES, TWO, WORDS, doubled

import graphql
from firthnapkin import graphql_core
from firthnapkin.parser import LIMITS
from graphql import GraphQLError, GraphQLSyntaxError, Source
from graphql.language import ast
from graphql.language.parser import parse as own_parse


def refusal(parse: Callable[..., Any], text: Any, *others: Any, **limits: Any) -> Tuple[type, str, List[int]]:
    """The error of a text that is refused: its type, its words, and where it is."""
    try:
        parse(text, *others, **limits)
    except GraphQLError as error:
        assert error.positions is not None and error.source is not None
        str(error)
        return type(error), error.message, error.positions
    raise AssertionError(f"{text!r} is within {limits}")


class Parses(unittest.TestCase):
    def test_each(self) -> None:
        """The number itself is allowed, with graphql-core's document; with one less the operation is refused."""
        starts = [0, TWO.index("query B")]
        for i, (name, noun) in enumerate(zip(SIZES, NOUNS)):
            numbers = [it[i] for it in NUMBERS]
            for limit in range(max(numbers) + 2):
                beyond = [number > limit for number in numbers]
                for source in (TWO, Source(TWO)):
                    if not any(beyond):
                        self.assertEqual(graphql_core.parse(source, **{name: limit}), own_parse(TWO))
                        continue
                    which = beyond.index(True)
                    words = f'Too many {noun} in operation "{"AB"[which]}": {numbers[which]}, with a limit of {limit}.'
                    for no_location in (False, True):
                        found = refusal(graphql_core.parse, source, no_location, **{name: limit})
                        self.assertEqual(found, (GraphQLError, words, [starts[which]]))

    def test_places(self) -> None:
        """The error is in the source that was given, and has the line and the column of the operation."""
        source = Source("# é𝄞\n{ a } query B { a b }", "a name")
        with self.assertRaises(GraphQLError) as raised:
            graphql_core.parse(source, max_fields=1)
        error = raised.exception
        self.assertIs(error.source, source)
        assert error.locations is not None
        self.assertEqual([(it.line, it.column) for it in error.locations], [(2, 7)])
        self.assertIn("a name:2:7", str(error))

    def test_spreads(self) -> None:
        """A spread that can't be expanded is refused where it is, with any limit on sizes, and without one it is not."""
        for text, kind, start, _ in FAULTY:
            self.assertEqual(graphql_core.parse(text), own_parse(text))
            for name in SIZES:
                self.assertEqual(graphql_core.parse(text, **{name: None}), own_parse(text))
                for limit in (0, 2**32 - 2):
                    self.assertEqual(
                        refusal(graphql_core.parse, text, **{name: limit}), (GraphQLError, f"{WORDS[kind]}.", [start[0]])
                    )

    def test_largest(self) -> None:
        words = 'Too many fields in operation "Large": 4294967295 or more, with a limit of 4294967294.'
        self.assertEqual(refusal(graphql_core.parse, doubled(61), max_fields=2**32 - 2), (GraphQLError, words, [0]))

    def test_other_errors_first(self) -> None:
        """What graphql-core refuses has graphql-core's error, and so have other limits theirs."""
        for text in ("{ a b } {", "{ a b } ?", "{ a b c(d: 1e) }", "{ ...X c(d: 1e: 2) }", "{ a b(c:1d:2) }", "{ ...X a(b:1c:2) }"):
            own = answer(own_parse, text)
            self.assertEqual(own[0], GraphQLSyntaxError)
            self.assertEqual(answer(graphql_core.parse, text, max_fields=1), own)
        self.assertIn("nested deeper", refusal(graphql_core.parse, "{ a { b { c } } }", depth=2, max_fields=1)[1])
        self.assertIn("more than 3 tokens", refusal(graphql_core.parse, "{ a b }", max_tokens=3, max_fields=1)[1])

    def test_one_call(self) -> None:
        """A text within the limits is read once, and graphql-core's own parser is not called."""
        with mock.patch.object(graphql_core, "own_document", side_effect=AssertionError):
            with mock.patch.object(graphql_core._parser, "parse", side_effect=AssertionError):
                self.assertEqual(graphql_core.parse(TWO, max_fields=7), own_parse(TWO))
                self.assertEqual(graphql_core.parse(WHOLE.replace("F @k", "F @k @l"), max_directives=99).kind, "document")
                self.assertEqual(refusal(graphql_core.parse, TWO, max_fields=6)[2], [0])
                for text, _, start, _ in FAULTY:
                    self.assertEqual(refusal(graphql_core.parse, text, max_fields=6)[2], [start[0]])

    def test_wrong_limits(self) -> None:
        for name in SIZES:
            for limit in NO_LIMITS:
                self.assertRaises(TypeError, graphql_core.parse, "{a}", **{name: limit})
                self.assertRaises(TypeError, graphql_core.install, **{name: limit})
            for number in (*LOW_LIMITS, 2**32 - 1, 10**30):
                self.assertRaises(ValueError, graphql_core.parse, "{a}", **{name: number})
                self.assertRaises(ValueError, graphql_core.install, **{name: number})
        self.assertRaises(TypeError, graphql_core.parse, "{a}", max_field=5)
        self.assertIs(graphql.parse, own_parse)

    def test_words(self) -> None:
        """Each limit goes to its word."""
        for i, name in enumerate(SIZES):
            with mock.patch.object(graphql_core._graphql_core, "document", return_value=ast.DocumentNode()) as call:
                graphql_core.parse("{a}", **{name: 7})
            self.assertEqual(words_of(call.call_args[0][2])[8:], (*[2**32 - 1] * i, 7, *[2**32 - 1] * (4 - i)))

    def test_nothing_is_left(self) -> None:
        before = 0
        for i in range(1500):
            if i == 300:
                before = resident()
            for text in (TWO, "{ ...A }", "{ a b } " * 200, doubled(61), "{ a b } type T { a: B }"):
                for limit in (3, 2**32 - 2):
                    try:
                        graphql_core.parse(text[: 60 if "type" in text else None], max_fields=limit)
                    except GraphQLError:
                        pass
        self.assertLess(resident() - before, 2**23)


class OwnParser(unittest.TestCase):
    """Texts that graphql-core's own parser is called for keep the limits, too."""

    def own(self, text: str, **options: Any) -> Any:
        """What is returned if the own parser reads all texts."""
        with mock.patch.object(graphql_core, "_document", return_value=None):
            return graphql_core.parse(text, **options)

    def test_limits(self) -> None:
        for text, limits, words, index in [
            ("{ a } query B { a b }", {"max_fields": 1}, 'Too many fields in operation "B": 2, with a limit of 1.', 6),
            ("# é𝄞\n{ a } query B { a b }", {"max_fields": 1}, 'Too many fields in operation "B": 2, with a limit of 1.', 11),
            ("{ ...A }", {"max_aliases": 9}, "Unknown fragment.", 2),
            ("{ ...A } fragment A on T { ...A }", {"max_aliases": 9}, "Fragment spread within itself.", 27),
            ("{a{b{c}}}", {"max_field_depth": 2}, "Too many levels of fields in an operation without a name: 3, with a limit of 2.", 0),
        ]:  # fmt: skip
            with self.subTest(text=text[:40]):
                with self.assertRaises(GraphQLError) as raised:
                    self.own(text, **limits)
                error = raised.exception
                self.assertEqual((type(error), error.message, error.positions), (GraphQLError, words, [index]))
                self.assertEqual(self.own(text), own_parse(text))
        self.assertEqual(self.own(TWO, **dict(zip(SIZES, (7, 5, 4, 4, 2)))), own_parse(TWO))

    def test_other_options(self) -> None:
        """An option that leaves the text to graphql-core's own parser."""
        for legacy in (True, False):
            found = refusal(graphql_core.parse, "{ a b }", allow_legacy_fragment_variables=legacy, max_fields=1)
            self.assertEqual(found[1:], ("Too many fields in an operation without a name: 2, with a limit of 1.", [0]))
            graphql_core.parse("{ a b }", allow_legacy_fragment_variables=legacy, max_fields=2)

    def test_what_only_graphql_core_reads(self) -> None:
        """Its operations have the limits, and the errors are in the words of this package. Without operations nothing is limited."""
        for text, index, options, words in [
            ("type T { a: B } { a }", 16, {}, "Too many fields in an operation without a name: 1, with a limit of 0."),
            ("{ a } type T { a: B } { b }", 0, {}, "Too many fields in an operation without a name: 1, with a limit of 0."),
            ("query Q { ...F } fragment F($b: Int) on T { a b }", 0, {"allow_legacy_fragment_variables": True},
             'Too many fields in operation "Q": 2, with a limit of 0.'),
            ("{ ...X } type T { a: B }", 2, {}, "Unknown fragment."),
            ("type T { a: B } query { a ...F } fragment F on T { ...F }", 51, {}, "Fragment spread within itself."),
        ]:  # fmt: skip
            self.assertEqual(graphql_core.parse(text, **options), own_parse(text, **options))
            for no_location in (False, True):
                found = refusal(graphql_core.parse, text, no_location, max_fields=0, **options)
                self.assertEqual(found, (GraphQLError, words, [index]))
            if "many" in words:
                own = own_parse(text, **options)
                self.assertEqual(graphql_core.parse(text, **dict.fromkeys(SIZES, 2), **options), own)
                own = own_parse(text, True, **options)
                self.assertEqual(graphql_core.parse(text, True, **dict.fromkeys(SIZES, 2), **options), own)
                self.assertIsNone(graphql_core.parse(text, True, max_fields=2, **options).loc)
        for text in ("type T { a: B }", '"d" directive @d on FIELD fragment F on T { a ...F }'):
            self.assertEqual(graphql_core.parse(text, max_fields=0), own_parse(text))

    def test_lone_surrogates(self) -> None:
        """They are no error of this package."""
        for text in ("{ a #\ud800\n }", '{ a(b: "\ud800") }', '{ a(b: "\ud83d\ude00") }'):
            own = answer(own_parse, text)
            self.assertEqual(answer(graphql_core.parse, text, max_fields=1), own)


class Installed(unittest.TestCase):
    # A name of this module would be replaced, too.
    OWN = staticmethod(own_parse)

    def setUp(self) -> None:
        self.addCleanup(graphql_core.uninstall)
        self.schema = graphql.build_schema("type Query { a: Int b: Int }")

    def run_query(self, text: str) -> Any:
        return graphql.graphql_sync(self.schema, text, {"a": 7, "b": 8})

    def test_a_server(self) -> None:
        """Its requests have the limits, and its schemas are read."""
        graphql_core.install(max_fields=1, max_aliases=0)
        self.assertEqual(self.run_query("{ a }").data, {"a": 7})
        for text, words in (("{ a b }", "Too many fields"), ("{ c: a }", "Too many aliases"), ("{ ...X }", "Unknown fragment.")):
            found = self.run_query(text)
            self.assertIsNone(found.data)
            self.assertEqual([(type(it), it.message.startswith(words)) for it in found.errors], [(GraphQLError, True)])
        self.assertIn("a", graphql.build_schema("type Query { a: Int b: Int c: Int }").query_type.fields)
        graphql_core.uninstall()
        self.assertEqual(self.run_query("{ a b }").data, {"a": 7, "b": 8})
        self.assertIs(graphql.parse, self.OWN)

    def test_each(self) -> None:
        """Each limit is the one of parse, and a call with a limit of its own has that one."""
        text = "{ a { b { c: d @e } } }"
        for name, limit, higher in [
            ("depth", 2, 3), ("max_tokens", 11, 14), ("max_fields", 2, 3), ("max_aliases", 0, 1), ("max_directives", 0, 1),
            ("max_root_fields", 0, 1), ("max_field_depth", 2, 3),
        ]:  # fmt: skip
            graphql_core.install(**{name: limit})
            self.assertEqual(refusal(graphql.parse, text), refusal(graphql_core.parse, text, **{name: limit}))
            self.assertEqual(graphql.parse(text, **{name: higher}), self.OWN(text))
            others = {it: 99 for it in LIMITS.by_name if it != name}
            self.assertEqual(refusal(graphql.parse, text, **others), refusal(graphql_core.parse, text, **{name: limit}))
            graphql_core.install(**{name: higher})
            self.assertEqual(graphql.parse(text), self.OWN(text))
            graphql_core.uninstall()

    def test_arguments_by_their_places(self) -> None:
        graphql_core.install(max_tokens=5, max_fields=2)
        self.assertEqual(graphql.parse("{ a b c d }", False, 6, max_fields=4), self.OWN("{ a b c d }"))
        self.assertIn("more than 5", refusal(graphql.parse, "{ a b c d }", False, None)[1])
        self.assertIn("more than 3", refusal(graphql.parse, "{ a b c d }", False, 3)[1])
        self.assertIsNone(graphql.parse("{ a }", True).loc)
        self.assertEqual(inspect.signature(graphql.parse), inspect.signature(graphql_core.parse))

    def test_another_call(self) -> None:
        """Its limits replace those before, also where a module has imported them since. None is no limit."""
        graphql_core.install(max_fields=1)
        late = types.ModuleType("late")
        vars(late).update(parse=graphql.parse, chosen=graphql_core.parse)
        with mock.patch.dict(sys.modules, {"late": late}):
            graphql_core.install(max_fields=2)
            for parse in (graphql.parse, late.parse):
                self.assertEqual(parse("{ a b }"), self.OWN("{ a b }"))
                self.assertEqual(refusal(parse, "{ a b c }")[0], GraphQLError)
            self.assertIs(late.chosen, graphql_core.parse)
            graphql_core.install()
            self.assertEqual([graphql.parse, late.parse, late.chosen], [graphql_core.parse] * 3)
            graphql_core.install(max_fields=3)
            self.assertEqual(refusal(late.parse, "{ a b c d }")[0], GraphQLError)
            graphql_core.uninstall()
        self.assertEqual([graphql.parse, late.parse, late.chosen], [self.OWN, self.OWN, graphql_core.parse])

    def test_wrong_options(self) -> None:
        """Nothing is put in graphql-core's place."""
        for options, error, words in [
            ({"max_field": 5}, TypeError, "'max_field'"), ({"no_location": True}, TypeError, "'no_location'"),
            ({"depth": 1001}, ValueError, "depth"), ({"depth": None}, TypeError, "depth"), ({"max_tokens": -1}, ValueError, "max_tokens"),
            ({"max_fields": 5, "max_aliases": "5"}, TypeError, "max_aliases"),
        ]:  # fmt: skip
            with self.assertRaises(error) as raised:
                graphql_core.install(**options)
            self.assertIn(words, str(raised.exception))
            self.assertIs(graphql.parse, self.OWN)
        graphql_core.install(max_fields=1)
        self.assertRaises(ValueError, graphql_core.install, max_fields=-1)
        self.assertEqual(refusal(graphql.parse, "{ a b }")[0], GraphQLError)
