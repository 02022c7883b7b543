"""Limits in graphql-core's place: the errors, their places, and which parser reports them. Skipped if graphql-core 3.2 is
not installed."""

import inspect
import math
import os
import random
import subprocess
import sys
import tracemalloc
import unittest
from contextlib import ExitStack, contextmanager
from typing import Any, Iterator, List, Tuple, get_type_hints
from unittest import mock

from helpers import NO_SIZES, limits_memory, process, resident, words_of
from graphql_texts import WHOLE, answer, extension, made_texts, row_texts  # skips if graphql-core 3.2 is not installed

import graphql
from firthnapkin import _graphql_own, graphql_core
from firthnapkin._graphql_release import Rules
from firthnapkin.parser import LIMITS, parse
from graphql import GraphQLSyntaxError, Source
from graphql.language import Lexer, TokenKind, ast
from graphql.language.parser import Parser
from graphql.language.parser import parse as own_parse

# The first releases of 3.2 have no max_tokens. With them, results are compared only with those that are written here.
HAS_OPTION = "max_tokens" in inspect.signature(own_parse).parameters


def is_beyond(text: str, most: int) -> bool:
    """Whether graphql-core itself reports too many tokens."""
    return HAS_OPTION and "more than" in str(answer(own_parse, text, max_tokens=most))


# What a comment counts against a limit, and whether the limit is looked at at the end.
COMMENT = int(is_beyond("# a comment\n{a}", 3))
LIMITS_END = is_beyond("", -1)


class FirstParser(Parser):
    """A parser as in those releases: it doesn't count tokens."""

    def __init__(self, source: Any, no_location: bool = False, allow_legacy_fragment_variables: bool = False) -> None:
        super().__init__(source, no_location=no_location, allow_legacy_fragment_variables=allow_legacy_fragment_variables)


@contextmanager
def first_release() -> Iterator[None]:
    with ExitStack() as stack:
        stack.enter_context(mock.patch.object(_graphql_own, "Parser", FirstParser))
        stack.enter_context(mock.patch.object(_graphql_own, "RULES", Rules(False, False, False, 0)))
        stack.enter_context(mock.patch.object(graphql_core, "_graphql_core", extension((False, False, 0))))
        yield


@contextmanager
def nobody_else() -> Iterator[None]:
    """graphql-core's own parser fails when it is called."""
    with mock.patch.object(graphql_core, "own_document", side_effect=AssertionError("asked")):
        yield


def releases() -> List[Any]:
    """This release, and the first ones, whose results are this one's if it counts the same."""
    return [ExitStack, first_release] if HAS_OPTION and not (COMMENT or LIMITS_END) else [ExitStack]


def counts(text: str) -> List[Tuple[int, int]]:
    """Where graphql-core's tokens start, its end among them if that counts, and what is counted up to each."""
    lexer, found, count = Lexer(Source(text)), [], 0
    while lexer.token.kind is not TokenKind.EOF:
        last, token = lexer.token, lexer.advance()
        while last.next is not token:
            last, count = last.next, count + COMMENT
        count += token.kind is not TokenKind.EOF
        if token.kind is not TokenKind.EOF or LIMITS_END:
            found.append((token.start, count))
    return found


def too_many(most: object) -> str:
    return f"Syntax Error: Document contains more than {most} tokens. Parsing aborted."


# Texts that both read alike, to their last token.
READ = [
    WHOLE, "{a}", "query{a}", "query Q{a}", "{a(b:[1,$c,{d:E}])@e(f:\"\")...F...on T{g}...{h}x:y}",
    "query($a:[T!]!=1@b,$c:D){e}fragment F on T@g{h}", "{a}{b}", "#é𝄞\n{#𝄞\na}",
    "\ufeff{ a(b: \"𝄞é\" c: \"\"\"é\n𝄞\"\"\") }", "query @d(x: {y: $a}) { b }", "{a(b:1.5e3,c:-1)}", "{a\r\n\rb\n#\r c}",
    "fragment F on T @d(x: [$a]) { b(c: $d) }",
]  # fmt: skip

# Texts with an error, or with a part that only one of the two parsers reads.
FAULTY = [
    "", "{", "{a ) }", "{a} }", "}", "{a ? b}", "{a}é", "{a é", "{a(b:1c:2)}", "{a(b:1.x)}", "{a(b:[1...", "{a(b:[1.5...",
    "{a(b:01)}", "{a(b:1_)}", "{a(b:1.5c)}", "query($a:Int=$b){c}", "query($a:Int=[$b]){c}", "query($a:Int@d(x:$b)){c}",
    "query Q($a:Int@d(x:[{y:$b}])){c}", "query($a:Int @d(x:$", "query($a:Int){a}query($a:Int @d(x:$b)){c}", "type T { a: B }",
    '"d" type T { a: B }', '"""d""" { a }', "fragment on on T {a}", "fragment F($a: Int) on T { a }", "{ ...on }",
    '{a(b:"\\u{1F600}") c}', '{a(b:"\\ud83d\\ude00") c}', '{a(b:"\\x") c}', '{a "b c}', '{a """b c}', "{a #\x01\n b}",
    '{a(b:"\x01") c}', "{a \x01 b}", "{a . b}", "{a .. b}", "{a & b}", "{\ud800}", "{a #\ud800\n b}", '{a(b:"\ud800")}',
    "extend schema @d", "{a(b:-)}", "{a(b:1e)}", "{a(b:)}", "query query query", "{a(", "#é𝄞\n{a(b:\"𝄞\"] c}", "𝄞{a}",
    "{a(b:\"𝄞é\" ? c}", "query($a:[T!!]){b}", "subscription S", "query(){a}", "{a()}", "{}",
]  # fmt: skip


class TooMany(unittest.TestCase):
    """This package reports it, in graphql-core's words, at the place that graphql-core reports."""

    def refused(self, text: str, most: int, index: int) -> None:
        with self.assertRaises(GraphQLSyntaxError) as raised:
            graphql_core.parse(text, max_tokens=most)
        error = raised.exception
        self.assertIs(type(error), GraphQLSyntaxError)
        self.assertEqual((error.message, error.positions, error.source.body), (too_many(most), [index], text))
        self.assertEqual(error.locations, GraphQLSyntaxError(Source(text), index, "").locations)

    def test_written_places(self) -> None:
        for text, most, index in [
            ("{a}", 0, 0), ("{a}", 1, 1), ("{a}", 2, 2), ("{a}{b}", 3, 3), ("{a} }", 3, 4), ("{ a ) }", 2, 4), ("{a ) }", 1, 1),
            ("# é𝄞\n{a}", 0, 5), ("# é𝄞\n{a}", 1 + COMMENT, 6), ('{a(b:"𝄞é")\nc}', 6, 9), ('{a(b:"𝄞é")\nc}', 7, 11),
            ('{ a(b: """\n𝄞\n""") }', 6, 16), ("\ufeff{a#}}\n b}", 2 + COMMENT, 8), ("{a ?", 1, 1), ("{a(b:1c:2)}", 4, 4), ("}", 0, 0),
            ("query($a:Int=$b){c}", 6, 12), ("query($a:Int=$b){c}", 5, 9), ("query($a:Int@d(x:$b)){c}", 5, 9), ("type T", 0, 0),
            ("query($a:Int@d(x:$b)){c}", 11, 17), ("query($a:Int@d(x:$b)){c}", 12, 18), ("query($a:Int=$b){c}", 7, 13),
        ]:  # fmt: skip
            with self.subTest(text=text, most=most), nobody_else():
                self.refused(text, most, index)

    def test_every_token(self) -> None:
        """Each token is the first one too many for one limit. None is, if the limit is not below the number of tokens."""
        for text in READ:
            places = counts(text)
            total = places[-1][1]
            with nobody_else():
                for most in range(total):
                    self.refused(text, most, next(start for start, count in places if count > most))
                for most in (total, total + 1, 2**32 - 1, 2**32 + 5, 2**63, 2**64, 2**64 + 1, 10**30):
                    self.assertIsInstance(graphql_core.parse(text, max_tokens=most), ast.DocumentNode)

    def test_a_large_text(self) -> None:
        """No node is made. The bytes of the text are most of the memory that is taken."""
        text = "{" + "a " * 500_000 + "}"
        for most in (0, 5, 400_000):
            tracemalloc.start()
            try:
                with nobody_else():
                    self.refused(text, most, 2 * most - 1 if most else 0)
                self.assertLess(tracemalloc.get_traced_memory()[1], 3 * len(text))
            finally:
                tracemalloc.stop()

    @unittest.skipUnless(os.path.exists("/proc/self/statm"), "no /proc")
    def test_nothing_is_left(self) -> None:
        """The process keeps no more memory, however often it reports a limit."""
        text = "{" + "a " * 500_000 + "}"
        self.refused(text, 400_000, 799_999)
        before = resident()
        for _ in range(20):
            self.refused(text, 400_000, 799_999)
        self.assertLess(resident() - before, 2**26)

    @unittest.skipUnless(os.path.exists("/proc/self/statm"), "no /proc")
    def test_nothing_is_left_of_comments(self) -> None:
        """The same if comments may count, by which a text is read again: in a process that has freed nothing before."""
        found = process(
            "from firthnapkin import graphql_core\n"
            "from graphql import GraphQLSyntaxError\n"
            "from helpers import resident\n"
            "for i in range(60_000):\n"
            "    if i == 1_000: before = resident()\n"
            "    try: graphql_core.parse('{ a #\\n b }', max_tokens=2)\n"
            "    except GraphQLSyntaxError: pass\n"
            "    else: raise AssertionError\n"
            "small = resident() - before\n"
            "text = '{' + 'a ' * 100_000 + '} ####'\n"
            "for i in range(20):\n"
            "    if i == 2: before = resident()\n"
            f"    graphql_core.parse(text, max_tokens=100_002 + {COMMENT})\n"
            "print(small < 2**23, resident() - before < 2**25)\n"
        )
        self.assertEqual((found.stdout, found.stderr), (b"True True\n", b""))

    def test_number_signs(self) -> None:
        """Those in strings and in comments begin no comment, however many there are."""
        for text in ('{ a(b: "####", c: """##""") } #', "{ a } ####", '{ a # "#\n (b: "#") #', "#{\n#\n{ a }"):
            places = counts(text)
            total = places[-1][1]
            with nobody_else():
                for most in range(total):
                    self.refused(text, most, next(start for start, count in places if count > most))
            for most in (total, total + 1, total + 9, 2**32 - 1):
                self.assertEqual(answer(graphql_core.parse, text, max_tokens=most), answer(own_parse, text))

    @limits_memory
    def test_want_of_memory(self) -> None:
        for end in ("", "#"):
            with self.subTest(end=end):
                self.goes_on_without_memory(end)

    def goes_on_without_memory(self, end: str) -> None:
        program = (
            "import resource\n"
            "from firthnapkin import graphql_core\n"
            f"text = '{{' + 'a ' * 2**24 + '{end}'\n"
            "taken = int(open('/proc/self/statm').read().split()[0]) * resource.getpagesize()\n"
            "resource.setrlimit(resource.RLIMIT_AS, (taken + 2**26, resource.RLIM_INFINITY))\n"
            "try: graphql_core.parse(text, max_tokens=2**24)\n"
            "except MemoryError: print('memory', len(graphql_core.parse('{a}', max_tokens=3).definitions))\n"
        )
        ran = subprocess.run([sys.executable, "-B", "-c", program], capture_output=True, check=False)
        self.assertEqual((ran.stdout, ran.stderr), (b"memory 1\n", b""))

    def test_other_arguments(self) -> None:
        source = Source("{\n a b}", "a name", (7, 3))
        for options in ({}, {"no_location": True}):
            with self.assertRaises(GraphQLSyntaxError) as raised, nobody_else():
                graphql_core.parse(source, max_tokens=2, **options)
            self.assertIs(raised.exception.source, source)
            self.assertEqual(str(raised.exception), str(GraphQLSyntaxError(source, 5, too_many(2)[len("Syntax Error: ") :])))

    def test_installed(self) -> None:
        graphql_core.install()
        try:
            self.assertEqual(answer(graphql.parse, "{a b}", max_tokens=2), (GraphQLSyntaxError, too_many(2), [3]))
            self.assertEqual(graphql.parse("{a b}", max_tokens=4), own_parse("{a b}"))
        finally:
            graphql_core.uninstall()


class Verdicts(unittest.TestCase):
    """graphql-core's own results within a limit, whether the release counts tokens or not."""

    def same(self, text: str, most: object, **options: Any) -> Any:
        own = answer(own_parse, text, max_tokens=most, **options)
        for release in releases():
            with release():
                self.assertEqual(answer(graphql_core.parse, text, max_tokens=most, depth=1000, **options), own, (text, most))
        return own

    @unittest.skipUnless(HAS_OPTION, "this graphql-core counts no tokens")
    def test_every_limit(self) -> None:
        for text in FAULTY + [cut for text in READ[1:] for cut in (text[:-1], text + "}", text + "?", text + "1a")]:
            for most in range(16):
                self.same(text, most)
        for most in [*range(40), *range(150, 230)]:
            self.same(WHOLE[:-3], most)

    @unittest.skipUnless(HAS_OPTION, "this graphql-core counts no tokens")
    def test_rows_and_made_texts(self) -> None:
        """Some limit for each text, and which parser reports a token beyond it."""
        refused = ours = 0
        random.seed(2021)
        for text in [*row_texts(), *made_texts()]:
            most = random.choice([random.randrange(12), random.randrange(230)])
            own = self.same(text, most)
            if isinstance(own, tuple) and own[1] == too_many(most):
                refused += 1
                with mock.patch.object(graphql_core, "own_document", return_value="asked"):
                    ours += answer(graphql_core.parse, text, max_tokens=most, depth=1000) == own
        self.assertGreater(refused, 2000)
        self.assertGreater(ours, refused * 0.95)

    @unittest.skipUnless(HAS_OPTION, "this graphql-core counts no tokens")
    def test_limits_of_every_kind(self) -> None:
        class Number(int):
            pass

        for most in [-1, -(10**30), 2**32 - 1, 2**32 + 5, 2**63, 2**64 + 1, 10**30, 1.5, 0.0, math.inf, -math.inf, math.nan, True,
                     False, "5", b"5", [], object, Number(2), Number(-1)]:  # fmt: skip
            for text in ["{a}", "{a ) }", "", "{", "?", "type T { a: B }", "{a(b:1c)}"]:
                self.same(text, most)
        self.assertEqual(graphql_core.parse("{a}", max_tokens=None), own_parse("{a}"))

    @unittest.skipUnless(HAS_OPTION, "this graphql-core counts no tokens")
    def test_other_options(self) -> None:
        for text in [*READ[:4], "fragment F($a: Int = 1) on T { a }", "{a ) }"]:
            for most in (0, 1, 5, 9, 11, 12, 10**6):
                self.same(text, most, no_location=True)
                self.same(text, most, allow_legacy_fragment_variables=True)

    def test_who_is_asked(self) -> None:
        """graphql-core's own parser is called, within the limit: for texts that it may read otherwise, and for earlier errors."""
        for text, most, message, index in [
            ("{a ) }", 3, "Expected Name, found ')'.", 3),
            ("{a ) }", 4, "Expected Name, found ')'.", 3),
            ("{a ?", 2, "Unexpected character: '?'.", 3),
            ("{a} }", 4, "Unexpected '}'.", 4),
            ("{a(b:1c:2)}", 5, "Invalid number, expected digit but got: 'c'.", 6),
            ("{a(b:1c:2)}", 6, "Invalid number, expected digit but got: 'c'.", 6),
            ("query($a:Int=$b){c}", 9, "Unexpected variable '$b' in constant value.", 13),
            ("query($a:Int@d(x:$b)){c}", 13, "Unexpected variable '$b' in constant value.", 17),
            ("#é𝄞\n{a(b:\"𝄞\"] c}", 7 + COMMENT, "Expected Name, found ']'.", 12),
            ("type T { a: B }", 6, too_many(6)[len("Syntax Error: ") :], 14),
            ('{a(b:"\\u{1F600}") c}', 7, too_many(7)[len("Syntax Error: ") :], 18),
        ]:  # fmt: skip
            for release in releases():
                with self.subTest(text=text, most=most, release=release.__name__), release():
                    error = answer(graphql_core.parse, text, max_tokens=most)
                    self.assertEqual(error, (GraphQLSyntaxError, f"Syntax Error: {message}", [index]))
        for release in releases():
            with release():
                self.assertEqual(graphql_core.parse("type T { a: B }", max_tokens=7), own_parse("type T { a: B }"))


class BothLimits(unittest.TestCase):
    """The first token beyond either limit is reported. A token beyond both is reported as one too many."""

    def test_which_is_reported(self) -> None:
        deep = "Syntax Error: Brackets are nested deeper than 1."
        for text, most, message, index in [
            ("{a{b}}", 1, too_many(1), 1), ("{a{b}}", 2, too_many(2), 2), ("{a{b}}", 3, deep, 2), ("{a{b}}", 4, deep, 2),
            ("#é𝄞\n{a(b:1)}", 3 + COMMENT, deep, 6), ("#é𝄞\n{a(b:1)}", 2 + COMMENT, too_many(2 + COMMENT), 6), ("{a ? {b}}", 9, "?", 3), ("{a ) {b}}", 9, ")", 3),
            ("query($a:T=1c:{}){d}", 20, "'c'", 12), ("query($a:T){d(b:$a)}", 20, deep, 13),
        ]:  # fmt: skip
            with self.subTest(text=text, most=most):
                error = answer(graphql_core.parse, text, max_tokens=most, depth=1)
                self.assertIn(message, error[1])
                self.assertEqual((error[0], error[2]), (GraphQLSyntaxError, [index]))

    def test_deep_texts(self) -> None:
        text = "{a" * 200_000
        for most, message, index in [(400, too_many(400), 400), (401, "200", 400), (100, too_many(100), 100), (10**6, "200", 400)]:
            with nobody_else():
                error = answer(graphql_core.parse, text, max_tokens=most)
            self.assertIn(message, error[1])
            self.assertEqual((error[0], error[2]), (GraphQLSyntaxError, [index]))

    def test_errors_before_what_is_too_deep(self) -> None:
        """They are reported, although this package's parser goes on after them."""
        for text, depth in [
            ("{a(b:1c:[[]])}", 3), ("{a(b:[1.5e3a [[]]])}", 3), ("query($a:Int @d(x:$b) = [[]]){c}", 2),
            ("query($a:Int @d(x:$b) $c: T @e(f: [[1]])){c}", 2),
        ]:  # fmt: skip
            with self.subTest(text=text):
                self.assertEqual(answer(graphql_core.parse, text, depth=depth), answer(own_parse, text))

    def test_wrong_depths(self) -> None:
        for depth in (None, 1.5, "5", [], math.inf):
            self.assertRaises(TypeError, graphql_core.parse, "{a}", max_tokens=1, depth=depth)
        for depth in (-1, 1001, 2**32 - 1, 2**32 + 5, 10**30):
            self.assertRaises(ValueError, graphql_core.parse, "{a}", max_tokens=1, depth=depth)

    def test_words(self) -> None:
        """Each goes to its word. The number of tokens is passed beside the limits, for what counts in the installed release."""
        limits = [it for it in inspect.signature(graphql_core.parse).parameters.values() if it.kind is it.KEYWORD_ONLY]
        hints, wanted = get_type_hints(graphql_core.parse), get_type_hints(parse)
        self.assertEqual([it.name for it in limits], [it for it in LIMITS.by_name if it != "max_tokens"])
        for it in limits:
            self.assertEqual((it.default, hints[it.name]), (LIMITS.defaults[it.name], wanted[it.name]), it.name)
        for given, depth, most in [
            ({}, 200, 2**32 - 1), ({"depth": 0}, 0, 2**32 - 1), ({"depth": 7, "max_tokens": 9}, 7, 9),
            ({"depth": 1000, "max_tokens": 0}, 1000, 0), ({"max_tokens": 2**40}, 200, 2**32 - 1), ({"max_tokens": -5}, 200, -1),
        ]:  # fmt: skip
            with mock.patch.object(graphql_core._graphql_core, "document", return_value=ast.DocumentNode()) as call:
                graphql_core.parse("{a}", **given)
            words = (depth, 2**32 - 1, 0, 0, 0, 0, 0, 0, *NO_SIZES)
            self.assertEqual((words_of(call.call_args[0][2]), call.call_args[0][4]), (words, most))
