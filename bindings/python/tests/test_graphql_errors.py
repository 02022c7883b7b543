"""In graphql-core's place: the errors of requests are graphql-core's own, and most are found without a parse of the whole text.
Skipped if graphql-core 3.2 is not installed."""

import random
import unittest
from typing import Any, Iterable, List, Tuple
from unittest import mock

from helpers import limits_memory, process
from graphql_texts import WHOLE, answer, made_texts, row_texts  # skips if graphql-core 3.2 is not installed
from test_graphql_limits import FAULTY, HAS_OPTION, READ, nobody_else

from firthnapkin import graphql_core
from graphql import GraphQLSyntaxError, Source
from graphql.language import Lexer, TokenKind
from graphql.language.parser import parse as own_parse

# Every place where a token may be, without comments.
REQUEST = """query Q($a: [T!]! = [1, {b: "c"}] @d(e: 1.5), $f: U) @g { h: i(j: $a, k: [[], {l: {m: N}}]) @o { p ... on V @q { r } ...W @x }
... @y { z } ... { a } b } fragment W on V @a { b c: d { e } f } mutation { on: on fragment: on(on: on) ...on on { on } } subscription S { s }"""

PUNCTUATION = [
    "{",
    "}",
    "(",
    ")",
    "[",
    "]",
    ":",
    "=",
    "@",
    "!",
    "...",
    "|",
    "&",
    "a",
    "on",
    "1",
    "1.5",
    '"s"',
    "null",
    "$a",
    "fragment",
]


def tokens_of(text: str) -> List[Tuple[int, int]]:
    """Where the tokens of a text are."""
    lexer, found = Lexer(Source(text)), []
    while lexer.advance().kind is not TokenKind.EOF:
        found.append((lexer.token.start, lexer.token.end))
    return found


def damaged(text: str) -> Iterable[str]:
    """A text without each of its tokens, with each twice, with each in the next one's place, and with some others before each or
    in place of it."""
    places = tokens_of(text)
    for start, end in places:
        yield text[:start] + text[end:]
        yield f"{text[:end]} {text[start:]}"
        yield from (f"{text[:start]} {word} {text[start:]}" for word in random.sample(PUNCTUATION, 6))
        yield from (f"{text[:start]} {word} {text[end:]}" for word in random.sample(PUNCTUATION, 3))
    for (start, end), (second, last) in zip(places, places[1:]):
        yield f"{text[:start]}{text[second:last]} {text[start:end]}{text[last:]}"


class Errors(unittest.TestCase):
    def compared(self, texts: Iterable[str], **options: Any) -> Tuple[int, int]:
        """Checks that all of an error is as in graphql-core. Returns how many errors there are, and for how many of these
        graphql-core's parser reads all of the text."""
        errors = asked = 0
        for text in texts:
            own, source = all_of_error(own_parse, text), Source(text)
            with mock.patch.object(graphql_core, "own_document", side_effect=graphql_core.own_document) as calls:
                with self.subTest(text=text):
                    self.assertEqual(all_of_error(graphql_core.parse, source, depth=1000, **options), own)
            errors += own is not None
            asked += own is not None and calls.called
        return errors, asked

    def test_cut_texts(self) -> None:
        """What is before each character."""
        errors, asked = self.compared(text[:i] for text in (WHOLE, REQUEST, *READ[1:]) for i in range(len(text)))
        self.assertGreater(errors, 900)
        # These end within a String or a number, for instance.
        self.assertLess(asked, errors / 4)

    def test_damaged_texts(self) -> None:
        random.seed(3)
        errors, asked = self.compared(damaged(REQUEST))
        self.assertGreater(errors, 1200)
        # For a description, and for variables and numbers that graphql-core reads otherwise.
        self.assertLess(asked, errors / 7)

    def test_other_texts(self) -> None:
        texts = [*FAULTY, *row_texts(), *random.Random(4).sample(list(made_texts()), 300)]
        errors, _ = self.compared(texts, max_tokens=10**6)
        self.assertGreater(errors, 1800)

    def test_who_is_asked(self) -> None:
        """Nobody, for these: the words are graphql-core's."""
        for text, words, index in [
            ("{ a ) }", "Expected Name, found ')'.", 4), ("", "Unexpected <EOF>.", 0), ("{ a { b } c: }", "Expected Name, found '}'.", 13),
            ("{ a(b: [1, {c: 2}]) { d } } fragment on on T { e }", "Unexpected Name 'on'.", 37),
            ("{ a } } ", "Unexpected '}'.", 6), ("query($a: [T!!]) { b }", "Expected ']', found '!'.", 13), ("#é𝄞\n{ a(b 1) }", "Expected ':', found Int '1'.", 10),
            ("{ ...on }", "Expected Name, found '}'.", 8), ("{ ...on on on }", "Expected '{', found Name 'on'.", 11), ("{ a", "Expected Name, found <EOF>.", 3), ("{ x: y : }", "Expected Name, found ':'.", 7),
            ('{ a(b: "é𝄞") "c" }', "Expected Name, found String 'c'.", 13), ("query { a } nonsense", "Unexpected Name 'nonsense'.", 12),
        ]:  # fmt: skip
            with self.subTest(text=text):
                wanted = GraphQLSyntaxError, f"Syntax Error: {words}", [index]
                self.assertEqual(answer(own_parse, text), wanted)
                with nobody_else():
                    self.assertEqual(answer(graphql_core.parse, text), wanted)

    def test_what_is_read(self) -> None:
        """Only what is open around the token, however long the text is."""
        long = "query Q($a: T = 1) { " + "a(b: [1, {c: 2}]) @d { e ...F ... on T { f } } " * 500
        for text, most in (
            (long + ")", 40),
            (long, 40),
            (long + "} {a} }", 40),
            ("{a}" * 5000 + "{", 20),
            ("{" + "...F " * 5000 + ")", 20),
            ("{" + "...on T{a}" * 5000 + "...on", 20),
            ("{" + long[20:] + "b { c } d: (", 40),
        ):
            with mock.patch.object(Lexer, "read_next_token", autospec=True, side_effect=Lexer.read_next_token) as calls:
                found = answer(graphql_core.parse, text)
            self.assertLessEqual(calls.call_count, most)
            self.assertEqual(found, answer(own_parse, text))

    def test_limits(self) -> None:
        """The first token past a limit comes first, whether graphql-core's parser reads all of the text or not."""
        for text in (
            "{ a [ }",
            "{ a ( ) }",
            "{ a(b: ) { c } }",
            "{ { a } }",
            "{a{b{c ) } } }",
            "{a{b{c{d} ) } } }",
            "query($a: { ) { b }",
            "{a}{b}) {c{d}}",
        ):
            for depth in range(5):
                for most in (None, *range(12)):
                    found = answer(graphql_core.parse, text, depth=depth, max_tokens=most)
                    with mock.patch.object(graphql_core, "_document", return_value=None):
                        self.assertEqual(found, answer(graphql_core.parse, text, depth=depth, max_tokens=most), (text, depth, most))

    @unittest.skipUnless(HAS_OPTION, "this graphql-core counts no tokens")
    def test_limit_on_tokens(self) -> None:
        random.seed(5)
        for text in random.sample(list(damaged(REQUEST)), 800):
            most = random.randrange(200)
            self.assertEqual(
                answer(graphql_core.parse, text, max_tokens=most), answer(own_parse, text, max_tokens=most), (text, most)
            )

    @limits_memory
    def test_memory(self) -> None:
        """None is kept, and want of it is a MemoryError."""
        found = process(
            "import resource\n"
            "from firthnapkin import _graphql_core, graphql_core\n"
            "from firthnapkin.limits import packed\n"
            "from helpers import resident\n"
            "limits, found = packed(200), set()\n"
            "def taken(): return int(open('/proc/self/statm').read().split()[0]) * resource.getpagesize()\n"
            "def tried(text):\n"
            "    try: found.add(_graphql_core.document(text, len(text), limits, None, 2**32 - 1))\n"
            "    except MemoryError: found.add('memory')\n"
            "for i in range(60_000):\n"
            "    if i == 1_000: before = resident()\n"
            "    tried(b'{ a { b c } d(e: [1, {f: 2}) }')\n"
            "print(resident() - before < 2**22, found)\n"
            "text = b'{a(b:[' + b'1 ' * 2**18 + b')'\n"
            "found.clear()\n"
            "for more in range(0, 2**25, 2**18):\n"
            "    resource.setrlimit(resource.RLIMIT_AS, (taken() + more, resource.RLIM_INFINITY))\n"
            "    tried(text)\n"
            "print(found == {'memory', (2**19 + 6, b'{ a ( b : [ ' + b'1 ' * 2**18, 2**19 + 7)})\n"
        )
        self.assertEqual((found.stdout, found.stderr), (b"True {(27, b'{ d ( e : [ 1 { f : 2 } ', 28)}\nTrue\n", b""))


def all_of_error(parse: Any, text: Any, **options: Any) -> Any:
    """All that an error has, and None if there is none."""
    try:
        parse(text, **options)
    except GraphQLSyntaxError as error:
        return type(error), error.message, error.positions, error.locations, str(error), error.source, error.args, vars(error)
    except Exception as error:
        return type(error), str(error)
    return None
