"""Errors: their words, positions, excerpts and copies."""

import concurrent.futures
import copy
import multiprocessing
import pathlib
import pickle
import unittest
from typing import Any, Callable, Dict, List, Tuple

from firthnapkin import ErrorDetail, ErrorKind, FirthnapkinError, Position, canonical, parse, tokens
from helpers import Text


def error_of(text: str, **options: Any) -> FirthnapkinError:
    try:
        parse(text, **options)
    except FirthnapkinError as error:
        return error
    raise AssertionError(f"{text!r} has a document")


def parts(error: FirthnapkinError) -> Dict[str, Any]:
    names = "message kind start end source source_name detail character line column lineno colno utf16_column excerpt".split()
    return {"words": str(error), **{name: getattr(error, name) for name in names}}


class Errors(unittest.TestCase):
    def test_kinds(self) -> None:
        """Each kind and each detail, with its message, its character and both its positions."""
        for text, kind, detail, character, start, end, words in [
            ("{\n  a )\n}", ErrorKind.UNEXPECTED_TOKEN, ErrorDetail.NONE, None, (6, 1, 4, 6), (7, 1, 5, 7), 'Unexpected ")". At 2:5'),
            ("{ a: }", ErrorKind.UNEXPECTED_TOKEN, ErrorDetail.NONE, None, (5, 0, 5, 5), (6, 0, 6, 6), 'Unexpected "}". At 1:6'),
            ("{ ... on on }", ErrorKind.UNEXPECTED_TOKEN, ErrorDetail.NONE, None, (12, 0, 12, 12), (13, 0, 13, 13),
             'Unexpected "}". At 1:13'),
            ("query name name", ErrorKind.UNEXPECTED_TOKEN, ErrorDetail.NONE, None, (11, 0, 11, 11), (15, 0, 15, 15),
             'Unexpected "name". At 1:12'),
            ('{ "a. At b" }', ErrorKind.UNEXPECTED_TOKEN, ErrorDetail.NONE, None, (2, 0, 2, 2), (11, 0, 11, 11),
             'Unexpected ""a. At b"". At 1:3'),
            ("", ErrorKind.UNEXPECTED_END, ErrorDetail.NONE, None, (0, 0, 0, 0), (0, 0, 0, 0), "Unexpected end of input. At 1:1"),
            ("#é\n{ a", ErrorKind.UNEXPECTED_END, ErrorDetail.NONE, None, (6, 1, 3, 7), (6, 1, 3, 7),
             "Unexpected end of input. At 2:4"),
            ("{ é }", ErrorKind.LEXICAL, ErrorDetail.UNKNOWN_CHARACTER, "é", (2, 0, 2, 2), (2, 0, 2, 2), 'Unknown character "é". At 1:3'),
            ("{ ш }", ErrorKind.LEXICAL, ErrorDetail.UNKNOWN_CHARACTER, "ш", (2, 0, 2, 2), (2, 0, 2, 2), 'Unknown character "ш". At 1:3'),
            ("{ 𝄞 }", ErrorKind.LEXICAL, ErrorDetail.UNKNOWN_CHARACTER, "𝄞", (2, 0, 2, 2), (2, 0, 2, 2), 'Unknown character "𝄞". At 1:3'),
            ("{ .a }", ErrorKind.LEXICAL, ErrorDetail.UNEXPECTED_CHARACTER, ".", (2, 0, 2, 2), (2, 0, 2, 2),
             'Unexpected character ".". At 1:3'),
            ('{a(b:"c', ErrorKind.LEXICAL, ErrorDetail.UNTERMINATED_STRING, None, (7, 0, 7, 7), (7, 0, 7, 7),
             "Unterminated string literal. At 1:8"),
            ('{a(b:"\x01")}', ErrorKind.LEXICAL, ErrorDetail.UNKNOWN_CHARACTER_IN_STRING, "\x01", (6, 0, 6, 6), (6, 0, 6, 6),
             'Unknown character "\x01" in string literal. At 1:7'),
            ('{a(b:"\x00")}', ErrorKind.LEXICAL, ErrorDetail.UNKNOWN_CHARACTER_IN_STRING, "\x00", (6, 0, 6, 6), (6, 0, 6, 6),
             'Unknown character "\x00" in string literal. At 1:7'),
            ('{a(b:"\\q")}', ErrorKind.LEXICAL, ErrorDetail.UNKNOWN_ESCAPE, None, (7, 0, 7, 7), (7, 0, 7, 7),
             'Unknown escape sequence "\\q" in string. At 1:8'),
            ("{a(b:-", ErrorKind.LEXICAL, ErrorDetail.UNEXPECTED_END_IN_TOKEN, None, (6, 0, 6, 6), (6, 0, 6, 6),
             "Unexpected end of input. At 1:7"),
        ]:  # fmt: skip
            with self.subTest(text=text):
                error = error_of(text)
                self.assertEqual((error.kind, error.detail, error.character), (kind, detail, character))
                self.assertEqual((error.start, error.end, str(error)), (Position(*start), Position(*end), words))
                self.assertEqual((error.message, error.source), (words.rpartition(". At ")[0], text))
                self.assertEqual((error.line, error.column), (start[1] + 1, start[2] + 1))
                self.assertEqual((error.lineno, error.colno), (start[1] + 1, start[2] + 1))

    def test_depth(self) -> None:
        error = error_of("{a{b}}", depth=1)
        self.assertEqual((error.kind, str(error)), (ErrorKind.TOO_DEEP, "Too deeply nested. At 1:3"))
        self.assertEqual((error.start, error.end), (Position(2, 0, 2, 2), Position(3, 0, 3, 3)))
        self.assertEqual(error_of("{a" * 201).start, Position(400, 0, 400, 400))
        parse("{a" * 200 + "}" * 200)

    def test_long_words(self) -> None:
        """Messages of lengths around the sizes of the buffers that are tried."""
        for length in (1, 200, 243, 244, 245, 255, 256, 257, 5000):
            name = "n" * length
            self.assertEqual(str(error_of("query a " + name)), f'Unexpected "{name}". At 1:9')

    def test_lone_surrogates(self) -> None:
        for text, start, words in [
            ("\ud800", (0, 0, 0, 0), "Lone surrogate U+D800. At 1:1"),
            ("{é\n a(b: \"\udfff\") }", (10, 1, 7, 11), "Lone surrogate U+DFFF. At 2:8"),
            ("} \udc00 \ud800", (2, 0, 2, 2), "Lone surrogate U+DC00. At 1:3"),
        ]:  # fmt: skip
            error = error_of(text)
            index, line, column, byte = start
            self.assertEqual((error.kind, error.start, str(error)), (ErrorKind.SURROGATE, Position(*start), words))
            self.assertEqual(error.end, Position(index + 1, line, column + 1, byte + 3))
            error.excerpt.encode()
            self.assertEqual(parts(pickle.loads(pickle.dumps(error))), parts(error))

    def test_utf16_column(self) -> None:
        error = error_of("{\n a(b: \"𝄞éм\uffee\") ) }")
        self.assertEqual((error.start.column, error.utf16_column), (14, 15))
        self.assertEqual(error_of("# 𝄞\n )").utf16_column, 1)


class Copies(unittest.TestCase):
    def test_copies(self) -> None:
        for error in (error_of("{\n a ) é 𝄞 }"), error_of("{ é", name="é.graphql"), error_of("{a{b}}", depth=1)):
            for other in [copy.copy(error), copy.deepcopy(error)] + [
                pickle.loads(pickle.dumps(error, protocol)) for protocol in range(pickle.HIGHEST_PROTOCOL + 1)
            ]:
                self.assertIs(type(other), FirthnapkinError)
                self.assertEqual(parts(other), parts(error))

    def test_pool(self) -> None:
        """The error of a text that is refused in another process."""
        context = multiprocessing.get_context("spawn")
        with concurrent.futures.ProcessPoolExecutor(1, mp_context=context) as pool:
            answer = pool.submit(parse, "{ a ) }")
            with self.assertRaises(FirthnapkinError) as raised:
                answer.result(timeout=60)
        self.assertEqual(parts(raised.exception), parts(error_of("{ a ) }")))


class Names(unittest.TestCase):
    """The names that calls are given for their sources."""

    # Calls with an error at 1:3, each with its message.
    CALLS: List[Tuple[Callable[..., Any], str]] = [
        (lambda **name: parse("{ )", **name), 'Unexpected ")"'),
        (lambda **name: parse("{ é", **name), 'Unknown character "é"'),
        (lambda **name: parse("{ \ud800", **name), "Lone surrogate U+D800"),
        (lambda **name: parse("{a{b}}", depth=1, **name), "Too deeply nested"),
        (lambda **name: parse("{ a }", max_tokens=1, **name), "Too many tokens"),
        (lambda **name: parse("  {a}", max_fields=0, **name), "Too many fields in an operation without a name: 1, with a limit of 0"),
        (lambda **name: parse("{ ...F }", max_fields=5, **name), "Unknown fragment"),
        (lambda **name: parse("{ ...F }", **name).operations[0].complexity, "Unknown fragment"),
        (lambda **name: tokens("{ é", **name), 'Unknown character "é"'),
        (lambda **name: tokens("{ \ud800", **name), "Lone surrogate U+D800"),
        (lambda **name: tokens("{ a", max_tokens=1, **name), "Too many tokens"),
        (lambda **name: canonical("{ é", **name), 'Unknown character "é"'),
        (lambda **name: canonical("{ \ud800", **name), "Lone surrogate U+D800"),
    ]  # fmt: skip

    def test_errors(self) -> None:
        """The name is before the line and the column, as it is, and with none the words are as if there were no names."""
        for i, (call, message) in enumerate(self.CALLS):
            for name in (None, "queries/user.graphql", "", "a: b\n.graphql", "\ud800", Text("é")):
                with self.subTest(call=i, name=name), self.assertRaises(FirthnapkinError) as raised:
                    call(name=name)
                error = raised.exception
                where = "1:3" if name is None else f"{name}:1:3"
                self.assertEqual((str(error), error.message), (f"{message}. At {where}", message))
                self.assertEqual(error.source_name, name)
            with self.assertRaises(FirthnapkinError) as raised:
                call()
            self.assertEqual((str(raised.exception), raised.exception.source_name), (f"{message}. At 1:3", None))

    def test_wrong_types(self) -> None:
        """A name that is no str is an error, whatever the source is."""
        for name in (b"a", 5, 0, False, ["a"], pathlib.Path("a"), object()):
            words = f"name must be a str or None, not {type(name).__name__}"
            for call, _ in self.CALLS:
                self.assertRaisesRegex(TypeError, words, call, name=name)
            for named in (parse, tokens, canonical):
                self.assertRaisesRegex(TypeError, words, named, "{a}", name=name)
        for named in (parse, tokens, canonical):
            self.assertRaises(TypeError, named, "{a}", "a.graphql")

    def test_errors_that_are_made_by_hand(self) -> None:
        start, end = Position(0, 1, 2, 3), Position(4, 5, 6, 7)
        error = FirthnapkinError("a", ErrorKind.LEXICAL, start, end, "{")
        self.assertEqual((error.source_name, str(error)), (None, "a. At 2:3"))


class Schemas(unittest.TestCase):
    def test_definitions(self) -> None:
        """The message says of the first token of a schema's definition what it is, and the position is that token's."""
        for word in "type schema extend directive scalar interface union enum input".split():
            for before in ("", "# A\n", "\ufeff, ", "{ a }\n", "fragment F on T { a } query Q { b(c: {d: 1}) } "):
                with self.subTest(word=word, before=before):
                    error = error_of(f"{before}{word} A {{ b: C }}")
                    self.assertEqual(error.message, f'Unexpected "{word}": this is a schema\'s definition, not a request\'s')
                    self.assertEqual((error.kind, error.start.index, error.is_schema), (ErrorKind.UNEXPECTED_TOKEN, len(before), True))
        for written in ('"A"', '"""A\n B"""', '""'):
            for between in (" ", "", "\ufeff,\t\r\n", "# query\r#{\n ", "#{\r"):
                for word in ("type", "schema", "enum"):
                    error = error_of(f"{{ a }} {written}{between}{word} A {{ b: C }}")
                    self.assertEqual(error.message, f'Unexpected "{written}": this is a schema\'s definition, not a request\'s')
                    self.assertTrue(error.is_schema)

    def test_described_requests(self) -> None:
        """A description before a request is none before a schema's definition, and the message says what it is."""
        for written in ('"A"', '"""A\n B"""', '""'):
            for between in (" ", "", "\ufeff,\t\r\n", "# type\r#\n ", "#\r"):
                for request in ("query { a }", "mutation M { a }", "subscription { a }", "fragment F on T { a }", "{ a }", "query"):
                    for before in ("", "# A\n", "{ a }\n"):
                        error = error_of(f"{before}{written}{between}{request} type")
                        words = "a description before a request isn't in the specification of October 2021"
                        self.assertEqual(error.message, f'Unexpected "{written}": {words}')
                        self.assertEqual((error.start.index, error.is_schema), (len(before), False))

    def test_descriptions_of_nothing(self) -> None:
        """Neither a schema's definition nor a request is after them."""
        for after in ("", " a", " querytype", " queries { a }", " Query { a }", ' "b" type T', " }", " (", "# type\n", " type1", " 1"):
            error = error_of(f'"a"{after}')
            self.assertEqual((error.message, error.is_schema), ('Unexpected ""a""', False))

    def test_other_errors(self) -> None:
        """The same words elsewhere, and other words, are no schema."""
        for text, word in [
            ("query Q type { a }", "type"),
            ("query ($a: A) type { a }", "type"),
            ("fragment F type A { a }", "type"),
            ("fragment F on T type { a }", "type"),
            ("{ a(b: 1 2) } type A", "2"),
            ("{ a } types A", "types"),
            ("{ a } Type A", "Type"),
            ("{ a } 1 type", "1"),
            ("{ a } } type", "}"),
            ('{ "a" }', '"a"'),
            ('query Q "a" { a }', '"a"'),
        ]:
            self.assertEqual((error_of(text).message, error_of(text).is_schema), (f'Unexpected "{word}"', False))
        for most in (0, 1):
            error = error_of("type A {{", max_tokens=most)
            self.assertEqual((error.message, error.is_schema), ("Too many tokens", False))
        self.assertEqual(error_of('type A "', max_tokens=5).kind, ErrorKind.LEXICAL)
        parse("{ type { schema(input: enum) } } query type { extend } fragment enum on union { scalar }")

    def test_depths(self) -> None:
        """What comes before may be nested as deep as any document, and may have half of a surrogate pair in an error made by hand."""
        error = FirthnapkinError("", ErrorKind.UNEXPECTED_TOKEN, Position(2, 0, 2, 4), Position(6, 0, 6, 8), "\ud800 type A")
        self.assertIs(error.is_schema, False)
        self.assertIn("schema", error_of("{a" * 1000 + "}" * 1000 + "type A", depth=1000).message)


class Excerpts(unittest.TestCase):
    def test_short(self) -> None:
        self.assertEqual(error_of("{ }").excerpt, "1 | { }\n  |   ^")
        self.assertEqual(error_of("{\n  a )\n}").excerpt, "1 | {\n2 |   a )\n  |     ^\n3 | }")
        self.assertEqual(error_of("").excerpt, "1 |\n  | ^")

    def test_numbers_of_two_digits(self) -> None:
        text = "\n" * 8 + "{\n)\n\n}"
        self.assertEqual(error_of(text).excerpt, " 9 | {\n10 | )\n   | ^\n11 |")

    def test_ends_of_lines(self) -> None:
        """Lines are those of positions, and end at line feeds alone. A carriage return before one isn't shown."""
        self.assertEqual(error_of("{\r\n\ra )\r\n}").excerpt, "1 | {\n2 |  a )\n  |    ^\n3 | }")

    def test_at_the_end_of_a_line(self) -> None:
        self.assertEqual(error_of('{a(b:"c\n)}').excerpt, '1 | {a(b:"c\n  |        ^\n2 | )}')

    def test_long_lines(self) -> None:
        """Of a line of more than 120 characters the 80 from 40 before the column are shown."""
        text = "{ " + "abcdefg " * 20 + ")" + " x" * 60
        self.assertEqual(text.index(")"), 162)
        self.assertEqual(error_of(text).excerpt, f"1 | {text[122:202]}\n  | {' ' * 40}^")

    def test_beyond_ascii(self) -> None:
        self.assertEqual(error_of("# мир 𝄞\n𝄞é ").excerpt, "1 | # мир 𝄞\n2 | 𝄞é \n  | ^")
        self.assertEqual(error_of('{ a(b: "𝄞é") ) }').excerpt, '1 | { a(b: "𝄞é") ) }\n  |              ^')

    def test_lone_surrogates(self) -> None:
        """Each is shown as a question mark, and the caret is below the first."""
        self.assertEqual(error_of("{ é\n\udfff a \ud800 }\n𝄞").excerpt, "1 | { é\n2 | ? a ? }\n  | ^\n3 | 𝄞")

    def test_errors_of_other_texts(self) -> None:
        """An error that is made by hand has an excerpt, whatever its position."""
        nowhere = Position(0, 0, 0, 0)
        for index, wanted in ((0, "1 | {é}\n  | ^"), (2, "1 | {é}\n  |   ^"), (3, "1 | {é}\n  |    ^"), (10**9, "1 | {é}\n  |    ^")):
            error = FirthnapkinError("", ErrorKind.LEXICAL, Position(index, 2**31, 2**31, 10**30), nowhere, "{é}")
            self.assertEqual(error.excerpt, wanted)
        for index in (-1, -5, -(10**30)):
            self.assertIn("{é}", FirthnapkinError("", ErrorKind.LEXICAL, Position(index, 0, 0, -1), nowhere, "{é}").excerpt)

    def test_long_texts(self) -> None:
        """An excerpt of a text of 20 MB has two of its lines."""
        error = error_of("# " + "é" * 10**7 + "\n{ ) }")
        self.assertEqual(error.excerpt.split("\n")[1:], ["2 | { ) }", "  |   ^"])
        self.assertLess(len(error.excerpt), 200)
