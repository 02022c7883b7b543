"""Checks of texts, which build no document: what is raised, what is returned, and what is done on the way."""

import unittest
from typing import Any, Dict, List, Tuple
from unittest import mock

import firthnapkin
from firthnapkin import ErrorDetail, ErrorKind, FirthnapkinError, check, parse
from helpers import (
    LOW_LIMITS,
    NO_LIMITS,
    NO_SIZES,
    NO_SOURCES,
    Text,
    in_threads,
    limits_memory,
    longest_wait,
    on_stack,
    process,
    resident,
    words_of,
)

SIZES = ("max_fields", "max_aliases", "max_directives", "max_root_fields", "max_field_depth")
LARGEST_WORD = 2**32 - 1

# Numbers that all differ: 7 fields, 5 aliases, 4 directives, 3 fields at the root, nested 2 deep. Those of B are 4, 3, 1, 4 and 1.
TWO = (
    "query A @d { x: a { y: b c } ...F z: e { ...G @d } }\nfragment F on T @d { g: a { h } }\n"
    "query B { i: a ...H }\nfragment G on T { j: a @d }\nfragment H on T @d { k: a l: c m }"
)
NUMBERS = dict(zip(SIZES, (7, 5, 4, 3, 2)))
NOUNS = dict(zip(SIZES, ("fields", "aliases", "directives", "root fields", "levels of fields")))

# Texts with limits that they are within.
DOCUMENTS: List[Tuple[str, Dict[str, Any]]] = [
    ("{a}", {}),
    ("{a}", {"depth": 1, "max_tokens": 3, "max_fields": 1, "max_aliases": 0, "max_directives": 0, "max_root_fields": 1, "max_field_depth": 1}),
    ("# é\n{ a(b: \"𝄞\") { ...F } }", {"depth": 2}),
    ("fragment F on T { ...F }", {"max_fields": 0}),
    ("{a" * 1000 + "}" * 1000, {"depth": 1000}),
    (TWO, {**NUMBERS, "max_root_fields": 4}),
    ("{a}" * 100, {"max_fields": 1}),
    ("{a}", {"depth": True, "max_tokens": 2**70, "max_fields": None}),
]  # fmt: skip

# Texts with limits, the kind of their error, its message, and where it starts: the index, and the line and the column from 1.
OTHERS: List[Tuple[str, Dict[str, Any], ErrorKind, str, Tuple[int, int, int]]] = [
    ("{\n  a )\n}", {}, ErrorKind.UNEXPECTED_TOKEN, 'Unexpected ")"', (6, 2, 5)),
    ("", {}, ErrorKind.UNEXPECTED_END, "Unexpected end of input", (0, 1, 1)),
    ("{ é", {}, ErrorKind.LEXICAL, 'Unknown character "é"', (2, 1, 3)),
    ("{a" * 201, {}, ErrorKind.TOO_DEEP, "Too deeply nested", (400, 1, 401)),
    ("{ a { b } }", {"depth": 1}, ErrorKind.TOO_DEEP, "Too deeply nested", (4, 1, 5)),
    ("{ a b }", {"max_tokens": 3}, ErrorKind.TOO_MANY_TOKENS, "Too many tokens", (6, 1, 7)),
    ("{ a \ud800", {}, ErrorKind.SURROGATE, "Lone surrogate U+D800", (4, 1, 5)),
    ("{ ...F }", {"max_fields": 9}, ErrorKind.UNKNOWN_FRAGMENT, "Unknown fragment", (2, 1, 3)),
    ("{ ...F } fragment F on T { ...F }", {"max_aliases": 9}, ErrorKind.FRAGMENT_CYCLE, "Fragment spread within itself", (27, 1, 28)),
    ("type A { b: C }", {}, ErrorKind.UNEXPECTED_TOKEN, 'Unexpected "type": this is a schema\'s definition, not a request\'s', (0, 1, 1)),
    ("{a}\nquery é { b }", {}, ErrorKind.LEXICAL, 'Unknown character "é"', (10, 2, 7)),
    ("# é\n{a}\nquery B { a b }", {"max_fields": 1}, ErrorKind.OPERATION_TOO_LARGE,
     'Too many fields in operation "B": 2, with a limit of 1', (8, 3, 1)),
    ("{a}" * 99 + "{a b}", {"max_root_fields": 1}, ErrorKind.OPERATION_TOO_LARGE,
     "Too many root fields in an operation without a name: 2, with a limit of 1", (297, 1, 298)),
]  # fmt: skip


def raised_by(call: Any, *arguments: Any, **limits: Any) -> FirthnapkinError:
    """The error of a text that isn't a document within limits."""
    try:
        call(*arguments, **limits)
    except FirthnapkinError as error:
        return error
    raise AssertionError("there is no error")


class Checks(unittest.TestCase):
    def test_documents(self) -> None:
        for text, limits in DOCUMENTS:
            with self.subTest(text=text[:40], limits=limits):
                self.assertIsNone(check(text, **limits))  # type: ignore[func-returns-value]

    def test_others(self) -> None:
        for text, limits, kind, message, start in OTHERS:
            with self.subTest(text=text[:40], limits=limits):
                error = raised_by(check, text, **limits)
                self.assertEqual((error.kind, error.message), (kind, message))
                self.assertEqual((error.start.index, error.line, error.column), start)
                self.assertEqual((error.source, error.source_name), (text, None))

    def test_same_as_parse(self) -> None:
        """All that an error has is the same as that of `parse`, with a name of the text, too."""
        for text, limits, *_ in OTHERS:
            for given in (limits, {**limits, "name": "a.graphql"}):
                one, other = raised_by(check, text, **given), raised_by(parse, text, **given)
                self.assertEqual((str(one), vars(one), one.excerpt), (str(other), vars(other), other.excerpt))
        error = raised_by(check, "{ ?", name="a.graphql")
        self.assertEqual((str(error), error.detail), ('Unknown character "?". At a.graphql:1:3', ErrorDetail.UNKNOWN_CHARACTER))
        self.assertEqual(error.character, "?")

    def test_sizes(self) -> None:
        """Each number is allowed, and one less is not."""
        for name, number in NUMBERS.items():
            limits = {name: max(number, 4 if name == "max_root_fields" else 0)}
            check(TWO, **limits)
            operation = "B" if name == "max_root_fields" else "A"
            error = raised_by(check, TWO, **{name: limits[name] - 1})
            wanted = f'Too many {NOUNS[name]} in operation "{operation}": {limits[name]}, with a limit of {limits[name] - 1}'
            self.assertEqual((error.kind, error.message), (ErrorKind.OPERATION_TOO_LARGE, wanted))
            node = parse(TWO).operation(operation)
            self.assertEqual((error.start, error.end), (node.start, node.end) if node else None)

    def test_spreads(self) -> None:
        """A spread that can't be expanded is an error with a limit on operations alone."""
        for text in ("{ ...F }", "{ ...F } fragment F on T { ...F }"):
            check(text)
            for name in SIZES:
                for limit in (0, LARGEST_WORD - 1):
                    self.assertIn("ragment", raised_by(check, text, **{name: limit}).message)


class Arguments(unittest.TestCase):
    def words(self, **limits: Any) -> Tuple[int, ...]:
        """What the extension is given."""
        with mock.patch.object(firthnapkin._parser, "check", return_value=None) as call:
            check("{a}", **limits)
        self.assertEqual(call.call_args[0][0], b"{a}")
        return words_of(call.call_args[0][1])

    def test_words(self) -> None:
        """Each limit goes to its word."""
        for given, depth, most in [
            ({}, 200, LARGEST_WORD), ({"depth": 7, "max_tokens": 9}, 7, 9), ({"depth": True, "max_tokens": 9}, 1, 9),
            ({"depth": 0, "max_tokens": 0}, 0, 0), ({"max_tokens": 2**70}, 200, LARGEST_WORD),
        ]:  # fmt: skip
            self.assertEqual(self.words(**given), (depth, most, 0, 0, 0, 0, 0, 0, *NO_SIZES))
        for depth in (9, True):
            words = self.words(**dict(zip(SIZES, range(5))), depth=depth, max_tokens=6)
            self.assertEqual(words, (int(depth), 6, 0, 0, 0, 0, 0, 0, 0, 1, 2, 3, 4))
        for i, name in enumerate(SIZES):
            for given, wanted in ((7, 7), (LARGEST_WORD - 1, LARGEST_WORD - 1), (None, LARGEST_WORD)):
                self.assertEqual(self.words(**{name: given})[8:], (*NO_SIZES[:i], wanted, *NO_SIZES[i + 1 :]))

    def test_wrong_limits(self) -> None:
        """They are refused before the text is read."""
        for name in ("depth", "max_tokens", *SIZES):
            for given in NO_LIMITS:
                with self.assertRaises(TypeError) as raised:
                    check("\ud800", **{name: given})  # type: ignore[arg-type]
                self.assertEqual(str(raised.exception), f"{name} must be an int, not {type(given).__name__}")
            for number in LOW_LIMITS:
                with self.assertRaises(ValueError) as refused:
                    check("\ud800", **{name: number})  # type: ignore[arg-type]
                self.assertNotIsInstance(refused.exception, FirthnapkinError)
                self.assertIn(f"{name} must ", str(refused.exception))
        for name, number in (("depth", 1001), ("depth", None), ("max_fields", LARGEST_WORD), ("max_field_depth", 2**70)):
            with self.assertRaises(TypeError if number is None else ValueError):
                check("{a}", **{name: number})  # type: ignore[arg-type]

    def test_wrong_sources(self) -> None:
        for source in NO_SOURCES:
            with self.assertRaises(TypeError) as raised:
                check(source)  # type: ignore[arg-type]
            self.assertEqual(str(raised.exception), f"source must be a str, not {type(source).__name__}")
        for arguments, options in (
            ((), {}),
            (("{a}", 5), {}),
            (("{a}",), {"max_depth": 5}),
            (("{a}",), {"tokens": 5}),
            (("{a}",), {"name": 5}),
        ):
            with self.assertRaises(TypeError):
                check(*arguments, **options)  # type: ignore[arg-type]
        check(Text("{a}"))

    def test_statuses(self) -> None:
        """The error that is raised for each status of the library."""
        for status, error in ((9, SystemError), (7, ValueError), (2, SystemError), (6, SystemError), (8, SystemError)):
            with mock.patch.object(firthnapkin._parser, "check", return_value=(status, b"", b"")):
                with self.assertRaises(error) as raised:
                    check("{a}")
            self.assertIn("4 GiB" if status == 7 else str(status), str(raised.exception))
        limits = firthnapkin.limits.packed(1001, LARGEST_WORD)
        self.assertEqual(firthnapkin._parser.check(b"{a}", limits), (8, b"", b""))
        for given in (b"", limits[:-1], limits + b"\0"):
            self.assertRaises(ValueError, firthnapkin._parser.check, b"{a}", given)
        for wrong in ((), (b"{a}",), ("{a}", limits), (b"{a}", None), (b"{a}", limits, 5)):
            self.assertRaises(TypeError, firthnapkin._parser.check, *wrong)


class Machine(unittest.TestCase):
    @limits_memory
    def test_builds_nothing(self) -> None:
        """A check takes no memory for nodes, of which this text has 8 million of 64 bytes each."""
        found = process(
            "import resource, firthnapkin\n"
            "source = '{' + 'a ' * 2**23 + '}'\n"
            "taken = int(open('/proc/self/statm').read().split()[0]) * resource.getpagesize()\n"
            "resource.setrlimit(resource.RLIMIT_AS, (taken + 2**25, resource.RLIM_INFINITY))\n"
            "firthnapkin.check(source); firthnapkin.check(source, max_fields=2**24)\n"
            "try: firthnapkin.check(source, max_fields=5)\n"
            "except firthnapkin.FirthnapkinError as error: print(error.message)\n"
            "try: firthnapkin.parse(source)\n"
            "except MemoryError: print('memory')\n"
        )
        wanted = b"Too many fields in an operation without a name: 8388608, with a limit of 5\nmemory\n"
        self.assertEqual((found.returncode, found.stdout), (0, wanted), found.stderr)

    @limits_memory
    def test_memory(self) -> None:
        """The process goes on after memory has run out."""
        found = process(
            "import resource, firthnapkin\n"
            "source = 'é' + '{a}' * 2**22\n"
            "taken = int(open('/proc/self/statm').read().split()[0]) * resource.getpagesize()\n"
            "resource.setrlimit(resource.RLIMIT_AS, (taken + 2**24, resource.RLIM_INFINITY))\n"
            "try: firthnapkin.check(source)\n"
            "except MemoryError: firthnapkin.check('{a}'); print('memory')\n"
        )
        self.assertEqual((found.returncode, found.stdout), (0, b"memory\n"), found.stderr)

    def test_keeps_nothing(self) -> None:
        def round_of(count: int) -> None:
            for _ in range(count):
                for text, limits, *_rest in OTHERS:
                    try:
                        check(text, **limits)
                    except FirthnapkinError:
                        pass
                try:
                    check("{a}", depth="5")  # type: ignore[arg-type]
                except TypeError:
                    pass
                check("{a}" * 100, max_fields=1)

        round_of(100)
        before = resident()
        round_of(1000)
        self.assertLess(resident() - before, 2**22)

    def test_stacks(self) -> None:
        """A small stack is enough, whatever the depth."""
        found: List[str] = []

        def work() -> None:
            check("{..." * 999 + "{a}" + "}" * 999, depth=1000)
            found.append(raised_by(check, "{..." * 5000, depth=999, max_fields=5).kind.name)

        on_stack(256 * 1024, work)
        self.assertEqual(found, ["TOO_DEEP"])

    def test_threads(self) -> None:
        self.assertEqual(in_threads(lambda: raised_by(check, TWO, max_fields=6).message, 100), [True] * 400)
        text = "{" + "a " * 2**22 + "}"
        self.assertLess(longest_wait(lambda: check(text)), 0.5)
