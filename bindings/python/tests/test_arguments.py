"""Arguments of the wrong type and at every extreme: none ends the process."""

import pickle
import sys
import unittest
from typing import Any, List
from unittest import mock

import firthnapkin
from firthnapkin import MAX_DEPTH, ErrorKind, FirthnapkinError, Kind, Position, __version__, canonical, parse, tokens
from firthnapkin.limits import packed
from helpers import LARGE_LIMITS, LOW_LIMITS, NO_LIMITS, NO_SOURCES, Text, limits_memory, on_stack, process


# The limits of a call that is given none, as the extension takes them.
USUAL = packed(200, 2**32 - 1)


class Index:
    """An object that can be used as a number, like those of other libraries."""

    def __index__(self) -> int:
        return 2


class Depths(unittest.TestCase):
    def test_out_of_range(self) -> None:
        self.assertEqual(MAX_DEPTH, 1000)
        for text in ("{a" * 200000, "{a}", "", "\ud800"):
            for depth in (-1, -(2**63), 1001, 2**31, 2**32 - 1, 2**32, 2**32 + 5, 2**64 + 5, 10**30):
                with self.subTest(depth=depth), self.assertRaises(ValueError) as raised:
                    parse(text, depth=depth)
                self.assertNotIsInstance(raised.exception, FirthnapkinError)
                self.assertIn("depth", str(raised.exception))

    def test_wrong_kinds(self) -> None:
        for depth in (None, 1.0, float("nan"), float("inf"), "5", b"5", [], object()):
            with self.subTest(depth=depth), self.assertRaises(TypeError) as raised:
                parse("{a}", depth=depth)  # type: ignore[arg-type]
            self.assertIn("depth", str(raised.exception))

    def test_taken(self) -> None:
        for depth in (0, 1, 2, 199, 200, 1000):
            text = "{a" * depth + "}" * depth
            if depth:
                self.assertEqual(len(parse(text, depth=depth)), depth + 1)
            with self.assertRaises(FirthnapkinError) as raised:
                parse("{a" * (depth + 1), depth=depth)
            self.assertEqual((raised.exception.kind, raised.exception.start.index), (ErrorKind.TOO_DEEP, 2 * depth))
        self.assertEqual(len(parse("{a{b}}", depth=Index())), 3)  # type: ignore[arg-type]
        self.assertEqual(len(parse("{a}", depth=True)), 2)

    def test_default(self) -> None:
        self.assertEqual(len(parse("{a" * 200 + "}" * 200)), 201)
        with self.assertRaises(FirthnapkinError) as raised:
            parse("{a" * 201 + "}" * 201)
        self.assertIs(raised.exception.kind, ErrorKind.TOO_DEEP)


class Tokens(unittest.TestCase):
    SOURCE = '{ a(b: "é𝄞") ...F }'
    STARTS = (0, 2, 3, 4, 5, 7, 11, 13, 16, 18)

    def test_every_limit(self) -> None:
        for most in (10, 11, *LARGE_LIMITS):
            self.assertEqual(len(parse(self.SOURCE, max_tokens=most)), 6)
        for most, start in enumerate(self.STARTS):
            with self.assertRaises(FirthnapkinError) as raised:
                parse(self.SOURCE, max_tokens=most)
            error = raised.exception
            self.assertEqual((error.kind, error.message, error.start.index), (ErrorKind.TOO_MANY_TOKENS, "Too many tokens", start))
            self.assertEqual((str(error), error.source), (f"Too many tokens. At 1:{start + 1}", self.SOURCE))
            self.assertEqual(str(pickle.loads(pickle.dumps(error))), str(error))

    def test_order(self) -> None:
        """The first token too many comes before all errors after it but a lone surrogate; no token is after a lexical error."""
        for text, most, kind in [
            ('{ a ) } "', 2, ErrorKind.TOO_MANY_TOKENS),
            ('{ a ) } "', 4, ErrorKind.LEXICAL),
            ("{ a ) }", 4, ErrorKind.UNEXPECTED_TOKEN),
            ("{a" * 201, 401, ErrorKind.TOO_MANY_TOKENS),
            ("{a" * 201, 402, ErrorKind.TOO_DEEP),
            ("\ud800 a b", 0, ErrorKind.SURROGATE),
            ("a b \ud800", 0, ErrorKind.SURROGATE),
        ]:
            with self.assertRaises(FirthnapkinError) as raised:
                parse(text, max_tokens=most)
            self.assertIs(raised.exception.kind, kind)

    def test_wrong_kinds(self) -> None:
        for call in (parse, tokens):
            for most in NO_LIMITS:
                with self.assertRaises(TypeError) as raised:
                    call("{a}", max_tokens=most)  # type: ignore[operator]
                self.assertIn("max_tokens", str(raised.exception))
            for most in LOW_LIMITS:
                for text in ("{a}", "\ud800"):
                    with self.assertRaises(ValueError) as raised_value:
                        call(text, max_tokens=most)  # type: ignore[operator]
                    self.assertNotIsInstance(raised_value.exception, FirthnapkinError)
                    self.assertIn("max_tokens", str(raised_value.exception))


class Sources(unittest.TestCase):
    def test_wrong_kinds(self) -> None:
        for call in (parse, tokens, canonical):
            for source in NO_SOURCES:
                with self.subTest(source=source, call=call.__name__), self.assertRaises(TypeError) as raised:
                    call(source)  # type: ignore[operator]
                self.assertIn("source", str(raised.exception))
            for arguments in ((), ("{a}", 5)):
                self.assertRaises(TypeError, call, *arguments)

    def test_kinds_of_str(self) -> None:
        self.assertEqual(parse(Text("{a}"))[1].name, "a")
        self.assertEqual([it.text for it in tokens(Text("{a}"))], ["{", "a", "}", ""])
        self.assertEqual(canonical(Text("{ a }")), "{a}")

    def test_extremes(self) -> None:
        for text in ("", "\0", "{a\0}", "\ufeff", " " * 1000, "{}", "#", '"', '"""', "\x7f", "\U0010ffff"):
            self.assertRaises(FirthnapkinError, parse, text)
        self.assertEqual(parse("\ufeff{a}")[1].start.byte, 4)

    def test_64_megabytes(self) -> None:
        document = parse("{" + ("a" * 63 + " ") * 2**20 + "}")
        self.assertEqual((len(document), document[0].end.byte), (2**20 + 1, 2**26 + 2))
        with self.assertRaises(FirthnapkinError) as raised:
            parse("{" + "a" * 2**26)
        index = 2**26 + 1
        self.assertEqual((raised.exception.start, raised.exception.end), (Position(index, 0, index, index),) * 2)


class Options(unittest.TestCase):
    def test_unknown(self) -> None:
        """An option that a call doesn't have is an error, and so is one of another call."""
        unknown = ((parse, ("dept", "max_depth", "tokens")), (tokens, ("depth", "most")), (canonical, ("depth", "max_tokens")))
        for call, names in unknown:
            for name in names:
                with self.subTest(call=call.__name__, name=name), self.assertRaises(TypeError) as raised:
                    call("{a}", **{name: 5})  # type: ignore[operator]
                self.assertIn(name, str(raised.exception))


class Stacks(unittest.TestCase):
    # The nesting that takes the most stack, and others.
    DEEP = ("{...", "{a", "{a(x:{k:", "query($a:[")

    def in_thread(self, size: int, depth: int) -> List[str]:
        found: List[str] = []

        def work() -> None:
            for part in self.DEEP:
                try:
                    parse(part * 5000, depth=depth)
                except FirthnapkinError as error:
                    found.append(error.kind.name)
            document = parse("{..." * depth + "{a}" + "}" * depth, depth=depth + 1)
            found.append(document[-1].kind.name)

        on_stack(size, work)
        return found

    def test_small_stacks(self) -> None:
        wanted = [ErrorKind.TOO_DEEP.name] * 2 + [ErrorKind.UNEXPECTED_TOKEN.name] * 2 + [Kind.FIELD.name]
        for size in (256 * 1024, 512 * 1024, 2**20):
            self.assertEqual(self.in_thread(size, 200), wanted)
            self.assertEqual(self.in_thread(size, 999), wanted)

    def test_small_stack_of_the_process(self) -> None:
        """The first thread of a process with a stack of 256 KiB."""
        program = (
            "import resource; resource.setrlimit(resource.RLIMIT_STACK, (262144, resource.RLIM_INFINITY))\n"
            "import os, sys\n"
            "if not sys.argv[1:]: os.execv(sys.executable, [sys.executable, *sys.orig_argv[1:], 'again'])\n"
            "from firthnapkin import parse\n"
            "print(len(parse('{...' * 199 + '{a}' + '}' * 199)))\n"
        )
        if not hasattr(sys, "orig_argv"):
            self.skipTest("this Python does not tell how it was begun")
        found = process(program)
        self.assertEqual((found.returncode, found.stdout.strip()), (0, b"201"), found.stderr)


class Statuses(unittest.TestCase):
    def test_statuses(self) -> None:
        """The error that is raised for each status of the library."""
        for status, error in ((9, SystemError), (7, ValueError), (2, SystemError), (3, SystemError), (6, SystemError), (8, SystemError)):
            for call in (parse, tokens, canonical):
                found = (status, *[b""] * (3 if call is parse else 2))
                with mock.patch.object(firthnapkin._parser, call.__name__, return_value=found):
                    with self.subTest(status=status, call=call.__name__), self.assertRaises(error) as raised:
                        call("{a}")  # type: ignore[operator]
                    self.assertNotIsInstance(raised.exception, FirthnapkinError)
                    self.assertIn("4 GiB" if status == 7 else str(status), str(raised.exception))

    def test_statuses_of_excerpts(self) -> None:
        error = FirthnapkinError("", ErrorKind.LEXICAL, Position(0, 0, 0, 0), Position(0, 0, 0, 0), "")
        parts: List[Any] = [parse("{a}")[0], parse("{a}").operations[0], error]
        for part in parts:
            for status, wanted in ((7, ValueError), (2, SystemError), (3, SystemError), (9, SystemError)):
                with mock.patch.object(firthnapkin._parser, "excerpt", return_value=(status, b"", b"")):
                    with self.subTest(status=status), self.assertRaises(wanted) as raised:
                        part.excerpt
                    self.assertIn("4 GiB" if status == 7 else str(status), str(raised.exception))

    def test_refused_limits(self) -> None:
        """The library refuses limits, and the extension by itself checks their size and the types of its arguments."""
        for depth in (1001, 2**31, 2**32 - 1):
            self.assertEqual(firthnapkin._parser.parse(b"{a" * 200000, packed(depth, 2**32 - 1))[0], 8)
        for reserved in range(6):
            self.assertEqual(firthnapkin._parser.parse(b"{a}", packed(5, 5, *[0] * reserved, 1))[0], 8)
        self.assertEqual(firthnapkin._parser.parse(b"\xff", USUAL)[0], 2)
        for limits in (b"", USUAL[:32], USUAL[:-1], USUAL + b"\0", USUAL * 2):
            with self.assertRaises(ValueError) as raised:
                firthnapkin._parser.parse(b"{a}", limits)
            self.assertEqual(str(raised.exception), "limits must have 52 bytes")
        for byte in (4, 2**32 - 1, 2**32, 2**64 - 1, -1):
            self.assertEqual(firthnapkin._parser.excerpt(b"{a}", byte), (9, b"", b""))
        for arguments in ((), ("{a}", USUAL), (None, USUAL), (b"{a}", None), (b"{a}", 5), (b"{a}", USUAL.decode("latin-1")), (b"{a}",),
                          (b"{a}", USUAL, 5), (b"{a}", bytearray(USUAL)), (bytearray(b"{a}"), USUAL)):  # fmt: skip
            with self.assertRaises(TypeError):
                firthnapkin._parser.parse(*arguments)  # type: ignore[arg-type]
        for arguments in ((), (b"{a}",), ("{a}", 1), (b"{a}", None), (b"{a}", 1.5), (b"{a}", 1, 1)):
            with self.assertRaises(TypeError):
                firthnapkin._parser.excerpt(*arguments)  # type: ignore[arg-type]

    @limits_memory
    def test_memory(self) -> None:
        """The process goes on after memory has run out."""
        weighed = packed(200, 2**32 - 1, 0, 0, 0, 0, 0, 0, 2**30)
        for call, exponent in ((f"parse(source, {USUAL!r})", 25), (f"parse(source, {weighed!r})", 25), ("complexities(source)", 24), ("tokens(source, 2**32 - 1)", 24), ("canonical(source)", 24)):
            found = process(
                "import resource, firthnapkin\n"
                "source = b'{' + b'...a ' * 2**23 + b'}'\n"
                "taken = int(open('/proc/self/statm').read().split()[0]) * resource.getpagesize()\n"
                f"resource.setrlimit(resource.RLIMIT_AS, (taken + 2**{exponent}, resource.RLIM_INFINITY))\n"
                f"try: firthnapkin._parser.{call}\n"
                "except MemoryError: print('memory', len(firthnapkin.parse('{a}')), firthnapkin.canonical('a  b'))\n"
            )
            self.assertEqual((found.returncode, found.stdout), (0, b"memory 2 a b\n"), found.stderr)


class Version(unittest.TestCase):
    def test_version(self) -> None:
        """The package has one version: its own, and that of the library inside."""
        from importlib.metadata import version

        self.assertEqual(version("firthnapkin"), __version__)
