"""The tokens of a text, and its canonical text."""

import copy
import os
import pickle
import unittest
from typing import Any, Callable, List

import firthnapkin
from firthnapkin import ErrorDetail, ErrorKind, FirthnapkinError, Position, Token, TokenKind, canonical, tokens
from helpers import LARGE_LIMITS, in_threads, longest_wait, on_stack, process

K = TokenKind
WHOLE = '#é\n{a(b:"é𝄞\\"" c:""" \n𝄞"""),...F} -1 0.5 [!$@=:|]'


def position_at(text: str, index: int) -> Position:
    before = text[:index]
    return Position(index, before.count("\n"), index - (before.rfind("\n") + 1), len(before.encode()))


def error_of(call: Callable[..., Any], text: str, **options: Any) -> FirthnapkinError:
    try:
        call(text, **options)
    except FirthnapkinError as error:
        return error
    raise AssertionError(f"{text!r} is not refused")


class Cut(unittest.TestCase):
    def test_tokens(self) -> None:
        """Each kind, with its text, with and without quotes, and both positions."""
        wanted = [
            (K.CURLY_OPEN, "{", "{"), (K.NAME, "a", "a"), (K.PAREN_OPEN, "(", "("), (K.NAME, "b", "b"), (K.COLON, ":", ":"),
            (K.STRING, '"é𝄞\\""', 'é𝄞\\"'), (K.NAME, "c", "c"), (K.COLON, ":", ":"), (K.BLOCK_STRING, '""" \n𝄞"""', " \n𝄞"),
            (K.PAREN_CLOSE, ")", ")"), (K.ELLIPSIS, "...", "..."), (K.NAME, "F", "F"), (K.CURLY_CLOSE, "}", "}"),
            (K.INT, "-1", "-1"), (K.FLOAT, "0.5", "0.5"), (K.BRACKET_OPEN, "[", "["), (K.EXCLAMATION_MARK, "!", "!"),
            (K.DOLLAR, "$", "$"), (K.AT, "@", "@"), (K.EQUALS, "=", "="), (K.COLON, ":", ":"), (K.PIPE, "|", "|"),
            (K.BRACKET_CLOSE, "]", "]"), (K.END_OF_FILE, "", ""),
        ]  # fmt: skip
        found = tokens(WHOLE)
        self.assertEqual([(it.kind, it.text, it.unquoted) for it in found], wanted)
        at = 0
        for token, (_, text, _) in zip(found, wanted):
            at = WHOLE.index(text, at) if text else len(WHOLE)
            self.assertEqual((token.start, token.end), (position_at(WHOLE, at), position_at(WHOLE, at + len(text))))
            at += len(text)
        self.assertEqual({it.kind for it in found}, set(TokenKind))

    def test_sequence(self) -> None:
        found = tokens("{ a b }")
        self.assertEqual((len(found), found.text), (5, "{ a b }"))
        self.assertEqual([it.text for it in found[1:3]], ["a", "b"])
        self.assertEqual((found[-1].kind, found[-5].text, found[2].index), (K.END_OF_FILE, "{", 2))
        for index in (5, -6, 2**70, -(2**70)):
            self.assertRaises(IndexError, lambda: found[index])
        self.assertRaises(TypeError, lambda: found["a"])  # type: ignore[call-overload]
        self.assertEqual(found[1], found[1])
        self.assertEqual(hash(found[1]), hash(found[1]))
        self.assertNotEqual(found[1], found[2])
        self.assertNotEqual(found[1], tokens("{ a b }")[1])
        self.assertNotEqual(found[1], "a")
        self.assertEqual((repr(found), repr(found[1])), ("<5 tokens>", "<NAME 'a'>"))
        self.assertIsInstance(found[0], Token)

    def test_copies(self) -> None:
        found = tokens(WHOLE)
        for other in (copy.copy(found), copy.deepcopy(found), pickle.loads(pickle.dumps(found))):
            self.assertEqual([(it.kind, it.text, it.end) for it in other], [(it.kind, it.text, it.end) for it in found])
        token = pickle.loads(pickle.dumps(found[5]))
        self.assertEqual((token.index, token.kind, token.unquoted), (5, K.STRING, 'é𝄞\\"'))

    def test_capacities(self) -> None:
        """Numbers of tokens around the sizes of the arrays that are tried, and large ones."""
        for count in (*range(0, 70), 5000, 300000):
            for part in ("a ", "!"):
                text = part * count
                found = tokens(text)
                self.assertEqual((len(found), found[-1].start.byte), (count + 1, len(text)))
                if count:
                    self.assertEqual(found[-2].start.index, len(text) - len(part))

    def test_not_a_document(self) -> None:
        """It is not checked whether the tokens are a document, nor how deep brackets are nested."""
        self.assertEqual([it.text for it in tokens(") type {")], [")", "type", "{", ""])
        self.assertEqual(len(tokens("{" * 100000)), 100001)


class Canonical(unittest.TestCase):
    def test_texts(self) -> None:
        for text, wanted in [
            ("", ""),
            (" # all\n,", ""),
            ('{ a, b(c: "d") } # all', '{a b(c:"d")}'),
            ("\ufeffquery Q ($v : [ T ! ] = 1) { a ... on T { b } ...F }", "query Q($v:[T!]=1){a ...on T{b}...F}"),
            ('{a(b: "é  ,#" , c: """\n # 𝄞\n""")}', '{a(b:"é  ,#" c:"""\n # 𝄞\n""")}'),
            (") } type", ")}type"),
            ("a\r\nb\tc", "a b c"),
        ]:
            with self.subTest(text=text):
                self.assertEqual(canonical(text), wanted)
                self.assertEqual(canonical(wanted), wanted)

    def test_longer_than_the_text(self) -> None:
        """As many spaces as there are seams: the first buffer is too short."""
        for count in (*range(1, 40), 5000, 100000):
            text = '1a""' * count
            self.assertEqual(canonical(text), " ".join(["1", "a", '""'] * count))


class Errors(unittest.TestCase):
    def test_errors(self) -> None:
        """Both calls report the first position that has no token, with its message. parse has the same error."""
        for text, detail, character, index, message in [
            ("?", ErrorDetail.UNKNOWN_CHARACTER, "?", 0, 'Unknown character "?"'),
            ("} é ?", ErrorDetail.UNKNOWN_CHARACTER, "é", 2, 'Unknown character "é"'),
            ("{a\0}", ErrorDetail.UNKNOWN_CHARACTER, "\0", 2, 'Unknown character "\0"'),
            ("a\n01", ErrorDetail.UNEXPECTED_CHARACTER, "1", 3, 'Unexpected character "1"'),
            ('{{{ "é', ErrorDetail.UNTERMINATED_STRING, None, 6, "Unterminated string literal"),
            ('"\x01"', ErrorDetail.UNKNOWN_CHARACTER_IN_STRING, "\x01", 1, 'Unknown character "\x01" in string literal'),
            ('"\\u00g"', ErrorDetail.UNKNOWN_ESCAPE, None, 2, 'Unknown escape sequence "\\u00g" in string'),
            ("# é\n-", ErrorDetail.UNEXPECTED_END_IN_TOKEN, None, 5, "Unexpected end of input"),
            ("{" * 5000 + "?", ErrorDetail.UNKNOWN_CHARACTER, "?", 5000, 'Unknown character "?"'),
        ]:
            for call in (tokens, canonical, firthnapkin.parse):
                with self.subTest(text=text[:20], call=call.__name__):
                    error = error_of(call, text)
                    self.assertEqual((error.kind, error.detail, error.character), (ErrorKind.LEXICAL, detail, character))
                    self.assertEqual((error.start, error.end), (position_at(text, index), position_at(text, index)))
                    self.assertEqual((error.message, error.source), (message, text))
                    self.assertEqual(str(error), f"{message}. At {error.start.line + 1}:{error.start.column + 1}")

    def test_long_words(self) -> None:
        for length in (1, 200, 255, 256, 257, 5000):
            text = "a" * length + '"\\' + "é"
            for call in (tokens, canonical):
                self.assertEqual(error_of(call, text).message, 'Unknown escape sequence "\\é" in string')

    def test_every_limit(self) -> None:
        count = len(tokens(WHOLE)) - 1
        for most in (count, count + 1, *LARGE_LIMITS):
            self.assertEqual(len(tokens(WHOLE, max_tokens=most)), count + 1)
        for most, token in enumerate(tokens(WHOLE)[:-1]):
            error = error_of(tokens, WHOLE, max_tokens=most)
            self.assertEqual((error.kind, error.detail, error.message), (ErrorKind.TOO_MANY_TOKENS, ErrorDetail.NONE, "Too many tokens"))
            self.assertEqual((error.start, error.end, error.source), (token.start, token.end, WHOLE))
            parsed = error_of(firthnapkin.parse, WHOLE, max_tokens=most)
            self.assertEqual((parsed.start, parsed.end, str(parsed)), (error.start, error.end, str(error)))

    def test_order(self) -> None:
        """The first token too many comes before all errors after it but a lone surrogate; no token is after a lexical error."""
        for text, most, kind in [
            ('{ a "', 1, ErrorKind.TOO_MANY_TOKENS),
            ('{ a "', 2, ErrorKind.LEXICAL),
            ("? a b", 0, ErrorKind.LEXICAL),
            ("a b \ud800", 0, ErrorKind.SURROGATE),
        ]:
            self.assertIs(error_of(tokens, text, max_tokens=most).kind, kind)
        self.assertEqual(len(tokens(" # no token", max_tokens=0)), 1)

    def test_lone_surrogates(self) -> None:
        for call in (tokens, canonical):
            error = error_of(call, "{é\n \udfff }")
            self.assertEqual((error.kind, error.message), (ErrorKind.SURROGATE, "Lone surrogate U+DFFF"))
            self.assertEqual((error.start, error.end), (Position(4, 1, 1, 5), Position(5, 1, 2, 8)))


class Extremes(unittest.TestCase):
    def test_64_megabytes(self) -> None:
        text = ("a" * 63 + " ") * 2**20
        found = tokens(text)
        self.assertEqual((len(found), found[-1].end.byte), (2**20 + 1, 2**26))
        self.assertEqual(canonical(text), text[:-1])
        for call in (tokens, canonical):
            self.assertEqual(error_of(call, '"' + "é" * 2**25).start, Position(2**25 + 1, 0, 2**25 + 1, 2**26 + 1))
        self.assertEqual(error_of(tokens, "!" * 2**26, max_tokens=2**22).start.index, 2**22)

    def test_numbers_of_more_than_16_bits(self) -> None:
        """Both positions of a token, a node and each kind of error, past 65,536 lines and, on a line, past as many characters."""
        for ignored in ("\n" * 2**17, " " * 2**17):
            start, end = position_at(ignored, len(ignored)), position_at(ignored + "{a}", len(ignored) + 3)
            found, document = tokens(ignored + "{a}"), firthnapkin.parse(ignored + "{a}")
            self.assertEqual((found[0].start, found[2].end), (start, end))
            self.assertEqual((document[0].start, document[0].end), (start, end))
            for call, text, length, options in [
                (tokens, "?", 0, {}),
                (canonical, "?", 0, {}),
                (firthnapkin.parse, "?", 0, {}),
                (firthnapkin.parse, "}", 1, {}),
                (firthnapkin.parse, "{", 1, {"depth": 0}),
                (firthnapkin.parse, "a", 1, {"max_tokens": 0}),
                (tokens, "a", 1, {"max_tokens": 0}),
            ]:
                error = error_of(call, ignored + text, **options)
                self.assertEqual((error.start, error.end), (start, position_at(ignored + text, len(ignored) + length)))

    def test_the_extension_alone(self) -> None:
        """The extension checks the types of its arguments, too."""
        extension = firthnapkin._parser
        for most in (2, 2**32 - 1, 2**32 + 5, 2**64 - 1):
            self.assertEqual(extension.tokens(b"\xff", most)[0], 2)
            self.assertEqual(len(extension.tokens(b"a b", most)[1]), 3 * 40)
        self.assertEqual(extension.canonical(b"\xff"), (2, b"", b""))
        self.assertEqual(extension.canonical(b" a "), (0, b"", b"a"))
        for arguments in ((), ("a", 5), (None, 5), (b"a", None), (b"a", 1.5), (b"a", 5, 5), (bytearray(b"a"), 5), (b"a",)):
            self.assertRaises(TypeError, extension.tokens, *arguments)
        for arguments in ((), ("a",), (None,), (b"a", 5), (bytearray(b"a"),)):
            self.assertRaises(TypeError, extension.canonical, *arguments)


class Processes(unittest.TestCase):
    def test_small_stacks(self) -> None:
        """Threads with the smallest possible stack."""
        found: List[Any] = []

        def work() -> None:
            found.extend((len(tokens("{a" * 100000)), canonical("{ a " * 5), error_of(canonical, "{" * 9 + "?").column))

        on_stack(max(64 * 1024, os.sysconf("SC_THREAD_STACK_MIN")), work)
        self.assertEqual(found, [200001, "{a{a{a{a{a", 10])

    def test_threads(self) -> None:
        found = in_threads(lambda: ([(it.kind, it.text, it.end) for it in tokens(WHOLE * 50)], canonical(WHOLE * 50)), 10)
        self.assertEqual(found, [True] * 40)

    def test_other_threads_go_on(self) -> None:
        """While a long text is cut, another thread never waits for as long as half of that time."""
        text = ("a" * 60 + " #" + "é" * 60 + "\n").encode() * 200000
        for call in (lambda: firthnapkin._parser.tokens(text, 2**32 - 1), lambda: firthnapkin._parser.canonical(text)):
            self.assertLess(longest_wait(call), 0.5)

    def test_nothing_is_kept(self) -> None:
        """A call frees all memory that it takes from the system."""
        # Under qemu-user what is resident is qemu's, too: with musl a call's memory is at other addresses each time, and qemu keeps
        # a table of these.
        taken = "int(open('/proc/self/statm').read().split()[1])"
        if "FIRTHNAPKIN_IS_EMULATED" in os.environ:
            taken = "sum(int(b, 16) - int(a, 16) for a, b in (it.split()[0].split('-') for it in open('/proc/self/maps'))) // 4096"
        found = process(
            "import firthnapkin\n"
            "texts = ['a ' * 50000, '1a\"\"' * 20000, 'a ' * 50000 + '?']\n"
            f"def taken(): return {taken}\n"
            "def work():\n"
            "    for text in texts:\n"
            "        for call, options in ((firthnapkin.tokens, {}), (firthnapkin.tokens, {'max_tokens': 3}), (firthnapkin.canonical, {})):\n"
            "            try: call(text, **options)\n"
            "            except firthnapkin.FirthnapkinError: pass\n"
            "for _ in range(20): work()\n"
            "before = taken()\n"
            "for _ in range(100): work()\n"
            "print(taken() - before < 2000)\n"
        )
        self.assertEqual((found.returncode, found.stdout), (0, b"True\n"), found.stderr)
