"""The limits of the calls: their names, types and defaults, and the words of the library that each goes to."""

import inspect
import typing
import unittest
from typing import Annotated, Any, Optional, Tuple
from unittest import mock

import firthnapkin
from firthnapkin import MAX_DEPTH, canonical, check, parse, tokens
from firthnapkin.__main__ import options_of
from firthnapkin.limits import Limit, Limits, SizeLimit, has_sizes, packed, sizes_of
from firthnapkin.parser import LIMITS
from helpers import LOW_LIMITS, NO_LIMITS, NO_SIZES, words_of

SIZES = ["max_fields", "max_aliases", "max_directives", "max_root_fields", "max_field_depth"]
NAMES = {
    "name": (Optional[str], None),
    "depth": (int, 200),
    **{name: (Optional[int], None) for name in ("max_tokens", *SIZES)},
}
LARGEST_WORD = 2**32 - 1


def with_more(
    *, depth: Annotated[int, Limit("a", largest=7)] = 5, fields: Annotated[Optional[int], Limit("b", unlimited=0)] = None
) -> None:
    """A function of other limits."""


def with_fewer(depth: int, *, fields: Optional[int] = None) -> None:
    """A function that has one of them by name."""


def with_sizes(
    *,
    aliases: Annotated[Optional[int], SizeLimit("c")] = None,
    depth: Annotated[int, Limit("a", largest=7)] = 5,
    roots: Annotated[Optional[int], SizeLimit("d")] = 3,
) -> None:
    """A function with limits on sizes, too."""


class Signatures(unittest.TestCase):
    def same(self, call: Any, names: Any) -> None:
        """The parameters that are given by name are those, of these types and defaults."""
        parameters = [it for it in inspect.signature(call).parameters.values() if it.kind is it.KEYWORD_ONLY]
        hints = typing.get_type_hints(call)
        self.assertEqual({it.name: (hints[it.name], it.default) for it in parameters}, {name: NAMES[name] for name in names})

    def test_signatures(self) -> None:
        self.same(parse, ["name", "depth", "max_tokens", *SIZES])
        self.same(check, ["name", "depth", "max_tokens", *SIZES])
        self.assertEqual(list(inspect.signature(check).parameters), list(inspect.signature(parse).parameters))
        self.same(tokens, ["name", "max_tokens"])
        self.same(canonical, ["name"])
        self.assertEqual(list(inspect.signature(parse).parameters), ["source", "name", "depth", "max_tokens", *SIZES])
        self.assertEqual(list(LIMITS.by_name), ["depth", "max_tokens", *SIZES])


class Words(unittest.TestCase):
    def words(self, **limits: Any) -> Tuple[int, ...]:
        """What the library is given by `parse`."""
        with mock.patch.object(firthnapkin._parser, "parse", wraps=firthnapkin._parser.parse) as call:
            try:
                parse("{a}", **limits)
            except firthnapkin.FirthnapkinError:
                pass
        return words_of(call.call_args[0][1])

    def test_each(self) -> None:
        """Each limit goes to its word, and the words that no limit has are 0."""
        for given, depth, most in [
            ({}, 200, LARGEST_WORD), ({"depth": 7, "max_tokens": 9}, 7, 9), ({"max_tokens": 9}, 200, 9), ({"depth": 7}, 7, LARGEST_WORD),
            ({"depth": 0, "max_tokens": 0}, 0, 0), ({"depth": MAX_DEPTH, "max_tokens": LARGEST_WORD - 1}, 1000, LARGEST_WORD - 1),
            *(({"max_tokens": it}, 200, LARGEST_WORD) for it in (None, LARGEST_WORD, 2**32, 2**64 + 5, 10**30)),
        ]:  # fmt: skip
            with self.subTest(given=given):
                self.assertEqual(self.words(**given), (depth, most, 0, 0, 0, 0, 0, 0, *NO_SIZES))

    def test_sizes(self) -> None:
        """Each limit on operations goes to its word, and no limit is the largest word."""
        for i, name in enumerate(SIZES):
            for given, wanted in ((0, 0), (7, 7), (LARGEST_WORD - 1, LARGEST_WORD - 1), (None, LARGEST_WORD), (True, 1)):
                words = [*NO_SIZES]
                words[i] = wanted
                self.assertEqual(self.words(**{name: given}), (200, LARGEST_WORD, 0, 0, 0, 0, 0, 0, *words), (name, given))
        self.assertEqual(self.words(**dict(zip(SIZES, range(5))), depth=9), (9, LARGEST_WORD, 0, 0, 0, 0, 0, 0, 0, 1, 2, 3, 4))

    def test_wrong_sizes(self) -> None:
        """They are refused before the text is read. The largest word is none, since it stands for all numbers above it, too."""
        for name in SIZES:
            for given in NO_LIMITS:
                with self.subTest(name=name, given=given), self.assertRaises(TypeError) as raised:
                    parse("\ud800", **{name: given})  # type: ignore[arg-type]
                self.assertEqual(str(raised.exception), f"{name} must be an int, not {type(given).__name__}")
            for number in (*LOW_LIMITS, LARGEST_WORD, 2**32, 10**30):
                with self.subTest(name=name, given=number), self.assertRaises(ValueError) as refused:
                    parse("\ud800", **{name: number})  # type: ignore[arg-type]
                self.assertEqual(str(refused.exception), f"{name} must be from 0 to 4294967294")

    def test_tokens(self) -> None:
        for given, most in ((None, LARGEST_WORD), (0, 0), (9, 9), (LARGEST_WORD, LARGEST_WORD), (2**32, LARGEST_WORD)):
            with mock.patch.object(firthnapkin._parser, "tokens", return_value=(0, b"", b"")) as call:
                tokens("{a}", max_tokens=given)
            call.assert_called_once_with(b"{a}", most)

    def test_schemas(self) -> None:
        """What is before a schema's definition is parsed within the loosest limits, whatever those of the call are."""
        with mock.patch.object(firthnapkin._parser, "parse", wraps=firthnapkin._parser.parse) as call:
            self.assertRaises(firthnapkin.FirthnapkinError, parse, "{a} type", depth=5, max_tokens=9)
        self.assertEqual([words_of(it[0][1])[:2] for it in call.call_args_list], [(5, 9), (1000, LARGEST_WORD)])


class Tables(unittest.TestCase):
    def test_other_limits(self) -> None:
        """A limit is a line of a signature: its name, its type, what it accepts, and its default."""
        limits = Limits(with_more)
        for given, wanted in (
            ({}, (5, 0)),
            ({"fields": 9}, (5, 9)),
            ({"fields": 0, "depth": 7}, (7, 0)),
            ({"fields": 2**40}, (5, LARGEST_WORD)),
        ):
            self.assertEqual(words_of(limits.packed({**limits.defaults, **given})), (*wanted, 0, 0, 0, 0, 0, 0, *NO_SIZES))
        for given, error, words in [
            ({"depth": 8}, ValueError, "depth must be from 0 to 7"), ({"depth": -1}, ValueError, "depth must be from 0 to 7"),
            ({"depth": None}, TypeError, "depth must be an int, not NoneType"), ({"fields": -1}, ValueError, "fields must not be below 0"),
            ({"fields": "5"}, TypeError, "fields must be an int, not str"), ({"depth": True, "fields": 1.0}, TypeError, "fields must be an int, not float"),
        ]:  # fmt: skip
            with self.assertRaises(error) as raised:
                limits.packed({**limits.defaults, **given})
            self.assertEqual(str(raised.exception), words)

    def test_shared_limits(self) -> None:
        """A function may have fewer of the limits. The others are the default ones, whatever is given, and these limits stay."""
        limits = Limits(with_more)
        shared = limits.shared_with(with_fewer)
        self.assertEqual(words_of(shared.packed({"fields": 9, "depth": 6})), (5, 9, 0, 0, 0, 0, 0, 0, *NO_SIZES))
        self.assertEqual(words_of(limits.packed({"fields": 9, "depth": 6})), (6, 9, 0, 0, 0, 0, 0, 0, *NO_SIZES))
        self.assertEqual(words_of(shared.packed({"fields": None})), (5, 0, 0, 0, 0, 0, 0, 0, *NO_SIZES))
        # Numbers that only a closer look reads.
        self.assertEqual(words_of(limits.packed({"fields": 9, "depth": True})), (1, 9, 0, 0, 0, 0, 0, 0, *NO_SIZES))
        self.assertEqual(words_of(shared.packed({"fields": True, "depth": 6})), (5, 1, 0, 0, 0, 0, 0, 0, *NO_SIZES))

    def test_sizes_of_a_table(self) -> None:
        """They go behind the library's other limits, in their order, wherever they are written."""
        limits = Limits(with_sizes)
        for given, own, sizes in (
            ({}, 5, (2**32 - 1, 3)),
            ({"aliases": 9, "depth": 6}, 6, (9, 3)),
            ({"roots": None}, 5, (2**32 - 1,) * 2),
        ):
            self.assertEqual(words_of(limits.packed({**limits.defaults, **given})), (own, *[0] * 7, *sizes, *NO_SIZES[2:]))

    def test_parts(self) -> None:
        """Whether there is a limit on sizes, and those limits alone."""
        self.assertFalse(has_sizes(packed(5, 6)) or has_sizes(LIMITS.packed(LIMITS.defaults)))
        for name in SIZES:
            limits = LIMITS.packed({**LIMITS.defaults, name: 4, "depth": 3, "max_tokens": 2})
            self.assertTrue(has_sizes(limits))
            self.assertEqual(sizes_of(limits), words_of(limits)[8:])

    def test_tool(self) -> None:
        """The tool has an option for each limit, with its default."""
        for words, wanted in [
            ([], {}), (["--depth", "1000"], {"depth": 1000}), (["--max-tokens", "9"], {"max_tokens": 9}),
            (["--depth=0", "--max-tokens=0"], {"depth": 0, "max_tokens": 0}), (["--max-root-fields", "3"], {"max_root_fields": 3}),
            (["--max-fields", "4294967294", "--max-field-depth=0"], {"max_fields": 2**32 - 2, "max_field_depth": 0}),
        ]:  # fmt: skip
            found = vars(options_of(["check", "-", *words]))
            self.assertEqual({name: found[name] for name in LIMITS.by_name}, {**LIMITS.defaults, **wanted})
