"""What the values of a document become: each has a row."""

import copy
import json
import pickle
import sys
import unittest
from typing import Any, Dict, List, Union

from firthnapkin import EnumValue, ErrorDetail, ErrorKind, Field, FirthnapkinError, Value, Variable, parse
from helpers import on_stack


def value_of(written: str, depth: int = 200) -> Value:
    """What an argument's value becomes."""
    field = parse(f"{{ a(b: {written}) }}", depth=depth).operations[0].selections[0]
    assert isinstance(field, Field)
    return field.arguments[0].value


def unpacked(found: Value) -> List[Value]:
    """The values in a list or an object."""
    assert isinstance(found, (list, dict))
    return list(found.values() if isinstance(found, dict) else found)


class Values(unittest.TestCase):
    def same(self, written: str, wanted: Any) -> None:
        """An argument, an element, a key's value and a default value become the same."""
        found: List[Any] = [value_of(written), *unpacked(value_of(f"[{written}]")), *unpacked(value_of(f"{{a: {written}}}"))]
        if "$" not in written:
            found.append(parse(f"query ($v: T = {written}) {{ a }}").operations[0].variables[0].default_value)
        self.assertGreater(len(found), 2)
        for it in found:
            self.assertEqual((it, type(it), repr(it)), (wanted, type(wanted), repr(wanted)))

    def test_scalars(self) -> None:
        """Null, Booleans, Ints of any size, Floats, Strings and block strings."""
        for written, wanted in [
            ("null", None), ("true", True), ("false", False), ("0", 0), ("-0", 0), ("7", 7), ("-7", -7), ("2147483647", 2147483647),
            ("-2147483648", -2147483648), ("2147483648", 2147483648), ("-2147483649", -2147483649), ("9223372036854775807", 2**63 - 1),
            ("9223372036854775808", 2**63), ("-9223372036854775809", -(2**63) - 1), ("9007199254740993", 2**53 + 1),
            ("1" + "0" * 400, 10**400), ("1.5", 1.5), ("-1.5", -1.5), ("0.0", 0.0), ("-0.0", -0.0), ("1e3", 1000.0), ("1E-2", 0.01),
            ("1.7976931348623157e308", sys.float_info.max), ("1e-999", 0.0), ("-1e-999", -0.0), ("9007199254740993.0", 2.0**53),
            ('""', ""), ('"a"', "a"), ('"é𝄞"', "é𝄞"), ('"\\n\\t\\"\\\\\\/\\b\\f\\r"', '\n\t"\\/\b\f\r'), ('"\\u00e9"', "é"),
            ('"true"', "true"), ('"7"', "7"), ('"""\n  a\n    b\n"""', "a\n  b"), ('"""\\u0041"""', "\\u0041"), ('"""a\\"""b"""', 'a"""b'),
        ]:  # fmt: skip
            with self.subTest(written=written[:30]):
                self.same(written, wanted)

    def test_numbers_that_python_does_not_take(self) -> None:
        """The error is that of the whole value, and the text has the number."""
        for number in ("1e999", "-1e999", "1.5E+400"):
            for written in (number, f"[1, {number}]", f"{{a: [{{b: {number}}}]}}"):
                with self.assertRaises(OverflowError):
                    value_of(written)
                with self.assertRaises(OverflowError):
                    parse(f"query ($v: T = {written}) {{ a }}").operations[0].variables[0].default_value
                field = parse(f"{{ a(b: {written}, c: 7) }}").operations[0].selections[0]
                assert isinstance(field, Field)
                self.assertEqual((field.arguments[0].text, field.arguments[1].value), (f"b: {written}", 7))
        if getattr(sys, "get_int_max_str_digits", lambda: 0)() == 4300:
            self.assertEqual(value_of("9" * 4300), int("9" * 4300))
            self.assertRaises(OverflowError, value_of, "9" * 4301)
            self.assertRaises(OverflowError, value_of, "[-" + "9" * 5000 + "]")

    def test_enums(self) -> None:
        """An Enum is of a type of its own, and equal to no str."""
        self.same("RED", EnumValue("RED"))
        for name in ("on", "query", "fragment", "type", "True", "nil", "NaN", "_"):
            self.same(name, EnumValue(name))
        found = value_of("RED")
        assert isinstance(found, EnumValue)
        self.assertNotIsInstance(found, str)
        self.assertEqual((found.name, str(found), repr(found)), ("RED", "RED", "EnumValue(name='RED')"))
        for other in ("RED", Variable("RED"), ("RED",), EnumValue("red"), None):
            self.assertNotEqual(found, other)
        self.assertEqual({found: 1}[EnumValue("RED")], 1)
        self.assertNotEqual(value_of('"RED"'), found)

    def test_variables(self) -> None:
        """A variable is of a type of its own, by its name without the sign."""
        self.same("$id", Variable("id"))
        found = value_of("$ id")
        assert isinstance(found, Variable)
        self.assertNotIsInstance(found, str)
        self.assertEqual((found.name, str(found), repr(found)), ("id", "$id", "Variable(name='id')"))
        for other in ("id", "$id", EnumValue("id"), ("id",), Variable("ID"), None):
            self.assertNotEqual(found, other)
        self.assertEqual({found: 1}[Variable("id")], 1)

    def test_nothing_can_be_changed(self) -> None:
        names: List[Any] = [EnumValue("a"), Variable("a")]
        for found in names:
            with self.assertRaises(AttributeError):
                found.name = "b"
            for other in (copy.copy(found), copy.deepcopy(found), pickle.loads(pickle.dumps(found))):
                self.assertEqual((other, type(other)), (found, type(found)))

    def test_lists(self) -> None:
        for written, wanted in [
            ("[]", []), ("[1]", [1]), ("[1 2, 3]", [1, 2, 3]), ("[[]]", [[]]), ("[[1] [] [[2] 3] 4]", [[1], [], [[2], 3], 4]),
            ("[null, true, E, $v]", [None, True, EnumValue("E"), Variable("v")]), ("[{} {a: []} 1]", [{}, {"a": []}, 1]),
        ]:  # fmt: skip
            with self.subTest(written=written):
                self.same(written, wanted)

    def test_objects(self) -> None:
        for written, wanted in [
            ("{}", {}), ("{a: 1}", {"a": 1}), ("{a: {}, b: {c: {d: 1} e: 2} f: 3}", {"a": {}, "b": {"c": {"d": 1}, "e": 2}, "f": 3}),
            ("{b: 1, a: 2}", {"b": 1, "a": 2}), ("{a: [1, {b: 2}], c: 3}", {"a": [1, {"b": 2}], "c": 3}), ("{a: null}", {"a": None}),
            ("{__proto__: 1, constructor: 2}", {"__proto__": 1, "constructor": 2}), ("{a: [[]], b: [{}]}", {"a": [[]], "b": [{}]}),
        ]:  # fmt: skip
            with self.subTest(written=written):
                self.same(written, wanted)

    def test_doubled_keys(self) -> None:
        """A key that is there twice has its first position and its last value."""
        for written, wanted in [
            ("{a: 1, b: 2, a: 3}", '{"a": 3, "b": 2}'), ("{b: {a: 1}, a: 4, b: {a: 2, c: 3}}", '{"b": {"a": 2, "c": 3}, "a": 4}'),
            ("{a: [1], b: 2, a: [], b: {}}", '{"a": [], "b": {}}'), ("[{a: 1, a: null}]", '[{"a": null}]'),
        ]:  # fmt: skip
            self.assertEqual(json.dumps(value_of(written)), wanted)

    def test_doubled_arguments(self) -> None:
        """The first of two of a name is the one of the name."""
        field = parse("{ a(b: 1, c: 2, b: 3) @d(e: 4, e: 5) }").operations[0].selections[0]
        assert isinstance(field, Field)
        first, other = field.argument("b"), field.directives[0].argument("e")
        assert first is not None and other is not None
        self.assertEqual((first.value, other.value), (1, 4))
        self.assertEqual([it.value for it in field.arguments], [1, 2, 3])

    def test_half_surrogate_pairs(self) -> None:
        """The parser refuses an escape that is half of a pair."""
        for written in ('"\\ud800"', '"\\udfff"', '"\\ud83d a"', '"\\ude00\\ud83d"'):
            with self.assertRaises(FirthnapkinError) as raised:
                value_of(written)
            self.assertEqual((raised.exception.kind, raised.exception.detail), (ErrorKind.LEXICAL, ErrorDetail.UNKNOWN_ESCAPE))

    def test_new_each_time(self) -> None:
        """What is made of a value belongs to the caller."""
        field = parse("{ a(b: [1, {c: 2}]) }").operations[0].selections[0]
        assert isinstance(field, Field)
        found = field.arguments[0].value
        assert isinstance(found, list)
        found.clear()
        self.assertEqual(field.arguments[0].value, [1, {"c": 2}])


class Deep(unittest.TestCase):
    def levels(self, found: Value) -> List[str]:
        """The kinds of the containers, from outside, each of one element, and the value within."""
        kinds = []
        while isinstance(found, (list, dict)):
            kinds.append(type(found).__name__)
            (found,) = found if isinstance(found, list) else found.values()
        return [*kinds, repr(found)]

    def test_deep(self) -> None:
        """Values nested 1,000 deep, which is 998 within the braces and parentheses of their field."""
        for opening, closing, kind in (("[", "]", "list"), ("{k: ", "}", "dict")):
            found = value_of(opening * 998 + "7" + closing * 998, depth=1000)
            self.assertEqual(self.levels(found), [kind] * 998 + ["7"])
        found = value_of("[{k: " * 499 + "E" + "}]" * 499, depth=1000)
        self.assertEqual(self.levels(found), ["list", "dict"] * 499 + ["EnumValue(name='E')"])

    def test_small_limits(self) -> None:
        """Neither Python's limit on recursion nor a small stack is in the way."""
        seen: List[Union[int, str]] = []

        def work() -> None:
            limit = sys.getrecursionlimit()
            sys.setrecursionlimit(60)
            try:
                seen.append(len(self.levels(value_of("[" * 998 + "7" + "]" * 998, depth=1000))))
            except ValueError as error:
                seen.append(str(error))
            finally:
                sys.setrecursionlimit(limit)

        on_stack(2**20, work)
        self.assertEqual(seen, [999])

    def test_long(self) -> None:
        """A list and an object of 100,000 elements."""
        self.assertEqual(value_of("[" + " ".join(map(str, range(100_000))) + "]"), list(range(100_000)))
        wanted: Dict[str, int] = {f"k{i}": i for i in range(100_000)}
        self.assertEqual(value_of("{" + " ".join(f"{key}: {i}" for key, i in wanted.items()) + "}"), wanted)
