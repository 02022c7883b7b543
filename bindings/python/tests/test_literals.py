"""Texts that are one value or one type: what is returned, where its parts are, and what is raised."""

import copy
import pickle
import unittest
from typing import Any, Callable, Dict, List, Tuple, Union

import firthnapkin
from firthnapkin import (
    Argument,
    Document,
    EnumValue,
    ErrorDetail,
    ErrorKind,
    Field,
    FirthnapkinError,
    Kind,
    Node,
    ParsedType,
    ParsedValue,
    Variable,
    Visitor,
    parse,
    parse_type,
    parse_value,
)
from firthnapkin import _parser
from firthnapkin.limits import packed
from helpers import LARGE_LIMITS, LOW_LIMITS, NO_LIMITS, NO_SOURCES, Text, in_threads, longest_wait, on_stack, resident

Part = Union[ParsedType, ParsedValue]

# Values without variables, and what they mean.
CONSTANTS: List[Tuple[str, Any]] = [
    ("null", None),
    ("true", True),
    ("false", False),
    ("-7", -7),
    ("99999999999", 99999999999),
    ("-1.5e3", -1500.0),
    ('""', ""),
    ('"\\u00e9\\n𝄞"', "é\n𝄞"),
    ('"""\n    a\n      b\n"""', "a\n  b"),
    ("on", EnumValue("on")),
    ("[]", []),
    ("{}", {}),
    ("[1, [2], {a: [E]}]", [1, [2], {"a": [EnumValue("E")]}]),
    ("{a: 1, b: {c: null}, a: 2}", {"a": 2, "b": {"c": None}}),
    ("\ufeff # é\n ,7, #", 7),
]

VALUES: List[Tuple[str, Any]] = [
    *CONSTANTS,
    ("$a", Variable("a")),
    ("$ a", Variable("a")),
    ("[1, $b]", [1, Variable("b")]),
    ("{a: {b: [$c, D]}}", {"a": {"b": [Variable("c"), EnumValue("D")]}}),
]

TYPES = [
    ("T", "T"),
    ("ID!", "ID!"),
    ("[T]", "[T]"),
    ("[ID!]!", "[ID!]!"),
    (" [ [ T ] , ! ] #é\n!\n", "[[T]!]!"),
    ("type", "type"),
    ("\ufeffon!", "on!"),
]

# What is no value: the message, and where it begins and ends.
NO_VALUES = [
    ("", "Unexpected end of input", 0, 0),
    ("# é\n", "Unexpected end of input", 4, 4),
    ("1 2", 'Unexpected "2"', 2, 3),
    ("[1", "Unexpected end of input", 2, 2),
    ("{a}", 'Unexpected "}"', 2, 3),
    ("{a: 1} {", 'Unexpected "{"', 7, 8),
    ("a: 1", 'Unexpected ":"', 1, 2),
    ("@a", 'Unexpected "@"', 0, 1),
    ("query Q { a }", 'Unexpected "Q"', 6, 7),
    ("{a: é}", 'Unknown character "é"', 4, 4),
    ('"a', "Unterminated string literal", 2, 2),
    ("[\ud800]", "Lone surrogate U+D800", 1, 2),
]

# What is no constant, and none of its words but those of a value.
NO_CONSTANTS = [("$a", 'Unexpected "$"', 0, 1), ("[1, {a: $b}]", 'Unexpected "$"', 8, 9)]

# What is no type. None has a note on schemas or on descriptions, since no document is wanted.
NO_TYPES = [
    ("", "Unexpected end of input", 0, 0),
    ("[T", "Unexpected end of input", 2, 2),
    ("T!!", 'Unexpected "!"', 2, 3),
    ("T T", 'Unexpected "T"', 2, 3),
    ("{ a }", 'Unexpected "{"', 0, 1),
    ('"d" type T', 'Unexpected ""d""', 0, 3),
    ('"d" query Q { a }', 'Unexpected ""d""', 0, 3),
    ("T = 1", 'Unexpected "="', 2, 3),
    ("é", 'Unknown character "é"', 0, 0),
]


def parse_constant(source: str, **options: Any) -> ParsedValue:
    return parse_value(source, constant=True, **options)


CALLS: List[Callable[..., Part]] = [parse_value, parse_constant, parse_type]


def raised_by(call: Callable[..., object], *arguments: Any, **options: Any) -> FirthnapkinError:
    try:
        found = call(*arguments, **options)
    except FirthnapkinError as error:
        return error
    raise AssertionError(f"{found!r} is returned")


def argument_of(written: str) -> Argument:
    """The argument with this value in a document."""
    field = parse(f"{{a(b:{written}\n)}}").operations[0].selections[0]
    assert isinstance(field, Field)
    return field.arguments[0]


def shape_of(node: Node) -> Tuple[Any, ...]:
    """What a node and the nodes in it are, wherever they are."""
    number = node.value if node.kind is not Kind.FLOAT else node.text
    return node.kind, node.text, node.name, number, node.descendants, [shape_of(child) for child in node.children]


class Values(unittest.TestCase):
    def same(self, found: Any, wanted: Any) -> None:
        self.assertEqual((found, type(found), repr(found)), (wanted, type(wanted), repr(wanted)))

    def test_values(self) -> None:
        for written, wanted in VALUES:
            self.same(parse_value(written).value, wanted)
        for written, wanted in CONSTANTS:
            self.same(parse_value(written, constant=True).value, wanted)

    def test_as_in_a_document(self) -> None:
        """A value has the nodes and the meaning that it has as an argument."""
        for written, _ in VALUES:
            found, argument = parse_value(written), argument_of(written)
            self.same(found.value, argument.value)
            self.assertEqual(shape_of(found.node), shape_of(argument.node.children[0]))

    def test_numbers_that_python_does_not_take(self) -> None:
        for written in ("1e999", "[1, {a: -1e999}]"):
            found = parse_value(written)
            with self.assertRaises(OverflowError):
                print(found.value)
            self.assertEqual(found.text, written)

    def test_types(self) -> None:
        for written, wanted in TYPES:
            found = parse_type(written)
            self.same(found.type, wanted)
            definition = parse(f"query ($v: {written}\n) {{ a }}").operations[0].variables[0]
            self.assertEqual((found.type, shape_of(found.node)), (definition.type, shape_of(definition.node.children[0])))

    def test_deep(self) -> None:
        """Nesting needs no stack."""
        for call, written in ((parse_value, "[" * 1000 + "]" * 1000), (parse_type, "[" * 1000 + "T" + "!]" * 1000)):
            found: List[int] = []
            on_stack(2**18, lambda: found.append(len(call(written, depth=1000).text)))
            self.assertEqual(found, [len(written)])
        inner = parse_value("{k:" * 1000 + "7" + "}" * 1000, depth=1000).value
        for _ in range(1000):
            assert isinstance(inner, dict)
            inner = inner["k"]
        self.assertEqual(inner, 7)


class Parts(unittest.TestCase):
    def test_positions(self) -> None:
        text = "# é\n  {𝄞: 1}".replace("𝄞", 'a: "𝄞", b')
        found = parse_value(text)
        self.assertEqual((found.start, found.end), ((6, 1, 2, 7), (len(text), 1, 16, len(text.encode()))))
        self.assertEqual((found.line, found.column, found.text), (2, 3, '{a: "𝄞", b: 1}'))
        self.assertEqual(found.excerpt, '1 | # é\n2 |   {a: "𝄞", b: 1}\n  |   ^')
        last = found.node.children[1].children[0]
        self.assertEqual((last.kind, last.line, last.column, last.start.byte), (Kind.INT, 2, 15, 22))
        found_type = parse_type("#é\r\n [ T ]")
        self.assertEqual((found_type.start, found_type.end), ((5, 1, 1, 6), (10, 1, 6, 11)))
        self.assertEqual((found_type.line, found_type.column, found_type.text), (2, 2, "[ T ]"))
        self.assertEqual(found_type.excerpt, "1 | #é\n2 |  [ T ]\n  |  ^")

    def test_documents(self) -> None:
        """Its document has its nodes and its text, and neither operations nor fragments."""
        parts: List[Tuple[Part, int]] = [(parse_value(" [1, {a: $b}]"), 5), (parse_value("E"), 1), (parse_type("[T!]"), 1)]
        for part, count in parts:
            document = part.document
            self.assertIsInstance(document, Document)
            self.assertEqual((len(document), document.text.strip()), (count, part.text))
            self.assertEqual((document[0], document[0].index, document[0].parent), (part.node, 0, None))
            self.assertEqual([node.parent for node in part.node.children], [part.node] * len(part.node.children))
            for found in (document.definitions, document.operations, document.fragments):
                self.assertEqual(len(found), 0)
            self.assertEqual((document.operation(), document.operation("Q"), document.fragment("F")), (None, None, None))

    def test_walks(self) -> None:
        names: List[str] = []

        class Names(Visitor):
            def enter_variable(self, node: Node) -> None:
                names.append(node.name or "")

        found = parse_value("[$a, {b: $c}]")
        Names().visit(found.node)
        Names().visit(found.document)
        self.assertEqual(names, ["a", "c"] * 2)

    def test_equality(self) -> None:
        """Two are equal if they are the same part of the result of one call."""
        for call, written in ((parse_value, "[1]"), (parse_type, "[T]")):
            part = call(written)
            again = type(part)(part.node)
            self.assertEqual((part, hash(part)), (again, hash(again)))
            self.assertNotEqual(part, call(written))
            self.assertNotEqual(part, written)
            self.assertEqual(repr(part), f"<{type(part).__name__} '{written}'>")

    def test_nodes_of_documents(self) -> None:
        """Each value in a document is one, too, and nothing else is."""
        document = parse("query ($v: [T!] = 7) { a(b: {c: $v}) }")
        nodes = {node.text: node for node in document}
        self.assertEqual(ParsedValue(nodes["{c: $v}"]).value, {"c": Variable("v")})
        self.assertEqual((ParsedValue(nodes["7"]).value, ParsedType(nodes["[T!]"]).type), (7, "[T!]"))
        for part, text in ((ParsedValue, "[T!]"), (ParsedType, "7"), (ParsedValue, "c"), (ParsedType, "$v")):
            with self.assertRaises(ValueError):
                part(nodes[text])
            with self.assertRaises(TypeError):
                part(text)

    def test_copies(self) -> None:
        for call, written in ((parse_value, '{a: [1, "é"]}'), (parse_type, "[ T! ]")):
            part = call(written)
            self.assertEqual(copy.copy(part), part)
            for again in (copy.deepcopy(part), pickle.loads(pickle.dumps(part))):
                self.assertIsNot(again.document, part.document)
                self.assertEqual((shape_of(again.node), again.text), (shape_of(part.node), written))
                self.assertEqual((again.start, again.end, again.excerpt), (part.start, part.end, part.excerpt))

    def test_alive(self) -> None:
        """A node keeps its document, whatever becomes of the rest."""
        node = parse_value('[1, "é"]').node.children[1]
        self.assertEqual((node.value, node.text, node.document.text), ("é", '"é"', '[1, "é"]'))


class Errors(unittest.TestCase):
    def same(self, call: Callable[..., Part], rows: List[Tuple[str, str, int, int]]) -> None:
        for written, message, start, end in rows:
            with self.subTest(call=call.__name__, written=written):
                error = raised_by(call, written)
                self.assertEqual((error.message, error.start.index, error.end.index), (message, start, end))
                self.assertEqual((error.source, error.source_name), (written, None))
                named = raised_by(call, written, name="é.txt")
                self.assertEqual((named.source_name, str(named)), ("é.txt", str(error).replace(". At ", ". At é.txt:")))

    def test_errors(self) -> None:
        self.same(parse_value, [*NO_VALUES, ("$", "Unexpected end of input", 1, 1), ("$1", 'Unexpected "1"', 1, 2)])
        self.same(parse_constant, NO_VALUES + NO_CONSTANTS)
        self.same(parse_type, NO_TYPES)

    def test_constants(self) -> None:
        """What is true says that the value is constant."""
        for constant in (True, 1, "no", [0]):
            self.assertEqual(raised_by(parse_value, "[$a]", constant=constant).message, 'Unexpected "$"')
        for constant in (False, 0, "", None):
            self.assertEqual(parse_value("[$a]", constant=constant).value, [Variable("a")])

    def test_places(self) -> None:
        error = raised_by(parse_value, '[\n  "𝄞" @]')
        self.assertEqual((error.kind, error.detail), (ErrorKind.UNEXPECTED_TOKEN, ErrorDetail.NONE))
        self.assertEqual((error.line, error.column, error.utf16_column), (2, 7, 7))
        self.assertEqual(error.excerpt, '1 | [\n2 |   "𝄞" @]\n  |       ^')
        self.assertEqual(str(error), 'Unexpected "@". At 2:7')

    def test_limits(self) -> None:
        for call, written, depth in (
            (parse_value, "[[1]]", 2),
            (parse_constant, "{a: [1]}", 2),
            (parse_type, "[[T]]", 2),
            (parse_type, "T", 0),
            (parse_value, "[" * 200 + "]" * 200, 200),
        ):
            self.assertEqual(call(written, depth=depth).text, written)
            if depth == 200:
                self.assertEqual(call(written).text, written)
                self.assertEqual(raised_by(call, f"[{written}]").kind, ErrorKind.TOO_DEEP)
            if depth > 0:
                error = raised_by(call, written, depth=depth - 1)
                self.assertEqual((error.kind, error.message), (ErrorKind.TOO_DEEP, "Too deeply nested"))
        for call, written, count, start in (
            (parse_value, "[1 $a]", 5, 5),
            (parse_constant, "{a: 1}", 5, 5),
            (parse_type, "[T!]", 4, 3),
        ):
            for most in (count, *LARGE_LIMITS):
                self.assertEqual(call(written, max_tokens=most).text, written)
            error = raised_by(call, written, max_tokens=count - 1)
            self.assertEqual((error.kind, error.start.index), (ErrorKind.TOO_MANY_TOKENS, start))
            self.assertEqual(raised_by(call, written, max_tokens=0).start.index, 0)

    def test_arguments(self) -> None:
        for call in CALLS:
            for source in NO_SOURCES:
                self.assertRaises(TypeError, call, source)
            for name in (5, b"a", ["a"]):
                self.assertRaises(TypeError, call, "T", name=name)
            for limit in NO_LIMITS:
                self.assertRaises(TypeError, call, "T", depth=limit)
                self.assertRaises(TypeError, call, "T", max_tokens=limit)
            self.assertRaises(TypeError, call, "T", depth=None)
            for limit in LOW_LIMITS:
                self.assertRaises(ValueError, call, "T", depth=limit)
                self.assertRaises(ValueError, call, "T", max_tokens=limit)
            self.assertRaises(ValueError, call, "T", depth=firthnapkin.MAX_DEPTH + 1)
            self.assertEqual(call("T", depth=firthnapkin.MAX_DEPTH).text, "T")
            for option in ("max_fields", "max_aliases", "max_field_depth", "dept"):
                self.assertRaises(TypeError, call, "T", **{option: 5})
            self.assertRaises(TypeError, call, "T", "a.txt")
        self.assertRaises(TypeError, parse_type, "T", constant=True)

    def test_what_is_wrong_first(self) -> None:
        """The source comes before the limits, and these before what is in the source."""
        for call in CALLS:
            with self.assertRaisesRegex(TypeError, "source"):
                call(5, depth=-1)
            with self.assertRaisesRegex(ValueError, "depth"):
                call("\ud800 )", depth=-1)

    def test_texts_of_a_class(self) -> None:
        """A str's own encoding is used, whatever its class says."""
        self.assertEqual((parse_value(Text("[é]".replace("é", '"é"'))).value, parse_type(Text("T!")).type), (["é"], "T!"))


class Runs(unittest.TestCase):
    def test_threads(self) -> None:
        wanted: Dict[str, Any] = dict(VALUES)
        self.assertEqual(in_threads(lambda: [parse_value(text).value for text in wanted] == list(wanted.values()), 20), [True] * 80)
        self.assertEqual(in_threads(lambda: [parse_type(text).type for text, _ in TYPES], 20), [True] * 80)

    def test_other_threads_run(self) -> None:
        value, written, limits = b"[" + b"1 " * 300000 + b"]", b"[" + b"#\n" * 1000000 + b"T]", packed(200, 2**32 - 1)
        self.assertLess(longest_wait(lambda: _parser.parse_as(value, limits, _parser.AS_VALUE)), 0.5)
        self.assertLess(longest_wait(lambda: _parser.parse_as(written, limits, _parser.AS_TYPE)), 0.5)

    def test_memory(self) -> None:
        """Nothing is kept of a call, whether it fails or not."""

        def make_calls() -> None:
            for _ in range(500):
                parse_value("[1, $a]")
                parse_type("[T!]!")
                raised_by(parse_value, "[" + '"xx" ' * 50)
                raised_by(parse_type, "[" * 50 + "é")

        make_calls()
        before = resident()
        for _ in range(4):
            make_calls()
        self.assertLess(resident() - before, 2**22)


if __name__ == "__main__":
    unittest.main()
