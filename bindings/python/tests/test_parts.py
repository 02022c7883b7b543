"""The parts of a document by their names: operations, fragments, fields, and what is attached to them."""

import copy
import pickle
import unittest
from typing import List

import firthnapkin
from firthnapkin import (
    Argument,
    Directive,
    Document,
    EnumValue,
    Field,
    Fragment,
    FragmentSpread,
    InlineFragment,
    Kind,
    Operation,
    SyntaxPart,
    SyntaxParts,
    Variable,
    VariableDefinition,
    parse,
)

TEXT = """query Q($id: [ ID ! ]! = [1] @a(b: 2), $e: T = null) @live { # мир
  one: user(id: $id, id: 2) @include(if: true) @skip(if: false) { name, ...F @b }
  ... on User @c { two(a: {b: [E]}) }
  ... @d { three }
  ... { four }
}
mutation { set }
fragment F on User @e { height }
subscription S { on }
fragment G on T { fragment }
"""


def document() -> Document:
    return parse(TEXT)


def query() -> Operation:
    return document().operations[0]


def user() -> Field:
    field = query().selections[0]
    assert isinstance(field, Field)
    return field


def texts(parts: "SyntaxParts[SyntaxPart]") -> List[str]:
    return [part.text for part in parts]


class Definitions(unittest.TestCase):
    def test_operations(self) -> None:
        operations = document().operations
        self.assertEqual([(it.kind, it.name) for it in operations],
                         [(Kind.QUERY, "Q"), (Kind.MUTATION, None), (Kind.SUBSCRIPTION, "S")])  # fmt: skip
        self.assertEqual(operations[1].text, "mutation { set }")
        self.assertEqual({type(it) for it in operations}, {Operation})
        self.assertEqual(parse("{ a }").operations[0].kind, Kind.QUERY)

    def test_operation(self) -> None:
        """By a name the first of it; without one the only one."""
        found = document().operation("S")
        assert found is not None
        self.assertEqual((found.kind, found.name), (Kind.SUBSCRIPTION, "S"))
        for name in ("F", "q", "", "mutation", None):
            self.assertIsNone(document().operation(name))
        for text, name, wanted in [
            ("{ a }", None, "{ a }"), ("query Q { a }", None, "query Q { a }"), ("{ a } fragment F on T { b }", None, "{ a }"),
            ("fragment F on T { b } query Q { a }", "Q", "query Q { a }"),
            ("query A { a } query Q { b } mutation Q { c }", "Q", "query Q { b }"),
        ]:  # fmt: skip
            operation = parse(text).operation(name)
            assert operation is not None
            self.assertEqual(operation.text, wanted)
        for text in ("{ a } { b }", "{ a } query Q { b }", "fragment F on T { b }"):
            self.assertIsNone(parse(text).operation())

    def test_fragments(self) -> None:
        fragments = document().fragments
        self.assertEqual([(it.name, it.type_condition) for it in fragments], [("F", "User"), ("G", "T")])
        self.assertEqual((texts(fragments[0].directives), texts(fragments[0].selections)), (["@e"], ["height"]))
        self.assertEqual(fragments[0].text, "fragment F on User @e { height }")
        self.assertEqual({type(it) for it in fragments}, {Fragment})

    def test_fragment(self) -> None:
        """The first of two of a name."""
        found = document().fragment("G")
        assert found is not None
        self.assertEqual((found.name, found.type_condition), ("G", "T"))
        for name in ("Q", "S", "g", "", "User"):
            self.assertIsNone(document().fragment(name))
        twice = parse("fragment F on A { a } query F { a } fragment F on B { b }")
        first = twice.fragment("F")
        assert first is not None
        self.assertEqual((first.type_condition, len(twice.fragments)), ("A", 2))

    def test_variables(self) -> None:
        first, second = query().variables
        self.assertEqual((first.name, first.type, first.default_value, first.has_default_value), ("id", "[ID!]!", [1], True))
        self.assertEqual(texts(first.directives), ["@a(b: 2)"])
        self.assertEqual((second.name, second.type, second.default_value, second.has_default_value), ("e", "T", None, True))
        self.assertEqual(texts(second.directives), [])
        (plain,) = parse("query ($v: Int @d) { a }").operations[0].variables
        self.assertEqual((plain.default_value, plain.has_default_value, plain.type), (None, False, "Int"))
        self.assertEqual({type(it) for it in query().variables}, {VariableDefinition})
        for operation in document().operations[1:]:
            self.assertEqual((len(operation.variables), list(operation.variables)), (0, []))
        self.assertEqual(texts(parse("query ($a: A, $a: B) { a }").operations[0].variables), ["$a: A", "$a: B"])

    def test_default_values_of_each_kind(self) -> None:
        for written, wanted in [("7", 7), ("99999999999", 99999999999), ("1.5", 1.5), ('"a"', "a"), ('"""a"""', "a"), ("true", True),
                                ("E", EnumValue("E")), ("[]", []), ("{}", {}), ("null", None)]:  # fmt: skip
            (found,) = parse(f"query ($v: T = {written} @d(a: 9)) {{ a }}").operations[0].variables
            self.assertEqual((found.default_value, found.has_default_value), (wanted, True), written)

    def test_directives(self) -> None:
        (directive,) = query().directives
        self.assertEqual((directive.name, directive.text, len(directive.arguments)), ("live", "@live", 0))
        self.assertEqual(texts(document().operations[1].directives), [])


class Selections(unittest.TestCase):
    def test_selections(self) -> None:
        """Those of the set itself, in its order, and none of the sets in it."""
        found = query().selections
        self.assertEqual([type(it) for it in found], [Field, InlineFragment, InlineFragment, InlineFragment])
        self.assertEqual(texts(user().selections), ["name", "...F @b"])
        self.assertEqual([type(it) for it in user().selections], [Field, FragmentSpread])
        name = user().selections[0]
        assert isinstance(name, Field)
        self.assertEqual((len(name.selections), len(name.arguments), len(name.directives)), (0, 0, 0))

    def test_fields(self) -> None:
        field = user()
        self.assertEqual((field.alias, field.name, field.response_key), ("one", "user", "one"))
        plain = user().selections[0]
        assert isinstance(plain, Field)
        self.assertEqual((plain.alias, plain.name, plain.response_key), (None, "name", "name"))
        self.assertEqual([(it.name, it.argument("if") is not None) for it in field.directives], [("include", True), ("skip", True)])
        self.assertEqual(field.text, "one: user(id: $id, id: 2) @include(if: true) @skip(if: false) { name, ...F @b }")

    def test_arguments(self) -> None:
        """Both of two of a name are arguments, and the first is the one of the name."""
        field = user()
        self.assertEqual([(it.name, it.value) for it in field.arguments], [("id", Variable("id")), ("id", 2)])
        first = field.argument("id")
        assert first is not None
        self.assertEqual((first.value, first.text, type(first)), (Variable("id"), "id: $id", Argument))
        for name in ("user", "one", "if", "ID", "", "name"):
            self.assertIsNone(field.argument(name))
        include = field.directives[0].argument("if")
        assert include is not None
        self.assertEqual((include.value, include.text), (True, "if: true"))
        self.assertIsNone(field.directives[0].argument("id"))
        self.assertEqual({type(it) for it in field.directives}, {Directive})

    def test_spreads(self) -> None:
        spread = user().selections[1]
        assert isinstance(spread, FragmentSpread)
        self.assertEqual((spread.name, texts(spread.directives), spread.text), ("F", ["@b"], "...F @b"))

    def test_inline_fragments(self) -> None:
        found = [it for it in query().selections if isinstance(it, InlineFragment)]
        self.assertEqual([(it.type_condition, texts(it.directives), texts(it.selections)) for it in found],
                         [("User", ["@c"], ["two(a: {b: [E]})"]), (None, ["@d"], ["three"]), (None, [], ["four"])])  # fmt: skip

    def test_words_as_names(self) -> None:
        """Words of the language are names like others."""
        (on,) = document().operations[2].selections
        self.assertEqual((type(on), on.text), (Field, "on"))
        (fragment,) = document().fragments[1].selections
        self.assertEqual(fragment.text, "fragment")


class Positions(unittest.TestCase):
    def parts(self) -> List[SyntaxPart]:
        """Each part of the text, and the text that it is expected to have."""
        found: List[SyntaxPart] = [*document().operations, *document().fragments]
        for part in found:
            for name in ("variables", "directives", "arguments", "selections"):
                found.extend(getattr(part, name, ()))
        return found

    def test_texts(self) -> None:
        """An argument's text has its value, and a variable definition's its type, its default value and its directives."""
        written = texts(query().variables) + texts(user().arguments) + texts(query().variables[0].directives[0].arguments)
        self.assertEqual(written, ["$id: [ ID ! ]! = [1] @a(b: 2)", "$e: T = null", "id: $id", "id: 2", "b: 2"])
        for text, wanted in [
            ("query ($a :  [ A ] ) { a }", "$a :  [ A ]"), ("query ($a: A= { b : [ 1 ] } ) { a }", "$a: A= { b : [ 1 ] }"),
            ("query ($a: A @b @c (d: 1) ) { a }", "$a: A @b @c (d: 1)"),
        ]:  # fmt: skip
            self.assertEqual(parse(text).operations[0].variables[0].text, wanted)
        for value in ("[ 1 [ 2 ] ]", "{ a : { b : 1 } }", "[ ]", "{ }", '"é𝄞"', '"""\n a\n"""', "$ a", "-1.5e3", "E"):
            field = parse(f"{{ a( b : {value} ) }}").operations[0].selections[0]
            assert isinstance(field, Field)
            self.assertEqual(field.arguments[0].text, f"b : {value}")

    def test_positions(self) -> None:
        """Positions count from 0 and lines and columns from 1, and the text is what is between the positions."""
        lines = TEXT.split("\n")
        parts = self.parts()
        self.assertEqual(len(parts), 34)
        for part in parts:
            with self.subTest(part=part):
                self.assertEqual(part.text, TEXT[part.start.index : part.end.index])
                self.assertEqual(TEXT.encode()[part.start.byte : part.end.byte].decode(), part.text)
                self.assertTrue(lines[part.line - 1][part.column - 1 :].startswith(part.text.split("\n")[0]))
                self.assertEqual((part.line, part.column), (part.start.line + 1, part.start.column + 1))
                self.assertEqual((part.node.line, part.node.column), (part.line, part.column))
                self.assertIs(part.document, part.node.document)
        self.assertEqual((user().line, user().column), (2, 3))
        arguments = user().arguments
        self.assertEqual([(it.line, it.column) for it in arguments], [(2, 13), (2, 22)])
        self.assertEqual((arguments[0].end.line, arguments[0].end.column), (1, 19))

    def test_excerpts(self) -> None:
        self.assertEqual(parse("{\n  a\n  e: b\n}").operations[0].selections[1].excerpt, "2 |   a\n3 |   e: b\n  |   ^\n4 | }")
        self.assertEqual(parse('{ a(b: "é𝄞", c: 1) }').operations[0].selections[0].excerpt, '1 | { a(b: "é𝄞", c: 1) }\n  |   ^')
        field = parse('{ a(b: "é𝄞", c: 1) }').operations[0].selections[0]
        assert isinstance(field, Field)
        self.assertEqual(field.arguments[1].excerpt, '1 | { a(b: "é𝄞", c: 1) }\n  |' + " " * 14 + "^")
        self.assertEqual(parse("{ a\n\n  b }")[2].excerpt, "2 |\n3 |   b }\n  |   ^")
        self.assertEqual(firthnapkin.tokens('{ "é" }')[2].excerpt, '1 | { "é" }\n  |       ^')
        self.assertEqual(firthnapkin.tokens("a\nb")[-1].line, 2)
        self.assertEqual(firthnapkin.tokens("a\nb")[-1].column, 2)


class Objects(unittest.TestCase):
    def test_equal_parts(self) -> None:
        """Objects of the same part are equal and one key; those of other parts and of other documents are not."""
        first, other = document(), document()
        parts = [*first.operations, *first.operations, *first.fragments, *other.operations]
        self.assertEqual(len(set(parts)), 8)
        self.assertEqual(first.operations[0], first.operation("Q"))
        self.assertNotEqual(first.operations[0], other.operations[0])
        self.assertNotEqual(first.operations[0], first.operations[1])
        self.assertNotEqual(first.operations[0], first[0])
        self.assertEqual(first.operations[0].node, first[0])
        self.assertNotEqual(first.operations[0], None)

    def test_parts_of_nodes(self) -> None:
        """A part is made of its node, and of no other."""
        nodes = document()
        classes = {Operation: (Kind.QUERY, Kind.MUTATION, Kind.SUBSCRIPTION), Fragment: (Kind.FRAGMENT_DEFINITION,), Field: (Kind.FIELD,),
                   VariableDefinition: (Kind.VARIABLE_DEFINITION,), FragmentSpread: (Kind.FRAGMENT_SPREAD,), Argument: (Kind.ARGUMENT,),
                   InlineFragment: (Kind.INLINE_FRAGMENT,), Directive: (Kind.DIRECTIVE,), SyntaxPart: ()}  # fmt: skip
        for made, kinds in classes.items():
            for node in nodes:
                if node.kind in kinds:
                    self.assertEqual(made(node).node, node)
                else:
                    self.assertRaises(ValueError, made, node)
            for wrong in (None, 5, "a", nodes, nodes.operations[0]):
                self.assertRaises(TypeError, made, wrong)

    def test_sequences(self) -> None:
        arguments = user().arguments
        self.assertEqual((len(arguments), arguments[-1].text, arguments[1:][0].text, list(reversed(arguments))[0].text),
                         (2, "id: 2", "id: 2", "id: 2"))  # fmt: skip
        self.assertEqual((type(arguments[:1]), len(arguments[:1]), len(arguments[5:])), (SyntaxParts, 1, 0))
        for index in (2, -3, 2**63, -(2**63)):
            self.assertRaises(IndexError, lambda: arguments[index])
        for wrong in ("0", 1.0, None):
            self.assertRaises(TypeError, lambda: arguments[wrong])  # type: ignore[call-overload]
        whole = document()
        first, second = whole.operations, whole.operations
        self.assertEqual((first, hash(first)), (second, hash(second)))
        self.assertNotEqual(first, whole.fragments)
        self.assertNotEqual(first, document().operations)
        self.assertNotEqual(first[:1], first)
        self.assertNotEqual(first, list(first))
        self.assertIn(first[0], second)
        self.assertNotIn(first[0], second[1:])
        self.assertNotIn(first[0].node, second)
        self.assertNotIn(document().operations[0], second)
        self.assertEqual(first.index(first[2]), 2)

    def test_nothing_can_be_changed(self) -> None:
        for part in Positions().parts():
            for name in ("name", "text", "node", "line", "other"):
                with self.assertRaises(AttributeError):
                    setattr(part, name, None)

    def test_copies(self) -> None:
        for part in Positions().parts():
            for other in (copy.deepcopy(part), pickle.loads(pickle.dumps(part))):
                self.assertEqual((type(other), other.text, other.line), (type(part), part.text, part.line))
        copied = pickle.loads(pickle.dumps(query().selections))
        self.assertEqual(texts(copied), texts(query().selections))

    def test_shown(self) -> None:
        self.assertEqual(repr(user().arguments[0]), "<Argument 'id: $id'>")
        self.assertEqual(repr(query().selections), "<4 parts>")


class Large(unittest.TestCase):
    def test_many(self) -> None:
        """Each of 70,000 fields, far more than 16 bits count, is found, and an object is made of those alone that are asked for."""
        text = "{" + "".join(f"a{i}(b: {i}) " for i in range(70_000)) + "}"
        selections = parse(text).operations[0].selections
        self.assertEqual(len(selections), 70_000)
        for index in (0, 1, 65_535, 65_536, 69_999, -1):
            field = selections[index]
            assert isinstance(field, Field)
            wanted = index % 70_000
            self.assertEqual((field.name, field.arguments[0].value), (f"a{wanted}", wanted))
        names = {field.name for field in selections if isinstance(field, Field)}
        self.assertEqual(len(names), 70_000)

    def test_many_definitions(self) -> None:
        text = "".join(f"query Q{i} {{ a }} fragment F{i} on T {{ a }} " for i in range(2_000))
        found = parse(text)
        self.assertEqual((len(found.operations), len(found.fragments)), (2_000, 2_000))
        operation, fragment = found.operation("Q1999"), found.fragment("F1999")
        assert operation is not None and fragment is not None
        self.assertEqual((operation.text, fragment.text), ("query Q1999 { a }", "fragment F1999 on T { a }"))

    def test_deep(self) -> None:
        """The innermost of 1,000 fields."""
        selections = parse("{a" * 1000 + "}" * 1000, depth=1000).operations[0].selections
        count = 0
        while selections:
            count += 1
            field = selections[0]
            assert isinstance(field, Field)
            selections = field.selections
        self.assertEqual(count, 1000)
