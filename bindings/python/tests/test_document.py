"""The nodes of a document, and their values."""

import copy
import pickle
import random
import sys
import tracemalloc
import unittest
from typing import List, Optional

import firthnapkin
from firthnapkin import FirthnapkinError, Kind, Node, Step, Visitor, parse
from firthnapkin.limits import packed
from helpers import in_threads, longest_wait


def only(text: str) -> Node:
    """The node of a value."""
    return parse("{ a(b: " + text + ") }")[4]


class Nodes(unittest.TestCase):
    def test_values(self) -> None:
        text = 'query Q($v: [T! ]! = 1.5) { a(b: ["\\u00e9\\n", 7, -99999999999, true, null, E, $v], c: """\n  x\n """) ...F }'
        text += " fragment F on T { x }"
        values = [(node.kind, node.name, node.value) for node in parse(text)]
        for wanted in [
            (Kind.QUERY, "Q", None),
            (Kind.VARIABLE_DEFINITION, "v", None),
            (Kind.TYPE, None, "[T!]!"),
            (Kind.FLOAT, None, 1.5),
            (Kind.STRING, None, "é\n"),
            (Kind.INT, None, 7),
            (Kind.LARGE_INT, None, -99999999999),
            (Kind.BOOLEAN, None, True),
            (Kind.NULL, None, None),
            (Kind.ENUM, "E", "E"),
            (Kind.VARIABLE, "v", "v"),
            (Kind.BLOCK_STRING, None, "x"),
            (Kind.FRAGMENT_SPREAD, "F", None),
            (Kind.FRAGMENT_DEFINITION, "F", "T"),
        ]:
            self.assertIn(wanted, values)

    def test_numbers(self) -> None:
        """Ints of either sign, at the bounds of 32 bits and beyond, and both Booleans."""
        for text, kind, value in [
            ("-7", Kind.INT, -7),
            ("-0", Kind.INT, 0),
            ("-2147483648", Kind.INT, -2147483648),
            ("2147483647", Kind.INT, 2147483647),
            ("-2147483649", Kind.LARGE_INT, -2147483649),
            ("2147483648", Kind.LARGE_INT, 2147483648),
            ("-1.5", Kind.FLOAT, -1.5),
            ("1e308", Kind.FLOAT, 1e308),
            ("true", Kind.BOOLEAN, True),
            ("false", Kind.BOOLEAN, False),
        ]:
            with self.subTest(text=text):
                node = only(text)
                self.assertEqual((node.kind, node.value, type(node.value)), (kind, value, type(value)))
                self.assertEqual((node.text, node.name), (text, None))

    def test_numbers_that_python_does_not_take(self) -> None:
        for text in ("1e400", "-1e400", "1.5E+999"):
            node = only(text)
            self.assertEqual((node.kind, node.text), (Kind.FLOAT, text))
            with self.assertRaises(OverflowError):
                node.value
        digits = getattr(sys, "get_int_max_str_digits", lambda: 0)()
        for text in ("9" * 4300, "-" + "9" * 4300):
            self.assertEqual(only(text).value, int(text))
        text = "-" + "9" * 5000
        node = only(text)
        self.assertEqual((node.kind, node.text), (Kind.LARGE_INT, text))
        if digits == 4300:
            self.assertRaises(OverflowError, lambda: node.value)
        else:
            self.assertEqual(node.value, 1 - 10**5000)

    def test_spans(self) -> None:
        text = '# Größe 𝄞\n{ groesse: say(text: "𝄞 мир") }'
        document = parse(text)
        string = next(node for node in document if node.kind is Kind.STRING)
        self.assertEqual(text[string.start.index : string.end.index], '"𝄞 мир"')
        self.assertEqual(string.text, '"𝄞 мир"')
        self.assertEqual(text.encode()[string.start.byte : string.end.byte].decode(), string.text)
        self.assertEqual((string.start.line, string.start.column, string.value), (1, 21, "𝄞 мир"))
        self.assertEqual((string.end.line, string.end.column), (1, 28))

    def test_children_and_parents(self) -> None:
        document = parse("{ a { b(c: 1) { d } e } f } { g }")
        self.assertEqual([node.text for node in document.definitions], ["{ a { b(c: 1) { d } e } f }", "{ g }"])
        self.assertEqual([node.name for node in document[0].children], ["a", "f"])
        self.assertEqual([node.name for node in document[1].children], ["b", "e"])
        self.assertEqual([node.kind for node in document[2].children], [Kind.ARGUMENTS, Kind.FIELD])
        self.assertEqual(len(document), len(list(document)))
        self.assertEqual(document[-1].name, "g")
        self.assertEqual([node.name for node in document[-2:]], [None, "g"])
        self.assertRaises(IndexError, lambda: document[len(document)])
        self.assertRaises(IndexError, lambda: document[-len(document) - 1])
        for node in document.definitions:
            self.assertIsNone(node.parent)
        for node in document:
            for child in node.children:
                self.assertEqual(child.parent, node)
        self.assertEqual([node.parent and node.parent.index for node in document], [None, 0, 1, 2, 3, 4, 2, 1, 0, None, 9])
        self.assertNotEqual(document[1], parse(document.text)[1])

    def test_many_parents(self) -> None:
        """Each node of a document of 70,000 nodes, far more than 16 bits hold, has its parent."""
        document = parse("{" + "a { b } " * 35_000 + "} query Q { c }")
        self.assertEqual(len(document), 70_003)
        self.assertEqual([(node.index, node.name) for node in document.definitions], [(0, None), (70_001, "Q")])
        self.assertEqual([node.descendants for node in document.definitions], [70_000, 1])
        for node in document.definitions:
            self.assertIsNone(node.parent)
        self.assertEqual(document[-1].parent, document[-2])
        for index, node in enumerate(document[1:-2], 1):
            parent = node.parent
            assert parent is not None
            self.assertEqual((node.index, parent.index), (index, 0 if index % 2 else index - 1))
        self.assertEqual([node.index for node in document[0].children], list(range(1, 70_001, 2)))

    def test_equal_nodes(self) -> None:
        """Objects of the same node are one member of a set and one key. Those of other nodes and of other documents are not."""
        document, other = parse("{ a b }"), parse("{ a b }")
        nodes = [*document, *document, *other]
        self.assertEqual(len(set(nodes)), 6)
        self.assertEqual({document[1]: "a"}[document.definitions[0].children[0]], "a")
        self.assertNotIn(other[1], {document[1]: "a"})
        self.assertEqual(document[1], document[1])
        self.assertNotEqual(document[1], document[2])
        self.assertNotEqual(document[1], other[1])

    def test_copies(self) -> None:
        """Documents and nodes go to other processes, and are copied."""
        document = parse('query Q($v: [T! ]!) { a(b: "é", c: $v) } fragment F on T { x }')
        for other in (copy.copy(document), copy.deepcopy(document), pickle.loads(pickle.dumps(document))):
            self.assertEqual(other.text, document.text)
            self.assertEqual([(node.kind, node.start, node.text, node.name, node.value) for node in other],
                             [(node.kind, node.start, node.text, node.name, node.value) for node in document])  # fmt: skip
        node = pickle.loads(pickle.dumps(document[5]))
        self.assertEqual((node.index, node.kind, node.text, node.parent), (5, Kind.ARGUMENTS, document[5].text, node.document[4]))

    def test_rooms(self) -> None:
        """Texts with many nodes, and texts that need large buffers."""
        for text in ("{a(b:[" + "1 " * 9 + "])}", "{a(b:[" + "[]" * 90000 + "])}", "{" + "a " * 200000 + "}"):
            document = parse(text)
            self.assertEqual(document[0].descendants, len(document) - 1)
            self.assertEqual(document[0].end.byte, len(text))
        strings = parse("{a(b:[" + '"\\n0123456789" ' * 5000 + "])}")
        self.assertEqual({node.value for node in strings if node.kind is Kind.STRING}, {"\n0123456789"})

    def test_threads(self) -> None:
        text = "query Q { " + 'user(id: 4, b: {c: [1.5, "x"]}) { id name } ' * 500 + "}"
        found = in_threads(lambda: [(node.kind, node.text, node.value) for node in parse(text)], 20)
        self.assertEqual(found, [True] * 80)

    def test_other_threads_go_on(self) -> None:
        """While a long text is parsed or shown, another thread never waits for as long as half of that time."""
        text = ("{" + "a " * 1000000 + "}").encode()
        for call in (lambda: firthnapkin._parser.parse(text, packed(200, 2**32 - 1)), lambda: firthnapkin._parser.excerpt(text, 1000000)):
            self.assertLess(longest_wait(call), 0.5)


class Memory(unittest.TestCase):
    def taken(self, text: str, is_measured: bool) -> int:
        """The bytes that a document keeps besides its text, by Python's own count."""
        tracemalloc.start()
        try:
            before = tracemalloc.get_traced_memory()[0]
            document = parse(text, max_fields=10**6) if is_measured else parse(text)
            taken = tracemalloc.get_traced_memory()[0] - before
            self.assertEqual(document.text, text)
            return taken
        finally:
            tracemalloc.stop()

    def test_what_is_kept(self) -> None:
        """64 bytes per node, the text in UTF-8, the texts of strings and types, and 24 per operation that is measured."""
        for text, nodes, texts, operations in (
            ("{" + "a " * 10_000 + "}", 10_001, 0, 1),
            ('{ a(b: "' + "é" * 5_000 + '") }', 5, 10_000, 1),
            ("query ($v: [ " + " " * 5_000 + "T ! ]) { a }", 5, 4, 1),
            ("{a}" * 1_000, 2_000, 0, 1_000),
        ):
            wanted = 64 * nodes + len(text.encode()) + texts
            parse(text, max_fields=10**6)
            for is_measured, more in ((False, 0), (True, 24 * operations)):
                # The objects themselves take some hundred bytes.
                self.assertLess(abs(self.taken(text, is_measured) - wanted - more - 300), 300, (text[:20], is_measured))


class Visits(unittest.TestCase):
    TEXT = 'query Q($v: Int) { a(b: $v) { c } ...F } fragment F on T { d(e: "x") }'

    def test_order(self) -> None:
        """Each part is entered before and left after the parts in it."""
        seen: List[str] = []

        class All(Visitor):
            def enter(self, node: Node) -> Optional[Step]:
                seen.append(f"+{node.index}")
                return None

            def leave(self, node: Node) -> Optional[Step]:
                seen.append(f"-{node.index}")
                return None

        All().visit(parse("{ a { b } c }"))
        self.assertEqual(seen, "+0 +1 +2 -2 -1 +3 -3 -0".split())
        seen.clear()
        All().visit(parse("{ a { b } c }")[1])
        self.assertEqual(seen, "+1 +2 -2 -1".split())

    def test_kinds(self) -> None:
        names: List[Optional[str]] = []
        others: List[Kind] = []

        class Fields(Visitor):
            def enter_field(self, node: Node) -> Optional[Step]:
                names.append(node.name)
                return None

            def leave_fragment_definition(self, node: Node) -> Optional[Step]:
                names.append(node.name)
                return None

            def leave(self, node: Node) -> Optional[Step]:
                others.append(node.kind)
                return None

        document = parse(self.TEXT)
        Fields().visit(document)
        self.assertEqual(names, ["a", "c", "d", "F"])
        self.assertEqual(sorted(kind.value for kind in others),
                         sorted(node.kind.value for node in document if node.kind is not Kind.FRAGMENT_DEFINITION))  # fmt: skip

    def test_steps(self) -> None:
        seen: List[str] = []

        class Some(Visitor):
            def enter(self, node: Node) -> Optional[Step]:
                seen.append(node.kind.name)
                return Step.STOP if node.kind is Kind.FRAGMENT_DEFINITION else None

            def enter_field(self, node: Node) -> Optional[Step]:
                seen.append(str(node.name))
                return Step.SKIP

            def leave_field(self, node: Node) -> Optional[Step]:
                seen.append("a field that was passed over is left")
                return None

        Some().visit(parse(self.TEXT))
        self.assertEqual(seen, ["QUERY", "VARIABLE_DEFINITIONS", "VARIABLE_DEFINITION", "TYPE", "a", "FRAGMENT_SPREAD",
                                "FRAGMENT_DEFINITION"])

    def test_many(self) -> None:
        """A walk over more nodes than 16 bits count, and over one of the last."""
        document = parse("{" + "a " * 70_000 + "b { c } }")
        seen: List[int] = []

        class All(Visitor):
            def enter(self, node: Node) -> Optional[Step]:
                seen.append(node.index)
                return None

        All().visit(document)
        self.assertEqual(seen, list(range(70_003)))
        seen.clear()
        All().visit(document[-2])
        self.assertEqual(seen, [70_001, 70_002])

    def test_depth(self) -> None:
        """A walk over a deep text takes no more of the interpreter's stack."""
        document = parse("{a" * 1000 + "}" * 1000, depth=1000)
        count = [0]

        class Count(Visitor):
            def leave(self, node: Node) -> Optional[Step]:
                count[0] += 1
                return None

        Count().visit(document)
        self.assertEqual(count[0], 1001)
        self.assertEqual(document[-1].parent, document[999])


class EditedTexts(unittest.TestCase):
    def test_positions(self) -> None:
        """Each text has a document or an error, and the position of the error lies in the text."""
        random.seed(7)
        base = 'query Q($x: [Int!]! = [1, "a"]) @d { b: c(d: {e: $x, s: "q\\n"}) @f(a: T) { ... on T { g } ...F } }'
        base += " fragment F on T { a }"
        words = ["{", "}", "(", ")", "$x", "...", "on", '"', "\\u0041", "é", "#", "\n", "1.", "-", "@", "!", "[", "]", "a", '"""']
        trees = 0
        for _ in range(2000):
            text = base
            for _ in range(random.randrange(0, 4)):
                i = random.randrange(len(text))
                text = text[:i] + random.choice(words) + text[i + random.randrange(0, 3) :]
            try:
                document = parse(text)
            except FirthnapkinError as error:
                self.assertLessEqual(error.start.index, error.end.index)
                self.assertLessEqual(error.end.byte, len(text.encode()))
                self.assertEqual(len(text[: error.start.index].encode()), error.start.byte)
            else:
                trees += 1
                for node in document:
                    self.assertEqual(len(text[: node.start.index].encode()), node.start.byte)
                    self.assertEqual(len(text[: node.end.index].encode()), node.end.byte)
        self.assertGreater(trees, 100)
