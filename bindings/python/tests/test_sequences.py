"""Documents, nodes and tokens as objects of Python: sequences, attributes, references."""

import copy
import gc
import operator
import pickle
import unittest
import weakref
from collections.abc import Sequence

from firthnapkin import Nodes, parse, tokens


class Two:
    def __index__(self) -> int:
        return 2


class Sequences(unittest.TestCase):
    """Definitions and children, which are sequences."""

    def setUp(self) -> None:
        self.document = parse("{ a { b(c: 1) { d } e } f } query Q { g } fragment F on T { h }")

    def test_what_a_sequence_has(self) -> None:
        definitions, children = self.document.definitions, self.document[0].children
        for nodes, names in ((definitions, [None, "Q", "F"]), (children, ["a", "f"]), (self.document[-1].children, [])):
            self.assertIsInstance(nodes, Sequence)
            self.assertIsInstance(nodes, Nodes)
            self.assertEqual((len(nodes), bool(nodes)), (len(names), bool(names)))
            for _ in range(2):
                self.assertEqual([node.name for node in nodes], names)
                self.assertEqual([node.name for node in reversed(nodes)], names[::-1])
            self.assertEqual([nodes[i].name for i in range(-len(names), len(names))], names * 2)
            for i in (len(names), -len(names) - 1, 2**70):
                self.assertRaises(IndexError, lambda: nodes[i])

    def test_slices(self) -> None:
        nodes = self.document.definitions
        names = [None, "Q", "F"]
        for begin in (None, -9, -2, 0, 1, 9):
            for end in (None, -9, -1, 0, 2, 9):
                for step in (None, 1, 2, -1, -2):
                    part = nodes[begin:end:step]
                    self.assertIsInstance(part, Nodes)
                    self.assertEqual([node.name for node in part], names[begin:end:step])

    def test_members(self) -> None:
        document, nodes = self.document, self.document.definitions
        self.assertEqual([node.index for node in document if node in nodes], [node.index for node in nodes])
        self.assertEqual([nodes.index(node) for node in nodes], [0, 1, 2])
        self.assertEqual((nodes.count(nodes[1]), nodes.count(document[1])), (1, 0))
        self.assertRaises(ValueError, nodes.index, document[1])
        for other in (None, 0, "Q", document, parse(document.text)[0], tokens("a")[0]):
            self.assertNotIn(other, nodes)
        self.assertIn(document[1], document)
        self.assertNotIn(parse(document.text)[1], document)
        self.assertNotIn("a", document)

    def test_equality(self) -> None:
        """The same nodes of the same document are equal, however they were asked for."""
        document, nodes = self.document, self.document.definitions
        self.assertEqual(nodes, document.definitions)
        self.assertEqual(nodes[:], nodes)
        self.assertEqual(document[0].children[1:], document[0].children[-1:])
        self.assertEqual(len({nodes, document.definitions, nodes[:2], nodes[:-1], nodes[::-1]}), 3)
        for other in (nodes[:2], nodes[::-1], document[0].children, parse(document.text).definitions, list(nodes), None, 5):
            self.assertNotEqual(nodes, other)
        self.assertEqual(document[-1].children, document[-1].children[5:])

    def test_copies(self) -> None:
        nodes = self.document.definitions
        for other in (copy.copy(nodes), copy.deepcopy(nodes), pickle.loads(pickle.dumps(nodes))):
            self.assertEqual([node.text for node in other], [node.text for node in nodes])
        self.assertEqual(copy.copy(nodes), nodes)
        self.assertEqual((repr(nodes), repr(nodes[:1])), ("<3 nodes>", "<1 nodes>"))

    def test_wrong_indexes(self) -> None:
        """The error says what is wanted. Whatever can be used as an index is accepted."""
        for found in (self.document, self.document.definitions, tokens("a b c")):
            for index in ("a", None, 1.0, b"", (0,), object()):
                with self.assertRaises(TypeError) as raised:
                    found[index]  # type: ignore[index]
                self.assertEqual(str(raised.exception), f"an index must be an int or a slice, not {type(index).__name__}")
            self.assertEqual(found[Two()], found[2])  # type: ignore[index]
            self.assertEqual(found[True], found[1])


class Objects(unittest.TestCase):
    """What Python's own objects can do, too."""

    def test_read_only(self) -> None:
        document = parse("query Q($a: [T] = 1) { a(b: 2) { c } }")
        found = tokens("a b")
        for it, names in [
            (document[4], "index kind name value text start end children parent descendants document"),
            (found[0], "index kind unquoted text start end"),
            (document, "text definitions"),
            (found, "text"),
            (document.definitions, ""),
        ]:
            for name in names.split():
                before = getattr(it, name)
                with self.subTest(name=name), self.assertRaises(AttributeError):
                    setattr(it, name, 5)
                with self.subTest(name=name), self.assertRaises(AttributeError):
                    delattr(it, name)
                self.assertEqual(getattr(it, name), before)
            self.assertRaises(AttributeError, setattr, it, "more", 5)
        for it in (document, found, document.definitions):
            self.assertRaises(TypeError, operator.setitem, it, 0, None)
            self.assertRaises(TypeError, operator.delitem, it, 0)

    def test_weak_references(self) -> None:
        document = parse("{ a }")
        for it in (document, document[0], document.definitions, tokens("a"), tokens("a")[0]):
            self.assertIs(weakref.ref(it)(), it)
        reference = weakref.ref(document)
        del document, it
        gc.collect()
        self.assertIsNone(reference())
