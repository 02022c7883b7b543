"""The stubs of the extensions say what the extensions have: names, parameters, types. That of _graphql_core is compared if
graphql-core 3.2 is installed."""

import ast
import importlib.util
import inspect
import os
import sys
import typing
import unittest
from types import ModuleType
from typing import Any, Callable, Dict, List, Tuple

import firthnapkin
from firthnapkin.limits import packed
from helpers import require_graphql_core

# An argument of each type that a parameter may have. The bytes are as many as limits have, which the library refuses.
SAMPLES: Dict[Any, Any] = {
    bytes: b"{a}".ljust(52), int: 5, bool: True, str: "{a}", float: 1.5, bytearray: bytearray(b"{a}"), type(None): None,
}  # fmt: skip


class Stub:
    """The stub of a module: its functions, and the types of its constants."""

    def __init__(self, module: ModuleType) -> None:
        path = os.path.join(os.path.dirname(firthnapkin.__file__), f"{module.__name__.rpartition('.')[2]}.pyi")
        with open(path, encoding="utf-8") as file:
            tree = ast.parse(file.read())
        self.names: Dict[str, Any] = {}
        self.functions = [it for it in tree.body if isinstance(it, ast.FunctionDef)]
        self.constants = {it.target.id: it.annotation for it in tree.body
                          if isinstance(it, ast.AnnAssign) and isinstance(it.target, ast.Name)}  # fmt: skip
        imports = [it for it in tree.body if isinstance(it, (ast.Import, ast.ImportFrom))]
        assert len(imports) + len(self.functions) + len(self.constants) == len(tree.body)
        exec(compile(ast.Module(imports, []), path, "exec"), self.names)

    def type_of(self, annotation: Any) -> Any:
        return eval(compile(ast.Expression(annotation), "annotation", "eval"), self.names)

    def types_of(self, name: str) -> Tuple[List[Any], Any]:
        """The types of the parameters and of the result of a function."""
        (function,) = [it for it in self.functions if it.name == name]
        returned = self.type_of(function.returns)
        return [self.type_of(it.annotation) for it in function.args.posonlyargs], returned


def is_of(value: object, wanted: Any) -> bool:
    """Whether a value is of a type: exactly, so that no bool is an int."""
    origin, arguments = typing.get_origin(wanted), typing.get_args(wanted)
    if wanted is Any:
        return True
    if origin is typing.Union:
        return any(is_of(value, it) for it in arguments)
    if origin is tuple:
        if not isinstance(value, tuple):
            return False
        kinds = arguments[:1] * len(value) if arguments[1:] == (...,) else arguments
        return len(kinds) == len(value) and all(map(is_of, value, kinds))
    return isinstance(value, type) if wanted is type else type(value) is wanted


class Compared(unittest.TestCase):
    def same_names(self, module: ModuleType) -> Stub:
        """Both have the same names, with the same parameters, of which none can be named. Constants are of their types."""
        stub = Stub(module)
        wanted = sorted([it.name for it in stub.functions] + list(stub.constants))
        self.assertEqual(wanted, sorted(name for name in dir(module) if not name.startswith("__")))
        for function in stub.functions:
            parameters = inspect.signature(getattr(module, function.name)).parameters
            self.assertEqual([it.arg for it in function.args.posonlyargs], list(parameters), function.name)
            self.assertEqual({it.kind for it in parameters.values()}, {inspect.Parameter.POSITIONAL_ONLY})
            self.assertEqual(len([it for it in ast.walk(function) if isinstance(it, ast.arg)]), len(parameters))
        for name, annotation in stub.constants.items():
            self.assertTrue(is_of(getattr(module, name), stub.type_of(annotation)), name)
        return stub

    def same_types(self, function: Callable[..., Any], kinds: List[Any], arguments: List[Any]) -> None:
        """Each parameter accepts what is of its type, and what is of another type is refused with a TypeError."""
        for i, kind in enumerate(kinds):
            for other, sample in SAMPLES.items():
                given = [*arguments[:i], sample, *arguments[i + 1 :]]
                with self.subTest(parameter=i, argument=sample):
                    # A bool is an int.
                    if other is kind or (kind is int and other is bool):
                        function(*given)
                    else:
                        self.assertRaises(TypeError, function, *given)

    def test_parser(self) -> None:
        stub = self.same_names(firthnapkin._parser)
        for name in [it.name for it in stub.functions if it.name != "packed"]:
            function, (kinds, returned) = getattr(firthnapkin._parser, name), stub.types_of(name)
            arguments = [SAMPLES[kind] for kind in kinds]
            self.same_types(function, kinds, arguments)
            for source in (b"{a}", b"?", b"\xff"):
                self.assertTrue(is_of(function(source, *arguments[1:]), returned), name)

    def test_packed(self) -> None:
        """Each parameter is of its type, and both results are returned."""
        packed_limits, (kinds, returned) = firthnapkin._parser.packed, Stub(firthnapkin._parser).types_of("packed")
        usual, rows = bytes(range(52)), bytes((1, 0, 0, 0, 7, 0, 0, 0))
        given: List[Any] = [{"a": 5}, usual, ("a",), (None,), rows]
        self.assertEqual([typing.get_origin(it) for it in typing.get_args(kinds[0])], [dict, tuple])
        self.assertEqual([typing.get_origin(it) or it for it in kinds[1:]], [type(it) for it in given[1:]])
        self.assertTrue(is_of(packed_limits(*given), returned) and is_of(None, returned))
        for a, wanted in ((5, 5), (0, 0), (7, 7), (None, usual[4])):
            for form in ({"a": a}, (a,)):
                self.assertEqual(
                    packed_limits(form, *given[1:]),
                    usual[:4] + bytes((wanted,)) + (usual[5:8] if a is None else b"\0\0\0") + usual[8:],
                )
        for b in (8, -1, 2**32, 2**64 + 5, True, 5.0, "5"):
            self.assertIsNone(packed_limits({"a": b}, *given[1:]))
            self.assertIsNone(packed_limits((b,), *given[1:]))
        self.assertIsNone(packed_limits({}, *given[1:]))
        self.assertIsNone(packed_limits((), *given[1:]))
        for i, others in enumerate(
            ((None, []), (b"", usual[:-1]), (["a"], (), ("a", "b")), ([None], ()), (b"", rows[1:], rows * 2))
        ):
            for other in others:
                with self.subTest(parameter=i, argument=other), self.assertRaises((TypeError, ValueError)):
                    packed_limits(*given[:i], other, *given[i + 1 :])
        self.assertIsNone(packed_limits(*given[:4], bytes((13,)) + rows[1:]))

    def test_graphql_core(self) -> None:
        require_graphql_core()
        from firthnapkin import _graphql_core, _graphql_nodes, _graphql_release
        from graphql.language import DocumentNode, Source

        stub = self.same_names(_graphql_core)
        kinds, returned = stub.types_of("document")
        self.assertTrue(is_of(Source("{a}"), kinds[3]) and is_of(None, kinds[3]) and not is_of("{a}", kinds[3]))
        self.same_types(_graphql_core.document, kinds[:3], [b"{a}", 3, packed(5), None, 9])
        self.same_types(lambda tokens: _graphql_core.document(b"{a}", 3, packed(5), None, tokens), kinds[4:], [9])
        found = [_graphql_core.document(text, 3, packed(1), None, 9) for text in (b"{a}", b"{{{", b"?")]
        self.assertEqual([type(it) for it in found], [DocumentNode, tuple, type(None)])
        self.assertEqual(found[1], (1, b"{ ", 2))
        found.append(_graphql_core.document(b"{a{", 3, packed(1), None, 9))
        self.assertEqual(found[-1], (2, True))
        found.append(_graphql_core.document(b"{...A}", 6, packed(1, 1, 0, 0, 0, 0, 0, 0, 1), None, 9))
        self.assertEqual(found[-1], (1, "Unknown fragment"))
        for limits in (b"", packed(1)[:32], packed(1)[:-1], packed(1) + b"\0"):
            self.assertRaises(ValueError, _graphql_core.document, b"{a}", 3, limits, None, 9)
        # Each of the types is returned.
        for kind in typing.get_args(returned):
            self.assertTrue(any(is_of(it, kind) for it in found), kind)
        self.assertTrue(all(is_of(it, returned) for it in found))
        kinds, returned = stub.types_of("setup")
        given = (_graphql_nodes.ROWS, _graphql_nodes.OPERATIONS, _graphql_release.RULES[1:])
        for argument, kind in zip(given, kinds):
            self.assertTrue(is_of(argument, kind), (argument, kind))
        self.assertIs(returned, None)
        self.assertIsNone(_graphql_core.setup(*given))


class Setup(unittest.TestCase):
    """The extension by itself checks what it is set up with."""

    def setUp(self) -> None:
        require_graphql_core()

    def fresh(self) -> Any:
        """Another object of the same extension, which isn't set up."""
        from firthnapkin import _graphql_core

        spec = _graphql_core.__spec__
        assert spec is not None and spec.loader is not None
        module = importlib.util.module_from_spec(spec)
        spec.loader.exec_module(module)
        return module

    def test_attributes_of_any_sort(self) -> None:
        """A slot, also of a class that has it from another, and an attribute that is no slot are set as Python sets them."""
        from firthnapkin._graphql_nodes import OPERATIONS, ROWS as rows
        from firthnapkin._graphql_release import RULES
        from graphql.language import ast as nodes

        class Slots(nodes.NameNode):
            __slots__ = ("first", "other")

        class Properties(nodes.NameNode):
            __slots__ = ("kept",)

            @property
            def value(self) -> Any:  # type: ignore[override]
                return self.kept

            @value.setter
            def value(self, given: Any) -> None:
                # It keeps whatever else it is given in a slot.
                self.kept = [given] if isinstance(given, str) else given

        for names, wanted in (
            ((Slots, ("loc", "value"), 2), {"loc": None, "value": "abc"}),
            ((Slots, ("loc", "value", "other", "first"), 2), {"loc": None, "value": "abc", "other": None, "first": None}),
            ((Slots, ("other", "first"), 2), {"other": None, "first": "abc"}),
            ((Slots, ("first", "other"), 2), {"first": None, "other": "abc"}),
            ((Properties, ("loc", "value"), 2), {"loc": None, "value": ["abc"]}),
        ):
            module = self.fresh()
            module.setup((names, *rows[1:]), OPERATIONS, RULES[1:])
            for _ in range(3):
                document = module.document(b"{ abc }", 7, packed(5), None, 9)
                name = document.definitions[0].selection_set.selections[0].name
                self.assertIs(type(name), names[0])
                self.assertEqual({it: getattr(name, it) for it in wanted}, wanted)
                # One reference is the object's, and one that of this call.
                self.assertEqual(sys.getrefcount(document.definitions[0].selection_set), 2)
                if names[0] is Properties:
                    self.assertEqual(sys.getrefcount(name.value[0]), 2)

    def test_wrong_classes(self) -> None:
        from firthnapkin._graphql_nodes import OPERATIONS, ROWS as rows
        from firthnapkin._graphql_release import RULES
        from graphql.language import ast as nodes

        rules = RULES[1:]

        names = ("loc", "value")
        for classes, error in [
            (rows[:-1], IndexError), (((nodes.NameNode, ("loc", "more"), 2), *rows[1:]), AttributeError), ((), IndexError),
            (((nodes.NameNode, names, 3), *rows[1:]), TypeError), (((nodes.NameNode, names, -1), *rows[1:]), TypeError),
            (((nodes.NameNode, names), *rows[1:]), TypeError), ((("NameNode", names, 2), *rows[1:]), TypeError),
            (((nodes.NameNode, ["loc", "value"], 2), *rows[1:]), TypeError), (((nodes.NameNode, names * 7, 2), *rows[1:]), TypeError),
            ((nodes.NameNode, *rows[1:]), TypeError), (list(rows), TypeError),
        ]:  # fmt: skip
            module = self.fresh()
            self.assertRaises(error, module.setup, classes, OPERATIONS, rules)
            self.assertRaises(SystemError, module.document, b"{a}", 3, packed(5), None, 9)
            module.setup(rows, OPERATIONS, rules)
            self.assertIsInstance(module.document(b"{a}", 3, packed(5), None, 9), nodes.DocumentNode)
        for arguments in ((rows, (), rules), (rows, OPERATIONS, ()), (rows, OPERATIONS, (1, 2, "3")), (rows,)):
            self.assertRaises(TypeError, self.fresh().setup, *arguments)
