"""In graphql-core's place: where `parse` is put, and what each release of 3.2 has for itself. Skipped if graphql-core 3.2 is not
installed."""

import copy
import inspect
import os
import pickle
import sys
import types
import unittest
from itertools import islice
from typing import Any
from unittest import mock

from helpers import resident
from graphql_texts import USUAL, WHOLE, answer, extension, made_texts, row_texts  # skips if graphql-core 3.2 is not installed

import graphql
from firthnapkin import graphql_core
from firthnapkin.limits import packed
from graphql.language import ast, parser
from graphql.language.parser import parse as own_parse

# A server's module, which keeps `parse` in places of each kind.
SERVER = """
import functools
from graphql import parse
import graphql

read = parse

class View:
    parse = staticmethod(parse)

parsers = {"graphql": parse}

def by_default(source, parse=parse):
    return parse

bound = functools.partial(parse, no_location=True)

def by_name():
    return parse, graphql.parse
"""


class Installed(unittest.TestCase):
    # A name of this module would be replaced, too.
    OWN = staticmethod(own_parse)

    def setUp(self) -> None:
        self.server = types.ModuleType("a_server")
        exec(SERVER, vars(self.server))
        sys.modules["a_server"] = self.server
        self.addCleanup(sys.modules.pop, "a_server")
        self.addCleanup(graphql_core.uninstall)

    def test_install(self) -> None:
        places = [(graphql, "parse"), (graphql.language, "parse"), (parser, "parse"), (sys.modules["graphql.graphql"], "parse"),
                  (self.server, "parse"), (self.server, "read")]  # fmt: skip
        graphql_core.install()
        for module, name in places:
            self.assertIs(getattr(module, name), graphql_core.parse)
        schema = graphql.build_schema("type Query { a: Int }")
        self.assertEqual(graphql.graphql_sync(schema, "{ a }", {"a": 7}).data, {"a": 7})
        self.assertIn("Syntax Error", str(graphql.graphql_sync(schema, "{ a").errors[0]))
        self.assertIn("nested deeper", str(graphql.graphql_sync(schema, "{a" * 1000).errors[0]))
        graphql_core.install()
        graphql_core.uninstall()
        for module, name in places:
            self.assertIs(getattr(module, name), self.OWN)
        self.assertEqual(graphql_core.parse("type T { a: B }"), self.OWN("type T { a: B }"))

    def test_places(self) -> None:
        """Names of modules are reached, and what is kept elsewhere isn't, as the README says."""
        graphql_core.install()
        server = self.server
        self.assertEqual(server.by_name(), (graphql_core.parse, graphql_core.parse))
        elsewhere = server.View.parse, server.parsers["graphql"], server.by_default(""), server.bound.func
        self.assertEqual(set(elsewhere), {self.OWN})
        # A module that is imported later has this package's.
        later = types.ModuleType("later")
        exec(SERVER, vars(later))
        self.assertEqual({later.View.parse, later.parsers["graphql"], later.by_default(""), later.bound.func}, {graphql_core.parse})

    def test_uninstall_puts_back_what_install_changed(self) -> None:
        """References that are not install's stay as they are, and so does what was put in its place since."""
        own = types.ModuleType("own")
        vars(own).update(chosen=graphql_core.parse, kept=self.OWN)
        with mock.patch.dict(sys.modules, {"own": own}):
            for _ in range(2):
                graphql_core.install()
                self.assertIs(own.kept, graphql_core.parse)
                later = types.ModuleType("later")
                vars(later).update(parse=graphql.parse)
                self.server.read = print
                with mock.patch.dict(sys.modules, {"later": later}):
                    graphql_core.uninstall()
                self.assertEqual((own.chosen, own.kept), (graphql_core.parse, self.OWN))
                self.assertEqual((later.parse, self.server.read, self.server.parse), (graphql_core.parse, print, self.OWN))
                self.server.read = self.OWN
            graphql_core.uninstall()
            self.assertEqual((own.chosen, graphql.parse), (graphql_core.parse, self.OWN))

    def test_modules_imported_between(self) -> None:
        """A second call reaches modules that were imported since, and one call of uninstall undoes both."""
        graphql_core.install()
        late = types.ModuleType("late")
        late.parse = self.OWN  # type: ignore[attr-defined]
        with mock.patch.dict(sys.modules, {"late": late}):
            graphql_core.install()
            self.assertIs(late.parse, graphql_core.parse)
            graphql_core.uninstall()
        self.assertEqual((late.parse, graphql.parse), (self.OWN, self.OWN))


class Options(unittest.TestCase):
    """Arguments of the installed release's `parse` beside those that this package names."""

    FURTHER = list(inspect.signature(own_parse).parameters)[4:]

    def test_schemas(self) -> None:
        """What graphql-core itself passes is accepted: build_schema has each option of its parse."""
        graphql_core.install()
        self.addCleanup(graphql_core.uninstall)
        schema = graphql.build_schema('"a" directive @d on FIELD type Query { "b" a(c: Int = 1): Int @deprecated }')
        self.assertEqual(graphql.graphql_sync(schema, "{ a }", {"a": 7}).data, {"a": 7})
        graphql.build_schema("type Query { a: Int }", no_location=True, allow_legacy_fragment_variables=True)

    def test_experimental_directives(self) -> None:
        name = "experimental_directives_on_directive_definitions"
        text = "directive @a @b on FIELD"
        if name not in self.FURTHER:
            for parse in (own_parse, graphql_core.parse):
                self.assertRaises(TypeError, parse, text, **{name: True})
            return
        for value in (True, False):
            own = answer(own_parse, text, **{name: value})
            self.assertEqual(isinstance(own, ast.DocumentNode), value)
            self.assertEqual(answer(graphql_core.parse, text, **{name: value}), own)
            self.assertEqual(answer(graphql_core.parse, text, False, None, False, value), own)
            self.assertEqual(answer(graphql_core.parse, text, max_tokens=3, **{name: value}),
                             answer(own_parse, text, max_tokens=3, **{name: value}))  # fmt: skip
            # It says nothing of requests, so these are read here.
            with mock.patch.object(graphql_core, "own_document", side_effect=AssertionError):
                self.assertEqual(graphql_core.parse(WHOLE, **{name: value}), own_parse(WHOLE))

    def test_every_option_is_passed_on(self) -> None:
        for name in self.FURTHER:
            default = inspect.signature(own_parse).parameters[name].default
            with mock.patch.object(graphql_core, "own_document", return_value="asked") as asked:
                self.assertEqual(graphql_core.parse("type T", **{name: default}), "asked")
            self.assertEqual(asked.call_args[0][1], {**USUAL, name: default})

    def test_an_option_that_is_not_known(self) -> None:
        """One that a release has and this package doesn't know is passed on, and not answered here unless it is as by default."""
        signature = inspect.signature(lambda fragment_arguments=False, more=None: None)
        with mock.patch("firthnapkin._graphql_release._FURTHER", signature):
            with mock.patch.object(graphql_core, "own_document", return_value="asked") as asked:
                self.assertEqual(graphql_core.parse("{a}", fragment_arguments=True), "asked")
                self.assertEqual(asked.call_args[0][1], {**USUAL, "fragment_arguments": True})
                self.assertEqual(graphql_core.parse("{a}", False, None, False, False, 0), "asked")
                self.assertIsInstance(graphql_core.parse("{a}", fragment_arguments=False, more=None), ast.DocumentNode)
                self.assertIsInstance(graphql_core.parse("{a}", False, None, False, False), ast.DocumentNode)

    def test_wrong_options(self) -> None:
        """An argument that the release's parse lacks is a TypeError, whatever its value, as it is in graphql-core."""
        too_many = [False] * len(self.FURTHER)
        for arguments, options in [
            ((), {"nonsense": True}), ((), {"nonsense": False}), ((), {"nonsense": None}), ((False, None, False, *too_many, False), {}),
            ((False,), {"no_location": False}), *(((False, None, False, False), {name: False}) for name in self.FURTHER[:1]),
        ]:  # fmt: skip
            for parse in (own_parse, graphql_core.parse):
                for text in ("{a}", "type T", "{ a ) }"):
                    with self.subTest(arguments=arguments, options=options):
                        self.assertRaises(TypeError, parse, text, *arguments, **options)


class Rules(unittest.TestCase):
    """What counts in each release: asked of graphql-core, and written here."""

    # A text, the numbers of its tokens and comments, and the place of the first token too many for each limit from -1. Each row has
    # it first for tokens alone, then for tokens and comments with the limit looked at at the end.
    COUNTED = [
        ("{a}", 3, 0, (0, 0, 1, 2), (0, 0, 1, 2)),
        ("", 0, 0, (), (0,)),
        ("#", 0, 1, (), (1, 1)),
        ("# a\n# b\n# c\n{ a }", 3, 3, (12, 12, 14, 16), (12, 12, 12, 12, 12, 14, 16)),
        ("#é𝄞\r{a#}#\r\n}#b\n\n#", 3, 4, (4, 4, 5, 11), (4, 4, 4, 5, 11, 11, 17, 17)),
        ('{a(b:"#",c:"""\n#\n""")#"\n}', 11, 1, None, (0, 0, 1, 2, 3, 4, 5, 9, 10, 11, 20, 24, 24)),
        ("#\r#\r\r#\n{a}", 3, 3, (7, 7, 8, 9), (7, 7, 7, 7, 7, 8, 9)),
        ("#\n,\ufeff#\n{#{\n#}\na b}#", 4, 5, (6, 6, 13, 15, 16), (6, 6, 6, 6, 13, 13, 13, 15, 16, 18)),
    ]  # fmt: skip

    @staticmethod
    def places(module: Any, text: str, limit: int) -> Any:
        found = module.document(text.encode(), len(text), packed(200), None, limit)
        return found if isinstance(found, tuple) and isinstance(found[1], bool) else None

    def test_written_rows(self) -> None:
        alone, with_comments = extension((False, False, 1)), extension((True, True, 2))
        for text, tokens, comments, first, second in self.COUNTED:
            for module, places, count in ((alone, first, tokens), (with_comments, second, tokens + comments)):
                for limit, place in enumerate(places or (), -1):
                    with self.subTest(text=text, limit=limit, count=count):
                        self.assertEqual(self.places(module, text, limit), (place, False))
                for limit in (count, count + 1, 2**32 - 1, 2**40):
                    with self.subTest(text=text, limit=limit, count=count):
                        self.assertIsNone(self.places(module, text, limit))
                found = module.document(text.encode(), len(text), packed(200), None, 2**32 - 1)
                if tokens:
                    self.assertEqual(found.token_count, count)

    def test_comments_before_tokens_alone(self) -> None:
        """A release might count comments, and not look at the limit at the end."""
        module = extension((True, False, 2))
        for text, limit, place in [("#\n{a}", 3, 4), ("#\n{a}", 2, 3), ("{a#\n}#", 3, 4), ("", -1, None), ("#", 0, None)]:
            self.assertEqual(self.places(module, text, limit), None if place is None else (place, False), (text, limit))
        for text, limit in (("{a}#", 3), ("#\n{a}#", 4)):
            found = module.document(text.encode(), len(text), packed(200), None, limit)
            self.assertEqual(found.token_count, len(text.replace("\n", "")))

    @unittest.skipUnless(os.path.exists("/proc/self/statm"), "no /proc")
    def test_nothing_is_left(self) -> None:
        """The tokens that are counted are freed, whether there are too many, or the text is no document, or it is one."""
        module = extension((True, True, 2))
        many, whole = b"} " + b"a " * 200_000 + b"#", b"{" + b"a " * 50_000 + b"}#"
        for text, limit, kind in [(many, 10**6, tuple), (many, 150_000, type(None)), (whole, 2**32 - 1, ast.DocumentNode),
                                  (b"{" + many[2:], 200_001, tuple)]:  # fmt: skip
            for i in range(14):
                self.assertIsInstance(module.document(text, len(text), packed(200), None, limit), kind)
                before = before if i > 3 else resident()
            self.assertLess(resident() - before, 2**23)

    def test_no_count(self) -> None:
        """If documents of a release have no such number, none is set."""
        found = extension((False, False, 0)).document(b"{a}", 3, packed(200), None, 9)
        self.assertNotIn("token_count", vars(found))

    @unittest.skipUnless("max_tokens" in inspect.signature(own_parse).parameters, "this graphql-core counts no tokens")
    def test_what_the_release_does(self) -> None:
        for text, *_ in self.COUNTED:
            for limit in range(-3, 15):
                with self.subTest(text=text, limit=limit):
                    own = answer(own_parse, text, max_tokens=limit)
                    self.assertEqual(answer(graphql_core.parse, text, max_tokens=limit), own)

    def test_token_count(self) -> None:
        """The number that graphql-core gives, of each text that is a document, with and without places and a limit."""
        count = 0
        for text in [*row_texts(), *islice(made_texts(), 0, None, 10), *(it[0] for it in self.COUNTED)]:
            own = answer(own_parse, text)
            if isinstance(own, ast.DocumentNode):
                count += "#" in text
                wanted = getattr(own, "token_count", None)
                for options in ({}, {"no_location": True}, {"max_tokens": 10**6}):
                    found = graphql_core.parse(text, **options)
                    self.assertEqual(getattr(found, "token_count", None), wanted, text)
        self.assertGreater(count, 100)

    def test_copies_of_the_count(self) -> None:
        own, ours = own_parse("#\n{a}#"), graphql_core.parse("#\n{a}#")
        for change in (copy.copy, copy.deepcopy, lambda it: pickle.loads(pickle.dumps(it))):
            self.assertEqual(getattr(change(ours), "token_count", None), getattr(change(own), "token_count", None))
