"""In graphql-core's place: copies, pickles and the memory of documents. Skipped if graphql-core 3.2 is not installed."""

import copy
import gc
import os
import pickle
import subprocess
import sys
import tempfile
import threading
import time
import unittest
import weakref
from typing import Any, Callable, List
from unittest import mock

from graphql_texts import WHOLE, answer  # skips if graphql-core 3.2 is not installed

import graphql
from firthnapkin import _graphql_locations, graphql_core
from graphql import Source
from graphql.language import Token, ast
from graphql.language.parser import parse as own_parse

# A document of 10 KB.
LONG = "\n".join(WHOLE.replace("query ", f"query A{i}_", 1) for i in range(-(-10_000 // len(WHOLE))))
PROTOCOLS = range(2, pickle.HIGHEST_PROTOCOL + 1)

# Reads pickles of a document, of its first node and of that one's location, and compares them with graphql-core's own.
ELSEWHERE = """
import copy, importlib.util, pickle, sys
sys.path.append(sys.argv[1])
assert importlib.util.find_spec("firthnapkin") is None
import graphql
text, *pickles = pickle.load(sys.stdin.buffer)
own = graphql.parse(text)

def places(document):
    found = []
    class Places(graphql.Visitor):
        def enter(self, node, *_):
            found.append((type(node), type(node.loc), node.loc.start, node.loc.end, node.loc.start_token, node.loc.end_token))
    graphql.visit(document, Places())
    return found

for written in pickles:
    document, node, location = map(pickle.loads, written)
    wanted = own.definitions[0]
    assert document == own and node == wanted and location == wanted.loc and type(location) is graphql.Location
    assert graphql.print_ast(document) == graphql.print_ast(own)
    assert places(document) == places(own) and len(places(own)) > 100
    assert node.loc.source.body == text and node.loc.start_token.next is None
    again = pickle.loads(pickle.dumps(copy.deepcopy(document)))
    assert places(again) == places(own)
print(len(pickles))
"""


def elsewhere(given: bytes) -> str:
    """What the program above writes, or its error, in a process whose path has graphql-core alone."""
    with tempfile.TemporaryDirectory() as folder:
        for module in (graphql, sys.modules.get("typing_extensions")):
            if module is not None:
                path = str(module.__file__).replace("/__init__.py", "")
                os.symlink(path, os.path.join(folder, os.path.basename(path)))
        command = [sys.executable, "-I", "-S", "-B", "-c", ELSEWHERE, folder]
        found = subprocess.run(command, input=given, capture_output=True, check=False)
    return (found.stdout + found.stderr).decode()


def parts(document: ast.DocumentNode) -> List[Any]:
    """The document, its first definition, a name, and the locations of these."""
    definition: Any = document.definitions[0]
    nodes: List[Any] = [document, definition, definition.name]
    return nodes + [node.loc for node in nodes]


def use_tokens(document: ast.DocumentNode) -> None:
    for node in parts(document)[:3]:
        assert node.loc.start_token.start <= node.loc.end_token.end


class Pickles(unittest.TestCase):
    def test_in_a_process_without_the_package(self) -> None:
        """Whether tokens were asked for before or not, and of copies."""
        fresh, used = graphql_core.parse(WHOLE), graphql_core.parse(WHOLE)
        use_tokens(used)
        documents = [fresh, used, copy.copy(used), copy.deepcopy(fresh), copy.deepcopy(used)]
        pickles = [
            [pickle.dumps(part, protocol) for part in (document, document.definitions[0], document.definitions[0].loc)]
            for document in documents
            for protocol in PROTOCOLS
        ]
        self.assertEqual(elsewhere(pickle.dumps([WHOLE, *pickles])), f"{len(pickles)}\n")

    def test_sizes(self) -> None:
        """A pickle is at most a tenth larger than graphql-core's, and names nothing of this package."""
        for text in ("query Q {a{b}}", WHOLE, LONG):
            for protocol in PROTOCOLS:
                own, ours = own_parse(text), graphql_core.parse(text)
                for _ in range(2):
                    for own_part, part in zip(parts(own), parts(ours)):
                        written = pickle.dumps(part, protocol)
                        self.assertLessEqual(len(written), 1.1 * len(pickle.dumps(own_part, protocol)), type(part))
                        self.assertNotIn(b"firthnapkin", written)
                    use_tokens(ours)

    def test_errors(self) -> None:
        """Errors of graphql-core with nodes or a source are pickled as its own parser's are, or not at all."""
        schema = graphql.build_schema("type Query { a: Int }")
        for text in ("{ b }", "{ b", "{ a(b: 1c: 2)"):
            found = []
            for parse in (own_parse, graphql_core.parse):
                try:
                    (error,) = graphql.validate(schema, parse(text))
                except graphql.GraphQLError as raised:
                    error = raised
                found.append(answer(lambda it: str(pickle.loads(pickle.dumps(it))), error))
                self.assertNotIn(b"firthnapkin", pickle.dumps(error))
            self.assertEqual(found[0], found[1])


class Copies(unittest.TestCase):
    def test_no_token_is_made(self) -> None:
        for part in parts(graphql_core.parse(LONG)):
            with mock.patch.object(_graphql_locations, "Lexer", side_effect=AssertionError):
                for made in (copy.copy(part), copy.deepcopy(part)):
                    self.assertEqual(made, part)
                    self.assertEqual(hash(made), hash(part))
                    self.assertIs(type(made), type(part))
            if isinstance(part, ast.Location):
                self.assertIs(copy.copy(part).source, part.source)
                self.assertIsNot(copy.deepcopy(part).source, part.source)
                self.assertEqual(copy.deepcopy(part).source, part.source)

    def test_time(self) -> None:
        """A deep copy of a name in a long document takes about as long as with graphql-core's own parser."""

        def best(parse: Callable[[str], ast.DocumentNode]) -> float:
            times = []
            for _ in range(5):
                name = parts(parse(LONG))[2]
                begin = time.perf_counter()
                copy.deepcopy(name)
                times.append(time.perf_counter() - begin)
            return min(times)

        self.assertLess(best(graphql_core.parse), 5 * best(own_parse))

    def test_one_source(self) -> None:
        """All locations of a copy share a source, and so their tokens."""
        document = graphql_core.parse(WHOLE)
        use_tokens(document)
        made = copy.deepcopy(document)
        self.assertEqual({id(part.loc.source) for part in parts(made)[:3]}, {id(made.loc.source)})
        token = made.loc.start_token
        for _ in range(2):
            token = token.next
        self.assertIs(token, made.definitions[0].name.loc.start_token)
        self.assertIs(token.prev, made.definitions[0].loc.start_token)
        self.assertEqual(token, document.definitions[0].name.loc.start_token)
        self.assertIsNot(token, document.definitions[0].name.loc.start_token)
        self.assertEqual((made.loc.start_token.kind.name, made.loc.end_token.kind.name), ("SOF", "EOF"))

    def test_equality(self) -> None:
        """Locations of both parsers, and of pickles, are equal and hash alike."""
        own, ours = parts(own_parse(WHOLE)), parts(graphql_core.parse(WHOLE))
        for a, b in zip(own, ours):
            for other in (b, pickle.loads(pickle.dumps(b)), copy.deepcopy(b)):
                self.assertTrue(a == other and other == a and hash(a) == hash(other))
        self.assertEqual(ours[4], (ours[4].start, ours[4].end))
        self.assertNotEqual(ours[4], ours[5])


class Sources(unittest.TestCase):
    def test_nothing_is_set(self) -> None:
        source = Source(WHOLE)
        document = graphql_core.parse(source)
        use_tokens(document)
        pickle.dumps(document)
        self.assertEqual(vars(source), {})

    def test_a_source_of_two_documents(self) -> None:
        """Its tokens stay as long as it does, and another body has others."""
        source = Source("{ a b }")
        first, second = graphql_core.parse(source), graphql_core.parse(source)
        token = first.definitions[0].selection_set.selections[1].loc.start_token
        del first
        gc.collect()
        self.assertIs(second.definitions[0].selection_set.selections[1].loc.start_token, token)
        source.body = "{  c d }"
        third = graphql_core.parse(source)
        self.assertEqual([it.loc.start_token.value for it in third.definitions[0].selection_set.selections], ["c", "d"])
        self.assertIs(third.loc.source, second.loc.source)

    def test_threads(self) -> None:
        """Two threads that ask for the first time at once get the same tokens."""
        document = graphql_core.parse(WHOLE)
        both = threading.Barrier(2, timeout=60)
        found: List[Token] = []

        class Slow(_graphql_locations._Tokens):
            def __init__(self, source: Source) -> None:
                super().__init__(source)
                both.wait()

        with mock.patch.object(_graphql_locations, "_Tokens", Slow):
            threads = [threading.Thread(target=lambda: found.append(document.definitions[0].loc.start_token)) for _ in range(2)]
            for thread in threads:
                thread.start()
            for thread in threads:
                thread.join()
        self.assertEqual(len(found), 2)
        self.assertIs(found[0], found[1])
        self.assertIs(document.definitions[0].loc.start_token, found[0])


class Memory(unittest.TestCase):
    def freed(self, make: Callable[[], Source]) -> None:
        """Checks that a source is freed with its tokens when nothing of a document is kept."""
        gc.collect()
        kept, tokens = len(_graphql_locations._kept), sum(type(it) is Token for it in gc.get_objects())
        source = weakref.ref(make())
        gc.collect()
        self.assertIsNone(source())
        # The tokens refer to each other.
        gc.collect()
        self.assertEqual(len(_graphql_locations._kept), kept)
        self.assertEqual(sum(type(it) is Token for it in gc.get_objects()), tokens)

    def test_documents(self) -> None:
        def unused() -> Source:
            return graphql_core.parse(WHOLE).loc.source

        def used() -> Source:
            document = graphql_core.parse(WHOLE)
            use_tokens(document)
            return document.loc.source

        def with_another_body() -> Source:
            document = graphql_core.parse(WHOLE)
            use_tokens(document)
            document.loc.source.body = WHOLE + " "
            use_tokens(document)
            return document.loc.source

        def in_a_circle() -> Source:
            """The document is an attribute of its own source."""
            document = graphql_core.parse(WHOLE)
            document.loc.source.document = document
            return document.loc.source

        def in_a_circle_with_tokens() -> Source:
            source = in_a_circle()
            use_tokens(source.document)
            return source

        def copied() -> Source:
            document = copy.deepcopy(graphql_core.parse(WHOLE))
            use_tokens(document)
            return document.loc.source

        for make in (unused, used, with_another_body, in_a_circle, in_a_circle_with_tokens, copied):
            with self.subTest(make=make.__name__):
                self.freed(make)

    def test_a_location_keeps_its_source(self) -> None:
        location = graphql_core.parse(WHOLE).definitions[0].loc
        gc.collect()
        self.assertEqual(location.start_token.value, "query")
