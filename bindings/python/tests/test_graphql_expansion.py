"""In graphql-core's place: operations that graphql-core's own parser reads are measured as the library measures them. Skipped if
graphql-core 3.2 is not installed."""

import random
import time
import unittest
from typing import Any, Iterator, List, Tuple
from unittest import mock

from graphql_texts import WHOLE, answer, made_texts, row_texts  # skips if graphql-core 3.2 is not installed
from test_complexities import COUNTED, FAULTY, SIZES, TWO, doubled

import firthnapkin
from firthnapkin import Complexity, FirthnapkinError, graphql_core
from firthnapkin._graphql_sizes import Expansion, first_excess
from graphql import GraphQLError
from graphql.language import ast
from graphql.language.parser import parse as own_parse


def numbers_of(document: ast.DocumentNode) -> List[Complexity]:
    expansion = Expansion(document)
    return [expansion.complexity_of(it) for it in document.definitions if isinstance(it, ast.OperationDefinitionNode)]


def refusal(parse: Any, text: str, **limits: Any) -> Any:
    """The words and the place of an error, or None."""
    try:
        parse(text, **limits)
    except GraphQLError as error:
        return error.message, error.positions
    except FirthnapkinError as error:
        return f"{error.message}.", [error.start.index]
    return None


def made_request(names: List[str]) -> str:
    """A request with operations and fragments, of which some spread each other, some have one name, and some are not there."""

    def directives() -> str:
        return "".join(random.choices(("", " @a", " @b(c: 1) @d"), (6, 2, 1)))

    def selections(level: int) -> str:
        return "{ " + " ".join(selection(level) for _ in range(random.randrange(1, 4))) + " }"

    def selection(level: int) -> str:
        which = random.random()
        if which < 0.35:
            return f"...{random.choice(names)}{directives()}"
        inner = selections(level + 1) if which < 0.7 and level < 4 else ""
        if which < 0.5 and inner:
            return f"... {random.choice(('', 'on T'))}{directives()} {inner}"
        return f"{random.choice(('', 'x: '))}f{directives()} {inner}"

    parts = []
    for _ in range(random.randrange(1, 6)):
        variables = f"($a: [T!] = [1]{directives()} $b: U{directives()})" if random.random() < 0.3 else ""
        parts.append(f"query {random.choice(('', 'Q'))}{variables}{directives()} {selections(0)}")
    for name in random.choices(names, k=random.randrange(7)):
        parts.append(f"fragment {name} on T{directives()} {selections(0)}")
    random.shuffle(parts)
    return " ".join(parts)


def chain(count: int, inner: str) -> str:
    """So many fragments, each of which spreads the next one. The last one is this."""
    parts = [f"fragment F{i} on T {{ ...F{i + 1} }}" for i in range(count - 1)]
    return " ".join(["{ ...F0 }", *parts, f"fragment F{count - 1} on T {{ {inner} }}"])


def requests() -> Iterator[str]:
    """Requests that both parsers read."""
    yield from [TWO, WHOLE, doubled(1), doubled(31), doubled(32), doubled(61), doubled(200), chain(500, "a"), chain(50, "...F0")]
    yield from (text for text, _ in COUNTED)
    yield from (text for text, *_ in FAULTY)
    yield from [
        "{ a } fragment A on T { ...A ...X }", "{ ...A ...B } fragment B on T { ...X } fragment A on T { ...B }",
        "{ ...A } fragment A on T { ...B ...A } fragment B on T { b }", "{ ...A } fragment A on T { a } fragment A on T { ...X }",
        "{ ...A } query Q { ...A } fragment A on T { a { ...B } } fragment B on T { b { c } d }",
        "query($a: T @a @b, $b: [T] = [1] @c(d: [$e])) @f { a }", "query($a: T @a) { ...F } query($a: T @a @a) { ...F } fragment F on T @b { a }",
        "{" + "...on T @a {" * 90 + "a" + "}" * 91, "{" + "... {a{" * 45 + "b" + "}}" * 45 + "}", "{ x: a { ...F } ...F } fragment F on T { y: b { c } }",
    ]  # fmt: skip
    random.seed(61)
    yield from (made_request(random.choice((["A", "B", "C"], [f"F{i}" for i in range(9)]))) for _ in range(900))
    yield from random.sample([*row_texts()], 400)
    yield from random.sample([*made_texts()], 200)


class BothMeasures(unittest.TestCase):
    """The measure of graphql-core's documents and that of the library agree on each request that both parsers read."""

    def test_numbers(self) -> None:
        """Each number of each operation, or the error of the first spread that can't be expanded."""
        counted = faults = 0
        for text in requests():
            document = answer(own_parse, text)
            ours = answer(firthnapkin.parse, text)
            if not isinstance(document, ast.DocumentNode) or not isinstance(ours, firthnapkin.Document):
                continue
            fault = first_excess(document, [2**32 - 1] * 5)
            with self.subTest(text=text[:300]):
                try:
                    wanted = [it.complexity for it in ours.operations]
                except FirthnapkinError as error:
                    assert fault is not None and fault.node.loc is not None
                    self.assertEqual((fault.words, fault.node.loc.start), (error.message, error.start.index))
                    faults += 1
                    continue
                self.assertEqual((numbers_of(document), fault), (wanted, None))
                counted += len(wanted)
        self.assertGreater(counted, 500)
        self.assertGreater(faults, 300)

    def test_errors(self) -> None:
        """The words and the place of each error are those of this package's parser, with locations and without."""
        refused = 0
        random.seed(7)
        for text in requests():
            limits = {name: random.randrange(6) for name in random.sample(SIZES, random.randrange(1, 4))}
            if len(text) > 5000 or not isinstance(answer(own_parse, text), ast.DocumentNode):
                continue
            with self.subTest(text=text[:300], limits=limits):
                wanted = refusal(firthnapkin.parse, text, **limits)
                self.assertEqual(refusal(graphql_core.parse, text, **limits), wanted)
                with mock.patch.object(graphql_core, "_document", return_value=None):
                    self.assertEqual(refusal(graphql_core.parse, text, no_location=bool(refused % 2), **limits), wanted)
                refused += wanted is not None
        self.assertGreater(refused, 700)


class Numbers(unittest.TestCase):
    """What is counted in texts that only graphql-core reads. The numbers are counted by hand."""

    def test_numbers(self) -> None:
        for text, wanted in [
            ('type T { a: B @c } { a @d(x: "\\u{41}") { b } }', [(2, 0, 1, 1, 2)]),
            ("#\x01\n{ x: a ...F } fragment F on T @a { b { y: c } }", [(3, 2, 1, 2, 2)]),
            ('query @d(x: "\\ud83d\\ude00") { ...F ...F } mutation { a } fragment F on T { a @b }', [(2, 0, 3, 2, 1), (1, 0, 0, 1, 1)]),
            ("#\x01\nquery($a: T @b @c, $d: [T] = [1] @e) @f { a }", [(1, 0, 4, 1, 1)]),
            ("type T { a: B } fragment F on T { a }", []),
        ]:  # fmt: skip
            self.assertEqual(numbers_of(own_parse(text)), [Complexity(*it) for it in wanted])

    def test_fragments_with_variables(self) -> None:
        """Directives on their definitions count each time that the fragment is spread."""
        text = "{ ...F ...F a } fragment F($a: Int @b @c) on T @d { e }"
        document = own_parse(text, allow_legacy_fragment_variables=True)
        self.assertEqual(numbers_of(document), [Complexity(3, 0, 6, 3, 1)])
        found = refusal(graphql_core.parse, text, allow_legacy_fragment_variables=True, max_directives=5)
        self.assertEqual(found, ("Too many directives in an operation without a name: 6, with a limit of 5.", [0]))

    def test_directives_of_variables(self) -> None:
        """They count whichever parser reads them."""
        text = "query Q($a: Int" + " @d" * 5000 + ") { a }"
        for before in ("", "#\x01\n"):
            found = refusal(graphql_core.parse, before + text, max_directives=0)
            self.assertEqual(found, ('Too many directives in operation "Q": 5000, with a limit of 0.', [len(before)]))

    def test_largest(self) -> None:
        for count, fields in ((31, 2**31 - 1), (32, 2**32 - 1), (33, 2**32 - 1), (61, 2**32 - 1), (5000, 2**32 - 1)):
            self.assertEqual(numbers_of(own_parse(doubled(count))), [Complexity(fields, 0, 0, fields, 1)])
        words = 'Too many fields in operation "Large": 4294967295 or more, with a limit of 4294967294.'
        self.assertEqual(refusal(graphql_core.parse, "#\x01\n" + doubled(61), max_fields=2**32 - 2), (words, [3]))

    def test_time(self) -> None:
        """It is linear: neither what is nested nor what is spread often takes more."""
        for text in (doubled(6000), chain(6000, "a"), "{" + "...F " * 20000 + "} fragment F on T {" + "a " * 20000 + "}"):
            document = own_parse(text)
            begin = time.process_time()
            numbers_of(document)
            self.assertLess(time.process_time() - begin, 2)
