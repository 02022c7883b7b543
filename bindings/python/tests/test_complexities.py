"""How large operations are, and the limits on that."""

import copy
import pickle
import unittest
from typing import Any, Dict, List, Optional, Tuple
from unittest import mock

import firthnapkin
from firthnapkin import Complexity, Document, ErrorKind, FirthnapkinError, Position, parse
from firthnapkin.limits import packed
from helpers import in_threads, limits_memory, longest_wait, process, resident

SIZES = ("max_fields", "max_aliases", "max_directives", "max_root_fields", "max_field_depth")
NOUNS = ("fields", "aliases", "directives", "root fields", "levels of fields")

# Five numbers that all differ in both operations: 8, 5, 4, 3, 2 and 4, 3, 1, 2, 1 hold for no other order.
TWO = (
    "query A @d { x: a { y: b c } ...F z: e { ...G @d } }\nfragment F on T @d { g: a { h } }\n"
    "query B { i: a ...H }\nfragment G on T { j: a @d }\nfragment H on T @d { k: a l: c m }"
)
NUMBERS = (Complexity(7, 5, 4, 3, 2), Complexity(4, 3, 1, 4, 1))

# Texts with the numbers of their operations, counted by hand.
COUNTED: List[Tuple[str, List[Tuple[int, int, int, int, int]]]] = [
    ("{a}", [(1, 0, 0, 1, 1)]),
    ("{ a a @skip(if: true) x: b { c } }", [(4, 1, 1, 3, 2)]),
    ("{ a { b { c } d } e }", [(5, 0, 0, 2, 3)]),
    ("{ x: a { y: b ... on T { z: c } } }", [(3, 3, 0, 1, 2)]),
    (
        "query ($v: [Int! ] = [1] @n) @a @b { c: a @d { b ...F @e ... @g { h } } } fragment F on T @f { i: j { k } }",
        [(5, 2, 7, 1, 3)],
    ),
    ("{ ...F ...F @a } fragment F on T @b { c @d }", [(2, 0, 5, 2, 1)]),
    ("{ ...A ...A } fragment A on T { a ...B } fragment B on T { b { c ...C } } fragment C on T { d }", [(8, 0, 0, 4, 2)]),
    ('query A { ...F } fragment F on T { a(b: "é") } mutation B { b { ...F } }', [(1, 0, 0, 1, 1), (2, 0, 0, 1, 2)]),
    ("fragment F on T { a }", []),
    ("{ ...A } fragment A on T { a } fragment A on T { b c }", [(1, 0, 0, 1, 1)]),
    ("fragment A on T { ...A ...B } { a }", [(1, 0, 0, 1, 1)]),
    (TWO, [tuple(it) for it in NUMBERS]),
    ("".join(f"query Q{i} {{ {'a ' * (i + 1)} }} fragment F{i} on T {{ a }}" for i in range(50)), [(i + 1, 0, 0, i + 1, 1) for i in range(50)]),
]  # fmt: skip

# Documents of which an operation can't be expanded, with the kind, and where the spread is.
FAULTY = [
    ("{ ...A }", ErrorKind.UNKNOWN_FRAGMENT, (2, 0, 2, 2), (6, 0, 6, 6)),
    ("{ ...A @b }", ErrorKind.UNKNOWN_FRAGMENT, (2, 0, 2, 2), (9, 0, 9, 9)),
    ("{ ...A } fragment A on T { ...A }", ErrorKind.FRAGMENT_CYCLE, (27, 0, 27, 27), (31, 0, 31, 31)),
    (
        '{ ...A }\nfragment A on T { a(x: "é𝄞") { ...B @c } }\nfragment B on T { ...A }',
        ErrorKind.FRAGMENT_CYCLE,
        (70, 2, 18, 74),
        (74, 2, 22, 78),
    ),
    ("{ ...A ...X } fragment A on T { ...Y ...A }", ErrorKind.UNKNOWN_FRAGMENT, (32, 0, 32, 32), (36, 0, 36, 36)),
    ("{ ...A ...X } fragment A on T { ...A ...Y }", ErrorKind.FRAGMENT_CYCLE, (32, 0, 32, 32), (36, 0, 36, 36)),
    ("{ a b c } query B { ...X }", ErrorKind.UNKNOWN_FRAGMENT, (20, 0, 20, 20), (24, 0, 24, 24)),
]
WORDS = {ErrorKind.UNKNOWN_FRAGMENT: "Unknown fragment", ErrorKind.FRAGMENT_CYCLE: "Fragment spread within itself"}


def doubled(count: int) -> str:
    """So many fragments, each a field and twice the next one."""
    parts = [f"fragment F{i} on T {{ a ...F{i + 1} ...F{i + 1} }}" for i in range(1, count)]
    return " ".join(["query Large { ...F1 }", *parts, f"fragment F{count} on T {{ a }}"])


def refusal(text: str, **limits: Any) -> FirthnapkinError:
    """The error of a text that is no document within limits."""
    try:
        parse(text, **limits)
    except FirthnapkinError as error:
        return error
    raise AssertionError(f"{text!r} is within {limits}")


def numbers_of(document: Document) -> List[Complexity]:
    return [operation.complexity for operation in document.operations]


class Numbers(unittest.TestCase):
    def test_numbers(self) -> None:
        """They are the same whether they are found by the parse or later."""
        for text, wanted in COUNTED:
            for limits in ({}, {"max_fields": 1000}, {"max_field_depth": 1000, "max_tokens": 5000}):
                with self.subTest(text=text, limits=limits):
                    self.assertEqual(numbers_of(parse(text, **limits)), [Complexity(*it) for it in wanted])

    def test_names(self) -> None:
        found = parse(TWO).operation("A")
        assert found is not None
        names = ("fields", "aliases", "directives", "root_fields", "depth")
        self.assertEqual({name: getattr(found.complexity, name) for name in names}, dict(zip(names, NUMBERS[0])))
        self.assertEqual(found.complexity._fields, names)

    def test_largest_number(self) -> None:
        """A number that 32 bits don't hold is the largest of them."""
        for count, fields in ((1, 1), (31, 2**31 - 1), (32, 2**32 - 1), (33, 2**32 - 1), (65, 2**32 - 1)):
            (found,) = numbers_of(parse(doubled(count)))
            self.assertEqual((found.fields, found.root_fields, found.depth), (fields, fields, 1))

    def test_deep_texts(self) -> None:
        """The numbers of a document that another depth was given for than the default one."""
        document = parse("{a" * 1000 + "}" * 1000, depth=1000)
        self.assertEqual(numbers_of(document), [Complexity(1000, 0, 0, 1, 1000)])

    def test_many(self) -> None:
        """Fragments in a chain take no stack, and more operations than there is room for at first have their numbers."""
        chain = (
            "{ ...F0 }"
            + "".join(f" fragment F{i} on T {{ a {{ ...F{i + 1} }} }}" for i in range(9999))
            + " fragment F9999 on T { a }"
        )
        self.assertEqual(numbers_of(parse(chain)), [Complexity(10000, 0, 0, 1, 10000)])
        many = "{a}" * 9999 + "{a b}"
        for document in (parse(many), parse(many, max_fields=2)):
            self.assertEqual([it.fields for it in numbers_of(document)], [1] * 9999 + [2])

    def test_copies(self) -> None:
        for document in (parse(TWO), parse(TWO, max_fields=99)):
            for other in (copy.copy(document), copy.deepcopy(document), pickle.loads(pickle.dumps(document))):
                self.assertEqual(numbers_of(other), list(NUMBERS))
        self.assertEqual(pickle.loads(pickle.dumps(NUMBERS[0])), NUMBERS[0])

    def test_threads(self) -> None:
        text = TWO * 20
        self.assertEqual(in_threads(lambda: numbers_of(parse(text)), 20), [True] * 80)
        document = parse(text)
        self.assertEqual(in_threads(lambda: numbers_of(document), 20), [True] * 80)


class Calls(unittest.TestCase):
    def calls(self, limits: Dict[str, Optional[int]]) -> Tuple[int, int]:
        """How many calls of the library a parse and the numbers of both operations take."""
        extension = firthnapkin._parser
        with mock.patch.object(extension, "parse", wraps=extension.parse) as parses:
            with mock.patch.object(extension, "complexities", wraps=extension.complexities) as others:
                document = parse(TWO, **limits)  # type: ignore[arg-type]
                self.assertEqual((parses.call_count, others.call_count), (1, 0))
                self.assertEqual(numbers_of(document) * 2, [*NUMBERS, *NUMBERS])
                self.assertEqual(numbers_of(document), list(NUMBERS))
        return parses.call_count, others.call_count

    def test_calls(self) -> None:
        """The library is called once more if nothing was limited, and not at all if something was."""
        self.assertEqual(self.calls({}), (1, 1))
        for name in SIZES:
            self.assertEqual(self.calls({name: None}), (1, 1))
            self.assertEqual(self.calls({name: 50}), (1, 0))

    def test_statuses(self) -> None:
        """The error for each status of the library, when a number is asked for."""
        for status, wanted in (
            (7, ValueError),
            (2, SystemError),
            (3, SystemError),
            (6, SystemError),
            (8, SystemError),
            (12, SystemError),
        ):
            with mock.patch.object(firthnapkin._parser, "complexities", return_value=(status, b"", b"")):
                with self.assertRaises(wanted) as raised:
                    parse("{a}").operations[0].complexity
                self.assertNotIsInstance(raised.exception, FirthnapkinError)


class Limits(unittest.TestCase):
    def test_each(self) -> None:
        """The number itself is allowed. With a lower limit the first operation beyond it is refused, where it begins."""
        document = parse(TWO)
        for i, (name, noun) in enumerate(zip(SIZES, NOUNS)):
            numbers = [it[i] for it in NUMBERS]
            for limit in range(max(numbers) + 2):
                beyond = [number > limit for number in numbers]
                if not any(beyond):
                    self.assertEqual(numbers_of(parse(TWO, **{name: limit})), list(NUMBERS))  # type: ignore[arg-type]
                    continue
                which = beyond.index(True)
                operation, error = document.operations[which], refusal(TWO, **{name: limit})
                words = f'Too many {noun} in operation "{"AB"[which]}": {numbers[which]}, with a limit of {limit}'
                self.assertEqual((error.kind, error.message), (ErrorKind.OPERATION_TOO_LARGE, words))
                self.assertEqual((error.start, error.end), (operation.start, operation.end))
                self.assertEqual(str(error), f"{words}. At {operation.line}:{operation.column}")
                self.assertEqual(error.excerpt, operation.excerpt)

    def test_several(self) -> None:
        """The first operation comes before the second one, and its first number before the others."""
        exact = dict(zip(SIZES, (7, 5, 4, 4, 2)))
        self.assertEqual(numbers_of(parse(TWO, **exact)), list(NUMBERS))  # type: ignore[arg-type]
        for lower, noun, name in (
            (SIZES[:1], "fields", "A"),
            (SIZES[1:3], "aliases", "A"),
            (SIZES[2:], "directives", "A"),
            (SIZES[3:4], "root fields", "B"),
            (SIZES[3:], "levels of fields", "A"),
        ):
            error = refusal(TWO, **{**exact, **{it: exact[it] - 1 for it in lower}})
            self.assertTrue(error.message.startswith(f'Too many {noun} in operation "{name}": '), error.message)

    def test_words(self) -> None:
        """An operation without a name, a name of any length, and a number that 32 bits don't hold."""
        self.assertEqual(
            refusal("{ a b }", max_fields=1).message, "Too many fields in an operation without a name: 2, with a limit of 1"
        )
        for length in (1, 100, 159, 160, 161, 5000):
            error = refusal(f"query {'n' * length} {{ a }}", max_root_fields=0)
            self.assertEqual(error.message, f'Too many root fields in operation "{"n" * length}": 1, with a limit of 0')
        for limit in (0, 2**31, 2**32 - 2):
            error = refusal(doubled(61), max_fields=limit)
            self.assertEqual(error.message, f'Too many fields in operation "Large": 4294967295 or more, with a limit of {limit}')
        parse(doubled(61), max_aliases=0, max_directives=0, max_field_depth=1)

    def test_positions(self) -> None:
        text = '# é𝄞\n{ a(b: "é") } query B { a b }'
        error = refusal(text, max_fields=1)
        self.assertEqual((error.start, error.end), (Position(19, 1, 14, 24), Position(34, 1, 29, 39)))
        self.assertEqual(text[error.start.index : error.end.index], "query B { a b }")

    def test_order(self) -> None:
        """What is no document, or can't be expanded, comes first."""
        for text, limits, kind in [
            ("{ a b } {", {"max_fields": 1}, ErrorKind.UNEXPECTED_END),
            ("{ a b } ?", {"max_fields": 1}, ErrorKind.LEXICAL),
            ("{ a { b } }", {"max_fields": 1, "depth": 1}, ErrorKind.TOO_DEEP),
            ("{ a b }", {"max_fields": 1, "max_tokens": 3}, ErrorKind.TOO_MANY_TOKENS),
            ("{ a b } query B { ...X }", {"max_fields": 1}, ErrorKind.UNKNOWN_FRAGMENT),
            ("{ a b } fragment B on T { ...X }", {"max_fields": 1}, ErrorKind.OPERATION_TOO_LARGE),
        ]:
            self.assertIs(refusal(text, **limits).kind, kind, text)
        self.assertIn("schema's definition", refusal("type T { a: Int }", max_fields=1).message)

    def test_no_operation(self) -> None:
        for name in SIZES:
            self.assertEqual(len(parse("fragment F on T { a ...F ...G }", **{name: 0})), 4)  # type: ignore[arg-type]


class Spreads(unittest.TestCase):
    def test_faults(self) -> None:
        """They are refused with a limit, and otherwise when a number is asked for, each time."""
        for text, kind, start, end in FAULTY:
            with self.subTest(text=text):
                document, errors = parse(text), []
                for operation in [*document.operations, *document.operations]:
                    with self.assertRaises(FirthnapkinError) as raised:
                        operation.complexity
                    errors.append(raised.exception)
                for name in SIZES:
                    errors.append(refusal(text, **{name: 2**32 - 2}))
                    errors.append(refusal(text, **{name: 0}))
                for error in errors:
                    self.assertEqual((error.kind, error.message, error.source), (kind, WORDS[kind], text))
                    self.assertEqual((error.start, error.end), (Position(*start), Position(*end)))

    def test_unreached(self) -> None:
        """What no operation reaches isn't looked at."""
        text = "{ a } fragment A on T { ...A ...X }"
        self.assertEqual(numbers_of(parse(text, max_fields=1)), [Complexity(1, 0, 0, 1, 1)])


class Memory(unittest.TestCase):
    def test_nothing_is_kept(self) -> None:
        """Memory doesn't grow, whatever the call finds."""
        texts = (TWO, "{ ...A }", "{ a b } " * 200, doubled(61))
        before = 0
        for i in range(1500):
            if i == 300:
                before = resident()
            for text in texts:
                try:
                    parse(text, max_fields=3)
                except FirthnapkinError:
                    pass
                try:
                    parse(text).operations[0].complexity
                except FirthnapkinError:
                    pass
        self.assertLess(resident() - before, 2**22)

    @limits_memory
    def test_little_memory(self) -> None:
        """Want of memory is an error of its own, and never an answer: fragments are found with memory alone."""
        found = process(
            "import resource, firthnapkin\n"
            "text = '{' + '...F ' * 200000 + '} fragment F on T { a }'\n"
            "document = firthnapkin.parse(text)\n"
            "taken = int(open('/proc/self/statm').read().split()[0]) * resource.getpagesize()\n"
            "def tried(call):\n"
            "    try: return call()\n"
            "    except MemoryError: return 'memory'\n"
            "    except firthnapkin.FirthnapkinError as error: return str(error)\n"
            "found = set()\n"
            "for more in range(0, 2**27, 2**22):\n"
            "    resource.setrlimit(resource.RLIMIT_AS, (taken + more, resource.RLIM_INFINITY))\n"
            "    document = firthnapkin.Document(text, document._source, document._parts, document._texts, b'')\n"
            "    found.add(tried(lambda: document.operations[0].complexity.fields))\n"
            "    found.add(tried(lambda: firthnapkin.parse(text, max_fields=200000) and 200000))\n"
            "    found.add(tried(lambda: firthnapkin.parse(text, max_fields=199999)))\n"
            "print(sorted(map(str, found)))\n"
        )
        words = "Too many fields in an operation without a name: 200000, with a limit of 199999. At 1:1"
        self.assertEqual((found.returncode, found.stdout.decode()), (0, f"{sorted(['200000', words, 'memory'])}\n"), found.stderr)

    def test_other_threads_go_on(self) -> None:
        """While operations of a long text are measured, another thread never waits for as long as half of that time."""
        text = ("{" + "a " * 1000000 + "}").encode()
        limits = packed(200, 2**32 - 1, 0, 0, 0, 0, 0, 0, 2**31)
        for call in (lambda: firthnapkin._parser.parse(text, limits), lambda: firthnapkin._parser.complexities(text)):
            self.assertLess(longest_wait(call), 0.5)
