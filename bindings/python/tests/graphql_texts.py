"""What the tests in graphql-core's place share. Its import skips if graphql-core 3.2 is not installed."""

import importlib.util
import os
import random
import sys
from typing import Any, Iterator, Tuple

from helpers import require_graphql_core

require_graphql_core()

from firthnapkin import _graphql_core
from firthnapkin._graphql_nodes import OPERATIONS, ROWS
from graphql import DocumentNode, GraphQLSyntaxError
from graphql.language.parser import parse as own_parse

sys.path.insert(0, os.path.join(os.path.dirname(os.path.abspath(__file__)), "..", "..", "..", "tests"))
from rows import rows

# Every kind of node, and characters beyond ASCII before names, types and braces.
WHOLE = """
query Q(# é𝄞
  $x: [ # é
    [Int!] ! , ]! = [1, "a"] @d(x: -1 y:1.5E3), $ y : T = {k: {l: null}}
) @d # {
{
  b #é
  : # é
  c(d: {e: $x, s: "q\\n\\u00e9 мир", l: [[], {}, T, true, false, $ # é
   y]}, ,f: 99999999999) @f(a: T) # é {
  {
    ... # é
      on # é
      T @i { g(h: "") }
    ... # é
    F @k
    ... @x(y: \"\"\" é
      ü
        x
    \"\"\") { y }
    ... { z: z { w } }
  }
}
fragment # é
  F # é
  on # é
  T @z { a }
mutation { m } subscription S { s } { a } query { b } mutation M @d { n }
"""

WORDS = [
    "{", "}", "(", ")", "$x", "...", "on", '"', "\\u0041", "é", "#", "\n", "1.", "-", "@", "!", "[", "]", "a", '"""', "1a",
    "\r", "\ufeff", "𝄞", "\x01", "query", "{a}", "\\ud83d\\ude00", "\\u{1F600}", " ", "$", "0", "fragment", "\x85", "\u2028",
    "\ud800", "type T { a: B }", '"d"', "&", "|", "01", "1.5", "=", ":", ",",
]  # fmt: skip

# Texts that graphql-core's own parser is asked for: one for each difference between the two, and some with errors.
ASKED = [
    "{a(b:1c:2)}", "{a(b:[1.5.c])}", "{a(b:1_:2)}", "query($a:Int @d(x:$b)){a}", "query($a:Int @d(x:[{y:$b}])){a}",
    '{a(b:"\\ud83d\\ude00")}', '{a(b:"\\u{1F600}")}', "type T { a: B }", '"d" type T { a: B }', "{a ? b}", "\ud800",
    "extend schema @d", "query($a:Int=$b){c}", '{a(b:"\x01")}', '"d" query Q { a }', '"d" fragment F on T { a }', '"d" { a }',
]  # fmt: skip


# The options that graphql-core's own parser is called with if a call gives none.
USUAL = {"no_location": False, "allow_legacy_fragment_variables": False}


def made_texts() -> Iterator[str]:
    """5,000 texts, most of them damaged."""
    random.seed(2021)
    for _ in range(5000):
        text = WHOLE
        for _ in range(random.randrange(0, 4)):
            i = random.randrange(len(text))
            text = text[:i] + random.choice(WORDS) + text[i + random.randrange(0, 3) :]
        yield text


def row_texts() -> Iterator[str]:
    for name in ("gqlcheck.rows", "peer.rows", "documents.rows", "nesting.rows"):
        for row in rows(name):
            try:
                yield row.text.decode()
            except UnicodeDecodeError:
                pass


def answer(parse: Any, *arguments: Any, **options: Any) -> Any:
    """A document, or the error that is raised. Formatting graphql-core's error fails if it cannot find the place itself."""
    try:
        return parse(*arguments, **options)
    except GraphQLSyntaxError as error:
        return type(error), error.message, error.positions
    except Exception as error:
        return type(error), str(error)


# Later releases of graphql-core read descriptions in requests.
READS_DESCRIPTIONS = isinstance(answer(own_parse, '"d" query Q { a }'), DocumentNode)
if READS_DESCRIPTIONS:
    ASKED.append('query("d" $a: Int) { a }')


def extension(rules: Tuple[bool, bool, int]) -> Any:
    """The extension as in a release with these rules, in an object of its own."""
    spec = _graphql_core.__spec__
    assert spec is not None and spec.loader is not None
    module = importlib.util.module_from_spec(spec)
    spec.loader.exec_module(module)
    module.setup(ROWS, OPERATIONS, rules)
    return module
