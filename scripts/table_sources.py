"""Compares tables.toml with the definitions in crates/, for scripts/tables: numbers, order, the texts of punctuators, and which
details have a character. The code is proved to have the definitions' numbers. A kind of literal is named by the code alone."""

import re
from pathlib import Path

CRATES = Path(__file__).resolve().parent.parent / "crates"
ERRORS = "firthnapkin_results/specs/Errors.antt"

# Where the numbers of a table are: a file, and a pattern for a name and its number.
NUMBERS = {
    "statuses": [("firthnapkin_results/src/status.rt", r"^pub const (\w+): u32 = (\d+);")],
    "kinds": [
        ("firthnapkin_results/specs/Nodes.antt", r"^kind_number kind\.(?!Scalar)(\w+) = (\d+)$"),
        ("firthnapkin_results/src/node.rt", r"ScalarForm::(\w+)(?:\(_\))? => (\d+),"),
    ],
    "tokens": [("firthnapkin_results/specs/Tokens.antt", r"^kind_number kind\.(\w+) = (\d+)$")],
    "errors": [
        (ERRORS, r"^(?:error_reason )?\(?(?:errors\.)?(\w+?)(?:_reason)?(?: t\))? = because (\d+) 0 0$"),
        (ERRORS, r"^(lexical)_reason .* = because (\d+) "),
    ],
    "details": [
        (ERRORS, r"^lexical_reason \(?(\w+).* = because 2 (\d+) "),
        ("firthnapkin_results/src/error.rt", r"^pub const (NO_DETAIL): u32 = (\d+);"),
    ],
}
# Where the order of a table's first rows is: a file, and a pattern for a name.
ORDERS = {
    "kinds": ("graphql_nodes/src/kind.rt", r"^    (?!Scalar)(\w+),$"),
    "tokens": ("graphql_lexical/src/kind.rt", r"^    (\w+),$"),
    "limits": ("firthnapkin_results/src/limits.rt", r"^    pub (\w+): u32,$"),
    "complexity": ("firthnapkin_results/specs/Complexities.antt", r"^  (\w+) = saturated found\.complexity\."),
}
TEXTS = ("graphql_lexical/specs/Kinds.antt", r'^spelling (\w+) = Fixed \(codes "(.*)"\)$')
CHARACTERS = (ERRORS, r"^lexical_reason \((\w+) c\) = because .* c$")


def found(file, pattern):
    return re.findall(pattern, (CRATES / file).read_text(encoding="utf-8"), re.M)


def plain(name):
    return name.replace("_", "").lower()


def compared(tables):
    """For each comparison whether it holds, and otherwise what is wrong."""
    named = {name: {plain(row.get("defined", row["name"])): row for row in table["rows"]} for name, table in tables.items()}
    for name, table in tables.items():
        numbers = [row["number"] for row in table["rows"]]
        yield numbers == list(range(len(numbers))), f"tables.toml: {name} have the numbers {numbers}, not those from 0 on"
        yield len(named[name]) == len(numbers), f"tables.toml: two of {name} have one name"
    for name, places in NUMBERS.items():
        there = {plain(word): int(number) for place in places for word, number in found(*place)}
        numbers = {word: row["number"] for word, row in named[name].items()}
        differing = sorted({word for word, _ in there.items() ^ numbers.items()})
        yield not differing, f"tables.toml: the definitions have other {name}: {', '.join(differing)}"
    for name, place in ORDERS.items():
        # The end of the source is the last kind of a token, and has the first number.
        order = sorted(map(plain, found(*place)), key=lambda word: word != "endoffile")
        rows = [word for word, row in named[name].items() if name != "kinds" or row["number"] < len(order)]
        yield order == rows, f"tables.toml: {name} are not in the order of {place[0]}"
    texts = {plain(name): f"`{text}`" for name, text in found(*TEXTS)}
    words = {name: row["words"] for name, row in named["tokens"].items() if "`" in row["words"]}
    yield words == texts, f"tables.toml: the words of punctuators are not their texts in {TEXTS[0]}"
    characters = {name for name, row in named["details"].items() if "character" in row}
    yield characters == {plain(it) for it in found(*CHARACTERS)}, f"tables.toml: other details have a character in {ERRORS}"
