"""Documents made from numbers, with the complexities of their operations. These are counted here by expanding the fragments: what
is in a fragment is gone through again at each of its spreads, so no sum is kept. The rows of check_rows compare the two.
"""

import random
from typing import Iterator, List, NamedTuple, Optional, Tuple, Union

from rows import Row


class Field(NamedTuple):
    has_alias: bool
    directives: int
    inner: Optional[list]


class Spread(NamedTuple):
    name: str
    directives: int
    # The characters at which it begins and ends.
    start: int
    end: int


class Inline(NamedTuple):
    directives: int
    inner: list


Selection = Union[Field, Spread, Inline]


class Definition(NamedTuple):
    # None for an operation.
    fragment: Optional[str]
    directives: int
    inner: List[Selection]


class Fault(Exception):
    """The first spread that can't be expanded."""


class Writer:
    """Makes the definitions of a document, and its text on one line."""

    def __init__(self, number: int) -> None:
        self.random = random.Random(number)
        self.text = ""
        # Most documents have no cycle: a fragment spreads later ones alone, if their names are in order.
        self.may_cycle = self.random.random() < 0.2
        self.names = [self.random.choice("ABCDE") for _ in range(self.random.randrange(6))]

    def directives(self) -> int:
        count = self.random.choice((0, 0, 0, 1, 2))
        self.text += " @d(x: $v)" * count
        return count

    def selections(self, after: int, depth: int) -> List[Selection]:
        self.text += " {"
        made = [self.selection(after, depth) for _ in range(self.random.randrange(1, 4))]
        self.text += " }"
        return made

    def selection(self, after: int, depth: int) -> Selection:
        self.text += " "
        kind = self.random.randrange(6)
        start = len(self.text)
        if kind == 0 and depth < 3:
            self.text += "..."
            return Inline(self.directives(), self.selections(after, depth + 1))
        names = self.names if self.may_cycle else self.names[after:]
        if kind < 4 and names:
            name = "X" if self.random.random() < 0.02 else self.random.choice(names)
            self.text += "..." + name
            directives = self.directives()
            return Spread(name, directives, start, len(self.text))
        has_alias = self.random.random() < 0.3
        self.text += "a: b" if has_alias else "b"
        directives = self.directives()
        inner = self.selections(after, depth + 1) if depth < 3 and self.random.random() < 0.3 else None
        return Field(has_alias, directives, inner)

    def variables(self) -> int:
        """Variable definitions or none. Their directives are the operation's."""
        if self.random.random() < 0.7:
            return 0
        count = 0
        self.text += "("
        for i in range(self.random.randrange(1, 4)):
            self.text += f" $v{i}: [T!] = 1"
            count += self.directives()
        self.text += " )"
        return count

    def definition(self, fragment: Optional[str], after: int) -> Definition:
        self.text += f" fragment {fragment} on T" if fragment else " query Q"
        directives = 0 if fragment else self.variables()
        return Definition(fragment, directives + self.directives(), self.selections(after, 0))

    def definitions(self) -> List[Definition]:
        """The operations are among the fragments, whose order is that of their names in `names`."""
        made = [self.definition(None, 0)]
        for i, name in enumerate(self.names):
            made.append(self.definition(name, i + 1))
            if self.random.random() < 0.3:
                made.append(self.definition(None, i + 1))
        return made


class Expansion:
    """Counts what an operation has once its fragments are expanded."""

    def __init__(self, fragments: dict) -> None:
        self.fragments = fragments
        self.fields = self.aliases = self.directives = self.roots = self.depth = 0

    def go(self, selections: List[Selection], level: int, around: Tuple[str, ...]) -> None:
        for it in selections:
            self.directives += it.directives
            if isinstance(it, Field):
                self.fields += 1
                self.aliases += it.has_alias
                self.roots += level == 0
                self.depth = max(self.depth, level + 1)
                self.go(it.inner or [], level + 1, around)
            elif isinstance(it, Inline):
                self.go(it.inner, level, around)
            else:
                self.spread(it, level, around)

    def spread(self, spread: Spread, level: int, around: Tuple[str, ...]) -> None:
        fragment = self.fragments.get(spread.name)
        if fragment is None or spread.name in around:
            fault = "Unknown" if fragment is None else "Cycle"
            raise Fault(f"{spread.start}:0:{spread.start}-{spread.end}:0:{spread.end} {fault}")
        self.directives += fragment.directives
        self.go(fragment.inner, level, (*around, spread.name))


def complexities(definitions: List[Definition]) -> List[str]:
    """A line for each operation, or one for the first spread that can't be expanded."""
    fragments: dict = {}
    for it in definitions:
        if it.fragment:
            fragments.setdefault(it.fragment, it)
    lines = []
    for index, it in enumerate(definitions):
        if it.fragment is None:
            expansion = Expansion(fragments)
            expansion.directives += it.directives
            try:
                expansion.go(it.inner, 0, ())
            except Fault as fault:
                return [str(fault)]
            counts = (expansion.fields, expansion.aliases, expansion.directives, expansion.roots, expansion.depth)
            lines.append(f"{index}: " + " ".join(str(count) for count in counts))
    return lines


def doubling(count: int) -> Row:
    """Fragments that spread the next one twice: too many fields to go through, and their number by a formula."""
    each = "".join(f" fragment F{i} on T {{ a ...F{i + 1} ...F{i + 1} }}" for i in range(count))
    fields, depth = min(2**64 - 1, 2 ** (count + 1) - 1), 1
    text = "{ ...F0 }" + each + f" fragment F{count} on T {{ a }}"
    return Row(0, "complexities", text.encode(), [f"0: {fields} 0 0 {fields} {depth}"])


def chain(count: int) -> List[Row]:
    """Two documents of so many fragments, of which each is a field with the next one in it. In the first the last one is a field in
    a field, and in the other it spreads another: a cycle."""
    text = "{ ...F1 }" + "".join(f" fragment F{i} on T {{ a {{ ...F{i + 1} }} }}" for i in range(1, count))
    text += f" fragment F{count} on T {{ a {{ "
    whole = Row(0, "complexities", (text + "b } }").encode(), [f"0: {count + 1} 0 0 1 {count + 1}"])
    start, end = len(text), len(text) + len("...F7")
    around = Row(0, "complexities", (text + "...F7 } }").encode(), [f"{start}:0:{start}-{end}:0:{end} Cycle"])
    return [whole, around]


def made(count: int) -> Iterator[Row]:
    """So many made documents, those whose fields are too many to go through, and chains of fragments."""
    for number in range(count):
        writer = Writer(number)
        definitions = writer.definitions()
        yield Row(number, "complexities", writer.text.encode(), complexities(definitions))
    for fragments in (0, 1, 60, 62, 63, 64, 70):
        yield doubling(fragments)
    yield from chain(100_000)
