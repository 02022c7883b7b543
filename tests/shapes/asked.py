#!/usr/bin/env python3
"""Measures each public property and method of each part that Python's package returns for a corpus's texts, as tests/corpus.py
writes one.

    tests/shapes/asked.py CORPUS

For each text it writes a line: an object with a list for each class and name, of the time that it takes to ask it of each part of
the class, in nanoseconds, of the size of what they return, and of the number of parts. `walk` is all of it on a new document.
"""

import enum
import functools
import inspect
import json
import sys
import time
from collections.abc import Mapping, Sequence
from typing import Any, Callable, Dict, Iterator, List, Tuple

import firthnapkin as package

# What reads the source each time, and returns no part: a walk leaves it out.
READING = ("excerpt",)
# What any object can be asked, beside its properties and methods, and what a sequence can.
OF_ANY: Dict[str, Callable[[Any], Any]] = {"repr": repr, "hash": hash, "==": lambda part: part == part}
OF_SEQUENCE: Dict[str, Callable[[Any], Any]] = {"len": len, "iter": list}


def texts(path: str) -> Iterator[str]:
    with open(path, "rb") as file:
        for line in file:
            yield file.read(int(line)).decode()
            file.read(1)


def is_part(it: Any) -> bool:
    """Whether this is an object of the package, and no more than a few numbers or words."""
    return type(it).__module__.startswith("firthnapkin") and not isinstance(it, (tuple, enum.Enum, type))


@functools.lru_cache(maxsize=None)
def asked_of(kind: type) -> Dict[str, Callable[[Any], Any]]:
    """What a class has: its properties, and its methods that take nothing, or one argument, which is a name here."""
    found = {**OF_ANY, **(OF_SEQUENCE if issubclass(kind, Sequence) else {})}
    for name in dir(kind):
        member = inspect.getattr_static(kind, name)
        if name.startswith("_") or issubclass(kind, BaseException) and name in ("args", "with_traceback", "add_note"):
            continue
        if isinstance(member, property):
            found[name] = lambda part, name=name: getattr(part, name)
        elif inspect.isfunction(member):
            needed = [it for it in inspect.signature(member).parameters.values() if it.default is it.empty][1:]
            given = ["b"] * len(needed)
            if len(needed) < 2 and not any(it.kind is it.VAR_POSITIONAL for it in needed):
                found[name] = lambda part, name=name, given=given: getattr(part, name)(*given)
    return found


def answer(ask: Callable[[Any], Any], part: Any) -> Any:
    """What a part returns, or the words of its error."""
    try:
        return ask(part)
    except (ValueError, OverflowError) as error:
        return str(error)


def size_of(found: Any) -> int:
    around, size = [found], 0
    while around:
        it = around.pop()
        size += 1
        if isinstance(it, (str, bytes)):
            size += len(it)
        elif isinstance(it, Mapping):
            around += [*it.keys(), *it.values()]
        elif isinstance(it, (list, tuple)):
            around += it
    return size


def parts_of(roots: List[Any]) -> Dict[type, List[Any]]:
    """All parts that can be reached from these, each once."""
    seen, found, around = set(), {}, list(roots)
    while around:
        part = around.pop()
        if not is_part(part) or (type(part), part) in seen:
            continue
        seen.add((type(part), part))
        found.setdefault(type(part), []).append(part)
        for name, ask in asked_of(type(part)).items():
            returned = answer(ask, part) if name not in READING else None
            around += returned if isinstance(returned, list) else [returned]
    return found


def measured(call: Callable[[Any], Any], parts: List[Any]) -> Tuple[int, int, int]:
    begin = time.thread_time_ns()
    results = [answer(call, part) for part in parts]
    taken = time.thread_time_ns() - begin
    return taken, size_of(results), len(parts)


def roots_of(text: str) -> List[Any]:
    try:
        package.parse(text + " )", depth=package.MAX_DEPTH)
    except package.FirthnapkinError as error:
        return [package.parse(text, depth=package.MAX_DEPTH), package.tokens(text), error]
    raise AssertionError("an error is expected")


FUNCTIONS: Dict[str, Callable[[str], Any]] = {
    "parse": lambda text: package.parse(text, depth=package.MAX_DEPTH),
    "check": lambda text: package.check(text, depth=package.MAX_DEPTH),
    "tokens": package.tokens,
    "canonical": package.canonical,
}
# What is given the text of the first value of a document, or of its first type, and not all of it.
LITERALS: Dict[str, Callable[[str], Any]] = {
    "parse_value": lambda text: package.parse_value(text, depth=package.MAX_DEPTH),
    "parse_type": lambda text: package.parse_type(text, depth=package.MAX_DEPTH),
}
# The other public functions. Each is asked of every text.
functions = {name for name in package.__all__ if inspect.isfunction(getattr(package, name))}.difference(LITERALS)


def literals_of(text: str) -> Dict[str, str]:
    nodes = package.parse(text, depth=package.MAX_DEPTH)
    values = [node.children[0].text for node in nodes if node.kind is package.Kind.ARGUMENT]
    types = [node.text for node in nodes if node.kind is package.Kind.TYPE]
    return {name: texts[0] for name, texts in (("parse_value", values), ("parse_type", types)) if texts}


def line_of(text: str) -> Dict[str, Tuple[int, int, int]]:
    found = {name: measured(call, [text]) for name, call in FUNCTIONS.items()}
    literals = literals_of(text)
    found.update({name: measured(LITERALS[name], [literal]) for name, literal in literals.items()})
    functions.difference_update(found)
    begin = time.thread_time_ns()
    reached = parts_of([*roots_of(text), *(LITERALS[name](literal) for name, literal in literals.items())])
    walked = time.thread_time_ns() - begin
    for kind, parts in reached.items():
        found.update({f"{kind.__name__}.{name}": measured(ask, parts) for name, ask in asked_of(kind).items()})
    # What can be reached from a part includes what each returns.
    found["walk"] = (walked, sum(size for _, size, _ in found.values()), 1)
    return found


for source in texts(sys.argv[1]):
    print(json.dumps(line_of(source)), flush=True)
if functions:
    sys.exit(f"{', '.join(functions)} are not asked")
