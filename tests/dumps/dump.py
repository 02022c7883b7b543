#!/usr/bin/env python3
"""Writes what Python's package exposes of each text of a corpus, as tests/c/dump.c does of the library.

    tests/dumps/dump.py CORPUS
"""

import json
import struct
import sys
from typing import Any, Callable, Dict, Iterator, List, Optional

import firthnapkin as package


def texts(path: str) -> Iterator[str]:
    with open(path, "rb") as file:
        for line in file:
            yield file.read(int(line)).decode()
            file.read(1)


def or_error(call: Callable[[], Any]) -> Any:
    try:
        return call()
    except package.FirthnapkinError as error:
        return error_of(error)


def error_of(error: package.FirthnapkinError) -> Dict[str, Any]:
    return {
        "kind": error.kind.name.lower(),
        "detail": None if error.detail is package.ErrorDetail.NONE else error.detail.name.lower(),
        "character": 0 if error.character is None else ord(error.character),
        "message": error.message,
        "start": error.start,
        "end": error.end,
        "line": error.line,
        "column": error.column,
        "excerpt": error.excerpt,
    }


# Of a source of more bytes parts have no excerpts, and the last tokens and nodes are written.
LONG, LAST = 10_000, 100


is_long = False


def last_of(items: Any) -> Any:
    return items[-LAST:] if is_long else items


def tokens_of(text: str) -> List[Any]:
    tokens = last_of(package.tokens(text))
    return [[it.kind.name.lower(), it.start, it.end, it.line, it.column, it.text, it.unquoted] for it in tokens]


WITH_VALUE = ("INT", "BOOLEAN", "FRAGMENT_DEFINITION", "TYPE", "STRING", "BLOCK_STRING")


def node_of(node: package.Node) -> List[Any]:
    value = node.value if node.kind.name in WITH_VALUE else None
    children = [it.index for it in node.children]
    return [node.kind.name.lower(), node.descendants, node.start, node.end, node.text, node.name, value, children]


def value_of(value: Any) -> Any:
    if value is None or isinstance(value, bool):
        return value
    if isinstance(value, int):
        return {"int": str(value)}
    if isinstance(value, float):
        return {"float": struct.pack(">d", value).hex()}
    if isinstance(value, package.EnumValue):
        return {"enum": value.name}
    if isinstance(value, package.Variable):
        return {"variable": value.name}
    if isinstance(value, list):
        return [value_of(it) for it in value]
    if isinstance(value, dict):
        return {"object": [[key, value_of(value[key])] for key in sorted(value)]}
    return value


def part(it: Any, **more: Any) -> Dict[str, Any]:
    excerpt = None if is_long else it.excerpt
    return {"node": it.node.index, "line": it.line, "column": it.column, "text": it.text, "excerpt": excerpt, **more}


def arguments(it: Any) -> List[Any]:
    return [part(argument, name=argument.name, value=value_of(argument.value)) for argument in it.arguments]


def directives(it: Any) -> List[Any]:
    return [part(directive, name=directive.name, arguments=arguments(directive)) for directive in it.directives]


def selections(it: Any) -> List[Any]:
    return [selection(inner) for inner in it.selections]


def selection(it: Any) -> Dict[str, Any]:
    kind = it.node.kind.name.lower()
    if isinstance(it, package.FragmentSpread):
        return part(it, name=it.name, kind=kind, directives=directives(it))
    if isinstance(it, package.InlineFragment):
        return part(it, name=it.type_condition, kind=kind, directives=directives(it), selections=selections(it))
    keys = {"alias": it.alias, "key": it.response_key, "arguments": arguments(it)}
    return part(it, name=it.name, kind=kind, **keys, directives=directives(it), selections=selections(it))


def variable(it: package.VariableDefinition) -> Dict[str, Any]:
    default = [value_of(it.default_value)] if it.has_default_value else []
    return part(it, name=it.name, type=it.type, default=default, directives=directives(it))


def operation(it: package.Operation) -> Dict[str, Any]:
    return part(
        it,
        name=it.name,
        kind=it.kind.name.lower(),
        complexity=or_error(lambda: it.complexity),
        variables=[variable(inner) for inner in it.variables],
        directives=directives(it),
        selections=selections(it),
    )


def fragment(it: package.Fragment) -> Dict[str, Any]:
    return part(it, name=it.name, type=it.type_condition, directives=directives(it), selections=selections(it))


def document_of(document: package.Document) -> Dict[str, Any]:
    return {
        "nodes": [node_of(it) for it in last_of(document)],
        "definitions": [it.index for it in document.definitions],
        "operations": [operation(it) for it in document.operations],
        "fragments": [fragment(it) for it in document.fragments],
    }


def value_alone(text: str) -> Dict[str, Any]:
    found = package.parse_value(text)
    return part(found, nodes=[node_of(it) for it in last_of(found.document)], value=value_of(found.value))


def type_alone(text: str) -> Dict[str, Any]:
    found = package.parse_type(text)
    return part(found, nodes=[node_of(it) for it in last_of(found.document)], type=found.type)


def line_of(text: str) -> Dict[str, Any]:
    document: Optional[package.Document] = None
    error = within = None
    try:
        document = package.parse(text)
    except package.FirthnapkinError as found:
        error = error_of(found)
    try:
        package.parse(text, depth=3, max_tokens=20)
    except package.FirthnapkinError as found:
        within = error_of(found)
    return {
        "tokens": or_error(lambda: tokens_of(text)),
        "canonical": or_error(lambda: package.canonical(text)),
        "error": error,
        "within": within,
        "value": or_error(lambda: value_alone(text)),
        "constant": or_error(lambda: package.parse_value(text, constant=True, depth=3, max_tokens=20) and None),
        "type": or_error(lambda: type_alone(text)),
        "document": document and document_of(document),
    }


for text in texts(sys.argv[1]):
    is_long = len(text.encode()) > LONG
    sys.stdout.buffer.write(json.dumps(line_of(text), ensure_ascii=False, separators=(",", ":")).encode() + b"\n")
