#!/usr/bin/env python3
"""Compares what the bindings repeat with include/firthnapkin.h: the fields of nodes, tokens and errors, the depths, the stack that
a call takes, and the limits and their defaults. scripts/tables compares the rest. The last line is 'N passed, M failed'.

    tests/check_bindings.py
"""

import re

from header import Checks, declared, defined, read

checks = Checks()
check = checks.check


def upper(name):
    """`LARGE_INT` for `LargeInt` and `largeInt`."""
    return re.sub(r"(?<=[a-z0-9])(?=[A-Z])", "_", name).upper()


def part(text, begin, end):
    """The text between two pieces of text."""
    return re.search(f"{begin}(.*?){end}", text, re.S)[1]


# ---- Python

document, error, calls, lexer, complexities = (
    read(f"bindings/python/src/firthnapkin/{it}.py") for it in ("document", "errors", "calls", "lexer", "complexities")
)
too_large = re.search(r"OPERATION_TOO_LARGE = (\d+)", read("bindings/sizes.h"))[1]
for what, text in (("kind of an error", error), ("status", calls)):
    check(f"the {what} that Python adds", re.search(r"^ *_?OPERATION_TOO_LARGE = (\d+)$", text, re.M)[1], too_large)
check("the kind of a lone surrogate", re.search(r"^    SURROGATE = (\d+)$", error, re.M)[1], "100")


def format_of(word):
    """How Python's struct writes the fields of a type of the header, up to a multiple of its largest part."""
    letters, size, largest = "", 0, 4
    for _, kind in declared(word):
        for letter, bytes_of in {"uint32_t": [("I", 4)], "int64_t": [("q", 8)]}.get(kind, [("I", 4)] * 4):
            check(f"the positions of {word} need no padding", size % bytes_of, 0)
            letters, size, largest = letters + letter, size + bytes_of, max(largest, bytes_of)
    return letters + "x" * (-size % largest)


for name, text in (("Node", document), ("Error", calls), ("Token", lexer), ("Complexity", complexities)):
    written = re.search(r'^ *(?:_ERROR|_LAYOUT) = struct\.Struct\("=(\w+)"\)$', text, re.M)[1]
    plain = re.sub(r"(\d+)([A-Za-z])", lambda it: it[2] * int(it[1]), written)
    check(f"the parts of Python's {name.lower()}", plain, format_of(f"firthnapkin_{name.lower()}"))

# ---- Rust

document, call, lexer = (read(f"bindings/rust/src/{name}.rs") for name in ("document", "call", "lexer"))
library = read("bindings/rust/src/lib.rs")
RUST_TYPES = {"u32": "uint32_t", "i64": "int64_t", "Position": "firthnapkin_position"}
for name, text in (("RawNode", document), ("RawError", call), ("RawToken", lexer), ("Position", document)):
    body = part(text, rf"#\[repr\(C\)\]\n#\[derive\([^\n]*\n(?:pub(?:\(crate\))? )?struct {name} \{{", r"\n}")
    found = [(field, RUST_TYPES[kind]) for field, kind in re.findall(r"^    (?:pub )?(\w+): (\w+),$", body, re.M)]
    check(f"the fields of Rust's {name}", found, declared(f"firthnapkin_{name.replace('Raw', '').lower()}"))
check("Rust's largest depth", re.search(r"MAX_DEPTH: u32 = (\d+);", library)[1], defined("FIRTHNAPKIN_MAX_DEPTH"))
stack = re.search(r"^    (\d+) \+ (\d+) \* depth as usize", read("bindings/rust/src/stack.rs"), re.M).groups()
check(
    "the stack that Rust gives",
    stack,
    re.search(r"\(size_t\)(\d+) \+ \(size_t\)(\d+) \*", defined("FIRTHNAPKIN_STACK_SIZE(depth)")).groups(),
)

# ---- the limits, in the header's order, and their defaults

limits = [field for field, _ in declared("firthnapkin_limits") if field != "reserved"]
for path, pattern in (
    ("python/src/firthnapkin/parser.py", r"^    (\w+): Annotated\[.*, Limit\("),
    ("go/parse.go", r"^\t(\w+) +int // how "),
    ("rust/src/lib.rs", r'^    (\w+): u32 = .*, "How .*";$'),
    ("node/lib/limits.js", r'^  (\w+): \[.*, "How .*"\],$'),
):
    # Those on operations are after these.
    own = read(f"bindings/{path}").partition("tables.toml: complexity as limits")[0]
    names = re.findall(pattern, own, re.M)
    check(f"the limits of {path}", [upper(name).lower().removeprefix("max_") for name in names], limits)
for path, pattern in (
    ("python/src/firthnapkin/parser.py", r"^    depth: Annotated\[.*\] = (\d+),"),
    ("python/src/firthnapkin/checks.py", r"^    depth: int = (\d+),"),
    ("go/parse.go", r"^\tDepth:  (\d+),$"),
    ("rust/src/lib.rs", r"DEFAULT_DEPTH: u32 = (\d+);"),
    ("node/lib/limits.js", r"depth: \[(\d+), "),
    ("node/lib/limits.js", r"from 0 to MAX_DEPTH; (\d+) if it isn't given"),
):
    check(f"the default depth of {path}", re.search(pattern, read(f"bindings/{path}"), re.M)[1], "200")
for path, pattern, wanted in (
    ("python/src/firthnapkin/parser.py", r"^    max_tokens: Annotated\[.*\] = (\w+),", "None"),
    ("go/parse.go", r"^\tTokens: (\w+),$", "AnyTokens"),
    ("go/parse.go", r"const AnyTokens = (.*)", "1<<32 - 1"),
    ("rust/src/lib.rs", r"tokens: u32 = ([\w:]+), ", "u32::MAX"),
    ("node/lib/limits.js", r"maxTokens: \[(\w+), ", "ANY"),
    ("node/lib/limits.js", r"const ANY = (.*);", "Number.MAX_SAFE_INTEGER"),
):
    check(f"the default number of tokens of {path}", re.search(pattern, read(f"bindings/{path}"), re.M)[1], wanted)

checks.end()
