#!/usr/bin/env python3
"""Compares include/firthnapkin.h, as it is written and as a C compiler lays it out, with the sources of the crates
firthnapkin_results and firthnapkin_calls. Those of the first have the fields of each type, their types, offsets and sizes, and the depths.
Those of the second have the calls' parameters. scripts/tables compares the header's enums. The last line is
'N passed, M failed'.

    tests/check_header.py LAYOUT    a file with the output of the program of tests/c/layout.c
"""

import re
import sys

from header import Checks, declared, defined, header, read

checks = Checks()
check = checks.check


def source(name, crate="firthnapkin_results"):
    return read(f"crates/{crate}/src/{name}.rt")


# ---- types

# For each type of a field its size and alignment, and its name in C.
SIZES = {"u32": (4, 4), "i64": (8, 8)}
C_NAMES = {"u32": "uint32_t", "i64": "int64_t", "Position": "firthnapkin_position"}
# The reserved words of limits.
SIZES.update({f"[u32; {count}]": (4 * count, 4) for count in range(8)})
C_NAMES.update({f"[u32; {count}]": f"uint32_t[{count}]" for count in range(8)})


def fields_of(name, text):
    """The fields of a struct with C's layout, each with its type."""
    body = re.search(rf"#\[repr\(C\)\][^{{]*pub struct {name} \{{(.*?)\n\}}", text, re.S)[1]
    return re.findall(r"^    pub (\w+): (\w+|\[u32; \d\]),$", body, re.M)


def laid_out(name, text):
    """The lines of layout.c for a struct with C's layout: each field at the next multiple of its alignment."""
    lines, offset, most = [], 0, 1
    word = f"firthnapkin_{name.lower()}"
    for field, kind in fields_of(name, text):
        size, alignment = SIZES[kind]
        offset += -offset % alignment
        lines.append(f"{word} {field} {offset} {size}")
        offset += size
        most = max(most, alignment)
    offset += -offset % most
    SIZES[name] = (offset, most)
    return lines + [f"{word} {offset}"]


with open(sys.argv[1], encoding="utf-8") as file:
    layout = file.read().splitlines()
for name in ("Position", "Node", "Token", "Complexity", "Error", "Limits"):
    text = source(name.lower())
    wanted = laid_out(name, text)
    word = f"firthnapkin_{name.lower()}"
    found = [line for line in layout if line.split()[0] == word]
    check(f"the number of fields of {word}", len(found), len(wanted))
    for line, other in zip(found, wanted):
        check(word, line, other)
    typed = [(field, C_NAMES[kind]) for field, kind in fields_of(name, text)]
    check(f"the types of the fields of {word}", declared(word), typed)
check("the size of a node", SIZES["Node"][0], 64)
check("the size of a token", SIZES["Token"][0], 40)
check("the size of a complexity", SIZES["Complexity"][0], 24)
check("the size of limits, which stays", SIZES["Limits"][0], 32)

# ---- limits

check("the largest depth", defined("FIRTHNAPKIN_MAX_DEPTH"), re.search(r"const MAX_DEPTH: u32 = (\d+);", source("limits"))[1])
default = re.search(r"const DEFAULT_DEPTH: usize = (\d+);", read("crates/juniper_documents/src/document/limited.rt"))[1]
# In the words after the first two 0 is no limit.
others = ["0" for field, _ in fields_of("Limits", source("limits"))[2:-1]]
check("the default limits", defined("FIRTHNAPKIN_LIMITS_DEFAULT"), f"{{{', '.join([default, 'UINT32_MAX', *others, '{0}'])}}}")

# ---- calls

C_TYPES = {
    "source: &[u8]": ["const uint8_t *source", "size_t length"],
    "limits: &Limits": ["const firthnapkin_limits *limits"],
    "max_tokens: u32": ["uint32_t max_tokens"],
    "constant: u32": ["uint32_t constant"],
    "nodes: &mut [Node]": ["firthnapkin_node *nodes", "size_t nodes_capacity"],
    "nodes_length: &mut usize": ["size_t *nodes_length"],
    "texts: &mut [u8]": ["uint8_t *texts", "size_t texts_capacity"],
    "texts_length: &mut usize": ["size_t *texts_length"],
    "complexities: &mut [Complexity]": ["firthnapkin_complexity *complexities", "size_t complexities_capacity"],
    "complexities_length: &mut usize": ["size_t *complexities_length"],
    "error: &mut Error": ["firthnapkin_error *error"],
    "error: &Error": ["const firthnapkin_error *error"],
    "buffer: &mut [u8]": ["uint8_t *buffer", "size_t buffer_capacity"],
    "buffer_length: &mut usize": ["size_t *buffer_length"],
    "tokens: &mut [Token]": ["firthnapkin_token *tokens", "size_t tokens_capacity"],
    "tokens_length: &mut usize": ["size_t *tokens_length"],
    # C has no parameter for it.
    "alloc: Global": [],
}
exported = 0
for name in (
    "parse",
    "parse_complexities",
    "parse_value",
    "parse_type",
    "message",
    "excerpt",
    "count",
    "tokens",
    "canonical",
    "version",
):
    text = source(name, "firthnapkin_calls")
    for call, parameters, result in re.findall(r'pub extern "C" fn (\w+)\((.*?)\) -> (\w+)', text, re.S):
        exported += 1
        wanted = [c for p in re.split(r",\s*", parameters.strip(" ,\n")) if p for c in C_TYPES[p.strip()]]
        prototype = re.search(rf"^uint32_t {call}\((.*?)\);", header, re.S | re.M)
        found = [" ".join(p.split()) for p in prototype[1].split(",") if p != "void"]
        check(f"the parameters of {call}", found, wanted)
        check(f"the result of {call}", "u32", result)
check("the calls of the header", len(re.findall(r"^uint32_t firthnapkin_\w+\(", header, re.M)), exported)

checks.end()
