#!/usr/bin/env python3
"""Rewrites a module of the kit's compiler, in LLVM's text, for wasm32: retarget.py IN OUT

The kit compiles for machines of 64 bits. There a pointer takes 8 bytes of memory, and each offset is a number of bytes. In wasm32
a pointer has 32 bits. So a pointer is stored as a number of 64 bits, whose high half is 0, and loaded from one: every offset and
every size stays what it is. Two structures have a pointer in them. Both parts of { ptr, i64 } are where they were, and { i8, ptr }
is loaded part by part.

Whatever else could depend on the size of a pointer is refused, and so is every form that isn't listed here. The status is then 1,
and the line is on standard error."""

import re
import sys

LAYOUT = "e-m:e-p:32:32-p10:8:8-p20:8:8-i64:64-i128:128-n32:64-S128-ni:1:10:20"
TRIPLE = "wasm32-unknown-unknown"

# What a line is about, without names and metadata. A number's type is an integer, a vector or an array of them, or a structure.
NAME = r'[%@](?:"[^"]*"|[\w.$-]+)'
LABEL = r'(?:"[^"]*"|[\w.$-]+)'
INTEGER = r"i\d+"
NUMBER = rf"(?:{INTEGER}|<\d+ x {INTEGER}>|\[\d+ x {INTEGER}\]|\{{ {INTEGER}(?:, {INTEGER})* \}})"
STRUCTURES = ("{ ptr, i64 }", "{ i8, ptr }")
# What is true of a value changes nothing of where it is.
METADATA = re.compile(r"(?:, ![\w.]+ !\d+)+$")

LOAD = re.compile(rf"^  (%[\w.]+) = load ptr, ptr ({NAME}), align ([18])$")
STORE = re.compile(rf"^  store ptr ({NAME}|null), ptr ({NAME}), align 8$")
VARIABLE = re.compile(r"^  (%[\w.]+) = alloca ptr, align 8$")
PAIR = re.compile(rf"^  (%[\w.]+) = load \{{ i8, ptr \}}, ptr ({NAME}), align 8$")
ADDRESS = re.compile(rf"^  {NAME} = ptrtoaddr ptr {NAME} to i64$")

# Instructions of one line each. What isn't about memory is the same for all machines.
MEMORY = [
    rf"load (?:{NUMBER}|\{{ ptr, i64 \}}), ptr {NAME}, align \d+",
    rf"store {NUMBER} .+, ptr {NAME}, align \d+",
    rf"alloca (?:{INTEGER}|\[\d+ x {INTEGER}\]|<\d+ x {INTEGER}>)(?:, align \d+)?",
    rf"getelementptr (?:inbounds )?(?:nuw |nusw )*i8, ptr {NAME}, i64 (?:-?\d+|{NAME})",
    rf"inttoptr i64 {NAME} to ptr",
    rf"ptrtoint ptr {NAME} to i64",
    rf"(?:(?:tail|musttail|notail) )?call .*?@(?:\"[^\"]*\"|[\w.$-]+)\(.*\)(?: #\d+)?",
    r"ret .+",
    r"br .+",
    r"switch .+",
    r"unreachable",
]
PLAIN = "add sub mul udiv sdiv urem srem shl lshr ashr and or xor zext sext trunc bitcast icmp select phi freeze"
PLAIN += " extractvalue insertvalue extractelement insertelement shufflevector"
INSTRUCTION = re.compile(rf"^  (?:{NAME} = )?(?:{'|'.join(MEMORY)}|(?:{'|'.join(PLAIN.split())}) .+)$")
# The lines of a switch, and what is between blocks.
REST = re.compile(rf"^(?:    {INTEGER} -?\d+, label %{LABEL}|  \]|{LABEL}:(?: +;.*)?|)$")
# LLVM's own functions that have sizes and places as this machine has them, or none.
INTRINSIC = re.compile(
    r"^llvm\.(?:mem(?:set\.p0|cpy\.p0\.p0|move\.p0\.p0)\.i64|trap|assume|expect\.\w+|lifetime\.(?:start|end)\.p0"
    r"|(?:cttz|ctlz|ctpop|bswap|bitreverse|abs|[us](?:min|max)|fsh[lr]|[us](?:add|sub|mul)\.with\.overflow|[us](?:add|sub)\.sat"
    r"|vector\.reduce\.\w+)\.\w+)$"
)

# Words that change what a line means, in types, operands and attributes.
FOREIGN = re.compile(
    r"\b(?:volatile|atomic|cmpxchg|atomicrmw|fence|invoke|landingpad|asm|addrspace|byval|inalloca|preallocated|personality|gc|prefix"
    r"|prologue|comdat|thread_local|float|double|half|x86_fp80|x86_mmx|va_arg|blockaddress|dso_local_equivalent|external|opaque)\b"
)
CONSTANT = re.compile(r"\b(?:getelementptr|ptrtoint|ptrtoaddr|inttoptr|bitcast|addrspacecast) (?:inbounds |nuw |nusw )*\(")
# A pointer as a part of something else.
PARTS = re.compile(r"[{\[<][^{}\[\]<>]*\bptr\b[^{}\[\]<>]*[}\]>]")

GLOBAL = re.compile(
    rf"^({NAME}) = (?:private|internal)(?: unnamed_addr| local_unnamed_addr)* (?:constant|global) {NUMBER} "
    r"(?:c\"[^\"]*\"|zeroinitializer|\[[^\[\]@]*\]|-?\d+)(?:, align \d+)?$"
)
TOP = re.compile(
    r"^(?:;.*|source_filename = .*|target (?:datalayout|triple) = .*|attributes #\d+ = \{.*\}|declare .*|define .*\{|!.*|)$"
)
# What the attributes say of another processor, and of how its stack is tested.
ATTRIBUTE = re.compile(r'"(?:probe-stack|stack-probe-size|target-cpu|target-features|tune-cpu)"="[^"]*" ?')


class Refused(Exception):
    pass


def unquoted(line):
    """A line without quoted names and texts, in which any word may be."""
    return re.sub(r'c?"[^"]*"', '""', line)


def check_words(line):
    bare = unquoted(line)
    if FOREIGN.search(bare) or CONSTANT.search(bare):
        raise Refused(f"a form that isn't known: {line}")
    if any(part not in STRUCTURES for part in PARTS.findall(bare)):
        raise Refused(f"a type with a pointer in it: {line}")


def check_instruction(line):
    """That what isn't rewritten means the same for both machines."""
    check_words(line)
    if not INSTRUCTION.match(line) and not REST.match(line):
        raise Refused(f"a form that isn't known: {line}")
    bare = unquoted(line)
    if re.search(r"\bbitcast\b", bare) and "ptr" in bare:
        raise Refused(f"a pointer as something else: {line}")
    called = re.search(r"@(llvm\.[\w.]+)\(", line)
    if called and not INTRINSIC.match(called[1]):
        raise Refused(f"a function of LLVM that isn't known: {line}")


def check_top(line):
    if line.startswith("@"):
        if not GLOBAL.match(line):
            raise Refused(f"a constant that isn't known: {line[:200]}")
    elif not TOP.match(line):
        raise Refused(f"a form that isn't known: {line[:200]}")
    elif line.startswith(("define", "declare")):
        check_words(line)


def local_pointers(lines):
    """The variables that hold pointers, and of which nothing else is done than that these are stored and loaded: of 32 bits."""
    found = {m[1] for m in map(VARIABLE.match, lines) if m}
    for line in lines:
        own, load, store = VARIABLE.match(line), LOAD.match(line), STORE.match(line)
        place = own[1] if own else load[2] if load else store[2] if store else None
        used = re.findall(NAME, line)
        if place in used:
            used.remove(place)
        found.difference_update(used)
    return found


class Function:
    """Rewrites the lines of a function."""

    def __init__(self, lines):
        self.lines = [METADATA.sub("", line) for line in lines]
        self.local = local_pointers(self.lines)
        self.stored = 0

    def store(self, value, place):
        if value == "null":
            return [f"  store i64 0, ptr {place}, align 8"]
        if value.startswith("@"):
            return [f"  store i64 ptrtoint (ptr {value} to i64), ptr {place}, align 8"]
        self.stored += 1
        number = f"%stored.number.{self.stored}"
        return [f"  {number} = ptrtoint ptr {value} to i64", f"  store i64 {number}, ptr {place}, align 8"]

    @staticmethod
    def load(name, place, alignment=8):
        return [f"  {name}.number = load i64, ptr {place}, align {alignment}", f"  {name} = inttoptr i64 {name}.number to ptr"]

    @staticmethod
    def pair(name, place):
        return [
            f"  {name}.first = load i8, ptr {place}, align 8",
            f"  {name}.place = getelementptr i8, ptr {place}, i64 8",
            *Function.load(f"{name}.second", f"{name}.place"),
            f"  {name}.half = insertvalue {{ i8, ptr }} poison, i8 {name}.first, 0",
            f"  {name} = insertvalue {{ i8, ptr }} {name}.half, ptr {name}.second, 1",
        ]

    def rewritten(self, line):
        load, store, variable, pair = LOAD.match(line), STORE.match(line), VARIABLE.match(line), PAIR.match(line)
        if variable:
            return [line] if variable[1] in self.local else [f"  {variable[1]} = alloca i64, align 8"]
        if load:
            return [line] if load[2] in self.local else self.load(*load.groups())
        if store:
            return [line] if store[2] in self.local else self.store(store[1], store[2])
        if pair:
            return self.pair(pair[1], pair[2])
        if ADDRESS.match(line):
            return [line.replace("= ptrtoaddr ptr", "= ptrtoint ptr")]
        check_instruction(line)
        return [line]

    def all(self):
        return [made for line in self.lines for made in self.rewritten(line)]


def head(line):
    """A line outside of functions."""
    check_top(line)
    if line.startswith("target datalayout"):
        return f'target datalayout = "{LAYOUT}"'
    if line.startswith("target triple"):
        return f'target triple = "{TRIPLE}"'
    return ATTRIBUTE.sub("", line) if line.startswith("attributes") else line


def retargeted(lines):
    out, body = [], None
    for line in lines:
        if body is not None and line == "}":
            out += [*Function(body).all(), line]
            body = None
        elif body is not None:
            body.append(line)
        else:
            out.append(head(line))
            if line.startswith("define"):
                body = []
    if body is not None:
        raise Refused("a function without an end")
    return out


def main(source, target):
    with open(source, encoding="utf-8") as file:
        lines = file.read().split("\n")
    try:
        made = retargeted(lines)
    except Refused as refused:
        sys.exit(f"retarget.py: {refused}")
    with open(target, "w", encoding="utf-8") as file:
        file.write("\n".join(made))


if __name__ == "__main__":
    main(*sys.argv[1:])
