#!/usr/bin/env python3
"""Tests scripts/wasm/retarget.py: what each form becomes, and which forms are refused. The last line is 'N passed, M failed'.

    tests/wasm/check_retarget.py
"""

import importlib.util
import sys
from pathlib import Path

PROGRAM = Path(__file__).resolve().parent.parent.parent / "scripts/wasm/retarget.py"
spec = importlib.util.spec_from_file_location("retarget", PROGRAM)
retarget = importlib.util.module_from_spec(spec)
spec.loader.exec_module(retarget)

# What each line of a function becomes.
REWRITTEN = {
    "  %a = load ptr, ptr %b, align 8": ["  %a.number = load i64, ptr %b, align 8", "  %a = inttoptr i64 %a.number to ptr"],
    "  %a = load ptr, ptr %b, align 1": ["  %a.number = load i64, ptr %b, align 1", "  %a = inttoptr i64 %a.number to ptr"],
    "  %a = load ptr, ptr %b, align 8, !noundef !1": [
        "  %a.number = load i64, ptr %b, align 8",
        "  %a = inttoptr i64 %a.number to ptr",
    ],
    "  store ptr %a, ptr %b, align 8": [
        "  %stored.number.1 = ptrtoint ptr %a to i64",
        "  store i64 %stored.number.1, ptr %b, align 8",
    ],
    "  store ptr @text, ptr %b, align 8": ["  store i64 ptrtoint (ptr @text to i64), ptr %b, align 8"],
    "  store ptr null, ptr %b, align 8": ["  store i64 0, ptr %b, align 8"],
    "  %a = ptrtoaddr ptr %b to i64": ["  %a = ptrtoint ptr %b to i64"],
    "  %a = load { i8, ptr }, ptr %b, align 8": [
        "  %a.first = load i8, ptr %b, align 8",
        "  %a.place = getelementptr i8, ptr %b, i64 8",
        "  %a.second.number = load i64, ptr %a.place, align 8",
        "  %a.second = inttoptr i64 %a.second.number to ptr",
        "  %a.half = insertvalue { i8, ptr } poison, i8 %a.first, 0",
        "  %a = insertvalue { i8, ptr } %a.half, ptr %a.second, 1",
    ],
}

# Lines that mean the same for both machines.
KEPT = """
  %a = load i64, ptr %b, align 8
  %a = load { ptr, i64 }, ptr %b, align 8
  %a = load <16 x i8>, ptr %b, align 1
  store i8 %a, ptr %b, align 1
  store { i64, i64 } %a, ptr %b, align 8
  store <16 x i8> splat (i8 32), ptr %b, align 1
  %a = alloca [24 x i8], align 8
  %a = getelementptr i8, ptr %b, i64 16
  %a = getelementptr inbounds nuw i8, ptr %b, i64 %c
  %a = select i1 %b, ptr %c, ptr %d
  %a = phi ptr [ %b, %c ], [ %d, %e ]
  %a = icmp eq ptr %b, %c
  %a = extractvalue { ptr, i64 } %b, 0
  %a = add nuw i64 %b, 1
  %a = call i32 @"juniper::parse"(ptr noundef %b, i64 8)
  call void @llvm.memmove.p0.p0.i64(ptr align 8 %a, ptr align 8 %b, i64 24, i1 false)
  %a = call i64 @llvm.cttz.i64(i64 %b, i1 false)
  br i1 %a, label %b, label %c
  switch i8 %a, label %b [
    i8 0, label %c
  ]
then.1:                                           ; preds = %start
"juniper::parse.exit":                            ; preds = %then.1
  ret void
  unreachable
""".strip(
    "\n"
).split(
    "\n"
)

# Lines that no module of the kit has, and that could depend on the size of a pointer, or mean something else.
REFUSED = """
  %a = load ptr, ptr %b, align 4
  %a = load volatile ptr, ptr %b, align 8
  %a = load atomic i64, ptr %b seq_cst, align 8
  %a = load { ptr, ptr }, ptr %b, align 8
  %a = load { i64, ptr }, ptr %b, align 8
  %a = load [2 x ptr], ptr %b, align 8
  %a = load <2 x ptr>, ptr %b, align 16
  %a = load double, ptr %b, align 8
  store { ptr, i64 } %a, ptr %b, align 8
  store { i8, ptr } %a, ptr %b, align 8
  store volatile i64 %a, ptr %b, align 8
  store ptr getelementptr (i8, ptr @text, i64 4), ptr %b, align 8
  store ptr %a, ptr %b, align 4
  %"a b" = load ptr, ptr %b, align 8
  store i64 ptrtoint (ptr @text to i64), ptr %b, align 8
  %a = alloca { ptr, i64 }, align 8
  %a = alloca [2 x ptr], align 8
  %a = alloca i8, i64 %b, align 1
  %a = getelementptr ptr, ptr %b, i64 1
  %a = getelementptr i64, ptr %b, i64 1
  %a = getelementptr { i64, i64 }, ptr %b, i64 0, i32 1
  %a = bitcast ptr %b to ptr
  %a = addrspacecast ptr %b to ptr addrspace(1)
  %a = ptrtoint ptr %b to i32
  %a = inttoptr i32 %b to ptr
  %a = call i32 %b(i64 1)
  %a = call i64 @llvm.objectsize.i64.p0(ptr %b, i1 false, i1 false, i1 false)
  call void @llvm.memcpy.p0.p0.i32(ptr %a, ptr %b, i32 4, i1 false)
  call void @f(ptr byval([24 x i8]) %a)
  call void asm sideeffect "nop", ""()
  %a = cmpxchg ptr %b, i64 0, i64 1 seq_cst seq_cst
  %a = atomicrmw add ptr %b, i64 1 seq_cst
  %a = invoke i32 @f() to label %b unwind label %c
  %a = fadd double %b, %c
  fence seq_cst
  resume { i8, i32 } %a
""".strip(
    "\n"
).split(
    "\n"
)

KEPT_OUTSIDE = """
; ModuleID = 'module'
source_filename = "rattle"
@text = private unnamed_addr constant [5 x i8] c"a ptr", align 1
@table = private unnamed_addr constant [2 x i32] [i32 1, i32 2], align 4
@empty = private unnamed_addr constant [0 x i8] zeroinitializer, align 1
declare void @rattle_dealloc(ptr noundef) #2
!1 = !{}
""".strip(
    "\n"
).split(
    "\n"
)

REFUSED_OUTSIDE = """
@place = private unnamed_addr constant ptr @text, align 8
@places = private unnamed_addr constant [2 x ptr] [ptr @text, ptr null], align 8
@pair = private unnamed_addr constant { ptr, i64 } { ptr @text, i64 5 }, align 8
@own = external global i64, align 8
@own = thread_local global i64 0, align 8
@other = alias i64, ptr @text
%pair = type { ptr, i64 }
declare { ptr, ptr } @f(i64)
module asm "nop"
""".strip(
    "\n"
).split(
    "\n"
)


class Checks:
    def __init__(self):
        self.passed = self.failed = 0

    def expect(self, what, found, wanted):
        if found == wanted:
            self.passed += 1
        else:
            self.failed += 1
            print(f"FAILED {what}: {found}, not {wanted}")


def of(lines):
    """What lines become, or 'refused'."""
    try:
        return retarget.retargeted(lines)
    except retarget.Refused:
        return "refused"


def inside(*lines):
    """What these lines of a function become."""
    found = of(["define void @f() #0 {", *lines, "}"])
    return found if found == "refused" else found[1:-1]


def check_variables(checks):
    """A variable of pointers alone keeps its 32 bits, and one that anything else reads or copies has 64."""
    own = ["  %v = alloca ptr, align 8", "  store ptr %a, ptr %v, align 8", "  %b = load ptr, ptr %v, align 8"]
    checks.expect("a variable of pointers", inside(*own), own)
    for other in (
        "  call void @f(ptr %v)",
        "  %c = load i64, ptr %v, align 8",
        "  store ptr %v, ptr %v, align 8",
        "  %c = getelementptr i8, ptr %v, i64 4",
    ):
        found = inside(*own, other)
        checks.expect(f"a variable and {other.strip()}", found[0], "  %v = alloca i64, align 8")
        checks.expect(f"its place and {other.strip()}", "  store i64 %stored.number.1, ptr %v, align 8" in found, True)


def check_head(checks):
    found = of(
        [
            'target datalayout = "e-m:e-p270:32:32-i64:64-S128"',
            'target triple = "x86_64-unknown-linux-gnu"',
            'attributes #0 = { nounwind "probe-stack"="inline-asm" "stack-probe-size"="4096" "target-cpu"="x86-64" }',
        ]
    )
    wanted = [
        f'target datalayout = "{retarget.LAYOUT}"',
        'target triple = "wasm32-unknown-unknown"',
        "attributes #0 = { nounwind }",
    ]
    checks.expect("the head", found, wanted)


def main():
    checks = Checks()
    for line, wanted in REWRITTEN.items():
        checks.expect(line, inside(line), wanted)
    for line in KEPT:
        checks.expect(line, inside(line), [line])
    for line in REFUSED:
        checks.expect(line, inside(line), "refused")
    for line in KEPT_OUTSIDE:
        checks.expect(line, of([line]), [line])
    for line in REFUSED_OUTSIDE:
        checks.expect(line, of([line]), "refused")
    checks.expect("a function without an end", of(["define void @f() {", "  ret void"]), "refused")
    check_variables(checks)
    check_head(checks)
    print(f"{checks.passed} passed, {checks.failed} failed")
    sys.exit(1 if checks.failed else 0)


main()
