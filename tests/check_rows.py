"""Tests the programs gqlcheck, gqlcanon and run_calls on the rows of tests/rows.

    gqlcheck TEXT     the output of a run on the text, and the word of its end
    built WORD N      the same for a large text: how long it is, how the run ends, how many lines there are with that word, the
                      first and the last. `deep` is a field in a field, N deep; `wide` a query of N fields; `mixed` N
                      operations with all parts
    completed TEXT    the text is refused. Each line of the answer adds a further text to the text before the error and a
                      space. It says how many tokens are before the error, whether a run on the whole ends in a tree, and
                      whether these tokens are the same in it, places included
    canonical TEXT    the output of a run of gqlcanon on the text, and the word of its end

The kinds of the rows of tests/rows/calls are those of run_calls; crates/test_harness/src/kinds.rt says which there are. The
answer is the output of a run on the text. A kind that makes calls is given them, and its answer has a line for each: the call,
` -> ` and what it returns. Those of the kind `complexities` are compared with an expansion here, too: `complexities` makes documents.
One kind is made of others:

    large WORD N      a large literal: how long it is, and which calls on its value return what is expected. `string` is a
                      String of N escapes, `block_string` a block string of N lines after its first, `name` an enum value of N
                      characters after its first, `list` a list of N numbers after its first

For each text of kind `gqlcheck` that can be cut into tokens, the canonical text has to be these tokens, joined here. It has to
be its own canonical text, and to have the same tree, except for places, or to be refused alike.

For each text of kind `gqlcheck` that is refused and can be cut into tokens, a completion is looked for, too. The library for C
decides whether the text can be cut, and which tokens go on. A run of gqlcheck shows that the completed text is a document.
Tokens are cut by `cutting`.

    check_rows.py GQLCHECK GQLCANON CHECK_CALLS     the last line is 'N passed, M failed, K skipped'
"""

import ctypes
import os
import re
import subprocess
import sys
from concurrent.futures import ThreadPoolExecutor
from pathlib import Path
from typing import List, NamedTuple, Optional, Tuple

from complexities import made
from cutting import cut, joined
from rows import Row, plain, rows

ROOT = Path(__file__).resolve().parent.parent
LIBRARY = ROOT / "out/libfirthnapkin.so.0"

# How many rows of each kind there are, and how many refused texts that can be cut. A new row has to be counted here.
COMPLETION = "completion of a refused text"
SAME = "canonical text of a row"
COUNTS = {"gqlcheck": 2127, "built": 4, "completed": 8, "canonical": 29, COMPLETION: 462, SAME: 636}
COUNTS.update(lexer=73, line_table=1, value=34, const=1, document=44, within=14, limited=23, equal=25, large=4)
COUNTS.update(value_source=21, const_source=3, type_source=12)
COUNTS.update(odd_document=25, complexities=2034, bytes=2)

# Of the kinds of run_calls those whose rows make calls, with the number of their rows.
CALLS = {"cursor": 19, "requests": 7, "arguments": 12, "answer": 17, "devices": 2, "input_value": 22, "scalar": 24,
         "odd_scalar": 42, "type_literal": 4, "name": 11, "into": 4, "guide": 46}  # fmt: skip
COUNTS.update(CALLS)

# The word of a run's end, by the program's exit status. If gqlcheck ends in a tree, gqlcanon ends in a text.
ENDS = ("Tree", "Refused", "NotUtf8", "Device", "Memory", "TooDeep")
SECONDS = 20

# The tokens that may go on, in the order in which they are tried: closing ones first.
NEXT = ("}", ")", "]", ":", "null", "on", "T", "a", "$", "{")

MIXED = """query Q($v: [T!] = [1, {k: "é"}] @d) @e(x: $v) {
  b: a(x: [null, E, -1], y: {k: true}) @f { ...F }
  ... on T { c }
}
"""
BUILT = {
    "deep": lambda n: "{a" * n + "}" * n,
    "wide": lambda n: "{\n" + "someField\n" * n + "}",
    "mixed": lambda n: MIXED * n,
}


# Of each large literal what it begins with, what is repeated in it and what it ends with, and then how its value displays.
LARGE = {
    "string": ('"', r"\u0041b", '"', '"', "Ab", '"'),
    "block_string": ('"""b', "\n  b", '"""', '"b', "\nb", '"'),
    "name": ("n", "n", "", "n", "n", ""),
    "list": ("[1", " 1", "]", "[1", ", 1", "]"),
}


class Run(NamedTuple):
    """The output of a run, and the word of its end, with the text on standard error."""

    written: str
    end: str

    def text(self) -> str:
        return f"{self.written}{self.end}\n"


class Refusal(NamedTuple):
    """A refused text that can be cut: where each token before the error begins, its text, and the text up to their end."""

    tokens: List[Tuple[int, str]]
    front: str


def run(program: str, source: bytes) -> Run:
    try:
        ran = subprocess.run([program], input=source, stdout=subprocess.PIPE, stderr=subprocess.PIPE, timeout=SECONDS)
    except subprocess.TimeoutExpired:
        return Run("", f"no end within {SECONDS} seconds")
    end = ENDS[ran.returncode] if 0 <= ran.returncode < len(ENDS) else f"status {ran.returncode}"
    written, errors = (it.decode("utf-8", "backslashreplace") for it in (ran.stdout, ran.stderr))
    return Run(written, end + errors)


def refusal_of(text: str, answer: str) -> Optional[Refusal]:
    """The place where a run refuses a text; None if that is neither at a token nor at the end."""
    place = re.search(r"\. At (\d+):(\d+)\nRefused\n$", answer)
    if place is None:
        return None
    line, column = int(place[1]), int(place[2])
    fault = sum(len(before) + 1 for before in text.split("\n")[:line]) + column
    tokens = cut(text)
    if fault not in [len(text), *(begin for begin, _ in tokens)]:
        return None
    tokens = [token for token in tokens if token[0] < fault]
    end = tokens[-1][0] + len(tokens[-1][1]) if tokens else 0
    return Refusal(tokens, text[:end])


def called(calls: str, kind: str, source: bytes, *lines: str) -> str:
    """What run_calls returns for these calls on a text. Its first line says that the calls come now."""
    command = [calls, "calls", kind, *lines]
    try:
        ran = subprocess.run(command, input=source, stdout=subprocess.PIPE, stderr=subprocess.STDOUT, timeout=SECONDS)
    except subprocess.TimeoutExpired:
        return f"no end within {SECONDS} seconds\n"
    answer = ran.stdout.decode("utf-8", "backslashreplace")
    if ran.returncode or not answer.startswith("calling\n"):
        return f"status {ran.returncode}: {answer}\n"
    return answer[len("calling\n") :]


def answer_of_calls(calls: str, row: Row, wanted: List[str]) -> str:
    """The answer of a row of run_calls. What is expected says which calls are made."""
    if row.kind == "large":
        return answer_of_large(calls, row.text.decode())
    lines = [line.partition(" -> ")[0] for line in wanted] if row.kind in CALLS else []
    return called(calls, row.kind, row.text, *lines)


def answer_of_large(calls: str, text: str) -> str:
    word, _, number = text.partition(" ")
    begin, part, end, *shown = LARGE[word]
    source = (begin + part * int(number) + end).encode()
    shown = shown[0] + shown[1] * int(number) + shown[2]
    # An answer value has no enum values, and has a text instead.
    answered = f'"{shown}"' if word == "name" else shown
    wanted = [
        ("shown", "input_value", source, "display", shown),
        ("copied", "input_value", source, "try_clone", "true"),
        ("resolved", "input_value", source, "into_const {}", shown),
        ("made anew", "input_value", source, "made_anew", f"{shown}, the same but for places, unlocated"),
        ("converted", "into", shown.encode(), "values", f'"{shown}" "{shown}"'),
        ("answered", "answer", source, "display", answered),
    ]
    held = [name for name, kind, given, call, result in wanted if called(calls, kind, given, call) == f"{call} -> {result}\n"]
    return f"{len(source)} bytes\n{', '.join(held)}\n"


def answer_of_built(program: str, text: str) -> str:
    word, _, number = text.partition(" ")
    source = BUILT[word](int(number)).encode()
    lines = run(program, source).text().split("\n")[:-1]
    return "\n".join([f"{len(source)} bytes", f"{lines[-1]}, {len(lines)} lines", *lines[:1], *lines[-2:-1], ""])


def answer_of_completed(program: str, text: str, wanted: List[str]) -> str:
    refusal = refusal_of(text, run(program, text.encode()).text())
    if refusal is None:
        return "not refused, or it cannot be cut\n"
    return "".join(completed(program, refusal, line.partition(" -> ")[0]) + "\n" for line in wanted)


def completed(program: str, refusal: Refusal, further: str) -> str:
    """The line of an answer for a further text. The parts of the tree begin and end where tokens do."""
    number = len(refusal.tokens)
    whole = f"{refusal.front} {further}"
    ran = run(program, whole.encode())
    tokens = cut(whole)
    spans = re.findall(r"^\w+ (\d+) (\d+)", ran.written, re.M)
    begins, ends = {begin for begin, _ in tokens}, {begin + len(text) for begin, text in tokens}
    is_on_tokens = all(int(begin) in begins and int(end) in ends for begin, end in spans)
    is_same = tokens[:number] == refusal.tokens and is_on_tokens
    return f"{further} -> {number} tokens, tree {str(ran.end == 'Tree').lower()}, same tokens {str(is_same).lower()}"


class Library:
    """The library for C, for the outcome of a text."""

    OK, SYNTAX_ERROR, BUFFER_TOO_SMALL = 0, 1, 6
    # Why a text is refused: at its end, or because it can't be cut.
    END, LEXICAL = 1, 2
    DEPTH = 1000

    def __init__(self) -> None:
        self.parse = ctypes.CDLL(str(LIBRARY)).firthnapkin_parse
        buffer = [ctypes.c_void_p, ctypes.c_size_t, ctypes.POINTER(ctypes.c_size_t)]
        self.parse.argtypes = [ctypes.c_char_p, ctypes.c_size_t, ctypes.c_void_p, *buffer, *buffer, ctypes.c_void_p]
        self.parse.restype = ctypes.c_uint32

    def outcome(self, text: str) -> str:
        """Whether a text is a document, begins one, can't be cut, or none of these: it is refused before its end."""
        source, needed, fault = text.encode(), ctypes.c_size_t(), (ctypes.c_uint32 * 13)()
        limits = (ctypes.c_uint32 * 8)(self.DEPTH, 2**32 - 1)
        buffer = [None, 0, ctypes.byref(needed)]
        status = self.parse(source, len(source), limits, *buffer, *buffer, fault)
        if status in (self.OK, self.BUFFER_TOO_SMALL):
            return "document"
        if status != self.SYNTAX_ERROR:
            return f"status {status}"
        return {self.END: "begun", self.LEXICAL: "no cut"}.get(fault[0], "refused")


def completion_of(library: Library, front: str) -> Optional[str]:
    """A further text that completes a front and a space to a document: token by token the first that can go on."""
    further = ""
    for _ in range(len(front) + 100):
        outcome = library.outcome(f"{front} {further}")
        if outcome == "document":
            return further
        longer = (f"{further}{word} " for word in NEXT if outcome == "begun")
        further = next((it for it in longer if library.outcome(f"{front} {it}") in ("document", "begun")), None)
        if further is None:
            return None
    return None


def fault_of_completion(program: str, library: Library, text: str, answer: str) -> Optional[str]:
    """What is wrong with the completion of a refused text; None if nothing is wrong."""
    refusal = refusal_of(text, answer)
    if refusal is None:
        return "the fault is neither at a token nor at the end"
    further = completion_of(library, refusal.front)
    if further is None:
        return "no completion is found"
    said = completed(program, refusal, further)
    return None if said.endswith("tree true, same tokens true") else said


def canonical(canon: str, source: bytes) -> Run:
    """A run of gqlcanon. A canonical text ends without a line end, so one is added."""
    ran = run(canon, source)
    return Run(ran.written + "\n", "Text" + ran.end[4:]) if ran.end.startswith("Tree") else ran


def fault_of_canonical(program: str, canon: str, text: str, tree: Run) -> Optional[str]:
    """What is wrong with the canonical text of a text that can be cut; None if nothing is wrong."""
    ran = canonical(canon, text.encode())
    made = ran.written[:-1]
    if ran.end != "Text":
        return f"no canonical text: {ran.text()}"
    if made != joined([token for _, token in cut(text)]):
        return f"another canonical text: {made}"
    if canonical(canon, made.encode()) != ran:
        return f"the canonical text is not its own: {made}"
    again = run(program, made.encode())
    placeless = [re.sub(r"^(\w+) \d+ \d+|At \d+:\d+$", r"\1", it.written, flags=re.M) for it in (tree, again)]
    return (
        None
        if placeless[0] == placeless[1] and tree.end == again.end
        else f"the canonical text gives another result: {again.text()}"
    )


def try_row(
    program: str, canon: str, calls: str, library: Optional[Library], name: str, row: Row
) -> List[Tuple[str, Optional[str]]]:
    """For each check of a row its kind, and what is wrong; None if nothing is wrong."""
    wanted = [plain(line).decode() for line in row.wanted]
    if row.kind == "gqlcheck":
        ran = run(program, row.text)
        found = ran.text()
    elif row.kind == "canonical":
        found = canonical(canon, row.text).text()
    elif row.kind == "built":
        found = answer_of_built(program, row.text.decode())
    elif row.kind == "completed":
        found = answer_of_completed(program, row.text.decode(), wanted)
    else:
        found = answer_of_calls(calls, row, wanted)
    where = f"{name}:{row.number}"
    holds = found == "".join(line + "\n" for line in wanted)
    shown = [(row.kind, None if holds else f"{where}: {row.kind} is answered by\n{found}")]
    if row.kind == "gqlcheck" and is_cut(library, row.text, ran):
        text = row.text.decode()
        faults = {SAME: fault_of_canonical(program, canon, text, ran)}
        if library and ran.end == "Refused":
            faults[COMPLETION] = fault_of_completion(program, library, text, found)
        shown += [(kind, fault and f"{where}: {fault}") for kind, fault in faults.items()]
    return shown


def is_cut(library: Optional[Library], source: bytes, ran: Run) -> bool:
    """Whether a text can be cut into tokens. For a text that gqlcheck refuses the library decides."""
    if ran.end == "Refused":
        return library is not None and library.outcome(source.decode()) != "no cut"
    return ran.end in ("Tree", "TooDeep")


def main() -> int:
    program, canon, calls = sys.argv[1:]
    library = Library() if LIBRARY.exists() else None
    if library is None:
        print(f"check_rows: skipped: completions of refused texts, since {LIBRARY.relative_to(ROOT)} is not built")
    folder = ROOT / "tests/rows"
    names = [str(path.relative_to(folder)) for path in sorted(folder.rglob("*.rows"))]
    work = [(name, row) for name in names for row in rows(name)]
    work += [("made by complexities.py", row) for row in made(2000)]
    held, tried = dict.fromkeys(COUNTS, 0), dict.fromkeys(COUNTS, 0)
    with ThreadPoolExecutor(os.cpu_count()) as pool:
        for shown in pool.map(lambda it: try_row(program, canon, calls, library, *it), work):
            for kind, wrong in shown:
                tried[kind] = tried.get(kind, 0) + 1
                held[kind] = held.get(kind, 0) + (wrong is None)
                if wrong:
                    print(f"FAILED {wrong}")
    failed = sum(tried.values()) - sum(held.values())
    for kind, number in tried.items():
        print(f"{kind}: {held[kind]} of {number} hold")
        if number != COUNTS.get(kind) and (library or kind != COMPLETION):
            failed += 1
            print(f"FAILED {kind}: there are {number}, not {COUNTS.get(kind, 0)}")
    print(f"{sum(held.values())} passed, {failed} failed, {int(library is None)} skipped")
    return 1 if failed else 0


sys.exit(main())
