#!/usr/bin/env python3
"""Compares the man pages with what they describe. Of firthnapkin(3) these are the calls of the header, their parameters, and its
statuses in the header's words and order; of gqlcheck(1) and gqlcanon(1) the exit statuses of their definitions and, if the program is
built, what it writes. The last line is 'N passed, M failed', with ', K skipped' if one isn't built.

    tests/check_man.py              compares
    tests/check_man.py --program    writes a C program, which is the example of firthnapkin(3)
"""

import re
import shlex
import subprocess
import sys

from header import ROOT, Checks, declared, enum, header, read

# The words of gqlcheck(1) and gqlcanon(1) for each way in which a run ends.
FAULTS = {"NotUtf8": "It is not UTF-8.", "Device": "A read or a write failed.", "Memory": "Memory ran out."}
ENDS = {
    "gqlcheck": {**FAULTS, "Tree": "The text is a document.", "Refused": "It is not.", "TooDeep": "It is nested too deep."},
    "gqlcanon": {**FAULTS, "Text": "The text has tokens only.", "Refused": "It has an error."},
}
# The programs ./gqlcheck and ./gqlcanon end with it, too.
NO_RESULT = {125: "This run gave no result."}


def sections(page):
    """The sections of a page: for each name its lines."""
    found = {}
    for part in re.split(r"^\.SH ", read(f"docs/man/{page}"), flags=re.M)[1:]:
        name, _, body = part.partition("\n")
        found[name] = body.splitlines()
    return found


def plain(line):
    """A line without its font macro: words in two fonts in turn, as .BR has them, are written without spaces."""
    macro = re.match(r"\.([BIR]{1,2}) (.*)$", line)
    text = line if macro is None else ("" if len(macro[1]) == 2 else " ").join(shlex.split(macro[2], posix=True))
    return re.sub(r"\\(.)", lambda it: {"e": "\\"}.get(it[1], it[1]), text)


def joined(lines):
    """The text of some lines, with one space between words."""
    return " ".join(" ".join(plain(line) for line in lines if not re.match(r"\.(PP|nf|fi)$", line)).split())


def entries(lines):
    """The entries of a list: the label of each, and its text."""
    parts = "\n".join(lines).split(".TP\n")[1:]
    return [(plain(part.split("\n")[0]), joined(part.split("\n")[1:])) for part in parts]


def prototypes(text):
    """The calls that a text declares: for each its parameters."""
    found = re.findall(r"uint32_t (firthnapkin_\w+)\(([^()]*)\);", text)
    return {name: [" ".join(word.split()) for word in parameters.split(",")] for name, parameters in found}


def check_library(check):
    page = sections("firthnapkin.3")
    calls = prototypes(header)
    check("the calls of firthnapkin(3)", prototypes(joined(page["SYNOPSIS"])), calls)
    check("their names", joined(page["NAME"]).split(" - ")[0].split(", "), list(calls))
    check_statuses(check, page, calls)
    check_words(check, page, calls)
    check("the stack", re.findall(r"FIRTHNAPKIN_STACK_SIZE\(\s*(\w+)\s*\)", joined(page["NOTES"])), ["depth", "0"])


def check_statuses(check, page, calls):
    """Each status is described, once and in the header's words, and what success means for each call."""
    body = re.search(r"enum firthnapkin_status \{(.*?)\n\};", header, re.S)[1]
    comments = dict(re.findall(r"(FIRTHNAPKIN_\w+) = \d+,? +/\* (.*?) \*/", body))
    check("the statuses of the header", list(comments), [f"FIRTHNAPKIN_{word}" for word in enum("firthnapkin_status")])
    described = entries(page["RETURN VALUE"])
    check("the statuses of firthnapkin(3)", [label for label, _ in described], list(comments))
    for label, text in described:
        wanted = comments.get(label, label)
        check(f"how {label} is described", text[: len(wanted)].lower(), wanted.lower())
        check(f"where the description of {label} goes on", text[len(wanted)] in ".,;", True)
    succeeding = re.findall(r"(firthnapkin_\w+)\(\)", dict(described).get("FIRTHNAPKIN_OK", ""))
    check("the calls whose success is described", succeeding, [name for name in calls if name != "firthnapkin_version"])
    table = re.search(r" \*   1\. .*?\*/", header, re.S)[0]
    check("which status comes first", lines_of_statuses("\n".join(page["RETURN VALUE"])), lines_of_statuses(table))


def lines_of_statuses(text):
    """The statuses of each numbered line, and those of the sentence after the last that may come in place of some."""
    lines = re.findall(r"^(?: \* +)?(\d+)\. (FIRTHNAPKIN_\w+)(?: or (FIRTHNAPKIN_\w+))?", text, re.M)
    return lines, re.findall(r"(FIRTHNAPKIN_\w+)\s+may be returned in place of lines (\d+) to (\d+)", text)


def check_words(check, page, calls):
    """Each name of the page is one of the header."""
    text = "\n".join(plain(line) for lines in page.values() for line in lines)
    for word in sorted(set(re.findall(r"FIRTHNAPKIN_\w+|firthnapkin_\w+", text))):
        check(f"{word}, which firthnapkin(3) names", re.search(rf"\b{word}\b", header) is not None, True)
    fields = {
        name
        for word in ("position", "node", "token", "complexity", "error", "limits")
        for name, _ in declared(f"firthnapkin_{word}")
    }
    parameters = {parameter.split()[-1].lstrip("*") for words in calls.values() for parameter in words}
    for line in page["DESCRIPTION"]:
        for word in re.findall(r"^\.I (\w+)$", line):
            check(f"{word}, which firthnapkin(3) names", word == "i" or word in fields | parameters, True)


def check_program(checks, name):
    page = sections(f"{name}.1")
    defined_ends = dict(re.findall(r"^status_at \(?(?:Ok |Err )?(\w+)\)? = (\d+)$", read(f"crates/{name}/specs/Ends.antt"), re.M))
    wanted = {int(number): ENDS[name][end] for end, number in defined_ends.items()}
    checks.check(
        f"the statuses of {name}(1)", {int(label): text for label, text in entries(page["EXIT STATUS"])}, {**wanted, **NO_RESULT}
    )
    checks.check(f"the name of {name}(1)", (plain(page["SYNOPSIS"][0]), joined(page["NAME"]).split(" - ")[0]), (name, name))
    built = ROOT / f"crates/{name}/out/{name}"
    if not built.exists():
        checks.skip(f"{name} is not built, so the examples of {name}(1) are not run")
        return
    for command, shown in examples(page["EXAMPLES"]):
        ran = subprocess.run(["bash", "-c", f'{name}() {{ "{built}"; }}; {command}'], capture_output=True, text=True, check=False)
        checks.check(f"what {command} writes", ran.stdout.splitlines(), shown)
    if "TooDeep" in defined_ends:
        depth = int(re.search(r"nested (\d+) deep", joined(page["DESCRIPTION"]))[1])
        for deeper, end in ((0, "Tree"), (1, "TooDeep")):
            text = "{a" * (depth + deeper) + "}" * (depth + deeper)
            status = subprocess.run([built], input=text.encode(), capture_output=True, check=False).returncode
            checks.check(f"the status of a text {depth + deeper} deep", status, int(defined_ends[end]))


def examples(lines):
    """The commands of a section, each with the lines that it writes."""
    found = []
    for line in map(plain, (line for line in lines if not line.startswith("."))):
        if line.startswith("$ "):
            found.append((line[2:], []))
        else:
            found[-1][1].append(line)
    return found


def program():
    """The example of firthnapkin(3) as a whole program."""
    lines = [plain(line) for line in sections("firthnapkin.3")["EXAMPLES"] if not line.startswith(".")]
    before = ["#include <firthnapkin.h>", "#include <stdio.h>", "#include <string.h>", "int main(void) {"]
    return "\n".join([*before, *lines, "return 0;", "}"])


if sys.argv[1:] == ["--program"]:
    print(program())
else:
    all_checks = Checks()
    check_library(all_checks.check)
    for program_name in ENDS:
        check_program(all_checks, program_name)
    all_checks.end()
