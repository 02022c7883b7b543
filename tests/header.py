"""Reads the header and other files of the repository, for the checks in tests/."""

import re
import sys
from pathlib import Path

ROOT = Path(__file__).resolve().parent.parent


def read(path):
    return (ROOT / path).read_text(encoding="utf-8")


header = read("include/firthnapkin.h")


def enum(name):
    """The constants of an enum of the header, without the name before them, and their numbers."""
    body = re.search(rf"enum {name} \{{(.*?)\n\}};", header, re.S)[1]
    return {word: int(number) for word, number in re.findall(r"^    FIRTHNAPKIN_(\w+) = (\d+),?", body, re.M)}


def declared(word):
    """The fields of a type of the header, each with its type."""
    body = re.search(rf"typedef struct \{{([^}}]*)\}} {word};", header)[1]
    lines = re.findall(r"^\s*(\w+) ([\w, ]+)(\[\d+\])?;", re.sub(r"/\*.*?\*/", "", body, flags=re.S), re.M)
    return [(field, kind + count) for kind, names, count in lines for field in names.split(", ")]


def defined(word):
    """The text after a name that the header defines."""
    return re.search(rf"^#define {re.escape(word)} (.*)$", header, re.M)[1]


class Checks:
    """Counts the checks that hold, prints those that don't, and prints and counts what is skipped."""

    def __init__(self):
        self.passed = self.failed = self.skipped = 0

    def check(self, name, found, wanted):
        if found == wanted:
            self.passed += 1
        else:
            self.failed += 1
            print(f"FAILED {name}: {found} was found, {wanted} is wanted")

    def skip(self, why):
        self.skipped += 1
        print(f"skipped: {why}")

    def end(self):
        print(f"{self.passed} passed, {self.failed} failed" + (f", {self.skipped} skipped" if self.skipped else ""))
        sys.exit(1 if self.failed else 0)
