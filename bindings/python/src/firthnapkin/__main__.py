"""A tool for people: `python -m firthnapkin check FILE ..` and the like.

The exit status is 0 if each file has a request or is a schema that is skipped, 1 if one has an error, and 2 if one
can't be read, the output can't be written, or the arguments are wrong.
"""

from __future__ import annotations

import argparse
import io
import os
import sys
import time
from typing import Any, Callable, Mapping, Optional, Sequence, Union

from . import __version__
from ._files import File, Unreadable, files_of, read
from ._reports import Counts, Lines, Objects, Refusal
from .checks import check
from .errors import FirthnapkinError
from .excerpts import excerpt_of
from .lexer import canonical, tokens
from .parser import LIMITS, parse

_NAME = "python -m firthnapkin"
_FAILED, _TROUBLE = 1, 2

Report = Union[Lines, Objects]

COMMANDS = {
    "check": "report each file that has no request",
    "canonical": "write the canonical text of each request",
    "nodes": "write the parts of each request",
    "tokens": "write the tokens of each request",
}


def number(most: Optional[int] = None) -> Callable[[str], int]:
    """How a limit is read: digits alone."""
    words = "must be a number of 0 or more" if most is None else f"must be a number from 0 to {most}"

    def read_number(text: str) -> int:
        is_number = text.isascii() and text.isdigit()
        digits = text.lstrip("0") or "0"
        # A number of more digits is no limit, and Python doesn't read all of them.
        found = int(digits) if is_number and len(digits) <= 20 else 10**20
        if not is_number or (most is not None and found > most):
            raise argparse.ArgumentTypeError(words)
        return found

    return read_number


DESCRIPTION = """\
Reads requests of GraphQL. Each error is reported as file:line:column: message, both counted from 1, with an excerpt."""

EPILOG = """

A file in which a definition is a schema's is skipped, and counted. The exit status is 1 if a file has an error,
and 2 if one can't be read."""


def options_of(arguments: Optional[Sequence[str]]) -> argparse.Namespace:
    commands = "\n".join(f"  {name:9}  {words}" for name, words in COMMANDS.items())
    parser = argparse.ArgumentParser(
        prog=_NAME, description=DESCRIPTION, epilog=commands + EPILOG,
        formatter_class=argparse.RawDescriptionHelpFormatter, allow_abbrev=False,
    )  # fmt: skip
    add = parser.add_argument
    add("command", choices=COMMANDS, metavar="|".join(COMMANDS))
    add("files", nargs="+", metavar="FILE", help="a file, - for standard input, or a folder with .graphql files below it")
    for name, limit in LIMITS.by_name.items():
        default = LIMITS.defaults[name]
        words = limit.words if default is None else f"{limit.words}; {default} by default"
        add(f"--{name.replace('_', '-')}", type=number(limit.largest), default=default, metavar="N", help=words)
    add("--version", action="version", version=f"firthnapkin {__version__}", help="show the version and exit")
    add("--json", action="store_true", help="write a JSON object for each file, in a line of its own")
    add("--strict", action="store_true", help="report schemas as errors, in place of skipping them")
    return parser.parse_intermixed_args(arguments)


class Progress:
    """A line on a terminal that says how many of many files are done."""

    MANY, SECONDS = 50, 0.1

    def __init__(self, count: int) -> None:
        self._count = count
        self._is_wanted = count >= self.MANY and sys.stderr is not None and sys.stderr.isatty()
        self._is_shown = False
        self._next = 0.0

    def show(self, done: int) -> None:
        if self._is_wanted and time.monotonic() >= self._next:
            self._next = time.monotonic() + self.SECONDS
            self._is_shown = True
            self._write(f"\r{done} of {self._count} files")

    def clear(self) -> None:
        """Removes what is shown of the progress, before a line is written."""
        if self._is_shown:
            self._is_shown = False
            self._write("\r\x1b[K")

    def _write(self, text: str) -> None:
        sys.stdout.flush()
        sys.stderr.write(text)
        sys.stderr.flush()


def request_of(written: bytes, limits: Mapping[str, Any]) -> str:
    """Returns the text of a file that has a request. Raises the errors of check, and UnicodeDecodeError if it is not UTF-8."""
    text = written.decode()
    check(text, **limits)
    return text


def refusal_of(error: FirthnapkinError) -> Refusal:
    return Refusal(error.line, error.column, error.kind.name, error.message, error.excerpt)


def refusal_of_bytes(error: UnicodeDecodeError) -> Refusal:
    """The refusal of a file that is not UTF-8, at the first byte that is not."""
    before = error.object[: error.start].decode()
    shown = error.object.decode("utf-8", "replace").encode()
    column = len(before) - before.rfind("\n")
    return Refusal(before.count("\n") + 1, column, "NOT_UTF8", "Not UTF-8", excerpt_of(shown, len(before.encode())))


class Run:
    """A run of the tool over files."""

    def __init__(self, options: argparse.Namespace) -> None:
        self._options = options
        self._limits = {name: getattr(options, name) for name in LIMITS.by_name}
        self._report: Report = Objects() if options.json else Lines()
        self._counts = Counts()

    def status(self) -> int:
        """Reads the files, reports, and returns the exit status."""
        files = files_of(self._options.files)
        progress = Progress(len(files))
        for done, file in enumerate(files):
            progress.show(done)
            self._read(file, progress)
        progress.clear()
        self._report.end(self._counts)
        return _TROUBLE if self._counts.unreadable else _FAILED if self._counts.failed else 0

    def _read(self, file: File, progress: Progress) -> None:
        try:
            written = read(file)
            text = request_of(written, self._limits)
        except FirthnapkinError as error:
            progress.clear()
            if error.is_schema and not self._options.strict:
                self._counts.schemas += 1
                self._report.skipped(file.name)
            else:
                self._fail(file, refusal_of(error))
        except UnicodeDecodeError as error:
            progress.clear()
            self._fail(file, refusal_of_bytes(error))
        except (Unreadable, ValueError, MemoryError) as error:
            # A ValueError of check says that the text has 4 GiB or more.
            progress.clear()
            self._counts.unreadable += 1
            self._report.unreadable(file.name, str(error) or "memory ran out")
        else:
            self._counts.passed += 1
            self._write(file.name, text, progress)

    def _fail(self, file: File, refusal: Refusal) -> None:
        self._counts.failed += 1
        self._report.refused(file.name, refusal)

    def _write(self, name: str, text: str, progress: Progress) -> None:
        """What the command writes of a request."""
        if self._options.command == "check":
            if self._options.json:
                progress.clear()
            self._report.passed(name)
            return
        progress.clear()
        if self._options.command == "canonical":
            self._report.canonical(name, canonical(text))
        elif self._options.command == "nodes":
            self._report.nodes(name, parse(text, **self._limits))
        else:
            self._report.tokens(name, tokens(text))


def main(arguments: Optional[Sequence[str]] = None) -> int:
    """Runs the tool, and returns its exit status."""
    if sys.stdout is None:
        return _trouble("standard output is closed")
    for stream in (sys.stdout, sys.stderr):
        if isinstance(stream, io.TextIOWrapper):
            # A character that the terminal's encoding lacks ends nothing.
            stream.reconfigure(errors="backslashreplace")
    try:
        status = _status_of(arguments)
        sys.stdout.flush()
        return status
    except KeyboardInterrupt:
        return 128 + 2
    except OSError as error:
        # Python writes the rest at its end, and would report the failure once more.
        os.dup2(os.open(os.devnull, os.O_WRONLY), 1)
        return _TROUBLE if isinstance(error, BrokenPipeError) else _trouble(f"the output can't be written: {error.strerror}")
    except MemoryError:
        return _trouble("memory ran out")


def _status_of(arguments: Optional[Sequence[str]]) -> int:
    """Returns the exit status of a run. That of --help, of --version and of a wrong argument is argparse's."""
    try:
        options = options_of(arguments)
    except SystemExit as end:
        return int(end.code or 0)
    return Run(options).status()


def _trouble(words: str) -> int:
    print(f"{_NAME}: {words}", file=sys.stderr)
    return _TROUBLE


if __name__ == "__main__":
    sys.exit(main())
