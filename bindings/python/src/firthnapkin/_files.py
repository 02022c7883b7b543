"""The files that the tool reads."""

from __future__ import annotations

import os
import stat
import sys
from typing import Iterator, List, NamedTuple, Optional, Sequence

# How standard input is named, and how it is shown.
_INPUT, _SHOWN_INPUT = "-", "<stdin>"
_ENDING = ".graphql"


class Unreadable(Exception):
    """A file can't be read. The words say why."""


class File(NamedTuple):
    """A file that is to be read, or a folder or a file of which it is known already that it can't be."""

    name: str
    #: None for standard input, and if there is a problem.
    path: Optional[str]
    #: Whether it was found below a folder. Such a file is read if it is a regular one: any other might never end.
    is_found: bool = False
    problem: Optional[str] = None


def files_of(names: Sequence[str]) -> List[File]:
    """Returns the files with these names: standard input for `-`, and for a folder the .graphql files below it, in order."""
    found: List[File] = []
    for name in names:
        if name == _INPUT:
            is_again = any(file.path is None and file.name == _SHOWN_INPUT for file in found)
            found.append(File(_SHOWN_INPUT, None, problem="it is named twice" if is_again else None))
        elif os.path.isdir(name):
            below = list(_files_below(name))
            found += below or [File(name, None, problem=f"there are no {_ENDING} files below it")]
        else:
            found.append(File(name, name))
    return found


def _files_below(folder: str) -> Iterator[File]:
    """The files of a folder before those of the folders in it, each in the order of names. Links to folders are not followed."""
    waiting = [folder]
    while waiting:
        current = waiting.pop()
        try:
            with os.scandir(current) as listed:
                entries = sorted(listed, key=lambda entry: entry.name)
        except OSError as error:
            yield File(current, None, problem=_words_of(error))
            continue
        for entry in entries:
            if entry.name.endswith(_ENDING) and not entry.is_dir():
                yield File(entry.path, entry.path, is_found=True)
        waiting += [entry.path for entry in reversed(entries) if entry.is_dir(follow_symlinks=False)]


def read(file: File) -> bytes:
    """Returns the bytes of a file. Raises Unreadable if it can't be read. Standard input can be read once."""
    if file.problem is not None:
        raise Unreadable(file.problem)
    try:
        if file.path is None and sys.stdin is None:
            raise Unreadable("standard input is closed")
        if file.path is None:
            return sys.stdin.buffer.read()
        if file.is_found and not stat.S_ISREG(os.stat(file.path).st_mode):
            raise Unreadable("it is no regular file")
        with open(file.path, "rb") as opened:
            return opened.read()
    except OSError as error:
        raise Unreadable(_words_of(error)) from None
    except MemoryError:
        raise Unreadable("memory ran out") from None


def _words_of(error: OSError) -> str:
    return error.strerror or str(error)
