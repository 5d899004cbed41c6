"""The files that the arguments name, and those in folders."""
from __future__ import annotations

import errno
import os
import stat
from collections.abc import Sequence
from pathlib import Path
from typing import NamedTuple, Optional

from ..sources import SUFFIXES

STDIN = "-"
#: The suffixes of files with an instance in each line.
LINES = (".jsonl", ".ndjson")


class Misuse(Exception):
    """The arguments are wrong; the message says what to do."""


class File(NamedTuple):
    """A file that is looked at, or why there is none of this name."""

    name: str
    fault: Optional[OSError] = None


def suffixes(kind: Optional[str], lines: bool) -> Sequence[str]:
    """The suffixes of the files that are taken of a folder."""
    if lines:
        return LINES
    return SUFFIXES[kind] if kind else [suffix for them in SUFFIXES.values() for suffix in them]


def files_of(arguments: Sequence[str], taken: Sequence[str], what: str = "INSTANCE") -> list[File]:
    """The files that arguments name, with those of each folder that have one of the suffixes, by name.

    Raises `Misuse` for an empty name, for a folder without any, and for standard input that is named twice.
    """
    if "" in arguments:
        raise Misuse(f"{'an' if what[0] == 'I' else 'a'} {what} has an empty name: is a variable of the shell empty?")
    if arguments.count(STDIN) > 1:
        raise Misuse(f"{STDIN} is named {arguments.count(STDIN)} times: standard input can be read once")
    files = []
    for argument in arguments:
        if argument == STDIN or not os.path.isdir(argument):
            files.append(File(argument))
        else:
            files += _files_in(argument, taken)
    return files


def _files_in(folder: str, taken: Sequence[str]) -> list[File]:
    """The files in a folder at any depth, and each folder that can't be read. Links to folders aren't followed."""
    found: list[File] = []
    suffixes = frozenset(taken)
    # (The folder's name without `./` and what else says nothing.)
    for parent, _, names in os.walk(Path(folder), onerror=lambda error: found.append(File(str(error.filename), error))):
        found += [_in_folder(os.path.join(parent, name)) for name in names
                  if os.path.splitext(name)[1].lower() in suffixes]
    if not found:
        *most, last = taken
        listed = f"{', '.join(most)} or {last}" if most else last
        raise Misuse(f"{folder} has no file {listed}: name its files one by one")
    return sorted(found, key=lambda file: file.name.split(os.sep))


def _in_folder(name: str) -> File:
    try:
        is_regular = stat.S_ISREG(os.stat(name).st_mode)
    except OSError as error:
        return File(name, error)
    return File(name) if is_regular else File(name, OSError(errno.EINVAL, "not a regular file", name))
