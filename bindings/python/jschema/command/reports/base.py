"""What all reports share."""
from __future__ import annotations

import os
import re
import sys
from collections import Counter
from typing import TextIO

from ..problems import FAILED, NOTE, REFUSED, WARNING, Problem
from ..results import Result, Status

_CONTROL = re.compile(r"[\x00-\x1f\x7f-\x9f\u2028\u2029]")


class Report:
    """A report on the files of a run, which is written as the results come."""

    #: The format of the validator's output that is written, and whether the tree of the errors is shown.
    output: str | None = None
    tree = False
    #: Whether something is written of a valid instance without problems. Else such ones are only counted.
    lists_valid = True

    def __init__(self, format: str, command: str, out: TextIO) -> None:
        self.format, self.out = format, out
        #: `validate` or `lint`.
        self.command = command
        self.statuses: Counter[Status] = Counter()
        self.kinds: Counter[str] = Counter()

    def writes(self, result: Result) -> bool:
        """Whether there is anything to write of a result."""
        return True

    def result(self, result: Result) -> None:
        """Writes a result."""
        self.statuses[result.status] += 1
        if result.problems:
            self.kinds.update(problem.kind for problem in result.problems)
        self.write_result(result)

    def count_valid(self, count: int) -> None:
        """Counts valid instances of which nothing is written."""
        self.statuses[Status.VALID] += count

    def write_result(self, result: Result) -> None:
        """Writes a result that is counted."""
        raise NotImplementedError

    def refused_schema(self, result: Result) -> None:
        """Says that a schema document, which is the input of this result, is refused, and ends the report."""
        self.result(result)
        self.end(with_summary=False)

    def write(self, text: str) -> None:
        """Writes what machines read: UTF-8, whatever the encoding of the output is. File names keep their bytes."""
        self.out.buffer.write(text.encode("utf-8", "surrogateescape"))

    def end(self, with_summary: bool = True) -> None:
        """After the last result."""
        self.out.flush()

    def summary(self) -> str:
        """How many instances came to what; of lint, how much was found."""
        if self.command == "lint":
            parts = [counted(self.kinds[kind], kind) for kind in ("error", WARNING, NOTE)]
        else:
            errors = f" ({counted(self.kinds['error'], 'error')})" if self.kinds["error"] else ""
            parts = [f"{self.statuses[Status.VALID]} valid", f"{self.statuses[Status.INVALID]} invalid{errors}"]
            parts += [f"{self.statuses[Status.REFUSED]} refused"] if self.statuses[Status.REFUSED] else []
        parts += [f"{self.statuses[Status.FAILED]} failed"] if self.statuses[Status.FAILED] else []
        if self.command != "lint" and self.kinds[WARNING]:
            parts.append(counted(self.kinds[WARNING], "warning"))
        return ", ".join(parts)


def counted(count: int, what: str) -> str:
    """A number of things."""
    return f"{count} {what}{'' if count == 1 else 's'}"


def complain(result: Result) -> None:
    """Says on standard error why an instance has no verdict, and what else a report leaves out."""
    for problem in result.problems:
        if problem.kind in (REFUSED, FAILED, WARNING):
            print(complaint(result.input.file, problem), file=sys.stderr)


def complaint(file: str, problem: Problem) -> str:
    """The line that says what is wrong with a file."""
    if problem.kind == FAILED:
        return f"{printable(file)}: failed: {problem.message}"
    line, column = problem.range.begin[1:]
    return f"{printable(file)}:{line}:{column}: {problem.kind}: {printable(problem.message)} " \
           f"({printable(problem.pointer) or 'root'}; {problem.rule})"


def utf8_name(file: str) -> str:
    """The name of a file as machines get it. (In a locale without UTF-8, Python reads the names of files otherwise.)"""
    return os.fsencode(file).decode("utf-8", "surrogateescape")


def printable(text: str) -> str:
    """A text without control characters, which a terminal would obey."""
    return _CONTROL.sub(lambda found: f"\\u{ord(found[0]):04x}", text)
