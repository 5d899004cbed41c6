"""Reports of a line for each problem."""
from __future__ import annotations

import sys
from typing import TextIO

from ..problems import ERROR, FAILED, NOTE, REFUSED, WARNING, Problem
from ..results import Result
from ..terminal import has_colours, painted
from .base import Report, complain, printable

_COLOURS = {ERROR: "red", WARNING: "yellow", NOTE: "blue", REFUSED: "red", FAILED: "red"}


class ShortReport(Report):
    """A line for each problem, and a summary on standard error."""

    lists_valid = False

    def __init__(self, format: str, command: str, out: TextIO) -> None:
        super().__init__(format, command, out)
        self.colours = has_colours(out)

    def writes(self, result: Result) -> bool:
        return bool(result.problems)

    def write_result(self, result: Result) -> None:
        complain_unless_shown(self, result)
        for problem in result.problems:
            if self.shows(problem):
                self.write(self.line(result.input.file, problem))
        self.out.flush()

    def shows(self, problem: Problem) -> bool:
        """Whether a problem is written; else it goes to standard error."""
        return problem.kind not in (REFUSED, FAILED) and (problem.kind != WARNING or self.command == "lint")

    def write(self, text: str) -> None:
        self.out.write(text)

    def line(self, file: str, problem: Problem) -> str:
        """The line for a problem."""
        begin = problem.range.begin
        where = painted(f"{printable(file)}:{begin.line}:{begin.column}:", "bold", self.colours)
        message = painted(printable(problem.message), _COLOURS[problem.kind], self.colours)
        at = printable(problem.pointer) or "root"
        if problem.keyword_uri:
            details = f"({at}; {printable(problem.rule)}, {printable(problem.keyword_uri)})"
        else:
            details = f"({at}; {problem.rule})"
            message = f"{problem.kind}: {message}"
        return f"{where} {message} {painted(details, 'dim', self.colours)}\n"

    def end(self, with_summary: bool = True) -> None:
        super().end()
        if with_summary:
            print(self.summary(), file=sys.stderr)


class GithubReport(ShortReport):
    """Workflow commands, which GitHub Actions shows beside the lines of a change."""

    def write_result(self, result: Result) -> None:
        complain(result)
        for problem in result.problems:
            self.write(self.line(result.input.file, problem))
        self.out.flush()

    def write(self, text: str) -> None:
        Report.write(self, text)

    def line(self, file: str, problem: Problem) -> str:
        text = problem.message
        if problem.kind == REFUSED:
            text = str(problem.refused)
        elif problem.kind != FAILED:
            text += f" ({problem.pointer or 'root'}; {problem.keyword_uri or problem.rule})"
        level = {WARNING: "warning", NOTE: "notice"}.get(problem.kind, "error")
        name = _escaped(file).replace(":", "%3A").replace(",", "%2C")
        begin = problem.range.begin
        return f"::{level} file={name},line={begin.line},col={begin.column}::{_escaped(text)}\n"


def complain_unless_shown(report: ShortReport, result: Result) -> None:
    """Says on standard error what the report itself doesn't."""
    if not all(map(report.shows, result.problems)):
        complain(result)


def _escaped(text: str) -> str:
    return text.replace("%", "%25").replace("\r", "%0D").replace("\n", "%0A")
