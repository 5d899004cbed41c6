"""A report in the XML that JUnit's readers take: a test case for each file or instance."""
from __future__ import annotations

import re
from html import escape
from typing import TextIO

from ..problems import FAILED, Problem
from ..results import Result, Status
from .base import Report, complain, utf8_name

# What XML 1.0 can't have. (Of the names of files, also bytes that aren't UTF-8.)
_NO_XML = re.compile("[^\t\n\r -\ud7ff\ue000-\ufffd\U00010000-\U0010ffff]")


class JunitReport(Report):
    """One suite. Its counts stand at its beginning, so all is written at the end."""

    def __init__(self, format: str, command: str, out: TextIO) -> None:
        super().__init__(format, command, out)
        self.cases: list[str] = []

    def write_result(self, result: Result) -> None:
        file = utf8_name(result.input.file)
        name = file if result.input.line == 1 else f"{file}:{result.input.line}"
        self.cases.append(f"  <testcase classname={_attribute('jschema ' + self.command)} name={_attribute(name)} "
                             f"file={_attribute(file)} line=\"{result.input.line}\">\n"
                             f"{_problems(result)}  </testcase>\n")

    def refused_schema(self, result: Result) -> None:
        complain(result)
        super().refused_schema(result)

    def end(self, with_summary: bool = True) -> None:
        errors = self.statuses[Status.FAILED] + self.statuses[Status.REFUSED]
        counts = f'tests="{sum(self.statuses.values())}" failures="{self.statuses[Status.INVALID]}" errors="{errors}"'
        self.write(f'<?xml version="1.0" encoding="UTF-8"?>\n<testsuites {counts}>\n'
                   f'<testsuite name={_attribute("jschema " + self.command)} {counts}>\n'
                   f"{''.join(self.cases)}</testsuite>\n</testsuites>\n")
        super().end()


def _problems(result: Result) -> str:
    """What is wrong with a file or an instance. (Readers take the first failure of a test case, so there is one.)"""
    texts = "".join(_line(utf8_name(result.input.file), it) for it in result.problems)
    if not texts:
        return ""
    if result.status == Status.VALID:
        return f"    <system-out>{_text(texts)}</system-out>\n"
    element = "failure" if result.status == Status.INVALID else "error"
    first = result.problems[0]
    return f"    <{element} type={_attribute(first.rule)} message={_attribute(first.message)}>" \
           f"{_text(texts)}</{element}>\n"


def _line(file: str, problem: Problem) -> str:
    begin = problem.range.begin
    where = f"{file}:{begin.line}:{begin.column}: " if problem.kind != FAILED else f"{file}: "
    uri = f"; {problem.keyword_uri}" if problem.keyword_uri else ""
    return f"{where}{problem.kind}: {problem.message} ({problem.pointer or 'root'}; {problem.rule}{uri})\n"


def _text(text: str) -> str:
    return escape(_NO_XML.sub("\ufffd", text), quote=False)


def _attribute(text: str) -> str:
    escaped = escape(_NO_XML.sub("\ufffd", text)).replace("\t", "&#9;").replace("\n", "&#10;").replace("\r", "&#13;")
    return f'"{escaped}"'
