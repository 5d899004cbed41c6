"""The validator's output, and a report in JSON."""
from __future__ import annotations

import json
from typing import Any, TextIO

from ..problems import ERROR, FAILED, REFUSED, WARNING, Problem
from ..results import Result, Status
from .base import Report, complain, utf8_name


class OutputReport(Report):
    """The validator's output in a format, a line for each instance; of one that is refused or fails, an object that
    says so. Refusals, failures and warnings go to standard error."""

    def __init__(self, format: str, command: str, out: TextIO) -> None:
        super().__init__(format, command, out)
        self.output = format

    def write_result(self, result: Result) -> None:
        complain(result)
        if result.text:
            self.out.buffer.write(result.text)
        else:
            self.write(json.dumps(as_json(result), separators=(",", ":")) + "\n")
        self.out.flush()

    def refused_schema(self, result: Result) -> None:
        complain(result)


class JsonReport(Report):
    """One array, with an object for each file or instance."""

    def __init__(self, format: str, command: str, out: TextIO) -> None:
        super().__init__(format, command, out)
        self.separator = "[\n"

    def write_result(self, result: Result) -> None:
        shown = findings_as_json(result) if self.command == "lint" else as_json(result)
        self.write(self.separator + json.dumps(shown))
        self.separator = ",\n"

    def refused_schema(self, result: Result) -> None:
        complain(result)
        super().refused_schema(result)

    def end(self, with_summary: bool = True) -> None:
        self.write("\n]\n" if self.statuses else "[]\n")
        super().end()


def as_json(result: Result) -> dict[str, Any]:
    """The result of an instance as the report in JSON has it."""
    verdict = {Status.VALID: True, Status.INVALID: False}.get(result.status)
    about: dict[str, Any] = {"file": utf8_name(result.input.file), "line": result.input.line, "valid": verdict}
    for problem in result.problems:
        if problem.kind == FAILED:
            return {**about, "failed": problem.message}
        if problem.kind == REFUSED and problem.refused is not None:
            refused = problem.refused
            return {**about, "refused": {**_place(problem), "subject": refused.subject, "kind": refused.kind,
                                         "place": refused.place, "message": refused.meaning}}
    errors = [_error(problem) for problem in result.problems if problem.kind == ERROR]
    warnings = [_warning(problem) for problem in result.problems if problem.kind == WARNING]
    return {**about, "errors": errors, **({"warnings": warnings} if warnings else {})}


def findings_as_json(result: Result) -> dict[str, Any]:
    """The findings in a schema as the report in JSON has them."""
    about: dict[str, Any] = {"file": utf8_name(result.input.file)}
    if result.status == Status.FAILED:
        return {**about, "failed": result.problems[0].message}
    return {**about, "findings": [{
        "rule": it.rule, "severity": it.kind, **_place(it), "endLine": it.range.end.line,
        "endColumn": it.range.end.column, "message": it.message, "place": it.pointer, "suggestion": it.suggestion}
        for it in result.problems]}


def _place(problem: Problem) -> dict[str, Any]:
    return {"line": problem.range.begin.line, "column": problem.range.begin.column}


def _error(problem: Problem) -> dict[str, Any]:
    assert problem.error is not None
    return {**_place(problem), "endLine": problem.range.end.line, "endColumn": problem.range.end.column,
            "error": problem.message, "instanceLocation": problem.pointer,
            "keywordLocation": problem.error.keyword_location, "absoluteKeywordLocation": problem.keyword_uri,
            **upgraded(problem), **_schema(problem)}


def _warning(problem: Problem) -> dict[str, Any]:
    return {**_place(problem), "endLine": problem.range.end.line, "endColumn": problem.range.end.column,
            "warning": problem.message, "instanceLocation": problem.pointer,
            "absoluteKeywordLocation": problem.keyword_uri, **_schema(problem)}


def upgraded(problem: Problem) -> dict[str, str]:
    """Where the keyword of an error stands in an upgraded schema, if that is another place."""
    error = problem.error
    if error is None or error.upgraded_location == error.absolute_keyword_location:
        return {}
    return {"upgradedLocation": error.upgraded_location}


def _schema(problem: Problem) -> dict[str, Any]:
    """Where the keyword stands in a file."""
    place = problem.keyword_place
    if place is None:
        return {}
    return {"schema": {"file": utf8_name(place.file), "line": place.position.line, "column": place.position.column}}
