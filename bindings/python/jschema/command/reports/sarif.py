"""A report in SARIF 2.1.0 (OASIS), which code scanning reads."""
from __future__ import annotations

import json
import os
from typing import Any, TextIO
from urllib.parse import quote

from ...interface import VERSION
from ...lint import RULES
from ...lookup import file_url
from ..problems import FAILED, NOTE, REFUSED, WARNING, Problem
from ..results import Result, Status
from .base import Report, complain
from .machines import upgraded

_SCHEMA = "https://docs.oasis-open.org/sarif/sarif/v2.1.0/errata01/os/schemas/sarif-schema-2.1.0.json"
_BEGIN = '{"$schema":%s,"version":"2.1.0","runs":[{"columnKind":"unicodeCodePoints","results":['


class SarifReport(Report):
    """One run, with a result for each problem. What fails is a notification of the tool."""

    lists_valid = False

    def __init__(self, format: str, command: str, out: TextIO) -> None:
        super().__init__(format, command, out)
        self.separator = "\n"
        self.rules: dict[str, str] = {}
        self.notifications: list[dict[str, Any]] = []
        self.write(_BEGIN % json.dumps(_SCHEMA))

    def write_result(self, result: Result) -> None:
        for problem in result.problems:
            if problem.kind == FAILED:
                self.notifications.append({
                    "level": "error", "message": {"text": problem.message},
                    "locations": [{"physicalLocation": {"artifactLocation": _artifact(result.input.file)}}]})
                continue
            self.write(self.separator + json.dumps(self._result(result.input.file, problem), separators=(",", ":")))
            self.separator = ",\n"

    def refused_schema(self, result: Result) -> None:
        complain(result)
        super().refused_schema(result)

    def end(self, with_summary: bool = True) -> None:
        driver = {"name": "jschema", "version": VERSION, "rules": [
            {"id": rule, "shortDescription": {"text": text}} for rule, text in self.rules.items()]}
        invocation = {"executionSuccessful": not self.statuses[Status.FAILED],
                      "toolExecutionNotifications": self.notifications}
        self.write(f'\n],"tool":{json.dumps({"driver": driver})},"invocations":[{json.dumps(invocation)}]}}]}}\n')
        super().end()

    def _result(self, file: str, problem: Problem) -> dict[str, Any]:
        rule = f"refused/{problem.rule}" if problem.kind == REFUSED else problem.rule
        if rule not in self.rules:
            self.rules[rule] = _description(rule, problem, self.command)
        at = {"name": problem.pointer or "root", "fullyQualifiedName": problem.pointer or "root"}
        found: dict[str, Any] = {
            "ruleId": rule, "ruleIndex": list(self.rules).index(rule), "message": {"text": problem.message},
            "level": problem.kind if problem.kind in (WARNING, NOTE) else "error",
            "locations": [{"physicalLocation": _place(file, problem), "logicalLocations": [at]}]}
        if problem.keyword_place is not None:
            begin = problem.keyword_place.position
            found["relatedLocations"] = [{
                "message": {"text": f"the keyword {problem.rule}"},
                "physicalLocation": {"artifactLocation": _artifact(problem.keyword_place.file),
                                     "region": {"startLine": begin.line, "startColumn": begin.column}}}]
        if problem.error is not None:
            found["properties"] = {"keywordLocation": problem.error.keyword_location,
                                   "absoluteKeywordLocation": problem.keyword_uri, **upgraded(problem)}
        return found


def _description(rule: str, problem: Problem, command: str) -> str:
    if problem.kind == REFUSED:
        return "the validator has no verdict on this input"
    return RULES.get(rule, rule) if command == "lint" else f"the keyword {rule} of JSON Schema"


def _place(file: str, problem: Problem) -> dict[str, Any]:
    begin, end = problem.range
    region = {"startLine": begin.line, "startColumn": begin.column}
    if end.offset > begin.offset:
        region.update(endLine=end.line, endColumn=end.column)
    return {"artifactLocation": _artifact(file), "region": region}


def _artifact(file: str) -> dict[str, str]:
    """The URI of a file: relative as its name is, or a URL."""
    return {"uri": file_url(file) if os.path.isabs(file) else quote(os.fsencode(file))}
