"""The command that shows what is wrong with schemas, and what is probably not meant."""
from __future__ import annotations

import sys
from collections.abc import Iterator, Sequence
from typing import Optional

from ..lint import ERROR, NOTE, Finding, broken, lint_documents, second_document, unreadable
from ..lookup import SchemaFile, UnreadableFile, file_url, own_uri, walked
from ..resources import Document
from ..sources import Unreadable
from .arguments import Arguments
from .documents import referred
from .files import STDIN, files_of, suffixes
from .inputs import Input, inputs
from .problems import Problem
from .reports import report_for
from .results import Result, Status, failure
from .terminal import Progress
from .validating import alone, reported, unreadable_schema


def lint(arguments: Arguments) -> int:
    """Reports what is found in schemas."""
    files = files_of(arguments.files, suffixes(arguments.input, False), "SCHEMA")
    report = report_for(arguments.format, "lint", sys.stdout)
    given = list(inputs(files, arguments.input))
    try:
        found = _results(given, arguments)
    except UnreadableFile as error:
        report.refused_schema(unreadable_schema(error))
        return Status.REFUSED
    return reported(report, Progress(len(given)), map(alone, found))


def _results(given: Sequence[Input], arguments: Arguments) -> Iterator[Result]:
    """The result of each schema, in their order."""
    results: list[Optional[Result]] = []
    files: list[SchemaFile] = []
    documents: list[Document] = []
    for index, it in enumerate(given):
        result = _fault(it, given[index - 1] if index else None)
        if result is None:
            file, document = _schema_file(it)
            if document is not None:
                files.append(file)
                documents.append(document)
            else:
                result = _result(it, [broken(it.source)])
        results.append(result)
    beside = referred(files, arguments)
    found = iter(lint_documents(documents, [it for it in map(walked, beside) if it], arguments.rewriting))
    return iter([_result(it, next(found)) if result is None else result for it, result in zip(given, results)])


def _fault(given: Input, before: Optional[Input]) -> Optional[Result]:
    """The result of what can't be read, or is the second document of a file."""
    if isinstance(given.fault, Unreadable):
        return _result(given, [unreadable(given.fault)])
    if given.fault is not None:
        return failure(given, given.fault)
    if before is not None and before.fault is None and before.file == given.file and given.line > before.line:
        return _result(given, [second_document(given.source)])
    return None


def _schema_file(given: Input) -> tuple[SchemaFile, Optional[Document]]:
    """A schema under its `$id`, or else under its file's URL."""
    file = SchemaFile(given.file, file_url(given.file if given.file != "<stdin>" else STDIN), given.source)
    document = walked(file)
    own = own_uri(document)
    if own is None:
        return file, document
    named = file._replace(uri=own)
    return named, walked(named)


def _result(given: Input, found: Sequence[Finding]) -> Result:
    """The result of a schema: refused by the validator where there is an error."""
    severities = {it.severity for it in found}
    status = Status.REFUSED if ERROR in severities else Status.INVALID if severities - {NOTE} else Status.VALID
    problems = [Problem(it.severity, it.rule, it.message, it.range, it.place, suggestion=it.suggestion) for it in found]
    return Result(given, status, problems)
