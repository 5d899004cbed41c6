"""The command that validates."""
from __future__ import annotations

import sys
from collections.abc import Generator, Iterable, Sequence
from contextlib import closing
from typing import TYPE_CHECKING

from ..dialects import DRAFTS, LATEST, dialect_called
from ..errors import Refused
from ..lookup import SchemaFile, UnreadableFile, walked
from ..schemas import Schemas
from ..sources import JsonSource
from ..upgrading import may_be_older
from .arguments import Arguments
from .documents import document, referred
from .files import File, files_of, suffixes
from .inputs import Input, inputs
from .lines import checked_lines
from .places import Places
from .reports import Report, report_for
from .results import Checked, Checker, Result, Status, Wanted, refusal
from .terminal import Progress

if TYPE_CHECKING:
    from ..formats import Formats


def validate(arguments: Arguments) -> int:
    """Validates files, and reports what is wrong with them."""
    files = files_of(arguments.files, suffixes(arguments.input, arguments.lines))
    report = report_for(arguments.format, "validate", sys.stdout)
    assert arguments.schema is not None
    documents: list[SchemaFile] = []
    assumed = LATEST if arguments.default_dialect is None else dialect_called(arguments.default_dialect)
    try:
        schema = document(arguments.schema, "--schema", arguments.input, assumed)
        documents = [schema, *referred([schema], arguments, assumed)]
        schemas = Schemas(((it.uri, it.source.json) for it in documents), default_dialect=arguments.default_dialect,
                          upgrade=arguments.upgrade, **arguments.rewriting._asdict())
    except UnreadableFile as error:
        report.refused_schema(unreadable_schema(error))
        return Status.REFUSED
    except Refused as refused:
        report.refused_schema(refused_schema(documents, refused))
        return Status.REFUSED
    _note_upgrade(documents)
    wanted = Wanted(report.output, report.tree, _formats() if arguments.formats else None, report.lists_valid)
    with schemas:
        checker = Checker(schemas, schema.uri, Places(documents), wanted)
        with closing(_checked(checker, files, arguments)) as found:
            status = reported(report, Progress(None if arguments.lines else len(files)), found)
    for message in sorted(set(checker.missing.values())):
        print(f"jschema: {message}", file=sys.stderr)
    return status


def _checked(checker: Checker, files: Sequence[File], arguments: Arguments) -> Generator[Checked, None, None]:
    """What comes of the instances in files."""
    if arguments.lines:
        yield from checked_lines(checker, files, arguments.jobs)
        return
    with closing(checker.results(inputs(files, arguments.input), arguments.jobs)) as results:
        yield from map(alone, results)


def alone(result: Result) -> Checked:
    """One result."""
    return Checked([result])


def _note_upgrade(documents: Sequence[SchemaFile]) -> None:
    """Says once that documents of older drafts were upgraded."""
    found = [(it.path, document.dialect) for it in documents if may_be_older(it.source.json, it.assumed)
             if (document := walked(it)) is not None and document.dialect != LATEST]
    if found:
        path, dialect = found[0]
        more = len(found) - 1
        others = f" (and {more} other document{'s' if more > 1 else ''})" if more else ""
        print(f"note: {path}: upgraded from {DRAFTS[dialect]}{others}", file=sys.stderr)


def _formats() -> Formats:
    from ..formats import Formats
    return Formats()


def reported(report: Report, progress: Progress, found: Iterable[Checked]) -> int:
    """Reports what was found as it comes. The worst of it makes the exit status."""
    status, count = Status.VALID, 0
    for it in found:
        if it.others:
            report.count_valid(it.others)
        for result in it.results:
            if report.writes(result):
                progress.clear()
            report.result(result)
            status = max(status, result.status)
        count += len(it.results) + it.others
        progress.show(count)
    progress.clear()
    report.end()
    return status


def refused_schema(documents: Sequence[SchemaFile], refused: Refused) -> Result:
    """Which of the schema documents is refused, and where. What is about all of them, or about one that was taken of
    another package, is at the first."""
    file = documents[refused.index if refused.index is not None and refused.index < len(documents) else 0]
    return refusal(Input(file.path, 1, file.source), refused)


def unreadable_schema(error: UnreadableFile) -> Result:
    """That the file of a schema document isn't of its kind."""
    return refusal(Input(error.path, 1, JsonSource("json", error.data, b"")), error.refused)
