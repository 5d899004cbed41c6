"""What is wrong with a document: where its text can't be read, where its schema isn't met, and of schemas what the
validator refuses and what lint says."""
from __future__ import annotations

from collections.abc import Iterator, Sequence
from typing import Any, NamedTuple, Optional, Union

from ..errors import Refused, ValidationError, best_first
from ..lint import Finding, lint_all
from ..locations import schema_steps
from ..resources import expect
from .documents import Document
from .ranges import Edit, Lines, Span
from .schemas import SchemaSet
from .workspace import Choice, Unknown, Workspace, place_of_name

ERROR, WARNING, INFORMATION, HINT = 1, 2, 3, 4
_SEVERITIES = {"error": ERROR, "warning": WARNING, "note": INFORMATION}
# The keywords whose error is about the name of a member.
_NOT_ALLOWED = ("additionalProperties", "unevaluatedProperties")
#: The most diagnostics of a document that are sent.
MOST = 200


class Related(NamedTuple):
    """A place in another document that explains a diagnostic."""

    uri: str
    range: dict[str, Any]
    message: str


class Missing(NamedTuple):
    """An object lacks members: the number of its source, where it stands there, and the keyword that asks for them."""

    source: int
    instance: str
    keyword: str


class Diagnostic(NamedTuple):
    """Something that is wrong with a document."""

    span: Span
    severity: int
    code: str
    message: str
    related: Optional[Related] = None
    #: What puts it right: the name that is meant, or members that are missing.
    remedy: Union[str, Missing, None] = None

    def moved(self, edits: list[Edit]) -> Diagnostic:
        """The same after changes of the text."""
        begin, end = self.span
        for edit in edits:
            begin, end = edit.moved(begin), edit.moved(end)
        return self._replace(span=Span(begin, max(begin, end)))

    def written(self, lines: Lines, has_related: bool) -> dict[str, Any]:
        """The diagnostic as the protocol has it."""
        found: dict[str, Any] = {"range": lines.range(*self.span), "severity": self.severity, "code": self.code,
                                 "source": "jschema", "message": self.message}
        if has_related and self.related is not None:
            uri, at, message = self.related
            found["relatedInformation"] = [{"location": {"uri": uri, "range": at}, "message": message}]
        return found


class Diagnoses:
    """The diagnostics of the open documents. Those of a text that can't be read are the last ones before, and why."""

    def __init__(self, workspace: Workspace) -> None:
        self._workspace = workspace
        self._last: dict[str, list[Diagnostic]] = {}

    def of(self, document: Document) -> list[Diagnostic]:
        """The diagnostics of a document as it is now."""
        last = [it.moved(document.edits) for it in self._last.get(document.uri, [])]
        document.edits.clear()
        fault = document.reading().fault
        found = list(self._found(document)) if fault is None else last
        # (What the validator alone doesn't read as JSON shows while it is asked.)
        fault = document.reading().fault
        if fault is None:
            self._last[document.uri] = found
            return found
        self._last[document.uri] = last
        return [Diagnostic(fault.span, ERROR, "syntax", fault.message), *last]

    def last(self, document: Document) -> list[Diagnostic]:
        """The diagnostics of a document as they were last made."""
        return self._last.get(document.uri, [])

    def forget(self, uri: str) -> None:
        """Forgets a document that was closed."""
        self._last.pop(uri, None)

    def _found(self, document: Document) -> Iterator[Diagnostic]:
        if self._workspace.is_schema(document):
            yield from self._of_schema(document)
            return
        choice = self._workspace.choice_of(document)
        if isinstance(choice, Unknown):
            yield Diagnostic(place_of_name(document), INFORMATION, "schema",
                             f"no schema {choice.name} is known here; nothing is fetched")
        elif choice is not None:
            yield from self._of_instance(document, choice)

    def _of_instance(self, document: Document, choice: Choice) -> Iterator[Diagnostic]:
        if choice.set.schemas is None:
            yield Diagnostic(place_of_name(document), WARNING, "schema", f"its schema is refused: {choice.set.refused}")
            return
        for number in range(len(document.reading().sources)):
            yield from _of_source(document, number, choice)

    def _of_schema(self, document: Document) -> Iterator[Diagnostic]:
        found = self._workspace.set_of_schema(document)
        if found is None:
            return
        texts = [(uri, text.reading.characters.data, text.kind) for uri, text in found.documents]
        of_lint = [_of_lint(document, it) for it in lint_all(texts, options=found.options)[0]]
        if found.refused is not None and not any(it.severity == ERROR for it in of_lint):
            yield _refused_schema(document, found, found.refused)
        yield from of_lint


def _of_source(document: Document, number: int, choice: Choice) -> Iterator[Diagnostic]:
    """What is wrong with one JSON text of a document."""
    schemas = choice.set.schemas
    assert schemas is not None
    reading = document.reading()
    source = reading.sources[number]
    try:
        answer = schemas.check(choice.entry, source.json, "basic")
    except Refused as refused:
        if refused.kind == "NotJson":
            reading.fail(reading.refusal(source, refused), refused.meaning)
        elif refused.subject == "entry":
            yield Diagnostic(place_of_name(document), WARNING, "schema", str(refused))
        else:
            yield Diagnostic(reading.refusal(source, refused), WARNING, refused.kind, f"no verdict: {refused.meaning}")
        return
    if answer.valid:
        return
    errors = best_first(schemas.errors_in(answer, schemas.text_of(source.json)))
    source.trust(schemas.text_of(source.json))
    source.expect(it.instance_location for it in errors[:MOST])
    for error, related in zip(errors, _related(choice.set, errors[:MOST])):
        span = reading.place(source, error.instance_location, _is_of_name(error))
        missing = Missing(number, error.instance_location, error.upgraded_location)
        yield Diagnostic(span, ERROR, error.keyword, error.message, related,
                         missing if error.keyword == "required" else None)
    if len(errors) > MOST:
        yield Diagnostic(Span(0, 1), INFORMATION, "more", f"{len(errors) - MOST} more errors")


def _is_of_name(error: ValidationError) -> bool:
    """Whether an error is about the name of a member."""
    keywords = [step.token for step in schema_steps(error.keyword_location) if step.is_keyword]
    return "propertyNames" in keywords or error.keyword in _NOT_ALLOWED


def _related(found: SchemaSet, errors: Sequence[ValidationError]) -> Iterator[Optional[Related]]:
    """Where the keyword of each error stands."""
    targets = [found.find(it.upgraded_location) for it in errors]
    expect(targets)
    for error, target in zip(errors, targets):
        at = None if target is None else found.location(target)
        yield None if at is None else Related(at["uri"], at["range"], error.absolute_keyword_location)


def _of_lint(document: Document, finding: Finding) -> Diagnostic:
    """What lint says of a schema."""
    span = document.reading().characters.span(*(it.offset for it in finding.range))
    return Diagnostic(span, _SEVERITIES[finding.severity], finding.rule, finding.message, remedy=finding.suggestion)


def _refused_schema(document: Document, found: SchemaSet, refused: Refused) -> Diagnostic:
    """The refusal of a schema. One that is in another document stands where this one refers to it."""
    reading = document.reading()
    index = refused.index or 0
    # (Of a meta-schema that was taken of another package there is no document.)
    if index == 0 or index >= len(found.documents):
        return Diagnostic(reading.refusal(reading.sources[0], refused), ERROR, refused.kind, refused.meaning)
    place = found.first_reference_to(found.documents[index][0])
    span = Span(0, 1) if place is None else reading.place(reading.sources[0], place)
    return Diagnostic(span, ERROR, refused.kind, str(refused))
