"""What a schema's author would want to know of a schema.

    for finding in lint(b'{"requierd": ["name"]}', "https://example.com/person"):
        print(finding.range.begin.line, finding.message)    # 1 no dialect knows the keyword `requierd`: is ...
"""
from __future__ import annotations

from collections.abc import Iterator, Sequence
from typing import Any, Optional

from ..documents import Documents, texts_of
from ..errors import Refused, UpgraderNotFound
from ..limits import LARGEST_TEXT
from ..locations import pointer
from ..meanings import explain
from ..resources import Document, Target, document, value_of
from ..rewriting import Options
from ..schemas import Schemas
from ..sources import Source, Unreadable, read
from . import bounds, keywords, numbers, patterns, references
from .finding import ERROR, NOTE, RULES, WARNING, Finding, Found
from .parts import part_of

__all__ = ["ERROR", "NOTE", "RULES", "WARNING", "Finding", "broken", "lint", "lint_all", "lint_documents",
           "second_document", "unreadable"]

_OF_PATTERNS = ("BadPattern", "PatternTooLarge")
# So many documents may be refused before each is asked for alone.
_FEW = 4


def lint(text: bytes, uri: str, *, kind: str = "json", others: Documents = (), patterns: Optional[str] = None,
         numbers: Optional[str] = None) -> list[Finding]:
    """What is found in a schema document, in the order of the text.

    `kind` is one of `jschema.sources.KINDS`; `others` are documents that it refers to, which aren't looked at.
    `patterns` and `numbers` are as for `Schemas`: what is rewritten is no error. Raises `EngineError` where there is no
    validator, and `ValueError` for another `patterns` or `numbers`.
    """
    return lint_all([(uri, text, kind)], others, Options(patterns, numbers))[0]


def lint_all(texts: Sequence[tuple[str, bytes, str]], others: Documents = (),
             options: Options = Options()) -> list[list[Finding]]:
    """The same of several documents, which may refer to one another. Of each the URI, text and kind are given."""
    made = [_document(uri, text, kind) for uri, text, kind in texts]
    beside = [it for it in (_document(uri, text, "json") for uri, text in texts_of(others)) if isinstance(it, Document)]
    found = iter(lint_documents([it for it in made if isinstance(it, Document)], beside, options))
    return [next(found) if isinstance(it, Document) else [it] for it in made]


def lint_documents(given: Sequence[Document], beside: Sequence[Document] = (),
                   options: Options = Options()) -> list[list[Finding]]:
    """The same of documents that were read; `beside` are those that they refer to, which aren't looked at."""
    documents = [*given, *beside]
    refusals = _refusals(documents, options) if given else {}
    uses = references.Uses(documents)
    return [_findings(it, uses, refusals.get(index), options) for index, it in enumerate(given)]


def broken(source: Source) -> Finding:
    """That a text isn't JSON, and where; or that it is too large to be read."""
    refused = Refused("input", "InputTooLarge")
    if len(source.json) <= LARGEST_TEXT:
        refused = Refused("document", "NotJson", "")
        explain(refused, source.json, "")
    return Finding("not-json", ERROR, refused.meaning, "", source.refusal(refused))


def unreadable(refused: Unreadable) -> Finding:
    """That a text isn't of its kind."""
    return Finding("not-json", ERROR, refused.meaning, refused.place or "", refused.range)


def second_document(source: Source) -> Finding:
    """That a file has another document of YAML."""
    at = source.value("")
    return Finding("not-json", ERROR, "a schema is one document, and here begins another", "", at)


def _document(uri: str, text: bytes, kind: str) -> Document | Finding:
    """The document of a text; or that it is broken, and where."""
    try:
        source, *more = read(text, kind)
    except Unreadable as refused:
        return unreadable(refused)
    if more:
        return second_document(more[0])
    try:
        return document(uri, source)
    except (ValueError, RecursionError):
        return broken(source)


def _judged(documents: Sequence[tuple[str, Any]], options: Options = Options()) -> Optional[Refused]:
    """The refusal of documents, if the validator refuses them. Where nothing upgrades older drafts they are refused."""
    try:
        try:
            Schemas(documents, patterns=options.patterns, numbers=options.numbers).close()
        except UpgraderNotFound:
            Schemas(documents, upgrade=False, patterns=options.patterns, numbers=options.numbers).close()
    except Refused as refused:
        return refused
    return None


def _refusals(documents: Sequence[Document], options: Options) -> dict[int, Refused]:
    """The first refusal of each document that the validator refuses. It names one document, so it is asked again
    without that. Where more than a few are refused each is asked for alone, since each question takes all of them."""
    refusals: dict[int, Refused] = {}
    while left := [(index, it) for index, it in enumerate(documents) if index not in refusals]:
        refused = _judged([(it.uri, it.source.json) for _, it in left], options)
        if refused is None:
            break
        refusals[left[refused.index or 0][0]] = refused
        if len(refusals) == _FEW:
            # (What is refused for want of another document has its own rule, which looks at all of them.)
            alone = ((index, _judged([(it.uri, it.source.json)], options)) for index, it in left)
            refusals = {**{index: refused for index, refused in alone if refused is not None}, **refusals}
    return refusals


def _findings(given: Document, uses: references.Uses, refused: Optional[Refused],
              options: Options) -> list[Finding]:
    """What the rules find, in the order of the text."""
    found = list(_found(given, uses, refused is not None, options))
    given.source.expect(pointer([*it.tokens]) for it in found)
    findings = [_finding(given, it) for it in found]
    if refused is not None and not _is_known(refused, found):
        message = f"{refused.meaning} ({refused.kind})"
        findings.append(Finding("refused", ERROR, message, refused.place or "", given.source.refusal(refused)))
    return sorted(findings, key=lambda it: it.range.begin)


def _is_known(refused: Refused, found: Sequence[Found]) -> bool:
    """Whether a rule has found what the validator refuses. (References to a document that is itself refused lead
    somewhere.)"""
    if refused.kind in _OF_PATTERNS:
        # (What a name became may be refused at another keyword.)
        return any(it.rule == "pattern" for it in found)
    return refused.kind == "Unresolved" or any(it.severity == ERROR and pointer([*it.tokens]) == refused.place
                                               for it in found)


def _found(given: Document, uses: references.Uses, is_refused: bool, options: Options) -> Iterator[Found]:
    yield from keywords.unknown(given)
    yield from keywords.inactive(given)
    yield from keywords.formats(given)
    yield from references.unused(given, uses)
    yield from bounds.nothing(given)
    if is_refused:
        # (What the validator accepts has none of these.)
        yield from references.unresolved(given, uses)
        yield from patterns.unread(given, options.patterns is not None, _pattern_judge)
        yield from numbers.outside(given, options.numbers)


def _pattern_judge(schema: Any) -> Optional[Refused]:
    return _judged([("https://a.example/patterns", schema)])


def _finding(given: Document, it: Found) -> Finding:
    place = pointer([*it.tokens])
    where = given.source.name(place) if it.is_name else given.source.value(place)
    if it.part is not None:
        string = it.tokens[-1] if it.is_name else value_of(Target(given, it.tokens))
        where = part_of(given.source, where, string, *it.part)
    return Finding(it.rule, it.severity, it.message, place, where, it.suggestion)
