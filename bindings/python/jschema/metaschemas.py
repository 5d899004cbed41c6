"""The meta-schemas of the drafts, where another package of this Python has them: pip's `jsonschema-specifications`, or
Debian's `python3-jsonschema`. They are data of those packages, and none is a part of this one."""
from __future__ import annotations

import json
import re
from collections.abc import Container, Iterable, Iterator
from functools import lru_cache
from importlib.util import find_spec
from pathlib import Path
from typing import Any, NamedTuple

from .dialects import LATEST, dialect_named
from .uris import document_of, joined

_PACKAGES = ("jsonschema_specifications", "jsonschema")
# What refers to one, or is one. (A slash may be escaped. What is found in a value that is no schema does no harm.)
_URI = rb'"\s*:\s*"(https?:\\?/\\?/json-schema\.org\\?/[^"#]*)'
_REFERENCE = re.compile(rb'"\$(?:ref|dynamicRef|recursiveRef)' + _URI)
_IDENTIFIER = re.compile(rb'"\$?id' + _URI)
# A reference of a meta-schema, as `json.dumps` writes it.
_WRITTEN = re.compile(r'"\$(?:ref|dynamicRef|recursiveRef)": "([^"]*)"')


class _Metaschema(NamedTuple):
    """A document of a draft, and the URIs of those that it refers to."""

    draft: int
    text: bytes
    references: frozenset[str]


def metaschemas_for(documents: Iterable[tuple[str, bytes]], drafts: Container[int]) -> list[tuple[str, bytes]]:
    """The meta-schemas of these drafts that documents refer to, and those that these refer to in turn, with their URIs.
    One that is given, by its URI or its identifier, isn't taken, but what it refers to is."""
    given: set[str] = set()
    wanted: set[str] = set()
    for uri, text in documents:
        own = {document_of(uri), *_found(_IDENTIFIER, text)}
        given |= own
        wanted |= {*own, *_found(_REFERENCE, text)}
    if not any("//json-schema.org/" in uri for uri in wanted):
        return []
    known = _known()
    waiting = [*wanted]
    for uri in waiting:
        # (The list grows on the way.)
        more: frozenset[str] = known[uri].references - wanted if uri in known else frozenset()
        wanted |= more
        waiting += more
    return [(uri, it.text) for uri, it in known.items() if uri in wanted and uri not in given and it.draft in drafts]


def _found(pattern: re.Pattern[bytes], text: bytes) -> Iterator[str]:
    for uri in pattern.findall(text):
        yield document_of(uri.decode(errors="replace").replace("\\", ""))


@lru_cache(maxsize=None)
def _known() -> dict[str, _Metaschema]:
    """The documents by their URIs. Of two packages the first one's count."""
    found: dict[str, _Metaschema] = {}
    for uri, value in _values():
        draft, uri = dialect_named(value.get("$schema")), document_of(uri)
        if draft is not None and uri not in found:
            text = json.dumps(value)
            references = frozenset(document_of(joined(uri, it)) for it in _WRITTEN.findall(text))
            found[uri] = _Metaschema(draft, text.encode(), references)
    return found


def _values() -> Iterator[tuple[str, dict[str, Any]]]:
    for folder in _folders():
        for path in sorted(folder.rglob("*")):
            try:
                value = json.loads(path.read_bytes())
            except (OSError, ValueError):
                continue
            # (One file has several documents by their URIs.)
            for it in value.values() if isinstance(value, dict) and "$schema" not in value else [value]:
                uri = it.get("$id", it.get("id")) if isinstance(it, dict) else None
                if isinstance(uri, str):
                    yield uri, it


def _folders() -> Iterator[Path]:
    for package in _PACKAGES:
        # (Found, and not imported.)
        spec = find_spec(package)
        for location in (spec and spec.submodule_search_locations) or ():
            yield Path(location, "schemas")


#: The drafts whose meta-schemas are taken: with an upgrade all.
ALL, LATEST_ALONE = range(LATEST + 1), (LATEST,)
