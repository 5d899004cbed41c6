"""Documents of older drafts, which an engine upgrades to 2020-12."""
from __future__ import annotations

import json
import re
from collections.abc import Iterable, Sequence
from functools import lru_cache
from typing import Optional

from .dialects import LATEST, URIS, dialect_called, dialect_of
from .documents import Documents, texts_of
from .engines import default_engine
from .errors import Refused
from .locations import pointer, steps
from .meanings import explain
from .metaschemas import ALL, metaschemas_for
from .originals import original
from .resources import Document, document, original_location
from .sources import read

# What a document of an older draft has somewhere. (A slash may be escaped; and any character as its number.)
_OLDER = re.compile(rb"json-schema\.org\\?/draft(?:-0[3467]|\\?/2019-09)\\?/|\\u00")


def may_be_older(text: bytes, assumed: int = LATEST) -> bool:
    """Whether a document may be of an older draft, or have a part that is. (It may say too often that it may.)"""
    return assumed != LATEST or _OLDER.search(text) is not None


def upgrade(documents: Documents, *, default_dialect: Optional[str] = None) -> dict[str, bytes]:
    """Schema documents as documents of 2020-12: a JSON text for each URI, in the order of the documents.

    They are upgraded together, since a reference may lead into another document. One that names no dialect is of the
    `default_dialect`, as for `Schemas`. The library does it, or without it the program `jschema-upgrade` beside
    `jschema`. Raises `Refused` for a document that can't be upgraded, and `EngineError` where there is neither.
    """
    given = texts_of(documents)
    texts = [*given, *metaschemas_for(given, ALL)]
    engine = default_engine()
    try:
        for uri, text in texts:
            engine.add(uri, text)
        engine.upgrade(Upgrade(default_dialect, True).uri)
        return dict(zip([uri for uri, _ in given], engine.documents()))
    except Refused as refused:
        if refused.index is not None:
            uri, text = texts[refused.index]
            explain(refused, text, uri)
        raise
    finally:
        engine.close()


class Upgrade:
    """Whether documents are upgraded, and from which dialect if they name none.

    Raises `ValueError` for a name or a URI of no dialect, and for one that is given where nothing is upgraded.
    """

    def __init__(self, default_dialect: Optional[str], upgrade: bool) -> None:
        if default_dialect is not None and not upgrade:
            raise ValueError("default_dialect says what to upgrade from, and upgrade is False")
        self.is_wanted = upgrade
        self.assumed = LATEST if default_dialect is None else dialect_called(default_dialect)
        self._is_given = default_dialect is not None

    @property
    def uri(self) -> str:
        """The `$schema` of the dialect that is assumed."""
        return URIS[self.assumed]

    def may_change(self, texts: Iterable[bytes]) -> bool:
        """Whether one of the documents may be of an older draft. (One of 2020-12 is upgraded to itself.)"""
        return self.is_wanted and (self._is_given or any(map(may_be_older, texts)))

    def explain(self, refused: Refused, text: bytes) -> None:
        """Puts the place of the refusal of an upgraded document into words of its text; or says that it has none."""
        try:
            value = json.loads(text)
            dialect = dialect_of(value, self.assumed)
            if not may_be_older(text, dialect):
                return
            found = original(value, steps(refused.place or ""), dialect)
        except (ValueError, RecursionError):
            found = None
        if found is None:
            refused.is_upgraded = True
        else:
            refused.place = pointer([*found.tokens])


class Originals:
    """Documents as they were before they were upgraded. They are read when the first location is looked for."""

    def __init__(self, texts: Sequence[tuple[str, bytes]], assumed: int) -> None:
        self._texts, self._assumed = texts, assumed
        self._documents: Optional[list[Document]] = None
        self.location = lru_cache(maxsize=10_000)(self._location)

    def _location(self, uri: str) -> str:
        """The absolute location of a keyword in them, by that in the upgraded documents. Where nothing becomes that
        keyword, the location is the upgraded one."""
        if self._documents is None:
            self._documents = [it for uri, text in self._texts if (it := _document(uri, text, self._assumed))]
        return original_location(uri, self._documents)


def _document(uri: str, text: bytes, assumed: int) -> Optional[Document]:
    """A document that the validator has read. (Python's own reader refuses numbers of thousands of digits.)"""
    try:
        return document(uri, read(text, "json")[0], assumed)
    except (ValueError, RecursionError):
        return None
