"""Where keywords stand in the files of the schemas."""
from __future__ import annotations

import threading
from collections.abc import Iterable, Sequence
from typing import Optional

from ..faults import NotJson
from ..locations import pointer
from ..lookup import SchemaFile, walked
from ..resources import Target, Targets, expect
from .problems import SchemaPlace

# How many places are kept.
_MOST = 10_000


class Places:
    """The files of the schemas. They are walked when the first keyword is looked for."""

    def __init__(self, files: Sequence[SchemaFile]) -> None:
        self._files = files
        self._targets: Optional[Targets] = None
        self._paths: dict[int, str] = {}
        self._kept: dict[str, Optional[SchemaPlace]] = {}
        self._lock = threading.Lock()

    def of(self, keyword_uris: Iterable[str]) -> list[Optional[SchemaPlace]]:
        """The places of keywords with these absolute locations; None for one that is in none of the files."""
        wanted = [*keyword_uris]
        with self._lock:
            if len(self._kept) > _MOST:
                self._kept.clear()
            self._keep({uri for uri in wanted if uri not in self._kept})
            return [self._kept[uri] for uri in wanted]

    def _keep(self, keyword_uris: set[str]) -> None:
        """Looks for keywords, those of a document together."""
        if not keyword_uris:
            return
        if self._targets is None:
            walks = [(file, walked(file)) for file in self._files]
            self._paths = {id(document): file.path for file, document in walks if document is not None}
            self._targets = Targets(document for _, document in walks if document is not None)
        found = {uri: self._targets.target(uri) for uri in keyword_uris}
        expect(found.values())
        self._kept.update((uri, None if it is None else self._place(it)) for uri, it in found.items())

    def _place(self, keyword: Target) -> Optional[SchemaPlace]:
        try:
            where = keyword.document.source.name(pointer([*keyword.tokens])).begin
        except (LookupError, NotJson):
            return None
        return SchemaPlace(self._paths[id(keyword.document)], where)
