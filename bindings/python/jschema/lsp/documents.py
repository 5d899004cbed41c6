"""The documents that a client has opened."""
from __future__ import annotations

from typing import Any, Optional

from ..sources import kind_of
from .ranges import Edit, Lines, path_of
from .reading import Reading
from .tree import Node, trees_of

#: The kinds of texts, by the names that clients have for languages.
_KINDS = {"json": "json", "jsonc": "jsonc", "yaml": "yaml", "toml": "toml"}


class Document:
    """An open document."""

    def __init__(self, uri: str, language: str, version: int, text: str) -> None:
        self.uri, self.language, self.version = uri, language, version
        self.lines = Lines(text)
        #: The changes since diagnostics were last made of a text that could be read.
        self.edits: list[Edit] = []
        self._reading: Optional[Reading] = None
        # The last text that could be read.
        self._before: Optional[Reading] = None
        self._trees: Optional[list[Node]] = None

    @property
    def text(self) -> str:
        """The text as it is now."""
        return self.lines.text

    @property
    def path(self) -> Optional[str]:
        """The file of the document, if it has one."""
        return path_of(self.uri)

    @property
    def kind(self) -> str:
        """What it is written in: by the client's word, or else by its name."""
        return _KINDS.get(self.language) or kind_of(self.path or self.uri)

    def reading(self) -> Reading:
        """The text, read."""
        if self._reading is None:
            self._reading = Reading(self.text, self.kind, self._before)
        return self._reading

    def trees(self) -> list[Node]:
        """The values of the text, as far as they can be told: in YAML of each of its documents."""
        if self._trees is None:
            self._trees = trees_of(self.text, self.kind, self.reading())
        return self._trees

    def change(self, version: int, changes: list[dict[str, Any]]) -> None:
        """Applies the changes of a notification, one after another."""
        for change in changes:
            text = change["text"]
            within = change.get("range")
            begin = self.lines.offset(within["start"]) if within else 0
            end = self.lines.offset(within["end"]) if within else len(self.text)
            self.edits.append(Edit(begin, end, len(text)))
            self.lines = Lines(self.text[:begin] + text + self.text[end:])
        if self._reading is not None and self._reading.sources:
            self._before = self._reading
        self._reading = self._trees = None
        self.version = version
