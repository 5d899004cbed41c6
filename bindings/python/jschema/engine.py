"""What checks the instances. `Schemas` asks an engine for everything, and knows nothing else of it."""
from __future__ import annotations

from collections.abc import Sequence
from typing import NamedTuple, Optional, Protocol

from . import interface
from .positions import Located

#: The formats of the standard, and `merged`: `detailed` with each error once.
FORMATS = tuple(interface.FORMATS)


class Answer(NamedTuple):
    """The verdict of a check, and the output: a JSON text with a line feed at its end."""

    valid: bool
    text: bytes


class Engine(Protocol):
    """Schema documents, and checks against them: `add` each, `finish` once, then check, from any thread.

    `add`, `upgrade`, `finish`, `is_valid` and `check` raise `Refused`, `MemoryError`, or `EngineError` for any other
    failure.
    """

    def add(self, uri: str, document: bytes) -> None:
        """Registers the text of a schema document under an absolute URI."""

    def upgrade(self, dialect: str) -> None:
        """Upgrades the documents from older drafts to 2020-12, together. One that names no dialect is of that with this
        URI. Called between `add` and `finish`, and only where a document may be of an older draft."""

    def finish(self) -> None:
        """Checks the documents together. Nothing is added afterwards."""

    def places(self) -> list[str]:
        """The absolute location of every schema."""

    def is_valid(self, entry: str, instance: bytes) -> bool:
        """Whether a JSON text is valid against the schema with this URI."""

    def valid_lines(self, entry: str, text: bytes, begin: int) -> tuple[int, int]:
        """How many lines of a text are valid one after another, from the one on that begins at a byte, and the byte
        after them. A line ends with a line feed. An engine may take fewer than there are."""

    def check(self, entry: str, instance: bytes, format: str) -> Answer:
        """The verdict of `is_valid`, with the output in a format: one of `FORMATS`."""

    def locate(self, text: bytes, pointers: Sequence[str]) -> Optional[Sequence[Optional[Located]]]:
        """Where the values at JSON Pointers stand in a JSON text; None for one that isn't there. None for all where the
        engine doesn't say, or the text isn't JSON."""

    def close(self) -> None:
        """Frees what is held. A second call does nothing."""
