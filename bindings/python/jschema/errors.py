"""The exceptions: an invalid instance, a refused input, a failing engine."""
from __future__ import annotations

from collections.abc import Sequence
from typing import Optional

from .interface import MEANINGS
from .locations import schema_steps, steps
from .positions import Position, Text


class ValidationError(Exception):
    """One error of an instance: a unit of the `basic` output."""

    def __init__(self, message: str, instance_location: str, keyword_location: str,
                 absolute_keyword_location: str, text: Text, upgraded_location: Optional[str] = None) -> None:
        super().__init__(message, instance_location, keyword_location, absolute_keyword_location, text,
                         upgraded_location)
        self.message = message
        #: JSON Pointer to the value that was validated.
        self.instance_location = instance_location
        #: JSON Pointer through the schemas, with references followed; through upgraded ones of older drafts.
        self.keyword_location = keyword_location
        #: URI of the keyword, with a JSON Pointer as its fragment: in the schema document that was passed in.
        self.absolute_keyword_location = absolute_keyword_location
        #: The same in the document that was validated with: of an older draft, the upgraded one.
        self.upgraded_location = absolute_keyword_location if upgraded_location is None else upgraded_location
        #: The instance.
        self.text = text

    @property
    def path(self) -> Sequence[str | int]:
        """The instance location as member names and indices. pip's `jsonschema` calls it so too."""
        return self.text.path(self.instance_location)

    @property
    def schema_path(self) -> Sequence[str | int]:
        """The keyword location as names and indices."""
        return [step.token for step in schema_steps(self.keyword_location)]

    @property
    def keyword(self) -> str:
        """The keyword that isn't met; `false` for a schema `false` in a list or an object of schemas."""
        last = schema_steps(self.keyword_location)[-1:]
        return str(last[0].token) if last and last[0].is_keyword else "false"

    @property
    def position(self) -> Position:
        """Where the value begins in the text; for errors of `propertyNames`, where the member's name begins."""
        return (self.text.name if self.is_about_name else self.text.value)(self.instance_location)

    @property
    def is_about_name(self) -> bool:
        """Whether a member's name is wrong, and not its value: the error is of `propertyNames`."""
        return any(step.is_keyword and step.token == "propertyNames" for step in schema_steps(self.keyword_location))

    def __str__(self) -> str:
        return f"{self.message} (at {self.instance_location or 'the root'}; {self.absolute_keyword_location})"


def best_first(errors: list[ValidationError]) -> list[ValidationError]:
    """The errors, those deepest in the instance first: they say most precisely what to change."""
    return sorted(errors, key=lambda error: -len(steps(error.instance_location)))


class Refused(ValueError):
    """An input that has no verdict: it isn't JSON, has a number that isn't taken, or is a malformed schema.

    `docs/REFUSALS.md` lists every kind.
    """

    def __init__(self, subject: str, kind: str, place: Optional[str] = None,
                 index: Optional[int] = None, document: Optional[str] = None) -> None:
        super().__init__(subject, kind, place, index, document)
        #: What is refused: `document`, `entry`, `instance`, `walk` or `input`.
        self.subject = subject
        #: The name of the refusal, such as `NotWhole`.
        self.kind = kind
        #: JSON Pointer into the document or the instance.
        self.place = place
        #: The number of the document, in the order they were given, from 0.
        self.index = index
        #: The URI that the document is registered under.
        self.document = document
        #: What the kind means, for people.
        self.meaning = MEANINGS.get(kind, "see docs/REFUSALS.md")
        #: Whether the place is one in the upgraded document, which its text doesn't have.
        self.is_upgraded = False

    def __str__(self) -> str:
        what = f"document {self.document}" if self.subject == "document" else self.subject
        at = f" at {self.place}" if self.place else ""
        upgraded = " in the upgraded document" if self.is_upgraded else ""
        return f"{what}{at}{upgraded}: {self.kind}: {self.meaning}"


class EngineError(RuntimeError):
    """The engine is missing, or failed for a reason that isn't in the input."""


class UpgraderNotFound(EngineError):
    """Documents may be of older drafts, and nothing here upgrades them."""


class EngineNotFound(EngineError):
    """The environment variable JSCHEMA or JSCHEMA_LIBRARY names something that isn't there."""
