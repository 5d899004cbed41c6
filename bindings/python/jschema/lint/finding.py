"""What is found in a schema."""
from __future__ import annotations

from typing import NamedTuple, Optional

from ..sources import Range

#: The validator refuses the document for it; it isn't what the author means; it is good to know.
ERROR, WARNING, NOTE = "error", "warning", "note"

#: Each rule, and what it finds.
RULES = {
    "not-json": "the text isn't JSON, or isn't of its kind",
    "refused": "the validator refuses the document, for what no other rule names",
    "unresolved-reference": "a reference leads nowhere",
    "pattern": "a pattern isn't one that the validator reads",
    "number": "a number has a fraction, an exponent or a minus before zero, or is beyond 64 bits",
    "unknown-keyword": "no dialect knows a keyword",
    "inactive-keyword": "a keyword can't act",
    "format": "a format isn't asserted",
    "unused-definition": "nothing refers to a definition",
    "accepts-nothing": "a schema accepts nothing by its own bounds",
}


class Found(NamedTuple):
    """What a rule finds, before its place in the text is looked up."""

    rule: str
    severity: str
    #: The tokens of the keyword or the value, and whether it is its name that is meant.
    tokens: tuple[str, ...]
    is_name: bool
    message: str
    suggestion: Optional[str] = None
    #: From which character of the name, or of the string, to which one it is meant; None for all.
    part: Optional[tuple[int, int]] = None


class Finding(NamedTuple):
    """What is found in a schema, and where."""

    #: One of `RULES`.
    rule: str
    #: `error`, `warning` or `note`.
    severity: str
    message: str
    #: JSON Pointer to the keyword or the value.
    place: str
    #: What of the text is meant.
    range: Range
    #: The keyword that is probably meant.
    suggestion: Optional[str] = None
