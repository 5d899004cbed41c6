"""What is reported: errors of instances, findings in schemas, warnings, refusals and failures."""
from __future__ import annotations

from typing import NamedTuple, Optional

from ..errors import Refused, ValidationError
from ..positions import Position
from ..sources import Range

ERROR, WARNING, NOTE, REFUSED, FAILED = "error", "warning", "note", "refused", "failed"


class SchemaPlace(NamedTuple):
    """Where a keyword stands in the file of a schema."""

    file: str
    position: Position


class Problem(NamedTuple):
    """A problem in a file."""

    #: `error`, `warning`, `note`, `refused` or `failed`.
    kind: str
    #: The keyword, the rule of lint, or the name of the refusal.
    rule: str
    message: str
    #: What of the file is meant, with lines counted in the file.
    range: Range
    #: JSON Pointer to the value.
    pointer: str = ""
    #: Where the keyword is, by its URI and in a file.
    keyword_uri: str = ""
    keyword_place: Optional[SchemaPlace] = None
    #: What the package raised, if it did.
    error: Optional[ValidationError] = None
    refused: Optional[Refused] = None
    #: The keyword that is probably meant.
    suggestion: Optional[str] = None


START = Position(0, 1, 1)
#: The place of what concerns a whole file.
WHOLE = Range(START, START)
