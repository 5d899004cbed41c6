"""What keywords become in schemas that are rewritten."""
from __future__ import annotations

from typing import NamedTuple, Optional


class Change(NamedTuple):
    """What a keyword of a schema, or a name in one, became: its tokens before and now, and the message of its errors
    if it isn't the validator's."""

    before: tuple[str, ...]
    now: tuple[str, ...]
    message: Optional[str] = None
