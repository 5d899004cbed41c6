"""The line that says why there is no verdict: docs/REFUSALS.md."""
from __future__ import annotations

import json
import re
from collections.abc import Sequence
from typing import Optional

from .errors import EngineError, Refused

_LINE = re.compile(r'(?P<ending>refused|failed): (?:(?P<subject>\w+)(?: (?P<index>\d+))?'
                   r'(?: at (?P<place>".*"))?: )?(?P<kind>\w+)\n?', re.DOTALL)


def fault_of(line: str, uris: Sequence[str]) -> Optional[Exception]:
    """What to raise for a line, where the documents have these URIs; None if it is no such line."""
    said = _LINE.fullmatch(line)
    if said is None:
        return None
    if said["ending"] == "failed":
        return MemoryError(line.strip()) if said["kind"] == "Memory" else EngineError(line.strip())
    index = int(said["index"]) if said["index"] else None
    return Refused(said["subject"], said["kind"], json.loads(said["place"]) if said["place"] else None,
                   index, None if index is None else uris[index])
