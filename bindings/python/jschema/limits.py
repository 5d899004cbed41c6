"""The limits that hold before an engine is asked."""
from __future__ import annotations

from .interface import LIMITS

#: The most bytes that a text may have: a schema document, or an instance.
LARGEST_TEXT = LIMITS["bytes"]
#: How deep arrays and objects may be nested in one.
DEEPEST = LIMITS["nesting"]
