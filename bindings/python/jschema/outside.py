"""What stands outside of the strings of a JSON text."""
from __future__ import annotations

import re

#: A sign with which an array or an object begins or ends.
BRACKET = re.compile(rb"[\[\]{}]")


def without_escapes(text: bytes) -> bytes:
    """A JSON text in which each quote begins or ends a string, with blanks for quotes and backslashes that are escaped
    there. All else stays in its place."""
    return text.replace(b"\\\\", b"  ").replace(b'\\"', b"  ")


def outside_of_strings(text: bytes) -> bytes:
    """A JSON text with blanks in its strings. What is outside of them, and each quote, stays in its place."""
    parts = without_escapes(text).split(b'"')
    parts[1::2] = map(b"".ljust, map(len, parts[1::2]))
    return b'"'.join(parts)
