"""What a refusal means, where the refused text tells more than the kind."""
from __future__ import annotations

import json
from typing import Any, Optional
from urllib.parse import urldefrag, urljoin, urlsplit

from .errors import Refused
from .locations import steps

_MARK = b"\xef\xbb\xbf"
_MARKS_OF_UTF_16 = (b"\xff\xfe", b"\xfe\xff")


def explain(refused: Refused, text: bytes, uri: str) -> None:
    """Makes a refusal say more. The text is that of the document or the instance; the URI is the document's or the
    entry."""
    if refused.kind == "NotJson":
        refused.meaning = _encoding(text) or refused.meaning
    elif refused.kind == "Unresolved":
        wanted = uri if refused.place is None else _reference(text, refused.place, uri)
        refused.meaning = f"no schema has the URI {wanted}; give its document too" if wanted else refused.meaning
    elif refused.kind == "BadReference" and (refused.place or "").endswith("/$recursiveRef"):
        refused.meaning = "a $recursiveRef of 2019-09 is `#`"


def _encoding(text: bytes) -> Optional[str]:
    """What is wrong with the encoding of a text, if that shows at its beginning."""
    if text.startswith(_MARK):
        return "begins with a byte order mark; a JSON text is UTF-8 without one"
    # A JSON text begins with an ASCII character, so with UTF-16 and UTF-32 one of its first bytes is zero.
    if text.startswith(_MARKS_OF_UTF_16) or b"\0" in text[:2]:
        return "is UTF-16 or UTF-32; a JSON text is UTF-8"
    return None


def _reference(text: bytes, place: str, base: str) -> Optional[str]:
    """The URI that a reference in a document names, which is joined with each `$id` above it."""
    try:
        value: Any = json.loads(text)
        for token in steps(place):
            if isinstance(value, dict):
                if isinstance(value.get("$id"), str):
                    base = _joined(base, value["$id"])
                value = value[token]
            else:
                value = value[int(token)]
        return _joined(base, value) if isinstance(value, str) else None
    except (ValueError, LookupError, TypeError, RecursionError):
        return None


def _joined(base: str, reference: str) -> str:
    if reference.startswith("#") or not reference:
        return urldefrag(base).url + reference
    return reference if urlsplit(reference).scheme else urljoin(base, reference)
