"""URI references (RFC 3986), as the validator resolves and writes them."""
from __future__ import annotations

import re
from collections.abc import Iterable
from typing import Optional
from urllib.parse import quote

from .locations import pointer

# The scheme, the authority, the path, the query with its `?`, and the fragment with its `#`.
_Parts = tuple[Optional[str], Optional[str], str, Optional[str], Optional[str]]
_PARTS = re.compile(r"(?:([A-Za-z][A-Za-z0-9+.-]*):)?(?://([^/?#]*))?([^?#]*)(\?[^#]*)?(#.*)?", re.DOTALL)
# What the URL standard leaves as it is. (`%` too: what is escaped stays so.)
_SAFE = "!$&'()*+,;=:@[]|/?%~-._#^"
# What the validator leaves as it is in a fragment, beside letters and digits.
_SAFE_IN_FRAGMENT = "!$&'()*+,;=:@/?~-._"


def joined(base: str, reference: str) -> str:
    """A reference, resolved against a base URI."""
    scheme, authority, path, query, fragment = _parts(reference)
    if scheme is not None:
        return _made(scheme, authority, _without_dots(path), query, fragment)
    base_scheme, base_authority, base_path, base_query, _ = _parts(base)
    if authority is None:
        authority = base_authority
        if not path:
            path, query = base_path, base_query if query is None else query
        elif not path.startswith("/"):
            above = base_path.rpartition("/")[0]
            path = f"{above}/{path}" if above or base_authority is not None or "/" in base_path else path
    return _made(base_scheme, authority, _without_dots(path), query, fragment)


def is_relative(reference: str) -> bool:
    """Whether a reference names a document by a path from where it stands."""
    scheme, authority, path, _, _ = _parts(reference)
    return scheme is None and authority is None and bool(path) and not path.startswith("/")


def path_of(reference: str) -> str:
    """The path of a reference."""
    return _parts(reference)[2]


def without_fragment(uri: str) -> str:
    """A URI without its fragment."""
    return uri.partition("#")[0]


def fragment_of(uri: str) -> str:
    """The fragment of a URI, without the `#`."""
    return uri.partition("#")[2]


def document_of(uri: str) -> str:
    """A URI without its fragment, in the form in which the validator writes it, so that two can be compared."""
    scheme, authority, path, query, _ = _parts(without_fragment(uri))
    if scheme is not None and scheme.lower() in ("http", "https", "ws", "wss", "ftp") and not path:
        path = "/"
    return _made(scheme and scheme.lower(), authority and authority.lower(), _quoted(path),
                 query and _quoted(query), None)


def with_pointer(uri: str, tokens: Iterable[str]) -> str:
    """A URI with the JSON Pointer of these tokens as its fragment, in the form in which the validator writes it."""
    return without_fragment(uri) + "#" + quote(pointer([*tokens]), safe=_SAFE_IN_FRAGMENT)


def _quoted(text: str) -> str:
    return quote(text, safe=_SAFE, errors="replace")


def _parts(reference: str) -> _Parts:
    found = _PARTS.fullmatch(reference)
    assert found is not None
    return found[1], found[2], found[3], found[4], found[5]


def _made(scheme: Optional[str], authority: Optional[str], path: str, query: Optional[str],
          fragment: Optional[str]) -> str:
    begin = f"{scheme}:" if scheme is not None else ""
    middle = f"//{authority}" if authority is not None else ""
    return f"{begin}{middle}{path}{query or ''}{fragment or ''}"


def _without_dots(path: str) -> str:
    """A path without `.` and `..`."""
    if not path.startswith("/"):
        return path
    kept: list[str] = []
    segments = path.split("/")[1:]
    for segment in segments:
        if segment == "..":
            del kept[-1:]
        elif segment != ".":
            kept.append(segment)
    if segments[-1] in (".", ".."):
        kept.append("")
    return "/" + "/".join(kept)
