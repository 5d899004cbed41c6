"""The keywords of each dialect, from draft-03 to draft 2020-12."""
from __future__ import annotations

import re
from typing import Any, Optional

from .keyword_table import ROWS

DRAFTS = ("draft-03", "draft-04", "draft-06", "draft-07", "2019-09", "2020-12")
LATEST = len(DRAFTS) - 1

#: The `$schema` of each dialect.
URIS = (*(f"http://json-schema.org/{name}/schema#" for name in DRAFTS[:4]),
        *(f"https://json-schema.org/draft/{name}/schema" for name in DRAFTS[4:]))
# Schemas name the meta-schema or the hyper-schema of a draft, with `http` or `https`, with an empty fragment or none.
_NAMED = re.compile(r"https?://json-schema\.org/(?:(draft-0[3467]|draft/2019-09)/(?:hyper-)?|(draft/2020-12)/)schema#?")

#: The first and the last dialect of each keyword.
KEYWORDS = {name: (row.first, row.last) for name, row in ROWS.items()}


def dialect_named(uri: Any) -> Optional[int]:
    """The number of the dialect that a `$schema` names; None if it is another."""
    found = _NAMED.fullmatch(uri) if isinstance(uri, str) else None
    return None if found is None else DRAFTS.index((found[1] or found[2]).removeprefix("draft/"))


def dialect_of(schema: Any, assumed: int = LATEST) -> int:
    """The number of a document's dialect: what is assumed where it names none, and the latest for one that isn't
    known."""
    if not isinstance(schema, dict) or "$schema" not in schema:
        return assumed
    named = dialect_named(schema["$schema"])
    return LATEST if named is None else named


def dialect_called(name: str) -> int:
    """The number of the dialect with a name of `DRAFTS`, or with a URI. Raises `ValueError`."""
    if name in DRAFTS:
        return DRAFTS.index(name)
    number = dialect_named(name)
    if number is None:
        raise ValueError(f"no dialect {name!r}: it is one of {', '.join(DRAFTS)}, or the URI of one")
    return number


def stranger(keyword: str, dialect: int) -> Optional[str]:
    """Why a keyword of another dialect can't act in this one; None if it is of this one, or of none."""
    span = KEYWORDS.get(keyword)
    if span is None or span[0] <= dialect <= span[1]:
        return None
    first, last = DRAFTS[span[0]], DRAFTS[span[1]]
    since = f"is of {first}" if first == last else f"is of {first} to {last}"
    instead = ROWS[keyword].instead if dialect == LATEST else None
    return f"`{keyword}` {since}, and can't act in {DRAFTS[dialect]}" + (f": use {instead}" if instead else "")
