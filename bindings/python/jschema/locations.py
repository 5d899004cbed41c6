"""JSON Pointers (RFC 6901), and what the steps of a keyword location are."""
from __future__ import annotations

from typing import NamedTuple, Union

from .keyword_table import of_form

#: The keywords of draft 2020-12 whose value is a list of schemas, and those whose value is an object of schemas.
LISTS, OBJECTS = of_form("schemas"), of_form("named schemas")


class Step(NamedTuple):
    """A step of a keyword location."""

    token: Union[str, int]
    is_keyword: bool


def steps(pointer: str) -> list[str]:
    """The tokens of a JSON Pointer, unescaped."""
    return [token.replace("~1", "/").replace("~0", "~") for token in pointer.split("/")[1:]]


def pointer(tokens: list[str]) -> str:
    """The JSON Pointer of these tokens."""
    return "".join("/" + token.replace("~", "~0").replace("/", "~1") for token in tokens)


def schema_steps(keyword_location: str) -> list[Step]:
    """The steps of a keyword location: keywords, and below those that hold several schemas an index or a name."""
    found: list[Step] = []
    holder = None
    for token in steps(keyword_location):
        if holder in LISTS:
            found.append(Step(int(token), False))
        else:
            found.append(Step(token, holder not in OBJECTS))
        holder = token if found[-1].is_keyword else None
    return found
