"""Numbers that the validator refuses."""
from __future__ import annotations

import json
from collections.abc import Iterator
from typing import Any, Callable, NamedTuple, Optional, Union

from ..numbers import Number, is_taken, number
from ..numbers_keywords import exact, texts
from ..resources import Document, Tokens, document_with
from .finding import ERROR, Found


class _Written(NamedTuple):
    """A number that the validator doesn't take as it is written."""

    text: str


def outside(document: Document, numbers: Optional[str]) -> Iterator[Found]:
    """The numbers that the validator refuses; where numbers are rewritten (`exact` or `texts`), those that it refuses
    then."""
    rewritten = None if numbers is None else _rewritten(document)
    if rewritten is None:
        for tokens, it in _numbers(_value(document, _as_written)):
            yield Found("number", ERROR, tokens, False, _why(it.text))
        return
    left = list(_numbers(rewritten.value))
    for schema in rewritten.schemas:
        texts(schema.value, rewritten.dialect_of(schema.tokens))
    refused = {tokens for tokens, _ in _numbers(rewritten.value)}
    for tokens, it in left:
        if tokens in refused:
            yield Found("number", ERROR, tokens, False, f"{_why(it.text)}, and this can't be rewritten")
        elif numbers == "exact":
            yield Found("number", ERROR, tokens, False, f"{_why(it.text)}; `--numbers texts` makes a text of it")


def _rewritten(document: Document) -> Optional[Document]:
    """The document with the numbers that can be rewritten as they are then. None where they aren't computed with."""
    try:
        value = _value(document, number)
    except ValueError:
        return None
    made = document_with(document.uri, document.source, value, document.dialect)
    for schema in reversed(made.schemas):
        # (Each is rewritten as it comes.)
        for _ in exact(schema.value, made.dialect_of(schema.tokens)):
            pass
    return made


def _value(document: Document, read: Callable[[str], Any]) -> Any:
    """The value of a document, with its numbers as they are read."""
    return json.loads(document.source.json, parse_int=read, parse_float=read)


def _as_written(digits: str) -> Union[int, _Written]:
    return int(digits) if is_taken(digits) else _Written(digits)


def _numbers(value: Any) -> Iterator[tuple[Tokens, Union[Number, _Written]]]:
    """The numbers in a value that the validator doesn't take."""
    waiting: list[tuple[Any, Tokens]] = [(value, ())]
    while waiting:
        value, tokens = waiting.pop()
        if isinstance(value, dict):
            waiting += [(child, (*tokens, name)) for name, child in value.items()]
        elif isinstance(value, list):
            waiting += [(item, (*tokens, str(index))) for index, item in enumerate(value)]
        elif isinstance(value, (Number, _Written)):
            yield tokens, value


def _why(text: str) -> str:
    """Why the validator doesn't take a number."""
    if text == "-0":
        return "the validator takes no minus before zero"
    if text.lstrip("-").isdigit():
        return "the validator takes numbers from -2^63 to 2^64 - 1"
    return "the validator takes whole numbers, without `.` and `e`"
