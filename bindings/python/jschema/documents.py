"""Schema documents and URIs as callers pass them, and what is refused of them with every engine."""
from __future__ import annotations

from collections.abc import Iterable, Mapping
from typing import Any, Callable, Union

from .errors import Refused
from .limits import LARGEST_TEXT
from .values import text_of

#: A schema document: a JSON text (bytes or str), or the value of one: a dict, or a bool.
Document = Union[bytes, bytearray, memoryview, str, bool, dict[str, Any]]
#: Each document with the absolute URI to register it under.
Documents = Union[Mapping[str, Document], Iterable[tuple[str, Document]]]


def texts_of(documents: Documents, prepare: Callable[[Any], Any] = lambda it: it) -> list[tuple[str, bytes]]:
    """The URI and the text of each document. `prepare` may make another document of one first.

    Raises `Refused` for a URI with a zero byte or a lone surrogate, for a text that is too large, and for a value that
    is none of JSON's within the profile; `TypeError` for what is no document.
    """
    pairs = documents.items() if isinstance(documents, Mapping) else documents
    return [(uri, _text_of(document, uri, index, prepare)) for index, (uri, document) in enumerate(pairs)]


def is_uri_text(uri: str) -> bool:
    """Whether each engine can be asked about a URI: it has no zero byte and no lone surrogate."""
    if not isinstance(uri, str):
        raise TypeError(f"a URI is a str, not {type(uri).__name__}")
    if not uri.isascii():
        try:
            uri.encode()
        except UnicodeEncodeError:
            return False
    return "\0" not in uri


def _text_of(document: Document, uri: str, index: int, prepare: Callable[[Any], Any]) -> bytes:
    if not is_uri_text(uri):
        raise Refused("document", "BadUri", "", index, uri)
    if not isinstance(document, (bytes, bytearray, memoryview, str, bool, dict)):
        raise TypeError(f"the document {uri} is of type {type(document).__name__}: a schema document is a JSON text "
                        f"(bytes or str), a dict or a bool")
    try:
        text = text_of(prepare(document))
    except Refused as refused:
        raise Refused("document", refused.kind, refused.place, index, uri) from None
    except TypeError as error:
        raise TypeError(f"the document {uri}: {error}") from None
    if len(text) > LARGEST_TEXT:
        raise Refused("input", "InputTooLarge", None, index, uri)
    return text
