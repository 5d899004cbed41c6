"""Documents for the references of a schema: from a `referencing.Registry`, or from a mapping of URIs to schemas."""
from __future__ import annotations

from collections.abc import Mapping
from typing import Any, Optional

from ..dialects import LATEST, dialect_of
from ..errors import Refused
from ..metaschemas import ALL, metaschemas_for
from ..originals import hides, identifier
from ..resources import Document, document
from ..sources import JsonSource
from ..uris import document_of, joined, without_fragment
from ..values import text_of_value

#: The base of a schema without an absolute `$id`, and of relative URIs in a registry.
BASE = "schema:///"


def gathered(schema: Any, registry: Optional[Mapping[str, Any]], assumed: int = LATEST) -> list[Document]:
    """The document of a schema, and those of the registry that it refers to, with meta-schemas. Each is of the dialect
    that is assumed if it names none. A reference that leads nowhere is left to the validator.

    Raises `Refused` for a value that is none of JSON's within the profile, and `TypeError`.
    """
    documents = [_document(_own_uri(schema, assumed) or BASE, schema, assumed)]
    # (The list grows on the way.)
    for it in documents:
        for found in it.schemas:
            for _, reference in found.references():
                wanted = joined(found.base, reference)
                if registry is None or any(document_of(wanted) in other.targets for other in documents):
                    continue
                contents = _contents(registry, without_fragment(wanted))
                if contents is not None:
                    more = _document(without_fragment(wanted), contents, assumed)
                    # What was taken before, and is a part of this one, is left to it.
                    documents[1:] = [other for other in documents[1:] if document_of(other.uri) not in more.targets]
                    documents.append(more)
    texts = [(it.uri, it.source.json) for it in documents]
    return [*documents, *(document(uri, JsonSource("json", text, text)) for uri, text in metaschemas_for(texts, ALL))]


def _document(uri: str, value: Any, assumed: int) -> Document:
    try:
        text = text_of_value(value)
    except Refused as refused:
        raise Refused("document", refused.kind, refused.place, 0, uri) from None
    return document(uri, JsonSource("json", text, text), assumed)


def _own_uri(schema: Any, assumed: int) -> Optional[str]:
    dialect = dialect_of(schema, assumed)
    name = schema.get(identifier(dialect)) if isinstance(schema, dict) and not hides(schema, dialect) else None
    return joined(BASE, without_fragment(name)) if isinstance(name, str) else None


def _contents(registry: Mapping[str, Any], uri: str) -> Optional[Any]:
    """The schema that a registry has under a URI."""
    names = (uri, f"{uri}#", uri[len(BASE):] if uri.startswith(BASE) else uri)
    for name in names:
        try:
            # (A Registry may also have a call of its owner that retrieves what it hasn't.)
            found = registry.get_or_retrieve(name).value if hasattr(registry, "get_or_retrieve") else registry[name]
        except LookupError:
            continue
        return getattr(found, "contents", found)
    return None
