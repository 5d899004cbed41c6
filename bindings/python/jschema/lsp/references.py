"""What a reference that is being written can lead to."""
from __future__ import annotations

import json
from collections.abc import Iterator
from typing import Any, NamedTuple
from urllib.parse import urldefrag

from .. import resources
from ..sources import read
from ..uris import document_of, fragment_of, with_pointer
from .applied import whole
from .context import Context
from .documents import Document
from .workspace import Workspace


class Target(NamedTuple):
    """A schema that a reference can lead to: how it is written, its URI, and the schema."""

    written: str
    uri: str
    schema: Any


def targets(workspace: Workspace, document: Document, context: Context) -> Iterator[Target]:
    """The schemas of the document, as it is being written, and of those that it refers to."""
    root = context.node
    while root.parent is not None:
        root = root.parent
    found = workspace.set_of_schema(document)
    uri = document.uri if found is None else found.entry
    try:
        typed = resources.document(uri, read(json.dumps(whole(context.text, root)).encode(), "json")[0])
    except (ValueError, RecursionError):
        return
    tokens = tuple(context.node.tokens()[:-1])
    base = next((it.base for it in typed.schemas if it.tokens == tokens), uri)
    for it in [typed, *(found.resources[1:] if found is not None else ())]:
        yield from _of_document(it, base)


def _of_document(document: resources.Document, base: str) -> Iterator[Target]:
    for schema in document.schemas:
        root = document.targets.get(document_of(schema.base), ())
        place = fragment_of(with_pointer(schema.base, schema.tokens[len(root):]))
        anchors = [schema.value[it] for it in resources.ANCHORS if isinstance(schema.value.get(it), str)]
        for name in [place, *anchors]:
            yield Target(_relative(schema.base, name, base), f"{urldefrag(schema.base).url}#{name}", schema.value)


def _relative(resource: str, name: str, base: str) -> str:
    """A location as it is written where a base URI holds: as short as it can be read."""
    mark = f"#{name}" if name else ""
    if document_of(resource) == document_of(base):
        return mark or "#"
    folder = base.rpartition("/")[0] + "/"
    if not folder.endswith("//") and resource.startswith(folder):
        return resource[len(folder):] + mark
    return resource + mark
