"""Schema documents that others refer to, found on this disk: in folders, and beside the document that names them.

Nothing is fetched from a network.
"""
from __future__ import annotations

import os
import posixpath
import re
import stat
from collections.abc import Iterable, Iterator, Sequence
from pathlib import Path
from typing import NamedTuple, Optional
from urllib.parse import quote, unquote, urlsplit

from . import resources
from .dialects import LATEST
from .extras import MissingLibrary
from .limits import LARGEST_TEXT
from .originals import hides, identifier
from .resources import Document, Schema
from .sources import SUFFIXES, Source, Unreadable, kind_of, read
from .uris import document_of, is_relative, joined, path_of

# What the URL standard doesn't escape in a path. (Letters, digits and `_.-~` never are. `^` is left to the validator.)
_PATH_SAFE = "/!$&'()*+,;=:@[]|^"
# (A zero byte or a lone surrogate is left to the validator.)
_ABSOLUTE = re.compile(r"[A-Za-z][A-Za-z0-9+.-]*:[^#\0\ud800-\udfff]*#?")


class NotOneDocument(Exception):
    """A file of YAML has several documents, and a schema is one."""


class UnreadableFile(Exception):
    """The text of a schema's file isn't of its kind: the file, its text, and why."""

    def __init__(self, path: str, data: bytes, refused: Unreadable) -> None:
        super().__init__(path, data, refused)
        self.path, self.data, self.refused = path, data, refused

    def __str__(self) -> str:
        return f"{self.path}: {self.refused}"


class SchemaFile(NamedTuple):
    """A schema document of a file, and the absolute URI to register it under."""

    path: str
    uri: str
    source: Source
    #: The dialect that is assumed if it names none.
    assumed: int = LATEST


class Taken(NamedTuple):
    """A file that was found for a reference, and the file that has the reference."""

    file: SchemaFile
    referring: str


def file_url(path: str) -> str:
    """The URL of a file, as the URL standard writes it, so that others can refer to it by its name."""
    return "file://" + quote(os.fsencode(os.path.abspath(path)), safe=_PATH_SAFE)


def walked(file: SchemaFile) -> Optional[Document]:
    """The schemas of a file; None if it isn't JSON, which the validator will say."""
    if len(file.source.json) > LARGEST_TEXT:
        return None
    try:
        return resources.document(file.uri, file.source, file.assumed)
    except (ValueError, RecursionError):
        return None


def own_uri(document: Optional[Document]) -> Optional[str]:
    """The identifier of a document, if it is an absolute URI: its `$id`, or in the first two drafts its `id`."""
    if document is None or not isinstance(document.value, dict) or hides(document.value, document.dialect):
        return None
    uri = document.value.get(identifier(document.dialect))
    if not isinstance(uri, str) or not is_absolute(uri):
        return None
    return uri


def is_absolute(uri: str) -> bool:
    """Whether a URI has a scheme and no fragment, but perhaps an empty one."""
    return _ABSOLUTE.fullmatch(uri) is not None


def schema_file(path: str, uri: str = "", kind: str = "", assumed: int = LATEST) -> SchemaFile:
    """The document of a file. Without a URI its identifier counts, else the file's URL.

    Raises `OSError`, `UnreadableFile`, `MissingLibrary` and `NotOneDocument`.
    """
    with open(path, "rb") as file:
        data = file.read(LARGEST_TEXT + 1)
    try:
        # (What is too large is left to the validator, which says so.)
        sources = read(data, "json" if len(data) > LARGEST_TEXT else kind or kind_of(path))
    except Unreadable as refused:
        raise UnreadableFile(path, data, refused) from None
    if len(sources) > 1:
        raise NotOneDocument(f"{path} has {len(sources)} documents: a schema is one")
    made = SchemaFile(path, uri or file_url(path), sources[0], assumed)
    own = None if uri else own_uri(walked(made))
    return made._replace(uri=own) if own else made


class Lookup:
    """Where documents are looked for: in folders, and beside those that refer to them."""

    def __init__(self, folders: Sequence[str], beside: bool, assumed: int = LATEST) -> None:
        self._folders, self._beside, self._assumed = folders, beside, assumed
        self._by_uri: Optional[dict[str, SchemaFile]] = None

    def taken(self, files: Sequence[SchemaFile]) -> list[Taken]:
        """The files that these refer to, and those refer to in turn, as far as they are found."""
        found: list[Taken] = []
        waiting = [*files]
        known: set[str] = set()
        paths = {os.path.realpath(file.path) for file in files}
        documents = [(file, document) for file in waiting if (document := walked(file)) is not None]
        for _, document in documents:
            known |= document.targets.keys()
        # (The list grows on the way.)
        for file, document in documents:
            for schema, reference in _references(document):
                wanted = document_of(joined(schema.base, reference))
                it = self._find(file, document, schema, reference, wanted) if wanted not in known else None
                if it is None or os.path.realpath(it.path) in paths:
                    continue
                paths.add(os.path.realpath(it.path))
                found.append(Taken(it, file.path))
                if (beside := walked(it)) is not None:
                    known |= {wanted, *beside.targets}
                    documents.append((it, beside))
        return found

    def _find(self, file: SchemaFile, document: Document, schema: Schema, reference: str,
              wanted: str) -> Optional[SchemaFile]:
        if self._folders:
            if self._by_uri is None:
                self._by_uri = {}
                for folder in self._folders:
                    for uri, it in _by_uri(folder, self._assumed):
                        self._by_uri.setdefault(uri, it)
            if wanted in self._by_uri:
                return self._by_uri[wanted]
        if not self._beside or not is_relative(reference):
            return None
        for path in _paths_beside(file.path, document, schema, reference):
            if _is_regular(path):
                return schema_file(path, wanted, assumed=self._assumed)
        return None


def schemas_in(folder: str) -> Iterator[str]:
    """The files of a folder that may be schemas, at any depth, by their names. Links to folders aren't followed."""
    suffixes = {suffix for kind in SUFFIXES.values() for suffix in kind}
    paths = [Path(parent, name) for parent, _, names in os.walk(folder, onerror=_raise) for name in names
             if Path(name).suffix.lower() in suffixes]
    yield from (str(path) for path in sorted(paths, key=lambda it: it.parts) if _is_regular(str(path)))


def _raise(error: OSError) -> None:
    raise error


def _by_uri(folder: str, assumed: int) -> Iterator[tuple[str, SchemaFile]]:
    """Each file of a folder by the URIs of the resources in it. What can't be read isn't one that is meant."""
    for path in schemas_in(folder):
        try:
            file = schema_file(path, assumed=assumed)
        except (OSError, UnreadableFile, MissingLibrary, NotOneDocument):
            continue
        document = walked(file)
        for uri in document.targets if document is not None else ():
            if "#" not in uri:
                yield uri, file


def _references(document: Document) -> Iterable[tuple[Schema, str]]:
    return [(schema, reference) for schema in document.schemas for _, reference in schema.references()
            if not reference.startswith("#")]


def _paths_beside(path: str, document: Document, schema: Schema, reference: str) -> Iterator[str]:
    """Where the file of a relative reference may be: from the file, as the reference leads from the document; for a
    schema with a base of its own also as it leads from there."""
    folder = os.path.dirname(path)
    below = unquote(path_of(reference))
    if "\0" in below:
        return
    root = next(iter(document.schemas)).base
    if schema.base != root and urlsplit(schema.base)[:2] == urlsplit(root)[:2]:
        away = posixpath.relpath(posixpath.dirname(path_of(schema.base)) or "/",
                                 posixpath.dirname(path_of(root)) or "/")
        yield os.path.normpath(os.path.join(folder, unquote(away), below))
    yield os.path.normpath(os.path.join(folder, below))


def _is_regular(path: str) -> bool:
    try:
        return stat.S_ISREG(os.stat(path).st_mode)
    except (OSError, ValueError):
        return False

