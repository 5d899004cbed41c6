"""The JSON documents of packages, and what a schema document among them refers to."""
import functools
import glob
import hashlib
import importlib.util
import json
import os
import re
from dataclasses import dataclass
from urllib.parse import quote, urldefrag, urljoin, urlsplit

from suite import CURRENT, OLDER, find_meta_schemas, joined, references

DIALECT = re.compile(r"https?://json-schema\.org/")
# The names of dialects in the URIs of `$schema`.
DIALECTS = {it.uris.partition("//")[2]: it for it in (*OLDER.values(), CURRENT)}
MOST_BYTES = 4_000_000


@dataclass(frozen=True)
class Document:
    """A JSON document: its name, its file, and the URI under which it is passed in."""

    name: str
    path: str
    uri: str
    value: object

    def dialect(self):
        """The URI of `$schema`."""
        return self.value["$schema"]

    def draft(self):
        """The draft that it names; none where it is unknown."""
        rest = self.dialect().partition("//")[2]
        return next((draft for uri, draft in DIALECTS.items() if rest.startswith(uri)), None)

    def dialect_name(self):
        draft = self.draft()
        return draft.folder if draft else self.dialect()

    def names_dialect(self):
        return isinstance(self.value, dict) and bool(DIALECT.match(str(self.value.get("$schema"))))


def module_folders(modules):
    """The folders of Python packages that are installed, by their names."""
    found = {name: importlib.util.find_spec(name) for name in modules}
    return {name: os.path.dirname(it.origin) for name, it in found.items() if it}


def read(path):
    """A file's JSON; none where it has none, or is large."""
    if not os.path.isfile(path) or os.path.islink(path) or os.path.getsize(path) > MOST_BYTES:
        return None
    try:
        with open(path, encoding="utf-8") as file:
            text = file.read()
        return json.loads(text) if text.lstrip()[:1] in ("{", "[") else None
    except (ValueError, RecursionError):
        return None


def identifier(value):
    """The absolute URI that a document gives itself; none without one."""
    if not isinstance(value, dict):
        return None
    names = [value[it] for it in ("$id", "id") if isinstance(value.get(it), str)]
    uri = urldefrag(names[0]).url if names else ""
    return uri if urlsplit(uri).scheme and " " not in uri else None


class Documents:
    """All JSON documents below some folders, each once."""

    def __init__(self, folders):
        self.all, seen = [], set()
        for name, folder in folders.items():
            for path in sorted(glob.glob(os.path.join(glob.escape(folder), "**", "*"), recursive=True)):
                value = read(path)
                text = json.dumps(value, sort_keys=True)
                if value is not None and (name, text) not in seen:
                    seen.add((name, text))
                    self.all.append(self.document(name, folder, path, value))
        self.by_path = {it.path: it for it in self.all}
        self.by_identifier = {it.uri: it for it in reversed(self.all) if identifier(it.value)}
        self.meta_schemas = {uri: path for draft in (*OLDER.values(), CURRENT)
                             for uri, path in find_meta_schemas(draft=draft).items()}

    def document(self, name, folder, path, value):
        below = os.path.relpath(path, folder)
        return Document(f"{name}/{below}", path, identifier(value) or f"https://{name}.example/{quote(below)}", value)

    def with_dialect(self):
        """The schema documents, those with the same text once."""
        seen = set()
        for it in self.all:
            text = hashlib.sha256(json.dumps(it.value, sort_keys=True).encode()).digest()
            if it.names_dialect() and text not in seen:
                seen.add(text)
                yield it

    def beside(self, document):
        """The other documents in the same folder."""
        folder = os.path.dirname(document.path)
        return [it for path, it in self.by_path.items() if os.path.dirname(path) == folder and it is not document]

    def found(self, uri, document):
        """What stands under a URI, as a value: a document by its identifier, or one that stands to another document as
        its URI says, or a document of a meta-schema."""
        if uri in self.by_identifier:
            return self.by_identifier[uri].value
        if uri in self.meta_schemas:
            return meta_schema(self.meta_schemas[uri])
        return self.by_place(uri, document)

    def by_place(self, uri, document):
        """A document that stands where a URI says, from another one on."""
        here, there = urlsplit(urljoin(document.uri, ".")), urlsplit(uri)
        if here[:2] != there[:2]:
            return None
        path = os.path.join(os.path.dirname(document.path), os.path.relpath(there.path or "/", here.path or "/"))
        found = (self.by_path.get(os.path.normpath(it)) for it in (path, f"{path}.json"))
        return next((it.value for it in found if it), None)

    def needed(self, document):
        """What a document refers to, directly or through others, by its URI."""
        found, waiting = {}, [*references(document.value, document.uri)]
        while waiting:
            uri = waiting.pop()
            value = None if uri in found or uri == document.uri else self.found(uri, document)
            if value is not None:
                found[uri] = value
                waiting += references(value, joined(uri, identifier(value) or uri))
        return {uri: found[uri] for uri in sorted(found)}


@functools.cache
def meta_schema(path):
    return read(path)
