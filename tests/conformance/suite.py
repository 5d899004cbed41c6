"""A checkout of the JSON Schema Test Suite: its files, its remotes, and which documents a schema refers to."""
import dataclasses
import datetime
import functools
import glob
import importlib.util
import os
import subprocess
from urllib.parse import urldefrag, urljoin

from program import read_json

# The suite's readme asks for its remotes under this URI.
REMOTES = "http://localhost:1234/"
REFERENCES = ("$ref", "$dynamicRef", "$recursiveRef")
META_SCHEMA = "https://json-schema.org/draft/2020-12/schema"


@dataclasses.dataclass(frozen=True)
class Draft:
    """A draft: its folder in the suite, its keyword for identifiers, and the folder of its meta-schema in pip's package
    with what the URIs of its documents begin with. `dialect` is its name for jschema-upgrade; 2020-12 has none."""

    folder: str
    identifier: str
    package: str
    uris: str
    dialect: str | None = None


CURRENT = Draft("draft2020-12", "$id", "draft202012", META_SCHEMA.removesuffix("schema"))
OLDER = {it.folder: it for it in (
    Draft("draft3", "id", "draft3", "http://json-schema.org/draft-03/", "draft-03"),
    Draft("draft4", "id", "draft4", "http://json-schema.org/draft-04/", "draft-04"),
    Draft("draft6", "$id", "draft6", "http://json-schema.org/draft-06/", "draft-06"),
    Draft("draft7", "$id", "draft7", "http://json-schema.org/draft-07/", "draft-07"),
    Draft("draft2019-09", "$id", "draft201909", "https://json-schema.org/draft/2019-09/", "2019-09"),
)}


def json_files(folder):
    """The JSON files below a folder, by their names from there."""
    found = glob.glob(os.path.join(folder, "**", "*.json"), recursive=True)
    return sorted(os.path.relpath(it, folder) for it in found)


class Suite:
    """A folder with `tests`, `remotes` and, for the output tests, `output-tests`."""

    def __init__(self, folder, meta_schemas, draft=CURRENT):
        self.folder, self.draft = folder, draft
        remotes = os.path.join(folder, "remotes")
        self.documents = {REMOTES + it.replace(os.sep, "/"): os.path.join(remotes, it) for it in json_files(remotes)}
        self.documents |= meta_schemas
        self.meta_schemas = len(meta_schemas)

    def files(self, optional=False):
        """The names of the files of tests, from the folder of the draft."""
        return [it for it in json_files(self.tests()) if it.startswith("optional" + os.sep) == optional]

    def output_files(self):
        return json_files(os.path.join(self.outputs(), "content"))

    def tests(self):
        return os.path.join(self.folder, "tests", self.draft.folder)

    def outputs(self):
        return os.path.join(self.folder, "output-tests", self.draft.folder)

    def version(self):
        """The commit of the suite with its date, as git knows it; of Debian's package, the commit that it notes, and
        when its file was written."""
        path = os.path.join(self.folder, "submodule_status")
        try:
            with open(path, encoding="utf-8") as file:
                written = datetime.datetime.fromtimestamp(os.path.getmtime(path), datetime.timezone.utc)
                return f"{file.readline().split()[0]}, packaged on {written:%Y-%m-%d}"
        except OSError:
            asked = ["git", "-C", self.folder, "log", "-1", "--format=%H of %cs", "--", "."]
            return subprocess.run(asked, capture_output=True, text=True).stdout.strip() or "unknown"


def find_meta_schemas(folder=None, draft=CURRENT):
    """The documents of a draft's meta-schema by their URIs: a folder's, or pip's `jsonschema_specifications`."""
    if folder is None:
        package = importlib.util.find_spec("jsonschema_specifications")
        if package is None:
            return {}
        folder = os.path.join(os.path.dirname(package.origin), "schemas", draft.package)
    files = [os.path.join(top, name) for top, _, names in os.walk(folder) for name in sorted(names)]
    by_uri = {urldefrag(read_json(it).get(draft.identifier, "")).url: it for it in files}
    return {uri: by_uri[uri] for uri in sorted(by_uri) if uri.startswith(draft.uris)}


@functools.cache
def references_of_file(uri, path):
    """The references of a file that stands at this URI."""
    return frozenset(references(read_json(path), uri))


def joined(base, reference):
    """A reference joined with a base URI; the base alone where it can't be."""
    try:
        return urldefrag(urljoin(base, reference)).url
    except ValueError:
        return base


def own_identifiers(schema):
    """What the members `$id` and `id` of a schema hold, where they hold a text. (Which of the two is a keyword depends
    on the draft.)"""
    return [schema[name] for name in ("$id", "id") if isinstance(schema.get(name), str)]


def references(value, base):
    """The URIs, without fragments, that references anywhere in a value make; some may stand where no schema does, and
    with some an identifier doesn't count."""
    if isinstance(value, dict):
        for below in {base, *(joined(base, it) for it in own_identifiers(value))}:
            yield from references_in(value, below)
    elif isinstance(value, list):
        for below in value:
            yield from references(below, base)


def references_in(schema, base):
    """The same for an object and its base."""
    for name, below in schema.items():
        if name in REFERENCES and isinstance(below, str):
            yield joined(base, below)
        yield from references(below, base)


def identifiers(value):
    """Each identifier anywhere in a value."""
    if isinstance(value, dict):
        yield from own_identifiers(value)
        for below in value.values():
            yield from identifiers(below)
    elif isinstance(value, list):
        for below in value:
            yield from identifiers(below)


def needed(schema, documents):
    """The documents that a schema refers to, and those that they refer to, but for what it holds itself."""
    own = set(identifiers(schema))
    found, waiting = {}, list(references(schema, "https://suite.example/0"))
    while waiting:
        uri = waiting.pop()
        if uri in documents and uri not in found and uri not in own:
            found[uri] = documents[uri]
            waiting += references_of_file(uri, documents[uri])
    return {uri: found[uri] for uri in sorted(found)}
