"""The schema documents that the arguments name, and those that they refer to."""
from __future__ import annotations

import os
import sys
from collections.abc import Sequence
from typing import Optional

from ..dialects import LATEST
from ..lookup import Lookup, SchemaFile, schema_file
from ..sources import SUFFIXES, kind_of
from .arguments import Arguments
from .files import Misuse


def kind_for(path: str, given: Optional[str]) -> str:
    """The kind of a schema's file: by its suffix, and for those of no kind as it is given."""
    suffix = os.path.splitext(path)[1].lower()
    is_known = any(suffix in suffixes for suffixes in SUFFIXES.values())
    return kind_of(path) if is_known or given is None else given


def document(argument: str, option: str, kind: Optional[str] = None, assumed: int = LATEST) -> SchemaFile:
    """The document that the argument `[URI=]FILE` of an option names, and the dialect that is assumed if it names none.
    Without a URI its identifier counts, else its file's URL."""
    uri, _, path = argument.rpartition("=")
    # (A URI that is absolute has a colon.)
    if ":" not in uri or os.path.isfile(argument):
        uri, path = "", argument
    _check_names(uri, path, option)
    return schema_file(path, uri, kind_for(path, kind), assumed)


def referred(files: Sequence[SchemaFile], arguments: Arguments, assumed: int = LATEST) -> list[SchemaFile]:
    """The documents of `--ref`, and those that are found in its folders and beside the files."""
    folders = [ref for ref in arguments.refs if os.path.isdir(ref)]
    named = [document(ref, "--ref", arguments.input, assumed) for ref in arguments.refs if ref not in folders]
    taken = Lookup(folders, arguments.siblings, assumed).taken([*files, *named])
    for it in taken if arguments.verbose else ():
        print(f"jschema: {it.file.path} is taken for {it.file.uri}, which {it.referring} refers to", file=sys.stderr)
    return [*named, *(it.file for it in taken)]


def _check_names(uri: str, path: str, option: str) -> None:
    if not path:
        raise Misuse(f"{option} has an empty name: is a variable of the shell empty?")
    if not _is_unicode(uri):
        raise Misuse(f"the URI {uri!r} isn't UTF-8")
    if "://" in path and not os.path.exists(path):
        raise Misuse(f"nothing is fetched: save {path} as a file, and name that; for a document that others refer to, "
                     f"--ref {path}=FILE")
    if os.path.isdir(path):
        raise Misuse(f"{path} is a folder: name the file of one schema after {option}" +
                     (", and others after --ref" if option != "--ref" else ""))


def _is_unicode(text: str) -> bool:
    """Whether a text has no lone surrogate, as Python makes them of bytes that aren't UTF-8."""
    try:
        text.encode()
    except UnicodeEncodeError:
        return False
    return True
