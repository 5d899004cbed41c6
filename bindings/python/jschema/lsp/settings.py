"""Which schema belongs to which file, and how schemas are read: the client's settings, and catalogues in SchemaStore's
form."""
from __future__ import annotations

import json
import os
import re
from dataclasses import dataclass, field
from typing import Any, Callable, Union

from ..interface import REWRITING
from .ranges import path_of

#: A schema as a setting names it: a URL, a path, or the schema itself.
Named = Union[str, dict[str, Any], bool]


@dataclass(frozen=True)
class Association:
    """The files that a schema belongs to."""

    patterns: tuple[tuple[bool, re.Pattern[str]], ...]
    schema: Named
    #: The folder that a relative path starts from.
    folder: str

    def fits(self, path: str) -> bool:
        """Whether the schema is that of a file. The last pattern that the file has decides; one with `!` excludes."""
        fits = False
        for includes, pattern in self.patterns:
            if pattern.fullmatch(path):
                fits = includes
        return fits


@dataclass
class Settings:
    """The settings of a client."""

    associations: list[Association] = field(default_factory=list)
    #: Files and folders of schemas that others refer to by their `$id`.
    references: list[str] = field(default_factory=list)
    #: The words for what is rewritten, by the names in `REWRITING`, as far as they are set.
    rewriting: dict[str, str] = field(default_factory=dict)

    def schema_of(self, path: str) -> Union[Association, None]:
        """The first association that a file has."""
        return next((it for it in self.associations if it.fits(path)), None)


def read(given: Any, folder: str, warn: Callable[[str], None]) -> Settings:
    """Reads the settings of a client, whose relative paths start from a folder. What can't be read is left out, with a
    warning."""
    settings = Settings()
    if isinstance(given, dict) and isinstance(given.get("jschema"), dict):
        given = given["jschema"]
    if given is None:
        return settings
    if not isinstance(given, dict):
        warn("the settings aren't an object")
        return settings
    for entry in _list(given, "schemas", warn):
        _associate(settings, entry, "schema", folder, warn)
    for name in _list(given, "catalogs", warn):
        _read_catalogue(settings, os.path.join(folder, str(name)), warn)
    settings.references += [os.path.normpath(os.path.join(folder, str(it))) for it in _list(given, "references", warn)]
    for name, (_, words) in REWRITING.items():
        word = given.get(name)
        if isinstance(word, str) and word in words:
            settings.rewriting[name] = word
        elif word is not None:
            warn(f"{name} isn't {' or '.join(words)}")
    return settings


def read_file(path: str, warn: Callable[[str], None]) -> Settings:
    """Reads a file of settings. Relative paths start from its folder."""
    try:
        with open(path, encoding="utf-8") as file:
            given = json.load(file)
    except (OSError, ValueError) as error:
        warn(f"the settings {path} can't be read: {error}")
        return Settings()
    return read(given, os.path.dirname(path), warn)


def _list(given: dict[str, Any], name: str, warn: Callable[[str], None]) -> list[Any]:
    value = given.get(name, [])
    if isinstance(value, list):
        return value
    warn(f"{name} isn't a list")
    return []


def _associate(settings: Settings, entry: Any, word: str, folder: str, warn: Callable[[str], None]) -> None:
    """Adds the files and the schema of an entry. (VS Code has the schema's URL as `url`.)"""
    schema = entry.get(word, entry.get("url")) if isinstance(entry, dict) else None
    matches = entry.get("fileMatch", []) if isinstance(entry, dict) else None
    if isinstance(matches, str):
        matches = [matches]
    if not isinstance(schema, (str, dict, bool)) or not isinstance(matches, list):
        warn(f'an entry has "fileMatch", a list of patterns, and "{word}": {json.dumps(entry)[:80]}')
    elif matches:
        settings.associations.append(Association(tuple(_pattern(str(it)) for it in matches), schema, folder))


def _read_catalogue(settings: Settings, path: str, warn: Callable[[str], None]) -> None:
    path = path_of(path) or path
    try:
        with open(path, encoding="utf-8") as file:
            entries = json.load(file)["schemas"]
        if not isinstance(entries, list):
            raise TypeError("`schemas` isn't a list")
    except (OSError, ValueError, LookupError, TypeError) as error:
        warn(f"the catalogue {path} can't be read: {error}")
        return
    for entry in entries:
        _associate(settings, entry, "url", os.path.dirname(path), warn)


def _pattern(glob: str) -> tuple[bool, re.Pattern[str]]:
    """Whether a pattern of files includes them, and its regular expression. It may begin in any folder."""
    includes = not glob.startswith("!")
    glob = glob.lstrip("!").replace("\\", "/").lstrip("/")
    return includes, re.compile("(?:.*/)?" + _expression(glob), re.DOTALL)


_GLOB = re.compile(r"(?P<folders>\*\*/)|(?P<all>\*\*)|(?P<some>\*)|(?P<one>\?)|(?P<set>\[[^\]/]+\])"
                   r"|(?P<choice>\{[^{}]*\})|(?P<other>.)", re.DOTALL)
_MEANINGS = {"folders": "(?:.*/)?", "all": ".*", "some": "[^/]*", "one": "[^/]"}


def _expression(glob: str) -> str:
    """The regular expression of a pattern: `*` is part of a name, `**` are folders, `{a,b}` is one of two."""
    parts = []
    for found in _GLOB.finditer(glob):
        kind, text = str(found.lastgroup), found[0]
        if kind == "set":
            parts.append(text.replace("[!", "[^", 1).replace("\\", "\\\\"))
        elif kind == "choice":
            parts.append("(?:" + "|".join(map(_expression, text[1:-1].split(","))) + ")")
        else:
            parts.append(_MEANINGS.get(kind) or re.escape(text))
    return "".join(parts)
