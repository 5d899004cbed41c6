"""The kinds of texts, by the names of files."""
from __future__ import annotations

import importlib
import os

from .source import JsonSource, Source

#: Each kind, with the suffixes of its files.
SUFFIXES = {"json": (".json",), "jsonc": (".jsonc",), "yaml": (".yaml", ".yml"), "toml": (".toml",)}
KINDS = tuple(SUFFIXES)
_KINDS = {suffix: kind for kind, suffixes in SUFFIXES.items() for suffix in suffixes}


def kind_of(path: str) -> str:
    """The kind of a file by its name: JSON where the suffix says nothing else."""
    return _KINDS.get(os.path.splitext(path)[1].lower(), "json")


def read(data: bytes, kind: str) -> list[Source]:
    """What a text of a kind has: one source, or in YAML one for each document.

    JSON is left to the validator, so nothing is refused of it here. Raises `Unreadable` for what isn't of the kind, or
    has what JSON doesn't, and `MissingLibrary` where the library that reads the kind isn't installed.
    """
    if kind == "json":
        return [JsonSource(kind, data, data)]
    sources: list[Source] = importlib.import_module(f".{kind}", __package__).read(data)
    return sources
