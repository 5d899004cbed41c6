"""Texts that people write: JSON, JSON with comments, YAML and TOML. Each becomes a JSON text for the validator, and
knows where each of its values stands.

    [source] = read(b"age: -1\\n", "yaml")
    source.json            # b'{"age":-1}'
    source.value("/age")   # Range(begin=Position(offset=5, line=1, column=6), end=Position(offset=7, line=1, column=8))
"""
from .kinds import KINDS, SUFFIXES, kind_of, read
from .source import JsonSource, Range, Source, Unreadable
from .tree import Member, Node

__all__ = ["KINDS", "SUFFIXES", "JsonSource", "Member", "Node", "Range", "Source", "Unreadable", "kind_of", "read"]
