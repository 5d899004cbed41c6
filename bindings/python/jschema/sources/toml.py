"""TOML, read by `tomllib` (Python 3.11 and later) or by tomli. Dates and times become strings, as RFC 3339 writes them.

Neither tells where a value stands, so the text, which is then known to be TOML, is gone through a second time.
"""
from __future__ import annotations

import datetime
import importlib
import json
import re
import sys
from typing import Any, Union

from ..extras import library
from ..limits import DEEPEST
from ..locations import pointer
from ..positions import Text
from .source import MarkedSource, Range, Source, Unreadable
from .tables import Places, TooDeep
from .tree import Member, Node
from .writing import written

KIND = "NotToml"
_AT = re.compile(r"(.*) \(at (?:line (\d+), column (\d+)|end of document)\)", re.DOTALL)
# A name of more parts than may nest. (`tomllib` takes long for very many.)
_LONG_NAME = re.compile(rb"""(?:^|[\[{,])[ \t]*(?:(?:[\w-]+|"[^"\n]*"|'[^'\n]*')[ \t]*\.[ \t]*){%d}""" % DEEPEST, re.M)
_NOT_JSON = re.compile(r"[-+]?(?:inf|nan)")


class _Number(str):
    """A float as it is written."""


def read(data: bytes) -> list[Source]:
    """The one value of a text."""
    lines = Text(data)
    try:
        text = data.decode()
    except UnicodeDecodeError as error:
        at = lines.at(error.start)
        raise Unreadable(KIND, "isn't UTF-8", Range(at, at)) from None
    if long := _LONG_NAME.search(data):
        raise Unreadable(KIND, f"nested deeper than {DEEPEST}", Range(lines.at(long.start()), lines.at(long.start())))
    value = _value(text, data, lines)
    try:
        root = _Tree(lines, Places(data)).node(value, [])
    except TooDeep as error:
        at = lines.at(error.offset)
        raise Unreadable(KIND, f"nested deeper than {DEEPEST}", Range(at, at)) from None
    return [MarkedSource("toml", data, written(root), root, lines)]


def _value(text: str, data: bytes, lines: Text) -> dict[str, Any]:
    reader = importlib.import_module("tomllib") if sys.version_info >= (3, 11) else library("tomli", "TOML is read")
    try:
        value: dict[str, Any] = reader.loads(text, parse_float=_Number)
        return value
    except RecursionError:
        raise Unreadable(KIND, f"nested deeper than {DEEPEST}", Range(lines.at(0), lines.at(0))) from None
    except reader.TOMLDecodeError as error:
        said = _AT.fullmatch(str(error))
        offset = len(data)
        if said is not None and said[2] is not None:
            # (`tomllib` takes \r\n as one character, at the end of a line.)
            before = data.split(b"\n")[:int(said[2])]
            offset = sum(len(line) + 1 for line in before[:-1]) + len(before[-1].decode()[:int(said[3]) - 1].encode())
        raise Unreadable(KIND, said[1] if said else str(error), Range(lines.at(offset), lines.at(offset))) from None
    except ValueError:
        # (Python reads no number of thousands of digits.)
        raise Unreadable(KIND, "has a number beyond 64 bits", Range(lines.at(0), lines.at(0))) from None


class _Tree:
    """Makes a tree of a value, with the places where its parts stand."""

    def __init__(self, lines: Text, places: Places) -> None:
        self._lines, self._places = lines, places

    def node(self, value: Any, tokens: list[str]) -> Node:
        """The tree of the value at these tokens."""
        begin, end = self._places.values[tuple(tokens)]
        if isinstance(value, (dict, list)) and len(tokens) == DEEPEST:
            raise self._refused(f"nested deeper than {DEEPEST}", tokens)
        content: Union[str, list[Node], dict[str, Member]]
        if isinstance(value, dict):
            content = {name: Member(*self._places.names[(*tokens, name)], self.node(child, [*tokens, name]))
                       for name, child in value.items()}
        elif isinstance(value, list):
            content = [self.node(item, [*tokens, str(index)]) for index, item in enumerate(value)]
        else:
            content = self._scalar(value, tokens)
        return Node(begin, end, content)

    def _scalar(self, value: Any, tokens: list[str]) -> str:
        if isinstance(value, _Number):
            if _NOT_JSON.fullmatch(value):
                raise self._refused(f"JSON has no number {value}", tokens)
            return value.replace("_", "").lstrip("+")
        if isinstance(value, (datetime.datetime, datetime.date, datetime.time)):
            return json.dumps(value.isoformat().replace("+00:00", "Z"))
        return json.dumps(value, ensure_ascii=False)

    def _refused(self, meaning: str, tokens: list[str]) -> Unreadable:
        begin, end = self._places.values[tuple(tokens)]
        return Unreadable(KIND, meaning, Range(self._lines.at(begin), self._lines.at(end)), pointer(tokens))
