"""YAML, by PyYAML's parser and the core schema of YAML 1.2: null, booleans, integers, floats and strings.

What YAML 1.1 and 1.2 read differently is a string where 1.2 says so (`yes`, `12:30`, dates), and otherwise refused
(`010`, `0o10`, `<<`), never guessed.
"""
from __future__ import annotations

import codecs
from collections.abc import Iterator
from typing import Any, NamedTuple, Optional

from ..extras import library
from ..limits import DEEPEST, LARGEST_TEXT
from ..positions import Text
from .core import NotCore, scalar, string
from .source import MarkedSource, Range, Source, Unreadable
from .tree import Member, Node
from .writing import written

KIND = "NotYaml"
_MARKS = ((codecs.BOM_UTF8, "utf-8"), (codecs.BOM_UTF16_LE, "utf-16-le"), (codecs.BOM_UTF16_BE, "utf-16-be"))
_TAG = "tag:yaml.org,2002:"


def read(data: bytes) -> list[Source]:
    """A source for each document. What is refused of one is refused with those before it, which are whole."""
    yaml = library("yaml", "YAML is read")
    lines = _Lines(data)
    sources: list[Source] = []
    try:
        for root in _roots(yaml, lines):
            sources.append(MarkedSource("yaml", lines.data, written(root), root, lines.positions))
        if not sources:
            raise lines.refused("has no document", 0)
    except Unreadable as refused:
        refused.before = sources
        raise
    return sources


def opened(data: bytes, stop: int) -> Optional[list[Node]]:
    """The arrays and objects that are open where a name or a value begins at a byte, each in the one before it; None if
    none begins there. Raises `Unreadable`."""
    yaml = library("yaml", "YAML is read")
    lines = _Lines(data)
    reader = _Reader(yaml, lines)
    for event in _events(yaml, lines):
        begin, end = (lines.offset(it.index) for it in (event.start_mark, event.end_mark))
        # (The end of a block, or a value that isn't written, stands where something else begins.)
        is_written = not isinstance(event, yaml.CollectionEndEvent) and begin < end or \
            isinstance(event, yaml.CollectionStartEvent)
        if begin >= stop and is_written:
            return reader.open_nodes() if begin == stop else None
        reader.take(event)
    return None


def fault(data: bytes, stop: int) -> Optional[Unreadable]:
    """What is first wrong with a text, if that shows before an event of the parser that begins after a byte."""
    yaml = library("yaml", "YAML is read")
    lines = _Lines(data)
    reader = _Reader(yaml, lines)
    try:
        for event in _events(yaml, lines):
            if lines.offset(event.start_mark.index) > stop:
                return None
            reader.take(event)
    except Unreadable as refused:
        return refused
    return None


def _roots(yaml: Any, lines: _Lines) -> Iterator[Node]:
    """The value of each document."""
    reader = _Reader(yaml, lines)
    for event in _events(yaml, lines):
        root = reader.take(event)
        if root is not None:
            yield root


def _events(yaml: Any, lines: _Lines) -> Iterator[Any]:
    """What the parser finds, one after another."""
    try:
        yield from yaml.parse(lines.text, getattr(yaml, "CLoader", yaml.Loader))
    except yaml.MarkedYAMLError as error:
        at = error.problem_mark or error.context_mark
        raise lines.refused(error.problem or error.context or "isn't YAML", at.index if at else 0) from None
    except yaml.reader.ReaderError as error:
        raise lines.refused(error.reason, error.position) from None


class _Lines:
    """The characters of a text, and the bytes at which they stand."""

    def __init__(self, data: bytes) -> None:
        encoding = next((name for mark, name in _MARKS if data.startswith(mark)), "utf-8")
        try:
            text = data.decode(encoding)
        except UnicodeDecodeError as error:
            self.positions = Text(data)
            at = self.positions.at(error.start)
            raise Unreadable(KIND, f"isn't {encoding.upper()}", Range(at, at)) from None
        #: Without a byte order mark, which the positions count.
        self.text = text[1:] if text.startswith("\ufeff") else text
        self._before = len(text) - len(self.text)
        self.data = data if encoding == "utf-8" else text.encode()
        self.positions = Text(self.data)
        self._is_ascii = text.isascii()
        self._characters, self._bytes = 0, 3 * self._before

    def offset(self, index: int) -> int:
        """The byte at which a character stands. (Mostly they are asked for in their order.)"""
        if self._is_ascii:
            return index
        if index < self._characters:
            self._bytes -= len(self.text[index:self._characters].encode("utf-8", "surrogatepass"))
        else:
            self._bytes += len(self.text[self._characters:index].encode("utf-8", "surrogatepass"))
        self._characters = index
        return self._bytes

    def refused(self, meaning: str, begin: int, end: Optional[int] = None) -> Unreadable:
        """The refusal of the text between two characters."""
        first = self.positions.at(self.offset(begin))
        return Unreadable(KIND, meaning, Range(first, first if end is None else self.positions.at(self.offset(end))))


class _Anchored(NamedTuple):
    """A value with an anchor: the bytes of its JSON text, and how deep it nests. While its end hasn't come, it isn't
    whole."""

    node: Node
    size: int
    levels: int
    is_whole: bool = True


class _Holder:
    """A sequence or a mapping whose end hasn't come."""

    def __init__(self, node: Node, anchor: Optional[str], is_flow: bool) -> None:
        self.node, self.anchor, self.is_flow = node, anchor, is_flow
        # How many bytes its JSON text has, how deep it nests, and the name of the member whose value is next.
        self.size, self.levels = 2, 1
        self.name: Optional[str] = None
        self.name_at = (0, 0)


class _Reader:
    """Makes trees of a parser's events. No tree is larger as a JSON text than the validator takes."""

    def __init__(self, yaml: Any, lines: _Lines) -> None:
        self._yaml, self._lines = yaml, lines
        self._anchors: dict[str, _Anchored] = {}
        self._open: list[_Holder] = []
        self._root: Optional[Node] = None

    def open_nodes(self) -> list[Node]:
        """The arrays and objects whose end hasn't come."""
        return [it.node for it in self._open]

    def take(self, event: Any) -> Optional[Node]:
        """Takes the next event. Where a document ends, returns its value."""
        yaml = self._yaml
        root = None
        if isinstance(event, yaml.ScalarEvent):
            self._scalar(event)
        elif isinstance(event, (yaml.MappingStartEvent, yaml.SequenceStartEvent)):
            self._begin(event, isinstance(event, yaml.MappingStartEvent))
        elif isinstance(event, (yaml.MappingEndEvent, yaml.SequenceEndEvent)):
            self._end(event)
        elif isinstance(event, yaml.AliasEvent):
            self._alias(event)
        elif isinstance(event, yaml.DocumentStartEvent):
            self._anchors.clear()
        elif isinstance(event, yaml.DocumentEndEvent):
            root, self._root = self._root, None
        return root

    def _scalar(self, event: Any) -> None:
        begin, end = self._span(event)
        holder = self._open[-1] if self._open else None
        try:
            if holder is not None and isinstance(holder.node.content, dict) and holder.name is None:
                self._name(holder, event, begin, end)
                return
            text = scalar(event.value, _tag(event), event.implicit[0])
        except NotCore as error:
            raise self._refused(str(error), event) from None
        node = Node(begin, end, text)
        size = len(text.encode())
        if event.anchor is not None:
            self._anchors[event.anchor] = _Anchored(node, size, 0)
        self._put(node, size, 0, event)

    def _name(self, holder: _Holder, event: Any, begin: int, end: int) -> None:
        """Keeps the name of the next member. Names are strings, so a plain one is the text that stands there."""
        name, tag = string(event.value), _tag(event)
        if tag not in (None, "!", "str") or event.implicit[0] and name in ("", "~", "null", "Null", "NULL"):
            raise NotCore("the name of a member is a string")
        if event.implicit[0] and name == "<<":
            raise NotCore("a merge (<<) isn't of YAML 1.2: write the members, or quote the name")
        if name in holder.node.content:
            raise NotCore(f"the name {name!r} is there twice")
        if event.anchor is not None:
            text = scalar(name, "str", False)
            self._anchors[event.anchor] = _Anchored(Node(begin, end, text), len(text.encode()), 0)
        holder.name, holder.name_at = name, (begin, end)

    def _begin(self, event: Any, is_mapping: bool) -> None:
        if len(self._open) == DEEPEST:
            raise self._refused(f"nested deeper than {DEEPEST}", event)
        tag = _tag(event)
        if tag not in (None, "!", "map" if is_mapping else "seq"):
            raise self._refused(f"the tag {tag} is none of YAML 1.2's core schema", event)
        self._no_name(event)
        node = Node(*self._span(event), {} if is_mapping else [])
        if event.anchor is not None:
            self._anchors[event.anchor] = _Anchored(node, 0, 0, False)
        self._open.append(_Holder(node, event.anchor, bool(event.flow_style)))

    def _end(self, event: Any) -> None:
        holder = self._open.pop()
        if holder.is_flow:
            holder.node.end = self._span(event)[1]
        if holder.anchor is not None:
            self._anchors[holder.anchor] = _Anchored(holder.node, holder.size, holder.levels)
        self._put(holder.node, holder.size, holder.levels, event)

    def _alias(self, event: Any) -> None:
        found = self._anchors.get(event.anchor)
        if found is None:
            raise self._refused(f"no anchor &{event.anchor} stands before it", event)
        if not found.is_whole:
            raise self._refused(f"the value of &{event.anchor} would hold itself", event)
        if len(self._open) + found.levels > DEEPEST:
            raise self._refused(f"nested deeper than {DEEPEST}", event)
        self._no_name(event)
        self._put(Node(*self._span(event), found.node.content), found.size, found.levels, event)

    def _no_name(self, event: Any) -> None:
        """Raises where a name is expected."""
        if self._open and isinstance(self._open[-1].node.content, dict) and self._open[-1].name is None:
            raise self._refused("the name of a member is a string", event)

    def _put(self, node: Node, size: int, levels: int, event: Any) -> None:
        """Puts a whole value where it belongs."""
        if self._open:
            holder = self._open[-1]
            holder.size += size + self._put_in(holder, node)
            holder.levels = max(holder.levels, levels + 1)
            holder.node.end = max(holder.node.end, node.end)
            size = holder.size
        else:
            self._root = node
        if size > LARGEST_TEXT:
            refused = self._refused("more than 16,777,216 bytes with what aliases stand for", event)
            refused.kind = "InputTooLarge"
            raise refused

    @staticmethod
    def _put_in(holder: _Holder, node: Node) -> int:
        """Puts a value into a sequence or a mapping, and returns how many bytes that takes beside the value's."""
        if isinstance(holder.node.content, list):
            holder.node.content.append(node)
            return 1
        assert isinstance(holder.node.content, dict) and holder.name is not None
        holder.node.content[holder.name] = Member(*holder.name_at, node)
        size = len(scalar(holder.name, "str", False).encode()) + 2
        holder.name = None
        return size

    def _span(self, event: Any) -> tuple[int, int]:
        return self._lines.offset(event.start_mark.index), self._lines.offset(event.end_mark.index)

    def _refused(self, meaning: str, event: Any) -> Unreadable:
        return self._lines.refused(meaning, event.start_mark.index, event.end_mark.index)


def _tag(event: Any) -> Optional[str]:
    """The tag of an event; one of YAML's own without its prefix."""
    tag: Optional[str] = event.tag
    return tag[len(_TAG):] if tag is not None and tag.startswith(_TAG) else tag
