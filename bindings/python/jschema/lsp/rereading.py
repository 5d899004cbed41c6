"""A YAML text after a change: only the block that holds the change is read again, where that comes to the same; and of
a text that isn't YAML any more, only what stands near the change, where that tells why."""
from __future__ import annotations

import re
from bisect import bisect_left
from typing import Callable, NamedTuple, Optional

from ..errors import Refused
from ..limits import DEEPEST
from ..positions import Text
from ..sources import Member, Node, Range, Source, Unreadable, read
from ..sources.source import MarkedSource
from ..sources.writing import written
from ..sources.yaml import fault, opened

# What a block may not have: an anchor, which other parts may refer to, and line ends that aren't line feeds.
_FAR = re.compile(rb"&|\r|\xc2\x85|\xe2\x80[\xa8\xa9]")
_MARKER = re.compile(rb"^(?:%|---|\.\.\.)", re.MULTILINE)
_BEFORE_BLOCK = re.compile(rb" *(?:- +)*")
_INDENTATION = re.compile(rb"^ *(?=[^ \n])", re.MULTILINE)
# A block that is a larger part of the text takes as long as the text.
_PART = 4
# How far behind a change a text is read to find out that it isn't YAML any more, and the name of the members around it.
_NEAR = 2048
_STAND_IN = b"jschema\xef\xb7\x90"


class _Change(NamedTuple):
    """The bytes from `begin` to `end` have become others, and the text is longer by `more`."""

    begin: int
    end: int
    more: int


def reread(source: Source, data: bytes) -> Optional[Source]:
    """The source of a YAML text, for which that of the text before is used up. None, and nothing is used up, where the
    text must be read as a whole. Raises `Unreadable`, and nothing is used up, for a fault of the text that shows near
    the change; it may not be its first one."""
    if source.kind != "yaml" or _FAR.search(source.data) or source.data.startswith(b"%"):
        return None
    if source.data == data:
        return source
    root = source.tree()
    change = _change(source.data, data)
    places = _places(source.data, root, change.begin)
    if not _FAR.search(data, change.begin, change.end + change.more) and \
            _put_again(source.data, places, change, data):
        return MarkedSource("yaml", data, written(root), root, Text(data))
    for path in _paths(source.data, root, change):
        end = _end(source.data, path[-1])
        made = _block(data[path[-1].begin:end + change.more], _column(source.data, path[-1]))
        # (What is no longer of the same kind may be part of what is around it.)
        is_same = made is not None and type(made.content) is type(path[-1].content)
        if made is not None and is_same and len(path) + _levels(made) <= DEEPEST:
            _put(path, made, _column(source.data, path[-1]), change.more)
            return MarkedSource("yaml", data, written(root), root, Text(data))
    found = _fault(source.data, places, change, data)
    if found is not None:
        raise found
    return None


def _fault(data: bytes, places: list[_Place], change: _Change, after: bytes) -> Optional[Unreadable]:
    """A fault of a text near its change. It is read from the line of the innermost member or item that begins before
    the change on."""
    frame = _frame(data, places)
    if frame is None:
        return None
    stop = change.end + change.more + _NEAR
    found = fault(frame.text + after[frame.line:], frame.moved(stop))
    if found is None or found.range.begin.offset < len(frame.text):
        return None
    positions = Text(after)
    begin, end = (positions.at(it.offset - frame.moved(0)) for it in found.range)
    return Unreadable(found.kind, found.meaning, Range(begin, end))


class _Place(NamedTuple):
    """An array or an object that is a block, and its last member or item that begins before a change: its number, where
    it begins, and where the next one does."""

    holder: Node
    number: int
    begin: int
    next: Optional[int]


class _Frame(NamedTuple):
    """A text that opens the arrays and objects of which the parser knows where a line begins."""

    text: bytes
    line: int

    def moved(self, offset: int) -> int:
        """Where a byte stands if that line follows the frame."""
        return offset + len(self.text) - self.line


def _places(data: bytes, root: Node, end: int) -> list[_Place]:
    """The blocks that begin before a byte, each in the one before it."""
    found: list[_Place] = []
    node = root
    while _is_block(data, node) and node.begin < end:
        children: list[tuple[int, Node]] = []
        if isinstance(node.content, dict):
            children = [(it.begin, it.value) for it in node.content.values()]
        elif isinstance(node.content, list):
            children = [(it.begin, it) for it in node.content]
        index = bisect_left([begin for begin, _ in children], end) - 1
        if index < 0:
            break
        following = children[index + 1][0] if index + 1 < len(children) else None
        found.append(_Place(node, index, children[index][0], following))
        node = children[index][1]
    return found


def _frame(data: bytes, places: list[_Place]) -> Optional[_Frame]:
    """The frame of the line on which the last of these members and items begins; None where that isn't told by columns
    alone."""
    if not places:
        return None
    first = places[-1].begin
    line = data.rfind(b"\n", 0, first) + 1
    columns = [_column(data, it.holder) for it in places]
    if -1 in columns or not _BEFORE_BLOCK.fullmatch(data, line, first):
        return None
    indentation = len(data[line:first]) - len(data[line:first].lstrip(b" "))
    kind = list if b"-" in data[line:first] else dict
    above = next((at for at, it in enumerate(places) if columns[at] == indentation and
                  isinstance(it.holder.content, kind)), None)
    if above is None:
        return None
    lines = (b" " * column + (b"-\n" if isinstance(it.holder.content, list) else _STAND_IN + b":\n")
             for column, it in zip(columns[:above], places))
    return _Frame(b"".join(lines), line)


def _put_again(data: bytes, places: list[_Place], change: _Change, after: bytes) -> bool:
    """Reads the innermost member or item again that holds the change and isn't the last one, and puts what it has
    become into the tree. Where the next one begins, the parser must come to where it was before."""
    for count in range(len(places), 0, -1):
        place = places[count - 1]
        if place.next is None or data.rfind(b"\n", 0, place.next) < change.end:
            continue
        frame = None if _PART * (place.next - place.begin) > len(data) else _frame(data, places[:count])
        if frame is None:
            return False
        try:
            made = opened(frame.text + after[frame.line:], frame.moved(place.next + change.more))
        except Refused:
            return False
        # (What is around it has nothing else yet, unless it was closed and opened again.)
        return made is not None and len(made) == count and not any(it.content for it in made[:-1]) and \
            _replaced(place, made[-1], -frame.moved(0), change.more) and _moved_above(places[:count - 1], change.more)
    return False


def _replaced(place: _Place, made: Node, moved: int, more: int) -> bool:
    """Puts members or items in place of one of a block, and moves those behind it; not if a name were there twice."""
    holder, number = place.holder, place.number
    if isinstance(holder.content, list) and isinstance(made.content, list):
        made.move(moved)
        for it in holder.content[number + 1:]:
            it.move(more)
        holder.content = [*holder.content[:number], *made.content, *holder.content[number + 1:]]
    elif isinstance(holder.content, dict) and isinstance(made.content, dict):
        members = [*holder.content.items()]
        before, behind = members[:number], members[number + 1:]
        if not made.content.keys().isdisjoint(name for name, _ in [*before, *behind]):
            return False
        made.move(moved)
        following = {name: it.moved(more) for name, it in behind}
        holder.content = {**dict(before), **made.content, **following}
    else:
        return False
    holder.end += more
    return True


def _moved_above(places: list[_Place], more: int) -> bool:
    """Moves the ends of blocks, and what stands in them behind their last members and items before a change."""
    for holder, number, _, _ in places:
        holder.end += more
        _move_behind(holder, number, more)
    return True


def _move_behind(holder: Node, number: int, more: int) -> None:
    """Moves the items or members that stand behind one of an array or object, whose text is another."""
    content = holder.content
    if isinstance(content, list):
        for it in content[number + 1:]:
            it.move(more)
    elif isinstance(content, dict):
        content.update((name, it.moved(more)) for name, it in [*content.items()][number + 1:])
    holder.text = None


def _change(before: bytes, after: bytes) -> _Change:
    """What has changed between two texts: all but what they have in common at their beginnings and ends."""
    shorter = min(len(before), len(after))
    begin = _most(shorter, lambda count: before[:count] == after[:count])
    same = _most(shorter - begin, lambda count: before[len(before) - count:] == after[len(after) - count:])
    return _Change(begin, len(before) - same, len(after) - len(before))


def _most(limit: int, holds: Callable[[int], bool]) -> int:
    """The greatest number up to a limit for which something holds, as it does for all below it."""
    least = 0
    while least < limit:
        middle = (least + limit + 1) // 2
        least, limit = (middle, limit) if holds(middle) else (least, middle - 1)
    return least


def _paths(data: bytes, root: Node, change: _Change) -> list[list[Node]]:
    """The blocks below the root that hold a change, each with those around it; the innermost first."""
    path: list[Node] = []
    node: Optional[Node] = root
    while node is not None and _holds(data, node, change):
        path.append(node)
        last = None
        for _, child in node.children():
            if child.begin > change.begin:
                break
            last = child
        node = last
    found = [path[:length] for length in range(len(path), 1, -1)]
    return [it for it in found if _column(data, it[-1]) >= 0 and not _is_open_ended(data, it[-1]) and
            _PART * (_end(data, it[-1]) - it[-1].begin) < len(data)]


def _is_open_ended(data: bytes, node: Node) -> bool:
    """Whether a block ends with a literal or folded scalar, or with nothing: what follows says where that ends."""
    while node.content and not isinstance(node.content, str):
        *_, (_, node) = node.children()
    return node.begin == node.end or data[node.begin:node.begin + 1] in (b"|", b">")


def _holds(data: bytes, node: Node, change: _Change) -> bool:
    return _is_block(data, node) and node.begin <= change.begin and change.end <= _end(data, node)


def _is_block(data: bytes, node: Node) -> bool:
    return not isinstance(node.content, str) and data[node.begin:node.begin + 1] not in (b"[", b"{")


def _end(data: bytes, node: Node) -> int:
    """The end of the last line of a block."""
    end = data.find(b"\n", node.end)
    return len(data) if end < 0 else end


def _column(data: bytes, node: Node) -> int:
    """The column of a block, before which only blanks and the signs of items stand; else -1."""
    begin = data.rfind(b"\n", 0, node.begin) + 1
    return node.begin - begin if _BEFORE_BLOCK.fullmatch(data, begin, node.begin) else -1


def _block(text: bytes, column: int) -> Optional[Node]:
    """The value of a block that begins at a column, if it is one for itself."""
    first, _, others = text.partition(b"\n")
    if _FAR.search(text) or column == 0 and _MARKER.search(text):
        return None
    if any(len(found[0]) < column for found in _INDENTATION.finditer(others)):
        return None
    alone = b" " * column + text
    try:
        sources = read(alone, "yaml")
    except Refused:
        return None
    root = sources[0].tree()
    return root if len(sources) == 1 and root.begin == column and not _is_open_ended(alone, root) else None


def _levels(node: Node) -> int:
    """How deep a value nests."""
    deepest, waiting = 0, [(node, 0)]
    while waiting:
        it, levels = waiting.pop()
        levels += not isinstance(it.content, str)
        deepest = max(deepest, levels)
        waiting += [(child, levels) for _, child in it.children()]
    return deepest


def _put(path: list[Node], made: Node, column: int, more: int) -> None:
    """Puts the new value of a block into the tree, and moves what stands behind it."""
    *above, block = path
    made.move(block.begin - column)
    end, block.end, block.content = block.end, made.end, made.content
    child = block
    for holder in reversed(above):
        holder.end = block.end if holder.end == end else holder.end + more
        number = next(at for at, (_, it) in enumerate(holder.children()) if it is child)
        _move_behind(holder, number, more)
        child = holder
