"""What a pattern is made of."""
from __future__ import annotations

from collections.abc import Iterator
from dataclasses import dataclass, field, replace
from typing import Optional, Union

from .characters import Characters


@dataclass(frozen=True)
class Assertion:
    """`^`, `$`, or in ASCII `\\b` or `\\B`."""

    sign: str


@dataclass(frozen=True)
class Look:
    """A look-ahead or a look-behind."""

    is_ahead: bool
    is_negated: bool
    body: Alternatives
    #: Where it stands in the pattern that was read.
    at: int = field(default=0, compare=False)


@dataclass(frozen=True)
class Group:
    """Alternatives in parentheses. (Which text a group has captured is never asked.)"""

    body: Alternatives


@dataclass(frozen=True)
class Repeat:
    """Something from so many to so many times; without an end if `most` is None."""

    node: Union[Characters, Group]
    least: int
    most: Optional[int]


Node = Union[Characters, Assertion, Look, Group, Repeat]
Sequence = tuple[Node, ...]
Alternatives = tuple[Sequence, ...]

START, END = Assertion("^"), Assertion("$")


def has_look(node: Union[Node, Sequence]) -> bool:
    """Whether there is a look-around in a node, or in a sequence."""
    if isinstance(node, tuple):
        return any(map(has_look, node))
    if isinstance(node, Repeat):
        return has_look(node.node)
    return isinstance(node, Look) or isinstance(node, Group) and any(map(has_look, node.body))


def looks(body: Alternatives) -> list[int]:
    """Where the look-arounds of alternatives stand, each before those in it."""
    found: list[int] = []
    for node in (node for sequence in body for node in sequence):
        inner = node.node if isinstance(node, Repeat) else node
        if isinstance(inner, Look):
            found.append(inner.at)
        if isinstance(inner, (Look, Group)):
            found += looks(inner.body)
    return found


def with_look(body: Alternatives, at: int) -> Alternatives:
    """Alternatives without all look-arounds but the one that stands there, and those that it stands in."""
    return tuple(tuple(made for node in sequence for made in _with_look(node, at)) for sequence in body)


def _with_look(node: Node, at: int) -> Iterator[Node]:
    if isinstance(node, Look):
        if node.at == at or at in looks(node.body):
            yield replace(node, body=with_look(node.body, at))
    elif isinstance(node, Group):
        yield Group(with_look(node.body, at))
    elif isinstance(node, Repeat) and isinstance(node.node, Group):
        yield Repeat(Group(with_look(node.node.body, at)), node.least, node.most)
    else:
        yield node


def least_width(node: Union[Node, Sequence]) -> int:
    """The fewest characters that a node or a sequence matches."""
    if isinstance(node, tuple):
        return sum(map(least_width, node))
    if isinstance(node, Group):
        return min(map(least_width, node.body))
    if isinstance(node, Repeat):
        return node.least * least_width(node.node)
    return 1 if isinstance(node, Characters) else 0


def width(node: Union[Node, Sequence]) -> Optional[int]:
    """How many characters a node or a sequence matches, if that is always the same."""
    if isinstance(node, Group):
        widths = {width(it) for it in node.body}
        return widths.pop() if len(widths) == 1 else None
    if isinstance(node, Repeat):
        one = width(node.node)
        return 0 if one == 0 else None if one is None or node.least != node.most else node.least * one
    if not isinstance(node, tuple):
        return least_width(node)
    total = 0
    for it in node:
        one = width(it)
        if one is None:
            return None
        total += one
    return total


def size(node: Union[Node, Sequence]) -> int:
    """About how large a node or a sequence is when `regex` has compiled it."""
    if isinstance(node, tuple):
        return sum(map(size, node))
    if isinstance(node, (Group, Look)):
        return 1 + sum(map(size, node.body))
    if isinstance(node, Repeat):
        return 1 + size(node.node) * max(node.least, node.most or 0, 1)
    return node.size if isinstance(node, Characters) else 1


def repeated(node: Union[Characters, Group], least: int, most: Optional[int]) -> Iterator[Node]:
    """A node so many times, as short as that can be written."""
    if most != 0:
        yield node if least == most == 1 else Repeat(node, least, most)


def fewer(given: Repeat) -> Iterator[Node]:
    """What is repeated, once less."""
    return repeated(given.node, max(given.least - 1, 0), None if given.most is None else given.most - 1)
