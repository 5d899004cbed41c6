"""Look-arounds of a bounded length, taken into the characters beside them: `(?!-)[a-z-]+` is `[a-z][a-z-]*`."""
from __future__ import annotations

from collections.abc import Iterator, Sequence as Several
from itertools import product
from typing import TypeVar, Union

from .characters import ANY, Characters
from .nodes import (END, START, Alternatives, Assertion, Group, Look, Node, Repeat, Sequence, fewer, least_width,
                    repeated, size)

#: What a look-around finds: characters, or the end of the text.
Word = tuple[Union[Characters, Assertion], ...]

_Left = TypeVar("_Left")
#: What stands behind a pattern in a text.
ANYTHING: Sequence = (Repeat(ANY, 0, None), END)
_MOST_WORDS = 64
_DEEPEST = 60
_LARGEST = 20_000


class NotExact(Exception):
    """A pattern that can't be rewritten exactly."""


def shortened(sequence: Sequence) -> Sequence:
    """What a look-ahead asks for, without a tail that is always there."""
    while sequence:
        last = sequence[-1]
        if isinstance(last, Repeat) and last.least != last.most:
            sequence = (*sequence[:-1], *repeated(last.node, last.least, last.least))
        elif isinstance(last, Group) and () in last.body:
            sequence = sequence[:-1]
        else:
            break
    return sequence


def words(body: Alternatives) -> list[Word]:
    """All that a look-ahead finds. Raises `NotExact` where that isn't a few words of a bounded length."""
    found = [word for sequence in body for word in _words(shortened(sequence))]
    if len(found) > _MOST_WORDS:
        raise NotExact
    return found


def _words(sequence: Sequence) -> list[Word]:
    parts: list[list[Word]] = []
    for node in sequence:
        if isinstance(node, Characters):
            parts.append([(node,)])
        elif node == END:
            parts.append([(END,)])
        elif isinstance(node, Group):
            parts.append([word for it in node.body for word in _words(it)])
        elif isinstance(node, Repeat) and node.most is not None and node.most <= 8:
            one = _words((node.node,))
            parts.append([sum(them, ()) for count in range(node.least, node.most + 1)
                          for them in _products([one] * count)])
        else:
            raise NotExact
    return [sum(them, ()) for them in _products(parts)]


def _products(parts: Several[list[Word]]) -> Iterator[tuple[Word, ...]]:
    count = 1
    for it in parts:
        count *= len(it)
    if count > _MOST_WORDS:
        raise NotExact
    return product(*parts)


def mirrored(sequence: Sequence) -> Sequence:
    """A sequence from its end to its beginning, which matches the texts that are so too."""
    return tuple(map(_mirrored, reversed(sequence)))


def _mirrored(node: Node) -> Node:
    if isinstance(node, (Group, Look)):
        body = tuple(map(mirrored, node.body))
        return Group(body) if isinstance(node, Group) else Look(not node.is_ahead, node.is_negated, body)
    if isinstance(node, Repeat):
        inner = _mirrored(node.node)
        assert isinstance(inner, (Characters, Group))
        return Repeat(inner, node.least, node.most)
    return {START: END, END: START}.get(node, node) if isinstance(node, Assertion) else node


class Pusher:
    """Takes a look-ahead into what follows. `is_whole` says that the pattern ends where that ends."""

    def __init__(self, is_negated: bool, is_whole: bool, steps: int) -> None:
        self._is_negated, self._is_whole, self._steps = is_negated, is_whole, steps
        self._depth = 0

    def pushed(self, wanted: Several[Word], rest: Sequence) -> list[Sequence]:
        """The sequences that together match what the look-ahead and the rest do. Raises `NotExact`."""
        self._steps -= 1
        if self._steps < 0 or self._depth > _DEEPEST:
            raise NotExact
        if () in wanted or not wanted:
            is_met = (() in wanted) != self._is_negated
            return [() if self._is_whole and rest == ANYTHING else rest] if is_met else []
        if not rest:
            if not self._is_whole:
                raise NotExact
            rest = ANYTHING
        self._depth += 1
        found = self._by_first(wanted, rest[0], rest[1:])
        self._depth -= 1
        if sum(map(size, found)) > _LARGEST:
            raise NotExact
        return found

    def _by_first(self, wanted: Several[Word], first: Node, rest: Sequence) -> list[Sequence]:
        if isinstance(first, Characters):
            begins = [(begin, word[1:]) for word in wanted if isinstance(begin := word[0], Characters)]
            return [joined for region, left in regions(first, begins)
                    for joined in _joined(region, self.pushed(left, rest))]
        if isinstance(first, Group):
            return [it for body in first.body for it in self.pushed(wanted, body + rest)]
        if isinstance(first, Repeat):
            return self._repeated(wanted, first, rest)
        if first == END:
            is_there = any(all(it == END for it in word) for word in wanted)
            return [(first, *rest)] if is_there != self._is_negated else []
        # (What takes no characters changes places with the look-ahead.)
        return [(first, *it) for it in self.pushed(wanted, rest)]

    def _repeated(self, wanted: Several[Word], first: Repeat, rest: Sequence) -> list[Sequence]:
        if least_width(first.node) == 0:
            raise NotExact
        found = self.pushed(wanted, rest) if first.least == 0 else []
        if first.most != 0:
            found += self.pushed(wanted, (first.node, *fewer(first), *rest))
        return found


def _joined(region: Characters, found: list[Sequence]) -> list[Sequence]:
    if len(found) < 2:
        return [(region, *it) for it in found]
    return [(region, Group(tuple(found)))]


def regions(given: Characters, begins: Several[tuple[Characters, _Left]]) -> list[tuple[Characters, list[_Left]]]:
    """The parts of a set by the words that begin with their characters, with what is left of these words."""
    found: list[tuple[Characters, list[_Left]]] = [(given, [])]
    for begin, rest in begins:
        if begin.is_folded != given.is_folded:
            raise NotExact
        split = [it for region, left in found
                 for it in ((region.both(begin), [*left, rest]), (region.minus(begin), left))]
        found = [it for it in split if not it[0].is_empty]
        if len(found) > _MOST_WORDS:
            raise NotExact
    return found
