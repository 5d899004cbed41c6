"""Patterns with look-around, as combinations of patterns without.

`^(?!A)B` matches a text if `^B` does and `^A` doesn't; `B(?<!A)$` if `B$` does and `A$` doesn't.
"""
from __future__ import annotations

from collections.abc import Iterable
from typing import Callable, Optional, Union

from .automata import taken
from .characters import ANY, Characters
from .combinations import NEVER, Combination, Not, Plain, every, some
from .nodes import (END, START, Alternatives, Group, Look, Node, Repeat, Sequence, has_look, least_width, repeated,
                    width)
from .pushing import NotExact, Pusher, mirrored, shortened, words

_MOST_SEQUENCES = 40
# The most nodes that are looked at, each time that they are; and how many an automaton counts as.
_MOST_NODES, _AUTOMATON = 5000, 250


def combination(body: Alternatives) -> Combination:
    """The combination that matches the same texts. Raises `NotExact`."""
    return _Rewriter((_Rewriter.from_start_alone, _Rewriter.short, _Rewriter.at_start, _Rewriter.at_end,
                      _Rewriter.in_all_places, *_ALONE)).combined(body)


def single(body: Alternatives) -> Optional[Plain]:
    """One pattern without look-around that matches the same texts, if there is one that isn't much larger."""
    try:
        found = _Rewriter((_Rewriter.short, *_ALONE)).combined(body)
    except NotExact:
        return None
    return found if isinstance(found, Plain) else None


def opened(sequence: Sequence) -> Sequence:
    """A sequence in which groups that have one alternative, and look-around in it, are that."""
    found: list[Node] = []
    for node in sequence:
        if isinstance(node, Group) and len(node.body) == 1 and (has_look(node) or START in node.body[0]):
            found += opened(node.body[0])
        else:
            found.append(node)
    return tuple(found)


class _Rewriter:
    """Rewrites by these rules, the first that applies. Each takes a sequence, and returns None where it doesn't."""

    def __init__(self, rules: tuple[_Rule, ...]) -> None:
        self._rules = rules
        self._nodes = 0

    def combined(self, body: Alternatives) -> Combination:
        """The combination of alternatives: those without look-around are one pattern."""
        found = [it for it in (self._sequence(opened(it)) for it in body) if it != NEVER]
        return some(*found) if found else NEVER

    def _sequence(self, sequence: Sequence) -> Combination:
        self._nodes += 1 + len(sequence)
        if self._nodes > _MOST_NODES:
            raise NotExact
        if not has_look(sequence):
            return Plain((sequence,))
        for rule in self._rules:
            found = rule(self, sequence)
            if found is not None:
                return found
        raise NotExact

    def from_start_alone(self, sequence: Sequence) -> Optional[Combination]:
        """`(?!^A)B`: from the start `B` without `A`, or `B` from elsewhere. `(?=^A)B` begins at the start."""
        look = sequence[0]
        if not isinstance(look, Look) or not look.is_ahead or _anchor(sequence) is not None:
            return None
        if not all(opened(it)[:1] == (START,) for it in look.body):
            return None
        from_start = self._sequence((START, *sequence))
        if not look.is_negated:
            return from_start
        return some(from_start, self._sequence((ANY, *sequence[1:])))

    def at_start(self, sequence: Sequence) -> Optional[Combination]:
        """A look-around so many characters behind the start."""
        found = _first_condition(sequence)
        return None if found is None else self._with_condition(sequence, *found)

    def at_end(self, sequence: Sequence) -> Optional[Combination]:
        """A look-around so many characters before the end."""
        found = _first_condition(mirrored(sequence))
        if found is None:
            return None
        index, body = found
        return self._with_condition(sequence, len(sequence) - 1 - index, tuple(map(mirrored, body)))

    def _with_condition(self, sequence: Sequence, index: int, body: Alternatives) -> Combination:
        """A sequence without the look-around at an index, and that the text is as that wants it."""
        look = sequence[index]
        assert isinstance(look, Look)
        condition = self.combined(body) if body else NEVER
        rest = self._sequence(sequence[:index] + sequence[index + 1:])
        if condition == NEVER:
            return rest if look.is_negated else NEVER
        return every(Not(condition) if look.is_negated else condition, rest)

    def in_all_places(self, sequence: Sequence) -> Optional[Combination]:
        """`^((?!A)c)*$`: `A` is at none of the places, so nowhere."""
        if sequence[-1] != END or len(sequence) < 3 or sequence[0] != START:
            return None
        place, last = width(sequence[1:-2]), sequence[-2]
        if place is None or not isinstance(last, Repeat) or not isinstance(last.node, Group):
            return None
        if len(last.node.body) != 1 or last.most == 0:
            return None
        inner = opened(last.node.body[0])
        index = next((index for index, it in enumerate(inner) if isinstance(it, Look)), None)
        if index is None or width(inner) != 1:
            return None
        body = _in_one_place(inner, index, place)
        if body is None:
            return None
        others = inner[:index] + inner[index + 1:]
        first = others[0]
        one: Union[Characters, Group] = Group((others,))
        if len(others) == 1 and isinstance(first, Characters):
            one = first
        rest = (*sequence[:-2], Repeat(one, last.least, last.most), END)
        return every(Not(self.combined(body)), self._sequence(rest))

    def short(self, sequence: Sequence) -> Optional[Combination]:
        """Look-arounds for one character, here and in groups."""
        return self._pushed(sequence, 1, 12)

    def long(self, sequence: Sequence) -> Optional[Combination]:
        """Those for words of a bounded length."""
        return self._pushed(sequence, 100, 300)

    def _pushed(self, sequence: Sequence, longest: int, steps: int) -> Optional[Combination]:
        for index, node in enumerate(sequence):
            if isinstance(node, Look):
                found = _beside(sequence, index, True, longest, steps)
                if found is not None:
                    return self.combined(tuple(found))
            elif isinstance(node, (Group, Repeat)) and has_look(node):
                inside = _inside(node, longest, steps)
                if inside is not None:
                    return self._sequence((*sequence[:index], inside, *sequence[index + 1:]))
        return None

    def of_any_length(self, sequence: Sequence) -> Optional[Combination]:
        """A look-around, and what stands beside it up to the end, read side by side."""
        for index, node in enumerate(sequence):
            if isinstance(node, Look) and not has_look(sequence[index + 1:] if node.is_ahead else sequence[:index]):
                self._nodes += _AUTOMATON
                found = _turned(sequence, index,
                                lambda look, rest: taken(look.is_negated, _without_look(look.body), rest))
                if found is not None:
                    return self.combined(tuple(found))
        return None

    def distributed(self, sequence: Sequence) -> Optional[Combination]:
        """Each alternative of the first group with look-around, with what stands around the group."""
        index = next(index for index, it in enumerate(sequence) if has_look(it))
        node = sequence[index]
        if isinstance(node, Group):
            parts = list(node.body)
        elif isinstance(node, Repeat) and node.most is not None and node.most <= 4:
            parts = [(node.node,) * count for count in range(node.least, node.most + 1)]
        else:
            return None
        if len(parts) > _MOST_SEQUENCES:
            return None
        return self.combined(tuple((*sequence[:index], *it, *sequence[index + 1:]) for it in parts))


_Rule = Callable[[_Rewriter, Sequence], Optional[Combination]]
# The rules that make patterns alone, after that for one character.
_ALONE: tuple[_Rule, ...] = (_Rewriter.long, _Rewriter.of_any_length, _Rewriter.distributed)


def _anchor(sequence: Sequence) -> Optional[int]:
    """Where the sequence says that it begins at the start of the text, if it does."""
    for index, node in enumerate(sequence):
        if node == START:
            return index
        if width(node) != 0:
            return None
    return None


def _first_condition(sequence: Sequence) -> Optional[tuple[int, Alternatives]]:
    """The first look-around that stands so many characters behind the start, and for which it is known what patterns
    find what it wants: its index, and these."""
    if _anchor(sequence) is None:
        return None
    for index, look in enumerate(sequence):
        place = width(sequence[:index])
        if place is None:
            return None
        found = _from_start(look, place) if isinstance(look, Look) else None
        if found is not None:
            return index, found
    return None


def _from_start(look: Look, place: int) -> Optional[Alternatives]:
    """The patterns that find what a look-around wants, so many characters behind the start. None where these aren't
    known."""
    found = []
    for body in look.body:
        begin = place
        if not look.is_ahead:
            length = width(body)
            if length is None:
                return None
            begin -= length
        if begin == 0 and body[:1] == (START,):
            found.append(body)
        elif begin >= 0:
            found.append((START, *repeated(ANY, begin, begin), *body))
    return tuple(map(shortened, found)) if look.is_ahead else tuple(found)


def _in_one_place(inner: Sequence, index: int, place: int) -> Optional[Alternatives]:
    """The patterns that find what a look-around forbids, where it is asked beside each character from a place on. None
    where these aren't known."""
    look = inner[index]
    assert isinstance(look, Look)
    is_before = width(inner[:index]) == 0
    # (Otherwise it might be empty at the end, or at the start, where it isn't asked.)
    has_width = all(least_width(it) for it in look.body)
    if not look.is_negated or is_before == look.is_ahead and not has_width or not look.is_ahead and place:
        return None
    if is_before == look.is_ahead and not place:
        return look.body
    some = Repeat(ANY, 0 if is_before else 1, None)
    if look.is_ahead:
        return tuple((START, *repeated(ANY, place, place), some, *it) for it in look.body)
    return tuple((*it, Repeat(ANY, 1, None), END) for it in look.body)


def _beside(sequence: Sequence, index: int, is_whole: bool, longest: int, steps: int) -> Optional[list[Sequence]]:
    """The sequences without the look-around at an index that match the same; `is_whole` says that the pattern is no
    longer. None where it is too long, or they are too many."""
    def pushed(look: Look, rest: Sequence) -> list[Sequence]:
        wanted = words(look.body)
        if any(len(it) > longest for it in wanted):
            raise NotExact
        return Pusher(look.is_negated, is_whole, steps).pushed(wanted, rest)

    return _turned(sequence, index, pushed)


def _turned(sequence: Sequence, index: int,
            join: Callable[[Look, Sequence], Iterable[Sequence]]) -> Optional[list[Sequence]]:
    """The sequences with what becomes of the look-around at an index and what follows it; a look-behind is turned for
    that, with what stands before it. None where that can't be."""
    look, before, after = sequence[index], sequence[:index], sequence[index + 1:]
    assert isinstance(look, Look)
    try:
        if look.is_ahead:
            return [before + it for it in join(look, after)]
        ahead = Look(True, look.is_negated, tuple(map(mirrored, look.body)))
        return [mirrored(it) + after for it in join(ahead, mirrored(before))]
    except NotExact:
        return None


def _without_look(body: Alternatives) -> Alternatives:
    """The same as what a look-ahead wants without the look-aheads in it."""
    if not any(map(has_look, body)):
        return body
    found = None if any(map(_has_look_behind, body)) else single(body)
    if found is None:
        raise NotExact
    return found.body


def _has_look_behind(sequence: Sequence) -> bool:
    inner = (node.node if isinstance(node, Repeat) else node for node in sequence)
    return any(isinstance(it, Look) and not it.is_ahead or any(map(_has_look_behind, it.body))
               for it in inner if isinstance(it, (Look, Group)))


def _inside(node: Node, longest: int, steps: int) -> Optional[Node]:
    """A group in which no look-around is left, or something that is repeated. None where one looks out of it."""
    if isinstance(node, Repeat):
        inner = _inside(node.node, longest, steps)
        return Repeat(inner, node.least, node.most) if isinstance(inner, Group) else None
    if not isinstance(node, Group):
        return None
    found: list[Sequence] = []
    waiting = [*reversed(node.body)]
    while waiting:
        sequence = opened(waiting.pop())
        index = next((index for index, it in enumerate(sequence) if has_look(it)), None)
        if index is None:
            found.append(sequence)
            continue
        if isinstance(sequence[index], Look):
            made = _beside(sequence, index, False, longest, steps)
            if made is None or len(waiting) + len(made) > _MOST_SEQUENCES:
                return None
            waiting += reversed(made)
        else:
            inside = _inside(sequence[index], longest, steps)
            if inside is None:
                return None
            waiting.append((*sequence[:index], inside, *sequence[index + 1:]))
    return Group(tuple(found) or NEVER.body)
