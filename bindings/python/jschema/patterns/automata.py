"""Look-aheads of any length, taken into what follows them up to the end of the pattern: `(?=.*[0-9])[a-z0-9]*$` is
`[a-z]*[0-9][0-9a-z]*$`.

What is looked for and what follows are read side by side, a character at a time. What is left of both is a state of an
automaton, whose states are taken out one by one until the first one leads to the end alone.
"""
from __future__ import annotations

from collections.abc import Iterator, Sequence as Several
from typing import Optional

from .characters import Characters, ranges
from .nodes import END, Alternatives, Group, Node, Repeat, Sequence, fewer, size
from .pushing import ANYTHING, NotExact, regions, shortened

# What is left of what follows, and of all that may be looked for.
_Left = tuple[Sequence, tuple[Sequence, ...]]
# What leads from a state to others by their numbers, and to the end of the pattern.
_Edges = dict[int, Alternatives]

_FIRST, _END = 0, -1
_MOST_STATES, _MOST_EDGES, _LARGEST = 100, 500, 5000


def taken(is_negated: bool, body: Alternatives, rest: Sequence) -> Alternatives:
    """The sequences that together match what a look-ahead and the rest of the pattern do. Raises `NotExact`."""
    return _Automaton(is_negated).alternatives(shortened(rest), [*map(shortened, body)])


class _Automaton:
    """What is left in each state, and its edges. States with the same sequences are one, whatever their order is."""

    def __init__(self, is_negated: bool) -> None:
        self._is_negated = is_negated
        self._numbers: dict[tuple[Sequence, frozenset[Sequence]], int] = {}
        self._left: list[_Left] = []
        self._edges: dict[int, _Edges] = {}
        self._count = 0

    def alternatives(self, rest: Sequence, wanted: list[Sequence]) -> Alternatives:
        """What leads to the end from the first state, which has all."""
        at_once = self._ends(rest, wanted)
        if at_once is not None:
            return at_once
        self._number(rest, wanted)
        # (The list grows on the way.)
        for number, left in enumerate(self._left):
            self._edges[number] = self._read(*left)
        while len(self._edges) > 1:
            self._take_out(min((it for it in self._edges if it != _FIRST), key=self._cost))
        edges = self._edges[_FIRST]
        ends = edges.get(_END, ())
        return (_joined(_repeated(edges[_FIRST]), ends),) if ends and _FIRST in edges else ends

    def _ends(self, rest: Sequence, wanted: Several[Sequence]) -> Optional[Alternatives]:
        """What leads to the end, if what is left is over on one of the two sides."""
        rest = () if rest == ANYTHING else rest
        if any(_may_be_empty(it, False) for it in wanted):
            return () if self._is_negated else (rest,)
        if not wanted:
            return (rest,) if self._is_negated else ()
        return None if rest or self._is_negated else tuple(wanted)

    def _read(self, rest: Sequence, wanted: Several[Sequence]) -> _Edges:
        """The edges of a state."""
        edges: _Edges = {}
        if _may_be_empty(rest, True) and any(_may_be_empty(it, True) for it in wanted) != self._is_negated:
            edges[_END] = ((END,),)
        begins = [it for sequence in wanted for it in _begins(sequence)]
        for one, after in _begins(rest):
            for region, left in regions(one, begins):
                self._count += 1
                if self._count > _MOST_EDGES:
                    raise NotExact
                ends = self._ends(after, left)
                target = self._number(after, left) if ends is None else _END
                if ends is None or ends:
                    label = (region,) if ends is None else _joined(((region,),), ends)
                    edges[target] = _united(edges.get(target, ()), (label,))
        return edges

    def _number(self, rest: Sequence, wanted: list[Sequence]) -> int:
        """The state in which this is left."""
        rest = rest or ANYTHING
        number = self._numbers.setdefault((rest, frozenset(wanted)), len(self._left))
        if number == len(self._left):
            if number == _MOST_STATES:
                raise NotExact
            self._left.append((rest, tuple(dict.fromkeys(wanted))))
        return number

    def _cost(self, state: int) -> int:
        """How many edges are made when a state is taken out."""
        return len(self._edges[state]) * sum(state in edges for edges in self._edges.values())

    def _take_out(self, state: int) -> None:
        """Leads the edges to a state on to where its own lead."""
        edges = self._edges.pop(state)
        loop = _repeated(edges.pop(state, ()))
        for others in self._edges.values():
            before = others.pop(state, ())
            for target, label in edges.items() if before else ():
                others[target] = _united(others.get(target, ()), (_joined(before, loop, label),))


def _begins(sequence: Sequence) -> Iterator[tuple[Characters, Sequence]]:
    """The characters that a sequence may begin with, each with what is left then."""
    if not sequence or sequence[0] == END:
        return
    first, after = sequence[0], sequence[1:]
    if isinstance(first, Characters):
        yield first, after
    elif isinstance(first, Group):
        for body in first.body:
            yield from _begins(body + after)
    elif isinstance(first, Repeat) and not _may_be_empty((first.node,), True):
        if first.least == 0:
            yield from _begins(after)
        if first.most != 0:
            yield from _begins((first.node, *fewer(first), *after))
    else:
        raise NotExact


def _may_be_empty(sequence: Sequence, at_end: bool) -> bool:
    """Whether a sequence may match no character: at the end of the text, or anywhere."""
    return all(_is_empty(node, at_end) for node in sequence)


def _is_empty(node: Node, at_end: bool) -> bool:
    if isinstance(node, Characters):
        return False
    if isinstance(node, Group):
        return any(_may_be_empty(it, at_end) for it in node.body)
    if isinstance(node, Repeat):
        return node.least == 0 or _is_empty(node.node, at_end)
    if node != END:
        raise NotExact
    return at_end


def _united(one: Alternatives, other: Alternatives) -> Alternatives:
    """What one or the other matches. Characters alone are one set."""
    both = tuple(dict.fromkeys(one + other))
    single = [only for it in both if isinstance(only := it[0] if len(it) == 1 else None, Characters) and only.is_plain]
    if len(single) > 1:
        whole = Characters(ranges(part for it in single for part in it.ranges))
        both = ((whole,), *(it for it in both if len(it) != 1 or it[0] not in single))
    if sum(map(size, both)) > _LARGEST:
        raise NotExact
    return both


def _joined(*parts: Alternatives) -> Sequence:
    """One after the other."""
    return tuple(node for it in parts for node in (it[0] if len(it) == 1 else (Group(it),)))


def _repeated(loop: Alternatives) -> Alternatives:
    """What a state leads to itself by, any number of times."""
    if not loop:
        return ((),)
    only = loop[0][0] if len(loop) == 1 and len(loop[0]) == 1 else None
    return ((Repeat(only if isinstance(only, Characters) else Group(loop), 0, None),),)
