"""Whether a pattern without look-around matches a short text."""
from __future__ import annotations

from .characters import Characters
from .combinations import Combination, Every, Not, Plain
from .nodes import END, START, Assertion, Group, Node, Repeat, Sequence
from .pushing import NotExact

_MOST_TURNS = 1000


def matches(given: Combination, text: str) -> bool:
    """Whether a combination matches a text. Raises `NotExact` where that isn't known here."""
    if isinstance(given, Plain):
        begins = set(range(len(text) + 1))
        return any(_ends(it, text, begins) for it in given.body)
    if isinstance(given, Not):
        return not matches(given.of, text)
    return (all if isinstance(given, Every) else any)(matches(it, text) for it in given.of)


def _ends(sequence: Sequence, text: str, begins: set[int]) -> set[int]:
    """Where a sequence ends that begins at one of these places."""
    for node in sequence:
        begins = _after(node, text, begins)
    return begins


def _after(node: Node, text: str, begins: set[int]) -> set[int]:
    if isinstance(node, Characters):
        if not node.is_plain:
            raise NotExact
        return {at + 1 for at in begins if at < len(text) and _has(node, ord(text[at]))}
    if isinstance(node, Assertion):
        if node not in (START, END):
            raise NotExact
        return begins & {0 if node == START else len(text)}
    if isinstance(node, Group):
        return set().union(*(_ends(it, text, begins) for it in node.body))
    if isinstance(node, Repeat):
        return _repeated(node, text, begins)
    raise NotExact


def _repeated(node: Repeat, text: str, begins: set[int]) -> set[int]:
    if node.least > _MOST_TURNS:
        raise NotExact
    for _ in range(node.least):
        begins = _after(node.node, text, begins)
    found, turns = begins, node.least
    while begins and (node.most is None or turns < node.most):
        # (What was reached before leads nowhere else.)
        begins = _after(node.node, text, begins) - found
        found, turns = found | begins, turns + 1
    return found


def _has(characters: Characters, code: int) -> bool:
    return any(first <= code <= last for first, last in characters.ranges)
