"""Patterns in the syntax of the crate `regex`."""
from __future__ import annotations

from itertools import groupby

from .characters import Characters
from .nodes import Alternatives, Assertion, Group, Look, Node, Repeat, Sequence

_BOUNDS = {(0, None): "*", (1, None): "+", (0, 1): "?"}


def written(alternatives: Alternatives) -> str:
    """The text of a pattern without look-around."""
    return "|".join(map(_sequence, alternatives))


def _sequence(sequence: Sequence) -> str:
    parts = []
    for is_folded, nodes in groupby(sequence, _is_folded):
        text = "".join(map(_node, nodes))
        parts.append(f"(?i:{text})" if is_folded else text)
    return "".join(parts)


def _is_folded(node: Node) -> bool:
    """Whether a node has characters, all of which are the same in upper and lower case."""
    inner = node.node if isinstance(node, Repeat) else node
    return isinstance(inner, Characters) and inner.is_folded


def _node(node: Node) -> str:
    if isinstance(node, Characters):
        return node.written()
    if isinstance(node, Assertion):
        # (`\b` in ASCII, as ECMA-262 has it.)
        return node.sign if node.sign in "^$" else f"(?-u:{node.sign})"
    if isinstance(node, Group):
        return f"(?:{written(node.body)})"
    if isinstance(node, Look):
        raise ValueError("`regex` has no look-around")
    return _node(node.node) + _bounds(node.least, node.most)


def _bounds(least: int, most: int | None) -> str:
    if (least, most) in _BOUNDS:
        return _BOUNDS[least, most]
    return f"{{{least}}}" if least == most else f"{{{least},{'' if most is None else most}}}"
