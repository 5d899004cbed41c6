"""Instances: JSON texts as they are, and values as JSON texts."""
from __future__ import annotations

import json
from typing import Any, Union

from .errors import Refused
from .limits import DEEPEST
from .locations import pointer

#: A JSON text, as bytes or as a str; or a value of None, booleans, integers, lists, tuples and dicts.
Instance = Union[bytes, bytearray, memoryview, str, Any]

LEAST, GREATEST = -2**63, 2**64 - 1

_SCALARS = frozenset((str, bool, type(None)))
_NAMES = frozenset((str,))
# (Made once: `json.dumps` would make it in each call.)
_written = json.JSONEncoder(ensure_ascii=False).encode


def text_of(instance: Instance) -> bytes:
    """The JSON text of an instance. A str is a text, not a string.

    Raises `Refused` for a value that has no verdict (with a float, a number beyond -2^63 to 2^64 - 1, a lone surrogate,
    or more than 127 levels), and `TypeError` for one that JSON doesn't have.
    """
    if type(instance) is bytes:
        return instance
    if isinstance(instance, (bytes, bytearray, memoryview)):
        return bytes(instance)
    if isinstance(instance, str):
        return _encoded(instance)
    if not _is_plain(instance, DEEPEST):
        _check(instance, [])
    return _encoded(_written(instance))


def text_of_value(value: Any) -> bytes:
    """The JSON text of a value, also of a str: it is a string here. Raises the same."""
    if isinstance(value, (bytes, bytearray, memoryview)):
        raise TypeError(f"JSON has no {type(value).__name__}: look at the root")
    return _encoded(_written(value)) if isinstance(value, str) else text_of(value)


def _encoded(text: str) -> bytes:
    try:
        return text.encode()
    except UnicodeEncodeError:
        raise Refused("instance", "NotJson", "") from None


def _is_plain(value: Any, levels: int) -> bool:
    """Whether a value is within the profile, without values of subclasses, in at most `levels` levels.

    So most values are, and this is quicker than `_check`, which decides about the others and says where they go wrong.
    """
    kind = type(value)
    if kind is dict and _NAMES.issuperset(map(type, value)):
        children = value.values()
    elif kind is list or kind is tuple:
        children = value
    else:
        return kind in _SCALARS or kind is int and LEAST <= value <= GREATEST
    if levels == 0:
        return False
    for child in children:
        if type(child) not in _SCALARS and not _is_plain(child, levels - 1):
            return False
    return True


def _check(value: object, tokens: list[str]) -> None:
    """Raises unless a value, which stands at these tokens, is within the profile. Members go by name, as elsewhere."""
    if isinstance(value, dict):
        if not all(isinstance(name, str) for name in value):
            raise TypeError(f"the names of members are strings: look at {pointer(tokens) or 'the root'}")
        children = sorted(value.items())
    elif isinstance(value, (list, tuple)):
        children = [(str(index), item) for index, item in enumerate(value)]
    elif isinstance(value, float) or isinstance(value, int) and not LEAST <= value <= GREATEST:
        raise Refused("instance", "NotWhole", pointer(tokens))
    elif value is None or isinstance(value, (str, int)):
        return
    else:
        raise TypeError(f"JSON has no {type(value).__name__}: look at {pointer(tokens) or 'the root'}")
    if len(tokens) == DEEPEST:
        raise Refused("instance", "NotJson", "")
    for token, child in children:
        _check(child, [*tokens, token])
