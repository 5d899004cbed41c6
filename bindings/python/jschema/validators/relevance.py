"""The error that most likely says what to change, as pip's `jsonschema` finds it."""
from __future__ import annotations

import heapq
from collections.abc import Collection, Iterable
from typing import Any, Callable, Optional

from .errors import DetailedError

_TYPES: dict[str, Callable[[Any], bool]] = {
    "array": lambda it: isinstance(it, (list, tuple)),
    "boolean": lambda it: isinstance(it, bool),
    "integer": lambda it: isinstance(it, int) and not isinstance(it, bool),
    "null": lambda it: it is None,
    "number": lambda it: isinstance(it, (int, float)) and not isinstance(it, bool),
    "object": lambda it: isinstance(it, dict),
    "string": lambda it: isinstance(it, str),
}
Key = Callable[[DetailedError], Any]


def by_relevance(weak: Collection[str] = ("anyOf", "oneOf"), strong: Collection[str] = ()) -> Key:
    """A key by which errors are sorted, the most relevant last: what is higher up in the instance, then what stands
    earlier, is of no weak keyword, is of a strong one, and is of a schema for another type."""
    def key(error: DetailedError) -> tuple[Any, ...]:
        path = [(isinstance(it, str), it) for it in error.path]
        return (-len(path), path, error.validator not in weak, error.validator in strong, not is_for_type(error))

    return key


#: The key with pip's weak keywords.
relevance = by_relevance()


def best_match(errors: Iterable[DetailedError], key: Key = relevance) -> Optional[DetailedError]:
    """The most relevant of the errors; of `anyOf` and `oneOf` the deepest of those that led to it."""
    best = max(errors, key=key, default=None)
    while best is not None and best.context:
        smallest = heapq.nsmallest(2, best.context, key=key)
        if len(smallest) == 2 and key(smallest[0]) == key(smallest[1]):
            return best
        best = smallest[0]
    return best


def is_for_type(error: DetailedError) -> bool:
    """Whether the schema of an error names a type that the value has."""
    wanted = error.schema.get("type") if isinstance(error.schema, dict) else None
    types = [wanted] if isinstance(wanted, str) else wanted or ()
    return any(_TYPES[name](error.instance) for name in types)
