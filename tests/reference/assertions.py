"""The twenty keywords that judge a value by themselves (Validation, section 6), their arguments and error texts."""
import re

from tests.reference.json_text import is_equal, text

TYPES = ("null", "boolean", "object", "array", "number", "string", "integer")


def is_number(value):
    return isinstance(value, int) and not isinstance(value, bool)


def is_texts(value):
    return isinstance(value, list) and all(isinstance(it, str) for it in value) and len(set(value)) == len(value)


def is_types(value):
    if isinstance(value, str):
        return value in TYPES
    return is_texts(value) and value != [] and all(it in TYPES for it in value)


def anything(_):
    return True


def from_zero(value):
    return is_number(value) and value >= 0


SHAPES = {
    "type": is_types, "enum": lambda it: isinstance(it, list), "const": anything,
    "multipleOf": lambda it: is_number(it) and it > 0,
    "maximum": is_number, "exclusiveMaximum": is_number, "minimum": is_number, "exclusiveMinimum": is_number,
    "maxLength": from_zero, "minLength": from_zero, "pattern": lambda it: isinstance(it, str),
    "maxItems": from_zero, "minItems": from_zero, "uniqueItems": lambda it: isinstance(it, bool),
    "maxContains": from_zero, "minContains": from_zero, "maxProperties": from_zero, "minProperties": from_zero,
    "required": is_texts, "dependentRequired": lambda it: isinstance(it, dict) and all(map(is_texts, it.values())),
}


def compiled(pattern):
    """A matcher of a pattern, or none where it is no pattern. The dialects of `re` and `regex` differ: only `$` is
    carried over, so a pattern should use what both read alike."""
    try:
        return re.compile(re.sub(r"((?:[^\\$]|\\.)*)\$", lambda it: it[1] + r"\Z", pattern, flags=re.S))
    except re.error:
        return None


def name_of_type(value):
    if value is None:
        return "null"
    if isinstance(value, bool):
        return "boolean"
    return {dict: "object", list: "array", int: "integer", str: "string"}[type(value)]


def types_of(value):
    name = name_of_type(value)
    return {name, "number"} if name == "integer" else {name}


def least_equal_pair(items):
    """The least index that has an equal later one, and the least such later one."""
    texts = [text(it) for it in items]
    places = {}
    for i, it in enumerate(texts):
        places.setdefault(it, []).append(i)
    pairs = [tuple(it[:2]) for it in places.values() if len(it) > 1]
    return min(pairs, default=None)


def error(keyword, argument, siblings, value, matching):
    """The error text of an assertion on a value, or none where it holds. `matching`: the matches of `contains`."""
    n = argument
    if keyword == "type":
        wanted = {n} if isinstance(n, str) else set(n)
        return None if wanted & types_of(value) else f"type is {name_of_type(value)}"
    if keyword == "enum":
        return None if any(is_equal(it, value) for it in n) else "not a listed value"
    if keyword == "const":
        return None if is_equal(n, value) else "not the constant"
    if is_number(value):
        fails = {"multipleOf": lambda: (value % n != 0, f"not a multiple of {n}"),
                 "maximum": lambda: (value > n, f"greater than {n}"),
                 "exclusiveMaximum": lambda: (value >= n, f"not less than {n}"),
                 "minimum": lambda: (value < n, f"less than {n}"),
                 "exclusiveMinimum": lambda: (value <= n, f"not greater than {n}")}
    elif isinstance(value, str):
        fails = {"maxLength": lambda: (len(value) > n, f"{len(value)} characters, at most {n}"),
                 "minLength": lambda: (len(value) < n, f"{len(value)} characters, at least {n}"),
                 "pattern": lambda: (not compiled(n).search(value), "no match")}
    elif isinstance(value, list):
        counts = "contains" in siblings
        fails = {"maxItems": lambda: (len(value) > n, f"{len(value)} items, at most {n}"),
                 "minItems": lambda: (len(value) < n, f"{len(value)} items, at least {n}"),
                 "maxContains": lambda: (counts and matching > n, f"{matching} matching items, at most {n}"),
                 "minContains": lambda: (counts and matching < n, f"{matching} matching items, at least {n}"),
                 "uniqueItems": lambda: repeated(n, value)}
    elif isinstance(value, dict):
        fails = {"maxProperties": lambda: (len(value) > n, f"{len(value)} members, at most {n}"),
                 "minProperties": lambda: (len(value) < n, f"{len(value)} members, at least {n}"),
                 "required": lambda: missing([it for it in n if it not in value]),
                 "dependentRequired": lambda: missing(sorted(
                     {it for name, names in n.items() if name in value for it in names if it not in value}))}
    else:
        fails = {}
    failed, why = fails.get(keyword, lambda: (False, None))()
    return why if failed else None


def repeated(argument, items):
    pair = least_equal_pair(items) if argument else None
    return (True, f"items {pair[0]} and {pair[1]} are equal") if pair else (False, None)


def missing(names):
    return bool(names), f"missing: {text(names)}"
