"""How much stack the calls take for what is nested, beside what the header says of it."""
import json
import re
from dataclasses import dataclass
from typing import Callable

# What the header says: each number is of KB, but for the last.
SAYS = {
    "a call": r"a call needs at most ([\d.]+) KB",
    "a call that searches": r"([\d.]+) KB if it searches with a regular expression",
    "a level of a JSON text": r"([\d.]+) KB for each level of a JSON text \(128 at most\)",
    "a level of an upgrade": r"([\d.]+) KB for each level of a document that is upgraded",
    "a level of a pattern": r"([\d.]+) KB for each level of nesting in a regular expression \(groups, repetitions, "
                            r"classes: 250 at most\)",
    "an application": r"([\d.]+) KB for each schema that is applied inside the application of another \(512 at most\)",
    "all": r"So ([\d.]+) MB is enough for whatever is passed in",
}
DONE, INVALID = 0, 1


def said(header):
    """What the header says, in bytes. Raises `LookupError` for what it doesn't say."""
    text = re.sub(r"\s+", " ", header)
    found = {what: re.search(pattern, text) for what, pattern in SAYS.items()}
    if lacking := [what for what, it in found.items() if it is None]:
        raise LookupError(f"the header says nothing of {lacking[0]}")
    return {what: float(it[1]) * (1 << 20 if what == "all" else 1 << 10) for what, it in found.items()}


@dataclass(frozen=True)
class Nested:
    """Something that nests: a schema and an instance for each depth, two depths to compare, and how many levels, of
    which kind, each adds."""

    name: str
    level: str
    made: Callable[[int], tuple[str, str]]
    low: int
    high: int
    levels: int = 1


def texts(opening, closing, innermost=""):
    return lambda depth: opening * depth + innermost + closing * depth


def pattern(opening, closing, levels=1):
    """A pattern in which this nests. One level in another takes the same, so few and many are compared."""
    made = texts(opening, closing, "a")
    return Nested(f"{opening}..{closing} in a pattern", "a level of a pattern",
                  lambda depth: (json.dumps({"pattern": made(depth)}), '"ab"'), 50, 245 // levels, levels)


def chain(name, applied, instance="1", levels=1):
    """Schemas that apply one another."""
    def made(depth):
        schemas = {str(it): applied({"$ref": f"#/$defs/{it + 1}"}) for it in range(1, depth)}
        return json.dumps({"$ref": "#/$defs/1", "$defs": {**schemas, str(depth): True}}), instance
    return Nested(name, "an application", made, 100, 510 // levels, levels)


def below(name, keyword, instance):
    """A schema that applies itself to each value in a value, by a reference."""
    schema = json.dumps({keyword: {"$ref": "#"}})
    return Nested(name, "an application", lambda depth: (schema, instance(depth)), 60, 126, 2)


def older(keyword, draft):
    """Schemas in schemas of an older draft, none of which is applied."""
    def made(depth):
        schema = f'{{"{keyword}":{{"a":' * depth + "{}" + "}}" * depth
        return f'{{"$schema":"http://json-schema.org/{draft}/schema#","$ref":"#/definitions/a","definitions":' \
               f'{{"a":{{}},"b":{schema}}}}}', "1"
    return Nested(f"schemas of {draft} in {keyword}", "a level of an upgrade", made, 25, 60, 2)


LISTS, OBJECTS = texts("[", "]"), texts('{"a":', "}", "1")
NESTED = [
    Nested("lists", "a level of a JSON text", lambda depth: ("true", LISTS(depth)), 64, 127),
    Nested("objects", "a level of a JSON text", lambda depth: ("true", OBJECTS(depth)), 64, 127),
    Nested("lists in const", "a level of a JSON text",
           lambda depth: (f'{{"const":{LISTS(depth)}}}', LISTS(depth)), 64, 126),
    Nested("lists that are equal", "a level of a JSON text",
           lambda depth: ('{"uniqueItems":true}', f"[{LISTS(depth)},{LISTS(depth)}]"), 64, 126),
    older("definitions", "draft-07"), older("properties", "draft-04"), older("properties", "draft-03"),
    *(pattern(*it) for it in (("(", ")"), ("(?:", ")"), ("[", "]"), ("[^", "]"), ("(?:", ")*", 2), ("(?:", ")+", 2),
                              ("(?:x", ")?", 3), ("(", "|b)", 2), ("(x", "y)", 2), ("[a-c&&", "]", 2))),
    chain("$ref", lambda to: to), chain("$dynamicRef", lambda to: {"$dynamicRef": to["$ref"]}),
    *(chain(it, lambda to, it=it: {it: [to]}, levels=2) for it in ("allOf", "anyOf", "oneOf")),
    chain("not", lambda to: {"not": to}, levels=2), chain("else", lambda to: {"if": False, "else": to}, levels=2),
    chain("dependentSchemas", lambda to: {"dependentSchemas": {"a": to}}, '{"a":1}', 2),
    *(below(it, it, LISTS) for it in ("items", "contains", "unevaluatedItems")),
    *(below(it, it, OBJECTS) for it in ("additionalProperties", "unevaluatedProperties")),
]
FLAT = [("true", "1"), ('{"type":"integer","minimum":1,"enum":[1,2]}', "1"), ('{"required":["a"]}', '{"b":1}')]
PATTERNS = ("^a+$", "a*", "[^a]", "(a*b+)*[^c]*$", r"\p{L}{2,9}")
SEARCHING = [(json.dumps({"pattern": it}), '"aaab"') for it in PATTERNS]


def deepest():
    """As many applications as there may be, of which the last searches, or compares what is nested."""
    last = {"pattern": PATTERNS[3], "uniqueItems": True, "propertyNames": {"pattern": PATTERNS[3]}}
    schemas = {**{str(it): {"$ref": f"#/$defs/{it + 1}"} for it in range(1, 509)}, "509": last}
    schema = json.dumps({"$ref": "#/$defs/1", "$defs": schemas})
    return [(schema, it) for it in ('"aaab"', '{"ab":1}', f"[{LISTS(126)},{LISTS(126)}]")]


def judged(header, need):
    """What is measured, the bytes, and what is wrong with that; None where nothing is. `need` answers the status and
    the bytes for a schema and an instance."""
    allowed, most = said(header), 0
    for what, cases in (("a call", FLAT), ("a call that searches", SEARCHING), ("all", deepest())):
        measured = [need(*it) for it in cases]
        bytes_ = max(it for _, it in measured)
        yield what, bytes_, fault_of([it for it, _ in measured], bytes_, allowed[what])
        most = max(most, bytes_)
    for it in NESTED:
        (status, low), (other, high) = need(*it.made(it.low)), need(*it.made(it.high))
        each = (high - low) / (it.levels * (it.high - it.low))
        yield f"{it.level}, {it.name}", round(each), fault_of((status, other), each, allowed[it.level])
        most = max(most, high)
    yield "the most of these", most, fault_of((), most, allowed["all"])


def fault_of(statuses, bytes_, allowed):
    """What is wrong with a measured need: that it isn't one, or that it is more than is said."""
    if others := [it for it in statuses if it not in (DONE, INVALID)]:
        return f"status {others[0]}"
    return None if 0 < bytes_ <= allowed else f"{bytes_:,.0f} bytes, and the header says at most {allowed:,.0f}"
