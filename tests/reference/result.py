"""The standard's result: a node for each application of a schema and one for each keyword (Core, sections 7, 12)."""
from dataclasses import dataclass, field

from tests.reference.assertions import SHAPES, compiled, error
from tests.reference.json_text import pointer_text

DEEPEST, MOST_NODES = 512, 1_000_000
WITHOUT_NODE = {"$schema", "$id", "$anchor", "$dynamicAnchor", "$vocabulary", "$comment", "$defs", "definitions"}
IN_PLACE = {"allOf", "anyOf", "oneOf", "if", "then", "else", "dependentSchemas", "$ref", "$dynamicRef"}
ON_ARRAYS = {"prefixItems", "items", "contains", "unevaluatedItems"}
ON_OBJECTS = {"dependentSchemas", "properties", "patternProperties", "additionalProperties", "propertyNames",
              "unevaluatedProperties"}
MEMBERS = {"properties", "patternProperties", "additionalProperties", "unevaluatedProperties"}
ITEMS = {"prefixItems", "items", "unevaluatedItems"}
NONE = (frozenset(), frozenset())


class TooLarge(Exception):
    """No result stands within the limits."""


@dataclass(slots=True)
class Node:
    """A unit of the result and what stands below it. A note is none, ('error', text) or ('annotation', value)."""

    keyword: str
    absolute: str
    instance: str
    valid: bool = True
    note: tuple | None = None
    children: list = field(default_factory=list)

    def over(self, children):
        """The same unit over other children."""
        return Node(self.keyword, self.absolute, self.instance, self.valid, self.note, children)


def order(keyword):
    """`else` stands directly after `if`."""
    return ("if", 1) if keyword == "else" else (keyword, 0)


class Walk:
    def __init__(self, bundle):
        self.bundle, self.nodes = bundle, 0

    def node(self, keyword, absolute, instance):
        self.nodes += 1
        if self.nodes > MOST_NODES:
            raise TooLarge
        return Node(keyword, absolute, instance)

    def schema(self, path, keyword, instance, value):
        """The node of the path's last place on a value, and which members and items it has evaluated."""
        if len(path) > DEEPEST:
            raise TooLarge
        place = path[-1]
        node = self.node(keyword, place.absolute(), instance)
        if place.schema is False:
            node.valid, node.note = False, ("error", "false schema")
        if isinstance(place.schema, bool):
            return node, NONE
        made, gives = {}, {}
        names = [it for it in sorted(place.schema, key=order) if it not in WITHOUT_NODE]
        for name in sorted(names, key=lambda it: it.startswith("unevaluated")):
            seen = union([gives[it] for it in gives if not it.startswith("unevaluated")])
            location = keyword + pointer_text((name,))
            made[name], gives[name] = self.keyword(path, name, location, instance, value, made, seen)
        node.children = [made[it] for it in names]
        node.valid = all(it.valid for it in node.children)
        return node, union(gives.values()) if node.valid else NONE

    def keyword(self, path, name, keyword, instance, value, made, seen):
        """The node of a keyword, and which members and items it has evaluated."""
        place = path[-1]
        node = self.node(keyword, place.absolute(name), instance)
        below = []
        asked = self.asked(path, name, value, made, seen)
        for target, steps, instance_steps, part in asked:
            there = keyword + pointer_text(steps), instance + pointer_text(instance_steps)
            below.append(self.schema((*path, target), *there, part))
        node.children = [it for it, _ in below]
        passing = [i for i, it in enumerate(node.children) if it.valid]
        self.judge(node, place.schema, name, value, passing, asked, made)
        if not node.valid:
            return node, NONE
        applied = [it[2][0] for it in asked if it[2]]
        if name in MEMBERS:
            return node, (frozenset(applied), frozenset())
        if name in ITEMS:
            return node, (frozenset(), frozenset(map(int, applied)))
        if name == "contains":
            return node, (frozenset(), frozenset(passing))
        if name in IN_PLACE:
            return node, union([gives for it, gives in below if it.valid])
        return node, NONE

    def asked(self, path, name, value, made, seen):
        """What a keyword asks for: places, the steps to them and to the values, and the values."""
        place = path[-1]
        schema, below = place.schema, place.below
        argument = schema[name]
        if name == "$ref":
            return [(place.target, (), (), value)]
        if name == "$dynamicRef":
            return [(self.bundle.dynamic_target(place, path), (), (), value)]
        if name in ("allOf", "anyOf", "oneOf"):
            return [(below[name, i], (str(i),), (), value) for i in range(len(argument))]
        if name in ("not", "if"):
            return [(below[name, None], (), (), value)]
        if name in ("then", "else"):
            applies = "if" in made and made["if"].children[0].valid == (name == "then")
            return [(below[name, None], (), (), value)] if applies else []
        if isinstance(value, list) and name in ON_ARRAYS:
            return self.asked_of_items(place, name, value, seen)
        if isinstance(value, dict) and name in ON_OBJECTS:
            return self.asked_of_members(place, name, value, seen)
        return []

    @staticmethod
    def asked_of_items(place, name, value, seen):
        if name == "prefixItems":
            return [(place.below[name, i], (str(i),), (str(i),), it)
                    for i, it in enumerate(value[:len(place.schema[name])])]
        first = len(place.schema.get("prefixItems", ())) if name == "items" else 0
        skipped = seen[1] if name == "unevaluatedItems" else ()
        return [(place.below[name, None], (), (str(i),), it)
                for i, it in enumerate(value) if i >= first and i not in skipped]

    @staticmethod
    def asked_of_members(place, name, value, seen):
        schema, below = place.schema, place.below
        if name == "dependentSchemas":
            return [(below[name, it], (it,), (), value) for it in schema[name] if it in value]
        if name == "properties":
            return [(below[name, it], (it,), (it,), value[it]) for it in schema[name] if it in value]
        if name == "patternProperties":
            return [(below[name, pattern], (pattern,), (it,), value[it])
                    for pattern in schema[name] for it in value if compiled(pattern).search(it)]
        if name == "propertyNames":
            return [(below[name, None], (), (it,), it) for it in value]
        if name == "additionalProperties":
            patterns = [compiled(it) for it in schema.get("patternProperties", ())]
            skipped = {it for it in value if it in schema.get("properties", ()) or any(p.search(it) for p in patterns)}
        else:
            skipped = seen[0]
        return [(below[name, None], (), (it,), value[it]) for it in value if it not in skipped]

    @staticmethod
    def judge(node, schema, name, value, passing, asked, made):
        """Gives the node of a keyword its verdict and its note."""
        count = len(passing)
        if name in SHAPES:
            matching = sum(it.valid for it in made["contains"].children) if "contains" in made else 0
            why = error(name, schema[name], schema, value, matching)
            node.valid, node.note = why is None, None if why is None else ("error", why)
        elif name == "anyOf":
            node.valid = count > 0
            node.note = None if node.valid else ("error", "no branch holds")
        elif name == "oneOf":
            node.valid = count == 1
            node.note = None if node.valid else ("error", f"{count} branches hold")
        elif name == "not":
            node.valid = count == 0
            node.note = None if node.valid else ("error", "the subschema holds")
        elif name == "contains":
            if isinstance(value, list):
                node.valid = count > 0 or schema.get("minContains") == 0
                if node.valid:
                    node.note = ("annotation", every_item_or(passing, passing, value))
                else:
                    node.note = ("error", "no matching item")
        elif name in IN_PLACE | ON_ARRAYS | ON_OBJECTS:
            node.valid = name == "if" or count == len(node.children)
            if node.valid and name in MEMBERS and isinstance(value, dict):
                node.note = ("annotation", sorted({it[2][0] for it in asked}))
            elif node.valid and name in ITEMS and asked:
                applied = [int(it[2][0]) for it in asked]
                every = every_item_or(max(applied), applied, value) if name == "prefixItems" else True
                node.note = ("annotation", every)
        else:
            node.note = ("annotation", schema[name])


def every_item_or(otherwise, indexes, items):
    """`true` where these are the indexes of every item of an array that isn't empty."""
    return True if items and set(indexes) == set(range(len(items))) else otherwise


def union(parts):
    if not parts:
        return NONE
    return frozenset().union(*(it[0] for it in parts)), frozenset().union(*(it[1] for it in parts))


def result(bundle, entry, value):
    """The result tree of an entry on a value."""
    return Walk(bundle).schema((entry,), "", "", value)[0]
