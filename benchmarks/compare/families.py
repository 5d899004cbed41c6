"""Families of schemas and instances of any size: each stresses one part of a validator."""


def records(count):
    """Objects with eight members each."""
    text, number = {"type": "string", "maxLength": 20}, {"type": "integer", "minimum": 1}
    members = {f"m{i}": number if i % 2 else text for i in range(8)}
    record = {"type": "object", "properties": members, "required": list(members), "additionalProperties": False}
    schema = {"items": record}
    return schema, [{f"m{i}": k + i if i % 2 else f"text {k}" for i in range(8)} for k in range(count)]


def references(count):
    """A tree of objects, each judged by a reference to the root."""
    schema = {"type": "object", "properties": {"name": {"type": "string"},
                                               "children": {"type": "array", "items": {"$ref": "#"}}}}

    def tree(nodes):
        below = nodes - 1
        sizes = [below // 4 + (i < below % 4) for i in range(4)]
        return {"name": "n", "children": [tree(it) for it in sizes if it]}

    return schema, tree(count)


def any_of(count):
    """Items that are distinguished by ten branches of `anyOf`."""
    branches = [{"properties": {"kind": {"const": f"k{i}"}, "value": {"type": "integer"}}, "required": ["kind"]}
                for i in range(10)]
    return {"items": {"anyOf": branches}}, [{"kind": f"k{i % 10}", "value": i} for i in range(count)]


def unevaluated(count):
    """Objects whose members are evaluated by two schemas of `allOf`, and must have no others."""
    halves = [{"properties": {f"m{i}": {"type": "integer"} for i in range(begin, 8, 2)}} for begin in (0, 1)]
    schema = {"items": {"allOf": halves, "unevaluatedProperties": False}}
    return schema, [{f"m{i}": k for i in range(8)} for k in range(count)]


def dynamic(count):
    """A tree of objects that a schema extends, by dynamic references."""
    members = {"name": {"type": "string"}, "children": {"type": "array", "items": {"$dynamicRef": "#node"}}}
    tree_schema = {"$id": "https://a.example/tree", "$dynamicAnchor": "node", "type": "object", "properties": members}
    schema = {"$id": "https://a.example/strict", "$dynamicAnchor": "node", "$ref": "tree",
              "unevaluatedProperties": False, "$defs": {"tree": tree_schema}}
    return schema, references(count)[1]


# The families by name: the maker, how many items, and the drafts in which the schema means the same.
FAMILIES = {
    "records": (records, 2_000, 7),
    "references": (references, 2_000, 7),
    "any_of": (any_of, 2_000, 7),
    "unevaluated": (unevaluated, 1_000, 2020),
    "dynamic": (dynamic, 1_000, 2020),
}
