"""Schemas of 2020-12 as draft 7 has them, as far as it can say the same: for validators that stop there."""

# What draft 7 has by another name, and what it lacks.
NAMES = {"dependentSchemas": "dependencies", "dependentRequired": "dependencies", "$defs": "definitions"}
LACKING = {"unevaluatedProperties", "unevaluatedItems", "$schema", "$vocabulary", "$comment"}
# The keywords whose members are schemas by name.
OBJECTS = {"properties", "patternProperties", "dependentSchemas", "$defs", "definitions"}
VALUES = {"const", "enum", "default", "examples"}


def of_draft_7(schema):
    """The schema without keywords that draft 7 lacks. What `$ref` stands beside, which draft 7 ignores, goes into an
    `allOf` with it."""
    if isinstance(schema, list):
        return [of_draft_7(it) for it in schema]
    if not isinstance(schema, dict):
        return schema
    made = {}
    for name, value in schema.items():
        if name in OBJECTS:
            value = {it: of_draft_7(below) for it, below in value.items()}
        elif name == "$ref":
            value = value.replace("#/$defs/", "#/definitions/")
        elif name not in VALUES:
            value = of_draft_7(value)
        if name not in LACKING:
            name = NAMES.get(name, name)
            made[name] = made.get(name, {}) | value if name in ("dependencies", "definitions") else value
    apart = {"$ref", "$id", "definitions"}
    if "$ref" in made and made.keys() - apart:
        rest = {name: made.pop(name) for name in [*made] if name not in apart}
        made["allOf"] = [{"$ref": made.pop("$ref")}, rest]
    return made
