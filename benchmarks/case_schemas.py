"""Schemas of benchmarks/cases that no package installs."""

WORD = {"type": "string", "minLength": 1}
WHOLE = {"type": "integer", "minimum": 0}


def with_kind(kind, members):
    """A schema of an event of one kind, with the members that it must have."""
    return {"properties": {"kind": {"const": kind}, **members}, "required": ["kind", *members]}


# Events of three kinds. What each schema evaluates adds up to the members that an event may have.
EVENTS = {
    "type": "array",
    "items": {"$ref": "#/$defs/event"},
    "$defs": {
        "event": {
            "allOf": [{"$ref": "#/$defs/stamped"}, {"$ref": "#/$defs/sent"}],
            "oneOf": [{"$ref": f"#/$defs/{it}"} for it in ("created", "moved", "removed")],
            "if": {"properties": {"level": {"const": "error"}}, "required": ["level"]},
            "then": {"properties": {"message": WORD}, "required": ["message"]},
            "dependentSchemas": {"retries": {"properties": {"after": WHOLE}, "required": ["after"]}},
            "properties": {"level": {"enum": ["info", "error"]}, "retries": WHOLE},
            "unevaluatedProperties": False,
        },
        "stamped": {"properties": {"id": WHOLE, "at": {"type": "string", "pattern": "^[0-9]{4}-[0-9]{2}-[0-9]{2}$"}},
                    "required": ["id", "at"]},
        "sent": {"properties": {"by": WORD, "tags": {"type": "array", "items": WORD, "uniqueItems": True}},
                 "required": ["by"]},
        "created": with_kind("created", {"path": WORD, "size": WHOLE}),
        "moved": with_kind("moved", {"from": WORD, "to": WORD}),
        "removed": with_kind("removed", {"path": WORD}),
    },
}


def when(kind, schema):
    """What a shape of this type must be."""
    return {"if": {"properties": {"type": {"const": kind}}, "required": ["type"]}, "then": schema}


# A description of a service of AWS: what a shape may have depends on its type.
SERVICE = {
    "type": "object",
    "properties": {
        "metadata": {"type": "object", "required": ["apiVersion", "serviceId"]},
        "operations": {"type": "object", "additionalProperties": {"$ref": "#/$defs/operation"}},
        "shapes": {"type": "object", "additionalProperties": {"$ref": "#/$defs/shape"}},
    },
    "required": ["metadata", "operations", "shapes"],
    "$defs": {
        "reference": {"type": "object", "properties": {"shape": WORD, "documentation": {"type": "string"}},
                      "required": ["shape"]},
        "references": {"type": "object", "additionalProperties": {"$ref": "#/$defs/reference"}},
        "operation": {
            "properties": {
                "name": {"type": "string", "pattern": "^[A-Z]"},
                "http": {"properties": {"method": {"enum": ["GET", "POST", "PUT", "PATCH", "DELETE"]},
                                        "requestUri": {"type": "string", "pattern": "^/"}},
                         "required": ["method", "requestUri"]},
                "input": {"$ref": "#/$defs/reference"},
                "output": {"$ref": "#/$defs/reference"},
                "errors": {"type": "array", "items": {"$ref": "#/$defs/reference"}},
            },
            "required": ["name", "http"],
        },
        "shape": {
            "type": "object",
            "required": ["type"],
            "allOf": [
                when("structure", {"properties": {"members": {"$ref": "#/$defs/references"},
                                                  "required": {"type": "array", "items": WORD}},
                                   "required": ["members"]}),
                when("list", {"properties": {"member": {"$ref": "#/$defs/reference"}}, "required": ["member"]}),
                when("map", {"properties": {"key": {"$ref": "#/$defs/reference"},
                                            "value": {"$ref": "#/$defs/reference"}}, "required": ["key", "value"]}),
                when("string", {"properties": {"enum": {"type": "array", "items": {"type": "string"}},
                                               "pattern": {"type": "string"}}}),
                when("integer", {"properties": {"min": {"type": "integer"}, "max": {"type": "integer"}}}),
            ],
        },
    },
}

# The entry that makes OpenAPI's schema use the dialect's own schema for schemas.
OPENAPI_BASE = {
    "$id": "https://spec.openapis.org/oas/3.1/schema-base/2022-10-07",
    "$ref": "https://spec.openapis.org/oas/3.1/schema/2022-10-07",
    "properties": {"jsonSchemaDialect": {"$ref": "#/$defs/dialect"}},
    "$defs": {
        "dialect": {"const": "https://spec.openapis.org/oas/3.1/dialect/base"},
        "schema": {"$dynamicAnchor": "meta", "$ref": "https://spec.openapis.org/oas/3.1/dialect/base",
                   "properties": {"$schema": {"$ref": "#/$defs/dialect"}}},
    },
}
