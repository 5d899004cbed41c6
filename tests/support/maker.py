"""Random bundles, entries and instances from a seed."""
import random

from tests.reference.url import parse
from tests.support.keywords import FORMS

NAMES = ("a", "b", "aa", "x1", "é", "a/b", "~", "% ", "")
PATTERNS = ("^a", "b$", "x[0-9]+", "é|b", ".", "^$", "a{2}")
TYPES = ("null", "boolean", "object", "array", "number", "string", "integer")
NUMBERS = (0, 1, 2, 3, -1, 5, 2**63, 2**64 - 1, -2**63)
BASES = ("https://a.example/s", "https://a.example/t", "https://b.example/u/v", "urn:example:w")
IDS = ("x", "y/z", "/r", "https://c.example/q", "?k")
ANCHORS = ("n", "m")
FAULTY = ("type", "allOf", "properties", "not", "$ref", "$anchor", "minimum", "pattern", "$id", "if")
# Those that stand here twice are made more often.
KEYWORDS = (*(it for it in FORMS if it != "$schema"), "if", "contains", "properties", "unevaluatedItems",
            "unevaluatedProperties", "$ref", "iff", "x")


class Maker:
    """Makes one case: the same for the same seed."""

    def __init__(self, seed, faults=0.004):
        self.random = random.Random(seed)
        self.faults = faults
        self.known = []

    def chance(self, share):
        return self.random.random() < share

    def one(self, of):
        return self.random.choice(of)

    def some(self, of, most=3):
        return self.random.sample(of, self.random.randint(0, min(most, len(of))))

    def number(self):
        return self.one(NUMBERS) if self.chance(0.8) else self.random.randint(-10, 10)

    def count(self):
        return self.random.randint(0, 3)

    def string(self):
        if self.chance(0.7):
            return self.one(NAMES)
        return "".join(self.random.choices("ab1é\U0001F600 \"\\\n\x01\x7f", k=self.count()))

    def value(self, depth=3):
        kind = self.random.randrange(10 if depth else 6)
        if kind < 2:
            return self.number()
        if kind < 4:
            return self.string()
        if kind < 6:
            return self.one((None, True, False))
        if kind < 8:
            return [self.value(depth - 1) for _ in range(self.count())]
        return {self.one(NAMES): self.value(depth - 1) for _ in range(self.count())}

    def schema(self, depth=3):
        if depth == 0 or self.chance(0.15):
            return self.one((True, True, False, {}, {"type": self.one(TYPES)}, {"const": self.value(1)}))
        made = {}
        for _ in range(self.random.randint(1, 4)):
            self.add_keyword(made, depth - 1)
        if self.chance(self.faults):
            fault = self.value(1)
            made[self.one(FAULTY)] = fault
        return made

    def schemas(self, depth):
        return {self.one(NAMES): self.schema(depth) for _ in range(self.random.randint(0, 3))}

    def listed(self, depth):
        return [self.schema(depth) for _ in range(self.random.randint(1, 3))]

    def reference(self):
        """A reference that mostly leads somewhere: each document has `a`, `b`, `a/b` and both anchors."""
        if self.chance(self.faults):
            return self.one(("#/$defs/none", "#none", "none", "http://[", "#/~2", "#%FF", "https://a.example/none"))
        fragment = self.one(("", "#", "#/$defs/a", "#/$defs/b", "#/$defs/a~1b", "#/$defs/a", "#/%24defs/b"))
        if self.chance(0.2):
            fragment = self.one(("#n", "#n", "#n", "#m", "#m", "#%6d"))
        known = self.one(self.known)
        return fragment if self.chance(0.6) else known + fragment

    def add_keyword(self, made, depth):
        keyword = self.one(KEYWORDS)
        if keyword in ("$anchor", "$dynamicAnchor", "$id") and not self.chance(self.faults):
            keyword = "title"
        made[keyword] = self.argument(keyword, depth)

    def argument(self, keyword, depth):
        if keyword == "patternProperties":
            return {it: self.schema(depth) for it in self.some(PATTERNS, 2)}
        if keyword == "$dynamicRef" and self.chance(0.7):
            return self.one(("#n", "#m"))
        named = {
            "type": self.types,
            "enum": lambda: [self.value(1) for _ in range(self.count())],
            "const": lambda: self.value(1),
            "multipleOf": lambda: self.one((1, 2, 3, 2**63)),
            "pattern": lambda: self.one(PATTERNS),
            "uniqueItems": lambda: self.chance(0.8),
            "required": lambda: self.some(NAMES),
            "dependentRequired": lambda: {self.one(NAMES): self.some(NAMES) for _ in range(self.count())},
            "$ref": self.reference, "$dynamicRef": self.reference,
            "$anchor": lambda: self.one(ANCHORS), "$dynamicAnchor": lambda: self.one(ANCHORS),
            "$id": lambda: self.one(IDS),
            "$comment": self.string, "format": self.string, "contentSchema": lambda: self.schema(depth),
        }
        formed = {
            "schema": lambda: self.schema(depth), "schemas": lambda: self.listed(depth),
            "named schemas": lambda: self.schemas(depth), "number": self.number, "count": self.count,
        }
        return (named.get(keyword) or formed.get(FORMS.get(keyword), lambda: self.value(2)))()

    def types(self):
        if self.chance(0.6):
            return self.one(TYPES)
        return self.random.sample(TYPES, self.random.randint(1, 3))

    def resource(self, depth):
        """A schema with what references lead to."""
        made = self.schema(depth)
        while not isinstance(made, dict):
            made = self.schema(depth)
        held = {it: self.schema(depth - 1) for it in ("a", "b", "a/b")}
        for name in ANCHORS:
            held["held_" + name] = {self.one(("$anchor", "$dynamicAnchor")): name, **self.keywords(1)}
        return {**made, "$defs": held}

    def keywords(self, depth):
        made = {}
        self.add_keyword(made, depth)
        return {key: it for key, it in made.items() if not key.startswith("$")}

    def bundle(self, most=3):
        """Documents under their URIs, and an entry."""
        uris = self.random.sample(BASES, self.random.randint(1, most))
        ids = {uri: self.one(IDS) for uri in uris if not uri.startswith("urn:") and self.chance(0.4)}
        self.known = uris + [parse(it, parse(uri)).text() for uri, it in ids.items()]
        documents = []
        for uri in uris:
            schema = self.resource(4)
            if uri in ids:
                schema["$defs"]["embedded"] = {"$id": ids[uri], **self.resource(2)}
            documents.append((uri, schema))
        entry = uris[0] + self.one(("", "", "", "#", "#/$defs/a", "#n"))
        return documents, self.one(IDS) if self.chance(self.faults) else entry

    def document_alone(self):
        """A schema whose references stay in it."""
        self.known = [""]
        return self.resource(3)

    def instances(self):
        return [self.value() for _ in range(2)] + [self.one(({"a": 1}, {"a": 1, "b": "a"}, [1, "a"], [], {}, 0))]
