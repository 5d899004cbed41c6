"""Random bundles of older drafts, with instances, from a seed."""
from dataclasses import dataclass

from tests.support.maker import IDS, NAMES, PATTERNS, TYPES, Maker

BASES = ("https://a.example/s", "https://a.example/t", "https://b.example/u/v")
# The last is a name that 2020-12 can't have.
ANCHORS = ("n", "m", "n:1")
# Where schemas stand by name, and where values do.
BY_NAME = ("properties", "patternProperties", "dependencies", "definitions", "$defs", "dependentSchemas", "x")
VALUES = ("enum", "const", "default", "examples", "required", "dependentRequired")
# A reference to a place that is chosen once the documents are made.
LATER = "@"
# Those that stand in a list twice are made more often.
OF_ALL = ("type", "enum", "maximum", "minimum", "exclusiveMaximum", "exclusiveMinimum", "maxLength", "minLength",
          "pattern", "maxItems", "minItems", "uniqueItems", "items", "items", "additionalItems", "additionalItems",
          "properties", "properties", "patternProperties", "additionalProperties", "$ref", "$ref", "title", "format",
          "default", "x")
OF_03 = ("dependencies", "divisibleBy", "disallow", "extends", "required")
SINCE_04 = ("multipleOf", "maxProperties", "minProperties", "required", "allOf", "anyOf", "oneOf", "not")
SINCE_06 = ("const", "contains", "contains", "propertyNames", "examples")
SINCE_07 = ("if", "if", "then", "else", "$comment")
SINCE_2019 = ("dependentRequired", "dependentSchemas", "maxContains", "minContains", "unevaluatedItems",
              "unevaluatedProperties", "unevaluatedItems", "unevaluatedProperties")
OF_2020 = ("prefixItems", "$dynamicAnchor", "$dynamicRef")
EVER = {*OF_ALL, *OF_03, *SINCE_04, *SINCE_06, *SINCE_07, *SINCE_2019, *OF_2020, "$defs", "definitions", "$anchor",
        "$recursiveAnchor"}


@dataclass(frozen=True)
class Draft:
    """What a draft has: its keywords, for identifiers too, and where its schemas stand by name."""

    dialect: str
    uri: str
    identifier: str
    holder: str
    keywords: tuple

    def has_booleans(self):
        return "const" in self.keywords

    def aliens(self):
        """The keywords of other drafts alone."""
        return sorted(EVER - {*self.keywords, "id", "$id", self.holder, "$dynamicRef"} - {"definitions"})


_04 = (*OF_ALL, *SINCE_04, "dependencies")
_06 = (*_04, *SINCE_06)
_07 = (*_06, *SINCE_07)
_2019 = (*OF_ALL, *SINCE_04, *SINCE_06, *SINCE_07, *SINCE_2019, "$recursiveRef", "$anchor", "$recursiveAnchor")
DRAFTS = {
    "draft3": Draft("draft-03", "http://json-schema.org/draft-03/schema#", "id", "definitions", (*OF_ALL, *OF_03)),
    "draft4": Draft("draft-04", "http://json-schema.org/draft-04/schema#", "id", "definitions", _04),
    "draft6": Draft("draft-06", "http://json-schema.org/draft-06/schema#", "$id", "definitions", _06),
    "draft7": Draft("draft-07", "http://json-schema.org/draft-07/schema#", "$id", "definitions", _07),
    "draft2019-09": Draft("2019-09", "https://json-schema.org/draft/2019-09/schema", "$id", "$defs", _2019),
}


class OlderMaker(Maker):
    """Makes one bundle of a draft with its instances: the same for the same seed."""

    def __init__(self, seed, draft):
        super().__init__(seed, 0)
        self.draft = draft

    def schema(self, depth=3):
        if depth == 0 or self.chance(0.15):
            plain = [{}, {}, {"type": self.one(TYPES)}, {"enum": [self.value(1), self.value(1)]}]
            return self.one(plain + [True, False] * self.draft.has_booleans())
        made = {}
        for _ in range(self.random.randint(1, 4)):
            self.add_keyword(made, depth - 1)
        return made

    def schema_or_boolean(self, depth):
        return self.chance(0.5) if self.chance(0.4) else self.schema(depth)

    def add_keyword(self, made, depth):
        keyword = self.one(self.draft.aliens() if self.chance(0.06) else self.draft.keywords)
        if keyword in ("$anchor", "$recursiveAnchor"):
            keyword = "title"
        made[keyword] = self.argument(keyword, depth)

    def argument(self, keyword, depth):
        older = {
            "additionalItems": lambda: self.schema_or_boolean(depth),
            "additionalProperties": lambda: self.schema_or_boolean(depth),
            "items": lambda: self.listed(depth) if self.chance(0.4) else self.schema(depth),
            "dependencies": lambda: {it: self.dependency(depth) for it in self.some(NAMES)},
            "properties": lambda: self.members(depth),
            "default": lambda: self.value(2), "examples": lambda: [self.schema(1)],
            "x": lambda: {"a": self.schema(depth)},
            "divisibleBy": lambda: self.one((1, 2, 3)),
            "disallow": lambda: self.types_of_03(depth),
            "extends": lambda: self.listed(depth) if self.chance(0.4) else self.schema(depth),
            "$recursiveRef": lambda: "#",
        }
        if self.draft.dialect in ("draft-03", "draft-04"):
            older |= {"exclusiveMinimum": lambda: self.chance(0.7), "exclusiveMaximum": lambda: self.chance(0.7)}
        if self.draft.dialect == "draft-03":
            older |= {"type": lambda: self.types_of_03(depth), "required": lambda: self.chance(0.7)}
        return older[keyword]() if keyword in older else super().argument(keyword, depth)

    def members(self, depth):
        made = self.schemas(depth)
        for it in made.values():
            if self.draft.dialect == "draft-03" and self.chance(0.4):
                it["required"] = self.chance(0.8)
        return made

    def types_of_03(self, depth):
        """Names of types, and schemas among them."""
        names = (*TYPES, "any")
        if self.chance(0.5):
            return self.one(names)
        return [self.one(names) if self.chance(0.6) else self.schema(depth)
                for _ in range(self.random.randint(1, 3))]

    def dependency(self, depth):
        if self.draft.dialect == "draft-03" and self.chance(0.3):
            return self.one(NAMES)
        return self.some(NAMES) if self.chance(0.5) else self.schema(depth)

    def reference(self):
        """A reference to what each document has, or to a place that is chosen later."""
        holder = self.draft.holder
        names = (f"#{it}" for it in ("n", *ANCHORS))
        fragment = self.one(("", "#", LATER, LATER, *names, f"#/{holder}/a", f"#/{holder}/b", f"#/{holder}/a~1b",
                             f"#/{holder.replace('d', '%64')}/b"))
        if fragment == LATER or self.chance(0.6):
            return fragment
        return self.one(self.known) + fragment

    def resource(self, depth):
        """A schema with what references lead to."""
        made = self.schema(depth)
        while not isinstance(made, dict) or "$ref" in made:
            made = self.schema(depth)
        held = {it: self.schema(depth - 1) for it in ("a", "b", "a/b")}
        for name in ANCHORS:
            at = {"$anchor": name} if self.draft.identifier == "$id" and self.draft.holder == "$defs" else {
                self.draft.identifier: f"#{name}"}
            held[f"held_{name}"] = {**at, **self.keywords(1)}
        if self.draft.dialect == "2019-09" and self.chance(0.4):
            made["$recursiveAnchor"] = True
        return {**made, self.draft.holder: held}

    def documents(self, most=2):
        """Documents under their URIs, the first of which is applied."""
        uris = self.random.sample(BASES, self.random.randint(1, most))
        self.known = [*uris]
        made = [(uri, self.resource(4)) for uri in uris]
        for uri, schema in made:
            if self.chance(0.2):
                schema[self.draft.identifier] = uri
            if self.chance(0.3):
                schema[self.draft.holder]["embedded"] = self.embedded(uri)
            if self.chance(0.3):
                schema["$schema"] = self.draft.uri
        places = {uri: [*self.places(schema, "")] for uri, schema in made}
        return [(uri, self.with_references(schema, uri, places)) for uri, schema in made]

    def embedded(self, uri):
        """A resource of its own in the document of a URI."""
        return {self.draft.identifier: f"{uri}/{self.one(IDS).strip('/?').rpartition('/')[2]}", **self.resource(2)}

    def places(self, schema, pointer):
        """The pointers of the schemas below a schema, also where they have no effect. What has an identifier of its own
        isn't entered."""
        if isinstance(schema, list):
            for number, it in enumerate(schema):
                yield from self.places(it, f"{pointer}/{number}")
        if not isinstance(schema, dict) or pointer and str(schema.get(self.draft.identifier, "#"))[0] != "#":
            return
        yield pointer
        for name, value in schema.items():
            below = f"{pointer}/{name.replace('~', '~0').replace('/', '~1')}"
            if name in BY_NAME:
                for key, it in value.items() if isinstance(value, dict) else ():
                    yield from self.places(it, f"{below}/{key.replace('~', '~0').replace('/', '~1')}")
            elif name not in VALUES:
                yield from self.places(value, below)

    def with_references(self, value, uri, places):
        """The value with a reference to some place of a document in the place of each that is chosen later."""
        if isinstance(value, list):
            return [self.with_references(it, uri, places) for it in value]
        if not isinstance(value, dict):
            return value
        made = {name: self.with_references(it, uri, places) for name, it in value.items()}
        if made.get("$ref") == LATER:
            other = self.one([*places])
            made["$ref"] = (f"{other}#" if other != uri or self.chance(0.3) else "#") + encoded(self.one(places[other]))
        return made


def encoded(pointer):
    """A pointer in a fragment."""
    return "".join(it if it.isascii() and (it.isalnum() or it in "/~$_-") else
                   "".join(f"%{byte:02X}" for byte in it.encode()) for it in pointer)
