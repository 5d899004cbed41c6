"""The places of a schema document, and instances that are made from its schemas."""
from urllib.parse import unquote, urldefrag, urljoin

BY_NAME = ("properties", "patternProperties", "definitions", "$defs", "dependencies", "dependentSchemas")
LISTED = ("allOf", "anyOf", "oneOf", "items", "prefixItems")
SINGLE = ("items", "additionalItems", "additionalProperties", "not", "if", "then", "else", "contains", "extends")
WORDS = ("", "a", "1.0.0", "2020-02-02", "https://example.com/a", "x-y", "none", "A_b", "é")
DEEPEST = 6


def places(schema, draft):
    """The pointers, as fragments, of the objects below a document that are schemas of its draft."""
    found = []

    def visit(value, pointer):
        if not isinstance(value, dict):
            return
        if pointer:
            found.append(pointer)
        # (An identifier makes a resource of its own, and beside `$ref` nothing acts before 2019-09.)
        if pointer and isinstance(value.get(draft.identifier), str) or "$ref" in value and "20" not in draft.folder:
            return
        for name in value:
            below = value[name]
            if name in BY_NAME and isinstance(below, dict):
                for key, it in below.items():
                    visit(it, f"{pointer}/{escaped(name)}/{escaped(key)}")
            elif name in LISTED and isinstance(below, list):
                for number, it in enumerate(below):
                    visit(it, f"{pointer}/{name}/{number}")
            elif name in SINGLE:
                visit(below, f"{pointer}/{name}")

    visit(schema, "")
    return found


def escaped(name):
    """A name in a pointer in a fragment."""
    name = name.replace("~", "~0").replace("/", "~1")
    return "".join(it if it.isascii() and (it.isalnum() or it in "-._~$") else
                   "".join(f"%{byte:02X}" for byte in it.encode()) for it in name)


def at(value, pointer):
    """What stands at a pointer of a fragment; none where nothing does."""
    for token in unquote(pointer).split("/")[1:]:
        token = token.replace("~1", "/").replace("~0", "~")
        if isinstance(value, list) and token.isdigit() and int(token) < len(value):
            value = value[int(token)]
        elif isinstance(value, dict) and token in value:
            value = value[token]
        else:
            return None
    return value


class Sampler:
    """Makes instances that meet a schema as far as that is easy, some of them spoiled."""

    def __init__(self, random, documents):
        self.random, self.documents = random, documents

    def instance(self, schema, uri):
        made = self.value(schema, uri, 0)
        for _ in range(self.random.choice((0, 0, 1, 2))):
            made = self.spoiled(made)
        return made

    def value(self, schema, uri, depth):
        """A value for a schema of the document with this URI."""
        if not isinstance(schema, dict) or depth > DEEPEST:
            return self.anything()
        if isinstance(schema.get("$ref"), str):
            return self.referred(schema["$ref"], uri, depth)
        for name in ("const", "enum"):
            if name in schema:
                return schema[name] if name == "const" else self.random.choice(schema[name] or [None])
        for name in ("anyOf", "oneOf", "allOf"):
            if schema.get(name) and "properties" not in schema:
                return self.value(self.random.choice(schema[name]), uri, depth + 1)
        kind = schema.get("type", "object" if "properties" in schema else None)
        kind = self.random.choice(kind) if isinstance(kind, list) and kind else kind
        if isinstance(kind, dict):
            return self.value(kind, uri, depth + 1)
        if kind == "object":
            return self.members(schema, uri, depth)
        if kind == "array":
            items = schema.get("items", {})
            items = items if isinstance(items, list) else [items] * self.random.randint(0, 3)
            return [self.value(it, uri, depth + 1) for it in items]
        return self.plain(kind, schema)

    def referred(self, reference, uri, depth):
        target, fragment = urldefrag(urljoin(uri, reference))
        document = self.documents.get(target, self.documents.get(uri))
        return self.value(at(document, fragment), target if target in self.documents else uri, depth + 1)

    def members(self, schema, uri, depth):
        known = schema.get("properties", {})
        required = schema.get("required", [])
        required = required if isinstance(required, list) else []
        share = self.random.choice((0.1, 0.5, 0.9)) if depth < 3 else 0.1
        made = {}
        for name in dict.fromkeys([*required, *known]):
            below = known.get(name, {})
            is_required = name in required or isinstance(below, dict) and below.get("required") is True
            if self.random.random() < (0.95 if is_required else share):
                made[name] = self.value(below, uri, depth + 1)
        if self.random.random() < 0.3:
            made[self.random.choice(WORDS)] = self.value(schema.get("additionalProperties"), uri, depth + 1)
        return made

    def plain(self, kind, schema):
        if kind in ("integer", "number"):
            low = schema.get("minimum", 0)
            low = low if isinstance(low, int) else 0
            return low + self.random.randint(-1, 3)
        if kind == "string":
            return self.random.choice((*WORDS, schema.get("default", "a"), "a" * self.random.randint(0, 40)))
        return {"boolean": self.random.random() < 0.5, "null": None}.get(kind, self.anything())

    def anything(self):
        return self.random.choice((None, True, 0, 1, -1, "a", "", [], {}, ["a"], {"a": 1}))

    def spoiled(self, value):
        """The value with a part of it another one, gone or added."""
        if isinstance(value, dict) and value and self.random.random() < 0.8:
            name = self.random.choice([*value])
            rest = {key: it for key, it in value.items() if key != name}
            if self.random.random() < 0.3:
                return rest
            return {**rest, name: self.spoiled(value[name])}
        if isinstance(value, list) and value and self.random.random() < 0.8:
            number = self.random.randrange(len(value))
            return [*value[:number], self.spoiled(value[number]), *value[number + 1:]]
        return self.anything()
