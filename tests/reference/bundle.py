"""Schema documents under their URIs: places, resources, names, references, and what is refused, in its order
(Core, sections 8 and 9)."""
import functools

from tests.reference import url
from tests.reference.assertions import SHAPES, compiled
from tests.reference.json_text import NotJson, NotWhole, decoded, fragment, pointer_of, read

MOST_DOCUMENTS, MOST_PLACES, LONGEST_URI = 1_000, 100_000, 65_536
DIALECT = "https://json-schema.org/draft/2020-12/schema"
ALONE = {"not", "if", "then", "else", "items", "contains", "additionalProperties", "propertyNames", "unevaluatedItems",
         "unevaluatedProperties"}
LISTS = {"allOf", "anyOf", "oneOf", "prefixItems"}
OBJECTS = {"$defs", "definitions", "properties", "patternProperties", "dependentSchemas"}
TEXTS = {"$schema", "$id", "$ref", "$dynamicRef", "$anchor", "$dynamicAnchor"}
LETTERS = set("abcdefghijklmnopqrstuvwxyzABCDEFGHIJKLMNOPQRSTUVWXYZ_")


class Refused(Exception):
    """A document is refused: its number, a place and why."""

    def __init__(self, document, pointer, kind):
        super().__init__(document, pointer, kind)
        self.document, self.pointer, self.kind = document, pointer, kind


class EntryRefused(Exception):
    """An entry is refused, and why."""

    def __init__(self, kind):
        super().__init__(kind)
        self.kind = kind


class Place:
    """Where a schema stands: a document and a pointer, the place above, and its resource with the base URI."""

    def __init__(self, document, pointer, schema, above):
        self.document, self.pointer, self.schema, self.above = document, pointer, schema, above
        self.base = self.resource = None
        self.target = self.dynamic = None
        self.below = {}

    def has_id(self):
        return isinstance(self.schema, dict) and "$id" in self.schema

    @functools.cache
    def absolute(self, keyword=None):
        pointer = self.pointer[len(self.resource.pointer):]
        return f"{self.base.text()}#{fragment(pointer if keyword is None else (*pointer, keyword))}"


def is_too_long(text):
    return len(text.encode()) > LONGEST_URI


def is_anchor(text):
    return text[:1] in LETTERS and text != "" and set(text) <= LETTERS | set("0123456789-.")


def has_shape(keyword, argument):
    if keyword in SHAPES:
        return SHAPES[keyword](argument)
    if keyword in TEXTS:
        return isinstance(argument, str)
    if keyword in LISTS:
        return isinstance(argument, list) and argument != []
    return keyword not in OBJECTS or isinstance(argument, dict)


def steps_below(schema):
    """The keywords that hold schemas, ascending, each with its steps and what stands there."""
    for keyword, argument in schema.items() if isinstance(schema, dict) else ():
        if keyword in ALONE:
            yield keyword, None, argument
        elif keyword in LISTS and isinstance(argument, list):
            yield from ((keyword, i, it) for i, it in enumerate(argument))
        elif keyword in OBJECTS and isinstance(argument, dict):
            yield from ((keyword, name, it) for name, it in argument.items())


class Bundle:
    """Documents under their URIs, and once finished their places, names and targets."""

    def __init__(self):
        self.documents = []
        self.places, self.at = [], {}
        self.known, self.anchors, self.dynamic_anchors = {}, {}, {}

    def add(self, uri, data):
        """Takes a document in; `data` is its text, or a value that is read already."""
        number = len(self.documents)
        if number == MOST_DOCUMENTS:
            raise Refused(number, (), "TooManyDocuments")
        if is_too_long(uri):
            raise Refused(number, (), "UriTooLong")
        parsed = url.parse(uri)
        if parsed is None or parsed.fragment:
            raise Refused(number, (), "BadUri")
        try:
            value = read(data)
        except NotJson:
            raise Refused(number, (), "NotJson") from None
        except NotWhole as fault:
            raise Refused(number, fault.pointer, "NotWhole") from None
        self.documents.append((parsed.without_fragment(), value))

    def finish(self):
        for number, (uri, value) in enumerate(self.documents):
            self.first_pass(number, uri, value)
        for place in self.places:
            for keyword in ("$dynamicRef", "$ref"):
                if isinstance(place.schema, dict) and keyword in place.schema:
                    self.resolve(place, keyword)

    def first_pass(self, number, uri, value):
        stack = [Place(number, (), value, None)]
        while stack:
            place = stack.pop()
            refuse = lambda kind: Refused(number, place.pointer, kind)
            if len(self.places) == MOST_PLACES:
                raise refuse("TooManyPlaces")
            if not isinstance(place.schema, (dict, bool)):
                raise refuse("NotASchema")
            self.places.append(place)
            self.at[number, place.pointer] = place
            above = place.above
            place.base = above.base if above else uri
            place.resource = place if above is None or place.has_id() else above.resource
            if above is None:
                if uri.text() in self.known:
                    raise refuse("DuplicateUri")
                self.known[uri.text()] = place
            self.check_keywords(place)
            below = []
            for keyword, step, it in steps_below(place.schema):
                tokens = (keyword,) if step is None else (keyword, str(step))
                below.append((keyword, step, Place(number, place.pointer + tokens, it, place)))
            place.below = {(keyword, step): it for keyword, step, it in below}
            stack += [it for _, _, it in reversed(below)]

    def check_keywords(self, place):
        for keyword, argument in place.schema.items() if isinstance(place.schema, dict) else ():
            refuse = lambda kind, *names: Refused(place.document, (*place.pointer, keyword, *names), kind)
            if not has_shape(keyword, argument):
                raise refuse("BadKeyword")
            if keyword == "$schema" and argument not in (DIALECT, DIALECT + "#"):
                raise refuse("UnknownDialect")
            if keyword == "$id":
                if is_too_long(argument):
                    raise refuse("UriTooLong")
                joined = url.parse(argument, place.base)
                if joined is None or joined.fragment:
                    raise refuse("BadId")
                place.base = joined.without_fragment()
                if self.known.setdefault(place.base.text(), place) is not place:
                    raise refuse("DuplicateUri")
            if keyword in ("$anchor", "$dynamicAnchor"):
                if not is_anchor(argument):
                    raise refuse("BadAnchor")
                name = (place.resource, argument)
                if self.anchors.setdefault(name, place) is not place:
                    raise refuse("DuplicateAnchor")
                if keyword == "$dynamicAnchor":
                    self.dynamic_anchors[name] = place
            if keyword == "pattern" and compiled(argument) is None:
                raise refuse("BadPattern")
            for name in argument if keyword == "patternProperties" else ():
                if compiled(name) is None:
                    raise refuse("BadPattern", name)

    def named(self, uri):
        """The place that a URI names, or none."""
        root = self.known.get(uri.without_fragment().text())
        name = decoded(uri.fragment or "")
        if root is None:
            return None
        if name == "" or name.startswith("/"):
            return self.at.get((root.document, root.pointer + pointer_of(name)))
        return self.anchors.get((root, name))

    def resolve(self, place, keyword):
        argument = place.schema[keyword]
        refuse = lambda kind: Refused(place.document, (*place.pointer, keyword), kind)
        if is_too_long(argument):
            raise refuse("UriTooLong")
        joined = url.parse(argument, place.base)
        if joined is None or not is_read(joined.fragment):
            raise refuse("BadReference")
        target = self.named(joined)
        if target is None:
            raise refuse("Unresolved")
        if keyword == "$ref":
            place.target = target
        else:
            name = decoded(joined.fragment or "")
            is_dynamic = isinstance(target.schema, dict) and target.schema.get("$dynamicAnchor") == name
            place.dynamic = target, name if is_dynamic else None

    def dynamic_target(self, place, path):
        """The target of `$dynamicRef` where the places of `path` are applied (Core, section 8.2.3.2)."""
        first, name = place.dynamic
        if name is not None:
            for it in path:
                if (it.resource, name) in self.dynamic_anchors:
                    return self.dynamic_anchors[it.resource, name]
        return first

    def entry(self, uri):
        if is_too_long(uri):
            raise EntryRefused("UriTooLong")
        parsed = url.parse(uri)
        if parsed is None or not is_read(parsed.fragment):
            raise EntryRefused("BadUri")
        place = self.named(parsed)
        if place is None:
            raise EntryRefused("Unresolved")
        return place


def is_read(fragment):
    """Whether a fragment is read: UTF-8 once decoded, and a pointer where it begins with `/`."""
    name = decoded(fragment or "")
    return name is not None and (not name.startswith("/") or pointer_of(name) is not None)
