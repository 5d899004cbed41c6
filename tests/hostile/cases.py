"""Hostile inputs: endless, doubled, deep, torn, twisted and large ones, each with what it must answer."""
import json
from dataclasses import dataclass, field
from itertools import product

from colliding import colliding
from tests.reference.jschema import answer
from tests.support.interface import FORMATS

U = "https://a.example/s"
VALID, INVALID = b'{"valid":true}\n', b'{"valid":false}\n'
POLYGON = (
    '{"$id":"https://example.com/polygon","$schema":"https://json-schema.org/draft/2020-12/schema","$defs":{"point":'
    '{"type":"object","properties":{"x":{"type":"integer"},"y":{"type":"integer"}},"additionalProperties":false,'
    '"required":["x","y"]}},"type":"array","items":{"$ref":"#/$defs/point"},"minItems":3}')
ITEMS, DEEP = '{"items":true}', '{"items":{"allOf":[{"$ref":"#"}]}}'
POINTS = '[{"x":2,"y":1},{"x":1,"z":6}]'


@dataclass
class Case:
    """A run of the program. Where `out` is None, the reference answers; a large text is a function to its pieces.

    A run that takes more than `most_seconds` fails. One with `most_memory` has that many bytes of address space.
    """

    name: str
    words: list
    files: dict = field(default_factory=dict)
    given: bytes = b""
    out: object = b""
    errors: bytes = b""
    status: int = 0
    most_seconds: float | None = None
    most_memory: int | None = None

    def wanted(self):
        """What must be answered. The case's files must be in the current folder."""
        if self.out is None:
            return answer(self.words, lambda: self.given)
        return self.out, self.errors, self.status


def check(name, schema, instance, format_="flag", entry=U, uri=U, **how):
    return Case(name, ["check", format_, "instance.json", entry, uri, "schema.json"],
                {"schema.json": schema, "instance.json": instance}, **how)


def valid(name, schema, instance, **how):
    return check(name, schema, instance, out=VALID, **how)


def refused(name, line, schema, instance="0", **how):
    return check(name, schema, instance, errors=f"refused: {line}\n".encode(), status=3, **how)


def error(name, schema, instance, keyword, text):
    """One assertion that doesn't hold, in the format basic."""
    unit = {"absoluteKeywordLocation": f"{U}#/{keyword}", "error": text, "instanceLocation": "",
            "keywordLocation": f"/{keyword}", "valid": False}
    out = compact({"errors": [unit], "valid": False}).encode() + b"\n"
    return check(name, schema, instance, "basic", out=out, status=1)


def too_large(name, schema, instance="0"):
    return [refused(f"{name}, {it}", "walk: TooLarge", schema, instance, format_=it) for it in FORMATS]


def compact(value):
    return json.dumps(value, separators=(",", ":"))


def chained(k, step):
    """A chain of k definitions, each made of the one before it."""
    made = {"d0": True, **{f"d{i}": step(f"#/$defs/d{i - 1}") for i in range(1, k + 1)}}
    return compact({"$ref": f"#/$defs/d{k}", "$defs": made})


def chain(k):
    return chained(k, lambda it: {"$ref": it})


def doubling(k):
    return chained(k, lambda it: {"allOf": [{"$ref": it}, {"$ref": it}]})


def nested(n, inmost=""):
    return "[" * n + inmost + "]" * n


def head(absolute, keyword, instance="", annotation="", has_children=True):
    """A passing node's text, up to its children."""
    note = f'"annotation":{annotation},' if annotation else ""
    return f'{{"absoluteKeywordLocation":"{U}#{absolute}",{note}' + '"annotations":[' * has_children, \
        "]," * has_children + f'"instanceLocation":"{instance}","keywordLocation":"{keyword}","valid":true}}'


def pieces(node):
    """The pieces of a passing node's text. A node is the first arguments of `head`, and a function to its children."""
    left = [node]
    while left:
        it = left.pop()
        if isinstance(it, str):
            yield it.encode()
            continue
        *arguments, below = it
        children = list(below())
        begin, end = head(*arguments, has_children=bool(children))
        yield begin.encode()
        left.append(end)
        for i, child in reversed(list(enumerate(children))):
            left += [child, ","] if i else [child]


def no_children():
    return ()


def widest_text(format_, count=999_998):
    """The text of ITEMS on an array of `count` numbers."""
    items = ("/items", "/items", "", "true")
    if format_ == "flag":
        yield VALID
    elif format_ == "basic":
        yield b'{"annotations":[' + b"".join(pieces((*items, no_children))) + b'],"valid":true}\n'
    else:
        each = (("/items", "/items", f"/{i}", "", no_children) for i in range(count)) if format_ == "verbose" else ()
        yield from pieces(("", "", "", "", lambda: [(*items, lambda: each)]))
        yield b"\n"


def named_alike(pairs):
    """Names of this many pairs of letters each. Hashes that sum their letters by powers of 31 are the same for all."""
    return ["".join(it) for it in product(("Aa", "BB"), repeat=pairs)]


def titled_text(names):
    """The merged text of a title for each member of an object: siblings of which none are alike."""
    place = "/additionalProperties"
    titles = [(f"{place}/title", f"{place}/title", f"/{it}", '"a"', no_children) for it in names]
    yield from pieces(("", "", "", "", lambda: [(place, place, "", compact(names), lambda: titles)]))
    yield b"\n"


def doubled_text(k, format_):
    """The text of `doubling`: nothing has a note, so all but verbose show the root alone."""

    def named(number, at):
        place = f"/$defs/d{number}"
        return place, at, "", "", lambda: [(f"{place}/allOf", f"{at}/allOf", "", "", lambda: [
            (f"{place}/allOf/{i}", f"{at}/allOf/{i}", "", "", lambda i=i: [
                (f"{place}/allOf/{i}/$ref", f"{at}/allOf/{i}/$ref", "", "", lambda: [
                    named(number - 1, f"{at}/allOf/{i}/$ref")])]) for i in (0, 1)])] if number else []

    if format_ == "flag":
        yield VALID
    elif format_ == "basic":
        yield b'{"annotations":[],"valid":true}\n'
    else:
        below = [("/$ref", "/$ref", "", "", lambda: [named(k, "/$ref")])] if format_ == "verbose" else []
        yield from pieces(("", "", "", "", lambda: below))
        yield b"\n"


def refused_pair():
    """A pair whose schema is refused as soon as it is looked at."""
    return Case("a pair with a refused schema", [], given=b"3\nnull",
                errors=b'refused: document 0 at "": NotASchema\n', status=3)


def limits():
    """What stands just within each limit, and just past it."""
    yield valid("999,998 items", ITEMS, compact([0] * 999_998))
    yield from too_large("999,999 items", ITEMS, compact([0] * 999_999))
    yield valid("379 nested applications", DEEP, nested(127))
    yield valid("a chain of 510 references", chain(510), "0")
    yield from too_large("a chain of 511 references", chain(511))
    yield valid("917,500 nodes", doubling(17), "0")
    yield from too_large("1,835,004 nodes", doubling(18))
    yield from too_large("an endless reference", '{"$ref":"#"}')
    yield from too_large("an endless reference below not", '{"not":{"$ref":"#"}}')
    yield from too_large("an endless reference beside an assertion", '{"$ref":"#","type":"string"}')
    yield valid("an instance nested 127 times", "{}", nested(127))
    yield refused("an instance nested 128 times", 'instance at "": NotJson', "{}", nested(128))
    yield refused("a schema nested 128 times", 'document 0 at "": NotJson', '{"const":' + nested(127) + "}")
    yield valid("an instance of 16,777,216 bytes", "{}", " " * 16_777_215 + "0")
    yield refused("an instance of 16,777,217 bytes", "input: InputTooLarge", "{}", " " * 16_777_216 + "0")
    yield refused("a schema of 16,777,217 bytes", "input: InputTooLarge", " " * 16_777_215 + "{}")
    pair = b"{}\n" + b" " * 16_777_212
    yield Case("an input of 16,777,216 bytes", [], given=pair + b"0", out=VALID)
    yield Case("an input of 16,777,217 bytes", [], given=pair + b" 0",
               errors=b"refused: input: InputTooLarge\n", status=3)
    yield refused("a reference of 65,536 bytes", 'document 0 at "/$ref": Unresolved', compact({"$ref": "a" * 65_536}))
    yield refused("a reference of 65,537 bytes", 'document 0 at "/$ref": UriTooLong', compact({"$ref": "a" * 65_537}))
    long = U + "a" * 65_517
    yield valid("a URI of 65,536 bytes", "true", "0", uri=long, entry=long)
    yield refused("a URI of 65,537 bytes", 'document 0 at "": UriTooLong', "true", uri=long + "a")
    yield refused("an entry of 65,537 bytes", "entry: UriTooLong", "true", entry=long + "a")
    yield documents(1_000, out=VALID)
    yield documents(1_001, errors=b'refused: document 1000 at "": TooManyDocuments\n', status=3)
    yield valid("100,000 places", places(99_999), "0")
    yield refused("100,001 places", 'document 0 at "/$defs/n099999": TooManyPlaces', places(100_000))


def documents(count, **how):
    words = ["check", "flag", "instance.json", U + "0"]
    for i in range(count):
        words += [f"{U}{i}", "schema.json"]
    return Case(f"{count:,} documents", words, {"schema.json": "true", "instance.json": "0"}, **how)


def places(count):
    return compact({"$defs": {f"n{i:06}": True for i in range(count)}})


def under_a_long_uri(count, length=60_000):
    """As many schemas in a resource whose URI has that length."""
    uri = U + "a" * (length - len(U))
    last = f"d{count - 1:05}"
    return compact({"$id": uri, "$defs": {f"d{i:05}": True for i in range(count - 1)} | {last: {"title": "a~/%"}},
                    "properties": {"x": {"$ref": f"#/$defs/{last}", "minimum": 3, "a~/%": 1}}})


def wide_bundle(count=6_000):
    """As many schemas side by side, found by their names, their indexes, references of each kind, and patterns."""
    made, properties = {}, {}
    for i in range(count):
        name, reference = (
            ({}, {"$ref": f"#/$defs/d{i}"}),
            ({"$anchor": f"a{i}"}, {"$ref": f"#a{i}"}),
            ({"$id": f"u{i}"}, {"$ref": f"u{i}"}),
            ({"$dynamicAnchor": f"n{i}"}, {"$dynamicRef": f"#n{i}"}))[i % 4]
        made[f"d{i}"] = {"minimum": i, "title": f"t{i}", **name}
        properties[f"p{i}"] = {**reference, "const": 7}
    patterns = {f"^p{i}$": {"enum": [i, 7]} for i in range(0, count, 100)}
    branches = [{"required": [f"p{i}"]} for i in range(300)]
    schema = {"$defs": made, "properties": properties, "patternProperties": patterns, "oneOf": branches}
    return compact(schema), compact({f"p{i}": 7 for i in range(0, count, 10)})


def deep_bundle(levels=58):
    """Schemas far down, in resources within resources, and references between the root and the deepest."""
    schema = {"$anchor": "last", "type": "integer", "$ref": f"{U}#top", "patternProperties": {"^a": {"not": {}}}}
    for i in reversed(range(levels)):
        names = {"$id": f"r{i}/", "$dynamicAnchor": "end"} if i % 10 == 9 else {}
        schema = {"properties": {"n": schema}, "required": ["n"], **names}
    deepest = "/properties/n" * levels
    schema |= {"$defs": {"top": {"$anchor": "top", "maxLength": 2}},
               "allOf": [{"$ref": f"#{deepest}"}, {"$dynamicRef": "#end"}, {"$dynamicAnchor": "end"}]}
    instance = '{"n":' * levels + '"long"' + "}" * levels
    return compact(schema), instance


def beginnings():
    """Each beginning, short of the whole, of a schema and of an instance."""
    for i in range(len(POLYGON)):
        yield refused(f"{i} bytes of a schema", 'document 0 at "": NotJson', POLYGON[:i], POINTS)
    for i in range(len(POINTS)):
        yield refused(f"{i} bytes of an instance", 'instance at "": NotJson', "{}", POINTS[:i])


def large():
    """Long names, many members, many keywords, wide and deep bundles, many and large patterns."""
    yield from bundles()
    yield from patterns()
    yield from siblings()
    name = "n" * 1_000_000
    schema, instance = compact({"properties": {name: {"minimum": 3}}}), compact({name: 2})
    for it in FORMATS:
        yield check(f"a name of 1,000,000 bytes, {it}", schema, instance, it, out=None)
    yield check("a keyword of 1,000,000 bytes", compact({name: 1}), "0", "verbose", out=None)
    members = compact({f"m{i}": 0 for i in range(1_000_000)})
    yield valid("an object of 1,000,000 members", '{"type":"object","minProperties":1000000}', members)
    descending = compact({f"m{i:03}": 0 for i in reversed(range(256))})
    objects = "[" + ",".join([descending] * 6_000) + "]"
    yield valid("6,000 objects of 256 members, in descending order", '{"minItems":6000}', objects, most_seconds=4)
    keywords = compact({f"k{i}": 0 for i in range(999_999)})
    yield valid("a schema of 999,999 keywords", keywords, "0")
    yield from too_large("a schema of 1,000,000 keywords", compact({f"k{i}": 0 for i in range(1_000_000)}))
    yield valid("an array of 300,000 distinct items", '{"uniqueItems":true}', compact(list(range(300_000))))
    many = 1_000_000
    for last, pair in ((0, "0 and 1000000"), (many - 1, "999999 and 1000000")):
        yield error(f"items {pair} of a long array", '{"uniqueItems":true}', compact([*range(many), last]),
                    "uniqueItems", f"items {pair} are equal")
    listed = [f"v{i}" for i in range(200_000)]
    choices = compact({"items": {"enum": listed}})
    yield valid("200,000 values, each one of 200,000 listed", choices, compact(listed[::-1]))
    yield check("200,000 values, one of them not listed", choices, compact([*listed[1:], "v"]), out=INVALID, status=1)
    names = [f"n{i}" for i in range(300_000)]
    required = compact({"required": names})
    yield valid("300,000 required names", required, compact({it: 0 for it in names}))
    yield error("300,000 required names but one", required, compact({it: 0 for it in names[1:]}),
                "required", 'missing: ["n0"]')


def siblings():
    """Merging siblings of which none are alike: most of their texts are, and sums of their bytes."""
    schema = '{"additionalProperties":{"title":"a"}}'
    for pairs in (14, 17):
        names = named_alike(pairs)
        yield check(f"merging {len(names):,} members whose names have one sum", schema,
                    compact({it: 0 for it in names}), "merged", out=lambda names=names: titled_text(names))


def bundles():
    """A wide and a deep bundle, and one whose names are chosen to have one hash."""
    for name, (schema, instance) in (("wide", wide_bundle()), ("deep", deep_bundle())):
        for it in FORMATS:
            yield check(f"a {name} bundle, {it}", schema, instance, it, out=None)
        yield Case(f"the places of a {name} bundle", ["places", U, "schema.json"], {"schema.json": schema}, out=None)
    # A table that hashes takes as many comparisons as there are pairs of such names.
    alike = compact({"$defs": {it: True for it in colliding(64_000)}})
    yield valid("64,000 places whose keys have one hash", alike, "0", most_seconds=4)
    # Whole, the locations of 20,000 such places take 1.2 GB, those of 90,000 take 5.4 GB.
    bounds = {"most_seconds": 4, "most_memory": 400_000_000}
    few, many = under_a_long_uri(20_000), under_a_long_uri(90_000)
    yield check("90,000 places under a URI of 60,000 bytes", many, '{"x":2}', out=INVALID, status=1, **bounds)
    for it in FORMATS:
        yield check(f"20,000 places under a URI of 60,000 bytes, {it}", few, '{"x":2}', it, out=None, **bounds)
    yield check("the root alone under a URI of 60,000 bytes", few, "0", "detailed", out=None, **bounds)


def patterns():
    """Many patterns, and those that are slow to compile or refused."""
    many = compact({"patternProperties": {f"^p{i:05}$": {} for i in range(50_000)}, "additionalProperties": False})
    yield valid("50,000 patterns, each name matched by one", many, '{"p00000":1,"p25007":2,"p49999":3}')
    yield check("50,000 patterns, a name matched by none", many, '{"p00000":1,"p50000":2}', out=INVALID, status=1)
    yield valid("a pattern that is slow to compile", compact({"pattern": "(\\pL{40}){8}"}), "0")
    yield refused("a pattern that is too large", 'document 0 at "/pattern": PatternTooLarge',
                  compact({"pattern": "((a{100}){100}){100}"}))
    yield from refused_patterns()


def refused_patterns():
    yield refused("a pattern that looks ahead", 'document 0 at "/pattern": BadPattern', compact({"pattern": "(?=a)"}))
    yield refused("a pattern that nests deep", 'document 0 at "/pattern": BadPattern',
                  compact({"pattern": "(" * 300 + ")" * 300}))


def at_the_limit():
    """What goes deepest and what is largest, to be run with little stack and with a bound on memory."""
    for it in FORMATS:
        yield check(f"512 nested applications, {it}", chain(510), "0", it, out=None)
        yield check(f"127 nested arrays, {it}", DEEP, nested(127), it, out=None)
        yield check(f"1,000,000 nodes, {it}", ITEMS, compact([0] * 999_998), it, out=lambda it=it: widest_text(it))
        yield check(f"917,500 nodes, {it}", doubling(17), "0", it, out=lambda it=it: doubled_text(17, it))
    yield from too_large("an endless reference", '{"$ref":"#"}')
    yield valid("an instance nested 127 times", "{}", nested(127))
    yield valid("equality of values nested 126 times", '{"const":' + nested(126) + "}", nested(126))
    yield valid("unique items nested 126 times", '{"uniqueItems":true}', "[" + nested(126) + "]")
    yield valid("schemas nested 120 times", '{"not":' * 120 + "true" + "}" * 120, "0")
    yield refused("a schema nested 128 times", 'document 0 at "": NotJson', '{"const":' + nested(127) + "}")
    yield from refused_patterns()
    yield valid("a pattern that nests 200 times", compact({"pattern": "(" * 200 + "a" + ")" * 200}), '"a"')
