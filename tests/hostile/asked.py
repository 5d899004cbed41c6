"""What finished schemas are asked of their places.

There are worked examples, and each place of a wide bundle and of a deep one, for which the reference answers.
"""
import cases
from questions import Question, Table, in_turn, quiet
from tests.reference.assertions import SHAPES, compiled, error
from tests.reference.bundle import ALONE, LISTS, OBJECTS, TEXTS, Bundle
from tests.reference.json_text import pointer_text, text
from tests.support.keywords import ABOUT

URI = cases.U
STANDARD = ALONE | LISTS | OBJECTS | TEXTS | {"$comment", "$vocabulary"}
# Those that neither apply schemas nor judge a value.
OTHERS = {"$schema", "$id", "$anchor", "$dynamicAnchor", "$vocabulary", "$comment", "$defs", "definitions"}
JUDGED = (("minimum", 7), ("const", 7), ("maxLength", "abc"), ("title", 7))
EMBEDDED = '{"$id":"x","$defs":{"p":{"$id":"y","not":true}},"allOf":[{"$anchor":"q"}]}'
TREE = ('{"$id":"https://example.com/tree","$dynamicAnchor":"node","type":"object","properties":{"data":true,'
        '"children":{"type":"array","items":{"$dynamicRef":"#node"}}}}')
STRICT = '{"$id":"https://example.com/strict-tree","$dynamicAnchor":"node","$ref":"tree","unevaluatedProperties":false}'
TREES = {"https://example.com/tree": TREE, "https://example.com/strict-tree": STRICT}
S, M, L, T = (f"https://a.example/{it}" for it in "smlt")
# Three documents of which each leads to the next, and a fourth; three give one name to a schema of their own.
SCOPES = {S: '{"$ref":"m","$defs":{"x":{"$dynamicAnchor":"n","type":"integer"}}}',
          M: '{"$ref":"l","$defs":{"x":{"$dynamicAnchor":"n","type":"null"}}}',
          L: '{"$dynamicRef":"#n","$defs":{"x":{"$dynamicAnchor":"n","type":"string"}}}',
          T: '{"$dynamicRef":"l#n"}'}
X, Y = "https://a.example/x", "https://a.example/y"


def tables():
    yield from worked_examples()
    for name, (schema, _) in (("wide", cases.wide_bundle()), ("deep", cases.deep_bundle())):
        documents = {URI: schema}
        yield Table(f"each place of a {name} bundle", list(of_bundle(documents)), documents)


def worked_examples():
    """Answers by hand, from the standard."""
    polygon = "https://example.com/polygon"
    point = f"{polygon}#/$defs/point"
    places = [f"{polygon}#", point, f"{point}/additionalProperties", f"{point}/properties/x", f"{point}/properties/y",
              f"{polygon}#/items"]
    yield Table("places of the polygon", [
        in_turn("place", polygon, "entry", answer=f"{polygon}#"),
        in_turn("place", polygon, "places", answer=lines(places)),
        in_turn("place", polygon, "resources", answer=f"{URI}: {polygon}#\n{polygon}: {polygon}#\n"),
        in_turn("place", f"{polygon}#/$defs/point", "absolute", "a b/c", answer=f"{point}/a%20b~1c"),
        *of_bundle({URI: cases.POLYGON})], {URI: cases.POLYGON})
    yield Table("an embedded resource", list(embedded()), {URI: EMBEDDED})
    yield Table("documents side by side", list(side_by_side()),
                {URI: EMBEDDED, T: '{"$id":"https://a.example/t","items":{}}'})
    yield Table("places of a strict tree", list(of_trees()), TREES)
    yield Table("a dynamic scope over documents", list(of_scopes()), SCOPES)
    for schema, target in TARGETS:
        yield Table(f"the target in {schema}", [quiet("place", URI, "target", answer=target)], {URI: schema})
    for schema, target in DYNAMIC_TARGETS:
        yield Table(f"the dynamic target in {schema}", [dynamic(URI, (URI,), target)], {URI: schema})
    for uri in (URI, f"{URI}#", " HTTPS://A.example/s\n", "https://a.example:443/t/../s"):
        yield Table(f"a document at {uri!r}", [Question(("place", URI, "entry"), f"{URI}#")], {uri: "true"})
    yield Table("references joined with the base of their place", [
        quiet("place", f"{uri}", "target", answer=target) for uri, target in (
            ("https://a.example/y/", "https://a.example/y/#"), ("https://a.example/z/", "https://a.example/y/#"))],
        {URI: '{"$anchor":"q","allOf":[{"$id":"y/","$ref":"#q","$anchor":"q"},{"$id":"z/","$ref":"../y/"}]}'})
    yield from of_keywords()


def of_keywords():
    """Assertions, patterns, and which keyword of the standard a name is."""
    yield Table("assertions of places", [
        quiet("place", uri, "assertion", keyword, value, answer=answer) for uri, keyword, value, answer in (
            (URI, "maxLength", '"a"', "holds"), (URI, "maxLength", '"ab"', "2 characters, at most 1"),
            (URI, "minContains", "[1]", "1 matching items, at least 2"), (URI, "contains", "[1]", "no assertion"),
            (URI, "title", "1", "no assertion"), (URI, "minimum", "1", "no assertion"),
            (f"{URI}#/not", "minimum", "3", "less than 5"), (f"{URI}#/not", "maxLength", '"ab"', "no assertion"),
            (T, "minContains", "[1]", "holds"))],
        {URI: '{"contains":true,"maxLength":1,"minContains":2,"not":{"minimum":5},"title":"t"}',
         T: '{"minContains":2}'})
    yield Table("patterns of places", [
        quiet("place", uri, "pattern", name, value, answer=answer) for uri, name, value, answer in (
            (URI, "^x", "x1", "Ok(true)"), (URI, "^x", "b", "Ok(false)"), (URI, "a+b", "xaaby", "Ok(true)"),
            (URI, "a+b", "ba", "Ok(false)"), (URI, "^y", "y", "no pattern"), (URI, "a", "a", "no pattern"),
            (f"{URI}#/patternProperties/a+b", "^x", "x1", "no pattern"))],
        {URI: '{"properties":{"a":true},"patternProperties":{"^x":true,"a+b":{}},"additionalProperties":false}'})
    standing = ('{"$comment":"","$dynamicAnchor":"a","contains":true,"minContains":2,"not":{},"title":"t",'
                '"unevaluatedItems":true}')
    names = ("[Other(Comment), Other(DynamicAnchor), Contains, Assertion(Array(MinContains)), Not, Other(Unknown), "
             "UnevaluatedItems]")
    answer = f"true {URI}#, document 0 at , resource 0 of 1, {URI}: {standing} {names}"
    yield Table("names of keywords", [quiet("place", URI, "standing", answer=answer)], {URI: standing})


def lines(texts):
    """Each text with a line feed."""
    return "".join(f"{it}\n" for it in texts)


def embedded():
    """A resource within a resource: its names, and what stands below its places."""
    for uri, answer in (
            (URI, f"{X}#"), (X, f"{X}#"), (f"{X}#", f"{X}#"), (f"{URI}#/$defs/p", f"{Y}#"),
            (f"{URI}#/%24defs/%70", f"{Y}#"), (f"{X}#/$defs/p", f"{Y}#"), (Y, f"{Y}#"), (f"{Y}#/not", f"{Y}#/not"),
            (f"{URI}#/$defs/p/not", f"{Y}#/not"), (f"{URI}#q", f"{X}#/allOf/0"), (f"{X}#%71", f"{X}#/allOf/0"),
            (" HTTPS://A.example/./s#\tq\n", f"{X}#/allOf/0"),
            (f"{Y}#q", "Unresolved"), (f"{Y}#/$defs/p", "Unresolved"), (f"{URI}#/$defs", "Unresolved"),
            (f"{URI}#r", "Unresolved"), (T, "Unresolved"),
            ("x y", "BadUri"), ("", "BadUri"), (f"{URI}#/~2", "BadUri"), (f"{URI}#%FF", "BadUri"),
            (f"{T}#/~2", "BadUri")):
        yield Question(("place", uri, "entry"), answer)
    yield in_turn("place", f"{URI}#/$defs/p/not", "entry", answer=f"{Y}#/not")
    yield in_turn("place", Y, "absolute", "a b/c", answer=f"{Y}#/a%20b~1c")
    yield in_turn("place", URI, "places", answer=lines([f"{X}#", f"{Y}#", f"{Y}#/not", f"{X}#/allOf/0"]))
    yield in_turn("place", URI, "resources", answer=lines([f"{URI}: {X}#", f"{X}: {X}#", f"{Y}: {Y}#"]))
    for uri, keyword, answer in (
            (URI, "allOf", f"{X}#/allOf"), (Y, "not", f"{Y}#/not"),
            (f"{URI}#q", "$anchor", f"{X}#/allOf/0/$anchor"), (Y, "a~", f"{Y}#/a~0")):
        yield Question(("place", uri, "absolute", keyword), answer)
    p = '{"$id":"y","not":true}'
    for uri, step, answer in (
            (URI, ("name", "$defs", "p"), f"{Y}# {Y}#: {p}"),
            (URI, ("index", "allOf", "0"), f'{X}#/allOf/0 {X}#/allOf/0: {{"$anchor":"q"}}'),
            (Y, ("alone", "not"), f"{Y}#/not {Y}#/not: true"),
            (URI, ("name", "$defs", "q"), "none"), (URI, ("index", "$defs", "0"), "none"),
            (URI, ("alone", "$defs"), "none"), (URI, ("index", "allOf", "1"), "none"),
            (URI, ("name", "allOf", "0"), "none"), (URI, ("alone", "allOf"), "none"), (URI, ("alone", "not"), "none"),
            (URI, ("alone", "$id"), "none"), (Y, ("index", "not", "0"), "none"), (Y, ("name", "not", ""), "none"),
            (f"{Y}#/not", ("alone", "not"), "none")):
        yield quiet("place", uri, *step, answer=answer)


def side_by_side():
    places = [f"{X}#", f"{Y}#", f"{Y}#/not", f"{X}#/allOf/0", f"{T}#", f"{T}#/items"]
    yield Question(("place", T, "places"), lines(places))
    yield Question(("place", T, "resources"), lines([f"{URI}: {X}#", f"{X}: {X}#", f"{Y}: {Y}#", f"{T}: {T}#"]))
    itself = '{"$defs":{"p":{"$id":"y","not":true}},"$id":"x","allOf":[{"$anchor":"q"}]}'
    for uri, answer in (
            (X, f"true {X}#, document 0 at , resource 0 of 3, {X}: {itself} [Other(Defs), Other(Id), AllOf]"),
            (Y, f'true {Y}#, document 0 at /$defs/p, resource 1 of 3, {Y}: {{"$id":"y","not":true}} [Other(Id), Not]'),
            (f"{Y}#/not", f"true {Y}#/not, document 0 at /$defs/p/not, resource 1 of 3, {Y}: true []"),
            (f"{X}#q", f'true {X}#/allOf/0, document 0 at /allOf/0, resource 0 of 3, {X}: {{"$anchor":"q"}} '
             '[Other(Anchor)]'),
            (f"{T}#/items", f"true {T}#/items, document 1 at /items, resource 2 of 3, {T}: {{}} []")):
        yield quiet("place", uri, "standing", answer=answer)


def dynamic(uri, path, target):
    """The dynamic target of a place, which is asked for twice: by places, and by numbers of resources."""
    return quiet("place", uri, "dynamic target", *path, answer=f"{target} {target}")


def of_trees():
    tree, strict = TREES
    children, items = f"{tree}#/properties/children", f"{tree}#/properties/children/items"
    yield quiet("place", strict, "target", answer=f"{tree}#")
    yield quiet("place", tree, "target", answer="none")
    yield dynamic(items, (tree, children, items), f"{tree}#")
    yield dynamic(items, (strict, tree, children, items), f"{strict}#")
    yield dynamic(items, (strict, tree, children, items) * 2, f"{strict}#")


def of_scopes():
    for path, target in (((S, M, L), S), ((M, L), M), ((L,), L), ((T,), L), ((T, M, L), M), ((M, S, M, L), M)):
        yield dynamic(path[-1], path, f"{target}#/$defs/x")


TARGETS = (
    ('{"$ref":"#/$defs/i","maximum":3,"$defs":{"i":{"type":"integer"}}}', f"{URI}#/$defs/i"),
    ('{"$ref":"#q","$defs":{"x":{"$anchor":"q","const":1}}}', f"{URI}#/$defs/x"),
    ('{"$ref":"#/$defs/%61","$defs":{"a":{"const":1}}}', f"{URI}#/$defs/a"),
    ('{"$ref":"#"}', f"{URI}#"), ('{"$ref":""}', f"{URI}#"), ('{"$id":"x","$ref":"s"}', f"{X}#"),
    ('{"$ref":"y","$defs":{"p":{"$id":"y"}}}', f"{Y}#"),
    ('{"$ref":"y#/not","$defs":{"p":{"$id":"y","not":true}}}', f"{Y}#/not"),
    ('{"$dynamicRef":""}', "dynamic"), ("true", "none"))
INNER = '"y":{"$id":"y","$dynamicAnchor":"n"}'
DYNAMIC_TARGETS = (
    # a pointer is never dynamic, nor is an empty fragment, nor a name by `$anchor` alone
    ('{"$dynamicRef":"y#/$defs/x","$defs":{"o":{"$dynamicAnchor":"n","const":2},'
     '"y":{"$id":"y","$defs":{"x":{"$dynamicAnchor":"n","const":1}}}}}', f"{Y}#/$defs/x"),
    (f'{{"$dynamicRef":"y","$defs":{{"o":{{"$dynamicAnchor":"n"}},{INNER}}}}}', f"{Y}#"),
    ('{"$dynamicRef":"y#n","$defs":{"o":{"$dynamicAnchor":"n"},"y":{"$id":"y","$defs":{"x":{"$anchor":"n"}}}}}',
     f"{Y}#/$defs/x"),
    # the entry's resource counts; the name may be escaped; the first target may have it by both keywords
    (f'{{"$dynamicRef":"y#n","$defs":{{"o":{{"$dynamicAnchor":"n"}},{INNER}}}}}', f"{URI}#/$defs/o"),
    (f'{{"$dynamicRef":"y#%6E","$defs":{{"o":{{"$dynamicAnchor":"n"}},{INNER}}}}}', f"{URI}#/$defs/o"),
    ('{"$dynamicRef":"y#n","$defs":{"o":{"$dynamicAnchor":"n"},"y":{"$id":"y","$anchor":"n","$dynamicAnchor":"n"}}}',
     f"{URI}#/$defs/o"),
    # another name is another anchor; a resource within is another resource
    (f'{{"$dynamicRef":"y#n","$defs":{{"o":{{"$dynamicAnchor":"N"}},{INNER}}}}}', f"{Y}#"),
    (f'{{"$dynamicRef":"y#n","$defs":{{"o":{{"$id":"o","$dynamicAnchor":"n"}},{INNER}}}}}', f"{Y}#"))


def of_bundle(documents):
    """What the reference answers at each place of a bundle."""
    bundle = Bundle()
    for uri, schema in documents.items():
        bundle.add(uri, schema.encode())
    bundle.finish()
    roots = [place for place in bundle.places if place.resource is place]
    numbers = {id(root): number for number, root in enumerate(roots)}
    yield Question(("place", URI, "places"), lines(place.absolute() for place in bundle.places))
    resources = lines(f"{uri}: {root.absolute()}" for uri, root in bundle.known.items())
    yield Question(("place", URI, "resources"), resources)
    for place in bundle.places:
        uri = place.absolute()
        yield Question(("place", uri, "entry"), uri)
        yield Question(("place", uri, "absolute", "a b/c"), place.absolute("a b/c"))
        for words, answer in of_place(place, f"{numbers[id(place.resource)]} of {len(roots)}"):
            yield quiet("place", uri, *words, answer=answer)
        if place.dynamic:
            path = bundle.places[0], place
            yield dynamic(uri, [it.absolute() for it in path], bundle.dynamic_target(place, path).absolute())


def of_place(place, number):
    """The words of each question, and the answer."""
    schema = place.schema if isinstance(place.schema, dict) else {}
    keywords = ", ".join(map(word, schema))
    yield ("standing",), (f"true {place.absolute()}, document {place.document} at {pointer_text(place.pointer)}, "
                          f"resource {number}, {place.base.text()}: {text(place.schema)} [{keywords}]")
    yield ("target",), place.target.absolute() if place.target else "dynamic" if place.dynamic else "none"
    for (keyword, step), below in place.below.items():
        yield step_asked(keyword, step), f"{below.absolute()} {below.absolute()}: {text(below.schema)}"
    for missed in (("alone", "items"), ("name", "properties", "none"), ("name", "allOf", "0"),
                   ("index", "oneOf", "300"), ("index", "$defs", "0")):
        if (missed[1], *missed[2:]) not in place.below and (missed[1], None) not in place.below:
            yield missed, "none"
    for keyword, value in JUDGED:
        yield ("assertion", keyword, text(value)), said(keyword, schema, value)
    for name in (*schema.get("patternProperties", ()), "^none$"):
        yield ("pattern", name, "p0"), matched(name, schema)


def word(keyword):
    """The variant of `Keyword` of this keyword."""
    name = keyword.removeprefix("$")
    variant = name[0].upper() + name[1:]
    if keyword in SHAPES:
        # (The families of assertions are those of Validation, sections 6.1 to 6.5: what they are about.)
        family = ABOUT[keyword][-1].capitalize() if ABOUT[keyword] else "AnyType"
        return f"Assertion({family}({variant}))"
    if keyword in OTHERS:
        return f"Other({variant})"
    return variant if keyword in STANDARD else "Other(Unknown)"


def step_asked(keyword, step):
    """The words that ask for the place below a place."""
    return ("alone", keyword) if step is None else ("index" if isinstance(step, int) else "name", keyword, str(step))


def said(keyword, schema, value):
    """What an assertion says of a value."""
    if keyword not in schema or keyword not in SHAPES:
        return "no assertion"
    return error(keyword, schema[keyword], schema, value, 1) or "holds"


def matched(name, schema):
    """What a pattern of `patternProperties` says of the name `p0`."""
    if name not in schema.get("patternProperties", ()):
        return "no pattern"
    return "Ok(true)" if compiled(name).search("p0") else "Ok(false)"
