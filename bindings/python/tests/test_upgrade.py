"""Schemas of older drafts: the verdicts of their drafts, refusals and places, engines and the command."""
import json
import os
import stat
import tempfile
import unittest
from pathlib import Path
from unittest import mock

import jschema
from commands import Case as CommandCase
from jschema import metaschemas
from jschema.dialects import DRAFTS, URIS, dialect_named
from jschema.library import find_library
from jschema.originals import original
from jschema.upgrading import may_be_older

URI, OTHER = "https://example.com/s", "https://example.com/t"
SEVEN = "http://json-schema.org/draft-07/schema#"
LATEST = "https://json-schema.org/draft/2020-12/schema"

# Of each draft a section, a schema, and instances that are valid and invalid by it.
VERDICTS = {
    "draft-03": [
        ("5.1", {"type": ["string", {"properties": {"a": {"type": "null"}}, "type": "object"}]},
         ["x", {"a": None}], [1, {"a": 1}]),
        ("5.1: any", {"type": "any"}, [1, None], []),
        ("5.7", {"properties": {"a": {"required": True}, "b": {"required": False}}}, [{"a": 1}], [{}, {"b": 1}]),
        ("5.8", {"dependencies": {"a": "b", "c": ["d"], "e": {"properties": {"f": {"required": True}}}}},
         [{"a": 1, "b": 1}, {"c": 1, "d": 1}, {"e": 1, "f": 1}], [{"a": 1}, {"c": 1}, {"e": 1}]),
        ("5.24", {"divisibleBy": 3}, [6, "x"], [7]),
        ("5.25", {"disallow": ["string", {"minimum": 5}]}, [4], ["x", 5]),
        ("5.26", {"extends": [{"minimum": 2}, {"maximum": 3}]}, [2, 3], [1, 4]),
        ("no keyword yet", {"allOf": [False], "oneOf": [], "not": {}, "const": 1, "required": ["a"]}, [2, {}], []),
    ],
    "draft-04": [
        ("5.1.2", {"maximum": 3, "exclusiveMaximum": True}, [2], [3]),
        ("5.1.3", {"minimum": 3, "exclusiveMinimum": False}, [3], [2]),
        ("5.3.1", {"items": [{"type": "null"}], "additionalItems": {"type": "integer"}},
         [[None, 1]], [[None, "x"], [1]]),
        ("5.3.1: without a list", {"additionalItems": False}, [[1]], []),
        ("5.4.5", {"dependencies": {"a": ["b"]}}, [{"b": 1}], [{"a": 1}]),
        ("no keyword yet", {"const": 1, "contains": {"const": 1}, "propertyNames": False, "if": {}, "then": False},
         [2, [2], {"a": 1}], []),
        ("Core 7.2", {"properties": {"a": {"id": "http://x.example/a", "type": "null"},
                                     "b": {"$ref": "http://x.example/a"}}}, [{"b": None}], [{"b": 1}]),
    ],
    "draft-06": [
        ("6.5", {"exclusiveMinimum": 3}, [4], [3]),
        ("6.14", {"contains": {"const": 1}}, [[1]], [[2]]),
        ("no keyword yet", {"if": True, "then": False}, [1], []),
        ("Core 8", {"definitions": {"a": {"type": "integer"}}, "$ref": "#/definitions/a", "minimum": 5}, [1], ["x"]),
    ],
    "draft-07": [
        ("6.6", {"if": {"minimum": 5}, "then": {"maximum": 7}, "else": {"minimum": 3}}, [3, 6], [2, 8]),
        ("Core 8.3", {"properties": {"a": {"$ref": "#/definitions/b", "maxLength": 1}},
                      "definitions": {"b": {"type": "string"}}}, [{"a": "xx"}], [{"a": 1}]),
        ("Core 8.2.3", {"definitions": {"b": {"$id": "#name", "type": "null"}}, "items": {"$ref": "#name"}},
         [[None]], [[1]]),
        ("no keyword yet", {"$defs": {"a": False}, "dependentRequired": {"a": ["b"]}, "unevaluatedProperties": False},
         [{"a": 1}], []),
    ],
    "2019-09": [
        ("8.2.4.1", {"$ref": "#/$defs/a", "maximum": 5, "$defs": {"a": {"minimum": 1}}}, [1, 5], [0, 6]),
        ("9.3.1.1", {"items": [{"$anchor": "a"}], "additionalItems": False}, [[1]], [[1, 2]]),
        ("Validation 6.5.4", {"dependentRequired": {"a": ["b"]}}, [{"b": 1}], [{"a": 1}]),
        ("8.2.4.2.1", {"properties": {"a": {"$recursiveRef": "#"}}, "type": "object"}, [{"a": {}}], [{"a": 1}]),
        ("no keyword any more", {"dependencies": {"a": ["b"]}}, [{"a": 1}], []),
        ("no keyword yet", {"prefixItems": [False]}, [[1]], []),
    ],
}


def refusal(call, *arguments, **named):
    try:
        call(*arguments, **named)
    except jschema.Refused as refused:
        return refused
    raise AssertionError("it isn't refused")


class LibraryCase(unittest.TestCase):
    def setUp(self):
        if find_library() is None:
            self.skipTest("no library")


class Verdicts(LibraryCase):
    def judge(self, schemas, valid, invalid):
        with schemas:
            self.assertEqual([it for it in valid if not schemas.is_valid(URI, json.dumps(it))], [])
            self.assertEqual([it for it in invalid if schemas.is_valid(URI, json.dumps(it))], [])

    def test_drafts(self):
        """By `$schema`, and by the dialect that is assumed: by its name and its URI."""
        for number, (draft, rows) in enumerate(VERDICTS.items()):
            self.assertEqual(DRAFTS[number], draft)
            for section, schema, valid, invalid in rows:
                with self.subTest(draft, section=section):
                    self.judge(jschema.Schemas({URI: {"$schema": URIS[number], **schema}}), valid, invalid)
                    for name in (draft, URIS[number]):
                        self.judge(jschema.Schemas({URI: schema}, default_dialect=name), valid, invalid)

    def test_what_names_a_draft(self):
        """`http` and `https`, with `#` and without it, the hyper-schema too; a slash may be escaped."""
        for named in (SEVEN, SEVEN.rstrip("#"), SEVEN.replace("http:", "https:"), SEVEN.replace("/sch", "/hyper-sch")):
            for written in (named, named.replace("/", "\\/")):
                with self.subTest(written):
                    text = f'{{"$schema": "{written}", "definitions": {{"a": false}}, "$ref": "#/definitions/a"}}'
                    self.assertTrue(may_be_older(text.encode()))
                    self.judge(jschema.Schemas({URI: text}), [], [1])

    def test_the_latest_stays(self):
        """A document of 2020-12 is what it was, beside one of an older draft too."""
        schema = {"description": f"as of {SEVEN}", "$ref": "#/$defs/a", "maximum": 5, "dependencies": {"a": ["b"]},
                  "$defs": {"a": {"minimum": 1}}}
        for documents in ({URI: schema}, {URI: {**schema, "$schema": LATEST}, OTHER: {"$schema": SEVEN}}):
            self.judge(jschema.Schemas(documents), [1, 5, {"a": 1}], [0, 6])
        with jschema.Schemas({URI: schema}, default_dialect="2020-12") as schemas:
            self.assertEqual(schemas.places(), [f"{URI}#", f"{URI}#/$defs/a"])

    def test_a_default_is_for_those_that_name_none(self):
        documents = {URI: {"$schema": LATEST, "$ref": "t#/definitions/a", "minimum": 3},
                     OTHER: {"definitions": {"a": {"maximum": 5, "exclusiveMaximum": True}}}}
        self.judge(jschema.Schemas(documents, default_dialect="draft-04"), [3, 4], [2, 5])

    def test_values_stay(self):
        """What looks like a schema in a value is none (draft-07 Validation 6.1.2, 6.1.3)."""
        value = {"$ref": "#/definitions/none", "definitions": {}}
        schema = {"$schema": SEVEN, "properties": {"a": {"const": value}, "b": {"enum": [value]}}}
        self.judge(jschema.Schemas({URI: schema}), [{"a": value, "b": value}], [{"a": {}}, {"b": 1}])


class Wanted(unittest.TestCase):
    """What is asked for, and what an engine is asked for."""

    def test_no_dialect(self):
        for name in ("draft-05", "7", "https://example.com/dialect", ""):
            with self.subTest(name), \
                    self.assertRaisesRegex(ValueError, "no dialect .*: it is one of draft-03, draft-04"):
                jschema.Schemas({URI: "true"}, default_dialect=name)
        with self.assertRaisesRegex(ValueError, "upgrade is False"):
            jschema.Schemas({URI: "true"}, default_dialect="draft-07", upgrade=False)

    def test_names(self):
        self.assertEqual([dialect_named(it) for it in URIS], [*range(6)])
        for named in ("http://json-schema.org/schema#", f"{LATEST}##", LATEST.replace("/sch", "/hyper-sch"), 7, None,
                      "http://json-schema.org/draft/draft-07/schema", "https://json-schema.org/2019-09/schema"):
            self.assertIsNone(dialect_named(named), named)

    def test_refused_without_an_upgrade(self):
        refused = refusal(jschema.Schemas, {OTHER: "true", URI: {"$schema": SEVEN}}, upgrade=False)
        self.assertEqual((refused.kind, refused.place, refused.index), ("UnknownDialect", "/$schema", 1))

    def calls(self, documents, **named):
        engine = mock.Mock()
        jschema.Schemas(documents, engine=engine, **named)
        return [it[0] if it[0] != "upgrade" else it for it in engine.mock_calls]

    def test_engine(self):
        """An engine is asked where a document may be of an older draft, or a dialect is given."""
        self.assertEqual(self.calls({URI: "true"}), ["add", "finish"])
        self.assertEqual(self.calls({URI: {"$schema": LATEST}}), ["add", "finish"])
        self.assertEqual(self.calls({URI: {"$schema": SEVEN}}, upgrade=False), ["add", "finish"])
        self.assertEqual(self.calls({URI: "true", OTHER: {"$schema": SEVEN}}),
                         ["add", "add", mock.call.upgrade(LATEST), "finish"])
        self.assertEqual(self.calls({URI: "true"}, default_dialect="draft-04"),
                         ["add", mock.call.upgrade("http://json-schema.org/draft-04/schema#"), "finish"])


class Refusals(LibraryCase):
    def judge(self, document, kind, place):
        refused = refusal(jschema.Schemas, [(OTHER, {"$schema": SEVEN}), (URI, document)])
        self.assertEqual((refused.subject, refused.kind, refused.place, refused.index, refused.document),
                         ("document", kind, place, 1, URI))
        self.assertFalse(refused.is_upgraded)
        return refused

    def test_before_the_upgrade(self):
        self.judge({"$schema": "https://example.com/dialect"}, "UnknownDialect", "/$schema")
        self.judge({"$schema": SEVEN, "items": [{"$ref": 1}]}, "BadKeyword", "/items/0/$ref")
        refused = self.judge({"$schema": SEVEN, "definitions": {"a/b": {"$ref": "#/definitions/c"}}}, "Unresolved",
                             "/definitions/a~1b/$ref")
        self.assertIn(f"no schema has the URI {URI}#/definitions/c", str(refused))

    def test_after_it(self):
        """The place is that in the text, also where the keyword has moved."""
        self.judge({"$schema": SEVEN, "definitions": {"a": {"items": [{"pattern": "("}]}}}, "BadPattern",
                   "/definitions/a/items/0/pattern")
        self.judge({"$schema": SEVEN, "items": [True], "additionalItems": {"minimum": "0"}}, "BadKeyword",
                   "/additionalItems/minimum")
        self.judge({"$schema": SEVEN, "dependencies": {"b": {"not": {"type": 1}}}}, "BadKeyword",
                   "/dependencies/b/not/type")
        self.judge({"$schema": "http://json-schema.org/draft-04/schema#", "minimum": "1", "exclusiveMinimum": True},
                   "BadKeyword", "/minimum")

    def test_places_that_the_text_does_not_have(self):
        engine = mock.Mock()
        engine.finish.side_effect = jschema.Refused("document", "BadKeyword", "/anyOf/1/made", 0, URI)
        refused = refusal(jschema.Schemas, {URI: {"$schema": SEVEN}}, engine=engine)
        self.assertTrue(refused.is_upgraded)
        self.assertIn(f"document {URI} at /anyOf/1/made in the upgraded document: BadKeyword", str(refused))
        engine.finish.side_effect = jschema.Refused("document", "BadKeyword", "/anyOf/1/made", 0, URI)
        refused = refusal(jschema.Schemas, {URI: "true", OTHER: {"$schema": SEVEN}}, engine=engine)
        self.assertFalse(refused.is_upgraded)


class Originals(unittest.TestCase):
    """Where the keywords of an upgraded schema come from."""

    def judge(self, draft, schema, places):
        for upgraded, place in places.items():
            with self.subTest(draft, upgraded=upgraded):
                found = original(schema, upgraded.split("/")[1:], DRAFTS.index(draft))
                self.assertEqual(found and "".join(f"/{it}" for it in found.tokens), place)

    def test_draft_07(self):
        schema = {"definitions": {"a": {"$id": "#b", "items": [{"definitions": {"items": {}}}], "additionalItems": {}}},
                  "properties": {"definitions": {"$ref": "#/definitions/a"}}, "const": {"definitions": 1},
                  "dependencies": {"c": ["d"], "e": {"items": {"type": "null"}}}}
        self.judge("draft-07", schema, {
            "": "", "/$defs/a": "/definitions/a", "/$defs/a/$anchor": "/definitions/a/$id",
            "/$defs/a/prefixItems/0/$defs/items": "/definitions/a/items/0/definitions/items",
            "/$defs/a/items": "/definitions/a/additionalItems", "/$defs/a/prefixItems/1": None,
            "/properties/definitions/$ref": "/properties/definitions/$ref", "/const/definitions": "/const/definitions",
            "/dependentRequired": "/dependencies", "/dependentRequired/c/0": "/dependencies/c",
            "/dependentSchemas/e/items/type": "/dependencies/e/items/type", "/$schema": None, "/required": None})

    def test_draft_03(self):
        schema = {"type": ["string", {"divisibleBy": 2}], "extends": {"disallow": {"type": "null"}},
                  "properties": {"a": {"required": True, "disallow": "string"}}, "maximum": 3, "exclusiveMaximum": True}
        self.judge("draft-03", schema, {
            "/anyOf": "/type", "/anyOf/0/type": "/type/0", "/anyOf/1/multipleOf": "/type/1/divisibleBy",
            "/allOf/0/not": "/extends/disallow", "/allOf/0/not/anyOf/0/type": "/extends/disallow/type",
            "/required": "/properties", "/properties/a/not/type": "/properties/a/disallow",
            "/exclusiveMaximum": "/maximum"})

    def test_2019(self):
        """`contains` stands with its limits behind two `not`s, in the first list of schemas that isn't there (2019-09
        Core 9.3.1.4), and recursive references are dynamic ones."""
        schema = {"$recursiveAnchor": True, "contains": {"type": "null"}, "minContains": 2,
                  "items": {"allOf": [{"$recursiveRef": "#"}], "contains": {"allOf": [True]}}}
        within, item = "/allOf/0/not/not", "/items/anyOf/0/not"
        self.judge("2019-09", schema, {
            "/allOf": "/contains", "/allOf/0": "/contains", "/allOf/0/not": "/contains", within: "/contains",
            f"{within}/contains/type": "/contains/type", f"{within}/minContains": "/minContains",
            f"{within}/maxContains": None, "/anyOf/0": None, "/$dynamicAnchor": "/$recursiveAnchor",
            "/items/allOf/0/$dynamicRef": "/items/allOf/0/$recursiveRef", item: "/items/contains",
            f"{item}/not/contains/allOf/0": "/items/contains/allOf/0"})
        self.judge("2020-12", schema, {"/allOf/0/not": None, "/contains/type": "/contains/type"})

    def test_dialects_within(self):
        """Below the root `$schema` counts beside an identifier of its dialect (2019-09 Core 8.1.1)."""
        within = {"items": [{}], "$schema": SEVEN}
        self.judge("2020-12", {"items": {"$id": "https://example.com/a", **within}, "not": within}, {
            "/items/prefixItems/0": "/items/items/0", "/not/prefixItems/0": None, "/items": "/items"})


class Validators(LibraryCase):
    """The calls of pip's `jsonschema`, in its words."""

    def errors(self, schema, instance, **named):
        validator = jschema.validator_for(schema, **named)
        return [(it.message, it.validator, it.validator_value) for it in validator.iter_errors(instance)]

    def test_draft_07(self):
        schema = {"$schema": SEVEN, "$id": "https://example.com/s", "items": [{"$ref": "#/definitions/a"}],
                  "additionalItems": False, "dependencies": {"a": ["b"], "c": {"required": ["d"]}},
                  "definitions": {"a": {"type": "string"}}}
        self.assertEqual(self.errors(schema, [1]), [("1 is not of type 'string'", "type", "string")])
        self.assertEqual(self.errors(schema, ["x", 2]),
                         [("Additional items are not allowed (2 was unexpected)", "items", False)])
        self.assertEqual(self.errors(schema, {"a": 1}),
                         [("'b' is a dependency of 'a'", "dependentRequired", {"a": ["b"]})])
        self.assertEqual(self.errors(schema, {"c": 1}), [("'d' is a required property", "required", ["d"])])
        self.assertEqual(self.errors(schema, ["x"]), [])

    def test_default_dialect(self):
        schema = {"properties": {"a": {"required": True, "type": ["string", {"type": "object"}]}}}
        self.assertEqual(self.errors(schema, {}, default_dialect="draft-03"),
                         [("'a' is a required property", "required", ["a"])])
        self.assertEqual(self.errors(schema, {"a": 1}, default_dialect="draft-03"),
                         [("1 is not valid under any of the given schemas", "anyOf",
                           [{"type": "string"}, {"type": "object"}])])
        four = jschema.validator_for({}, default_dialect="draft-04")
        self.assertFalse(four.evolve({"minimum": 1, "exclusiveMinimum": True}).is_valid(1))

    def test_registry(self):
        schema = {"$schema": SEVEN, "$id": "https://example.com/s", "items": {"$ref": "t#/definitions/a"}}
        registry = {OTHER: {"$schema": "http://json-schema.org/draft-04/schema#", "id": OTHER,
                            "definitions": {"a": {"maximum": 3, "exclusiveMaximum": True}}}}
        validator = jschema.validator_for(schema, registry)
        self.assertTrue(validator.is_valid([2]))
        self.assertEqual([it.message for it in validator.iter_errors([3])],
                         ["3 is greater than or equal to the maximum of 3"])

    def test_schema_error(self):
        with self.assertRaises(jschema.SchemaError) as raised:
            jschema.validator_for({"$schema": SEVEN, "items": [{"type": 1}]})
        self.assertEqual([*raised.exception.path], ["items", "0", "type"])


class Metaschemas(LibraryCase):
    """Found where another package has them, in a file each or several in one."""

    def setUp(self):
        super().setUp()
        folder = tempfile.TemporaryDirectory()
        self.addCleanup(folder.cleanup)
        vocabularies = {f"https://json-schema.org/draft/2020-12/meta/{name}": {
            "$schema": LATEST, "$id": f"https://json-schema.org/draft/2020-12/meta/{name}", "type": name}
            for name in ("object", "string")}
        files = {"draft7/metaschema.json": {"$schema": SEVEN, "$id": SEVEN, "definitions": {"a": {"type": "object"}},
                                            "$ref": "#/definitions/a"},
                 "draft2020-12.json": {"$schema": LATEST, "$id": LATEST, "allOf": [{"$ref": "meta/object"}]},
                 "vocabularies/all.json": {**vocabularies, f"{LATEST}/lost": {
                     "$schema": LATEST, "$id": f"{LATEST}/lost", "$ref": "nowhere"}},
                 "bad.json": [1]}
        for name, value in files.items():
            path = Path(folder.name, name)
            path.parent.mkdir(exist_ok=True)
            path.write_text(json.dumps(value), "utf-8")
        metaschemas._known.cache_clear()
        self.addCleanup(metaschemas._known.cache_clear)
        patched = mock.patch.object(metaschemas, "_folders", return_value=[Path(folder.name)])
        patched.start()
        self.addCleanup(patched.stop)

    def test_found(self):
        for reference in (SEVEN, SEVEN.rstrip("#"), LATEST, f"{SEVEN}/definitions/a", f"{LATEST}#/allOf/0"):
            with self.subTest(reference), jschema.Schemas({URI: {"items": {"$ref": reference}}}) as schemas:
                self.assertTrue(schemas.is_valid(URI, [{}]))
                self.assertFalse(schemas.is_valid(URI, [1]))
        with jschema.Schemas({URI: {"$ref": LATEST}}) as schemas:
            self.assertEqual(schemas.places(), [f"{URI}#", f"{LATEST}#", f"{LATEST}#/allOf/0",
                                                "https://json-schema.org/draft/2020-12/meta/object#"])

    def test_not_asked_for(self):
        with jschema.Schemas({URI: {"$schema": LATEST, "$comment": SEVEN}}) as schemas:
            self.assertEqual(schemas.places(), [f"{URI}#"])

    def test_what_is_given_counts(self):
        with jschema.Schemas({URI: {"$ref": SEVEN}, SEVEN.rstrip("#"): {"type": "null"}}) as schemas:
            self.assertTrue(schemas.is_valid(URI, None))
        with jschema.Schemas({URI: {"$id": LATEST, "$ref": "meta/object"}}) as schemas:
            self.assertFalse(schemas.is_valid(URI, 1))

    def test_without_an_upgrade(self):
        with jschema.Schemas({URI: {"$ref": LATEST}}, upgrade=False) as schemas:
            self.assertFalse(schemas.is_valid(URI, 1))
        self.assertEqual(refusal(jschema.Schemas, {URI: {"$ref": SEVEN}}, upgrade=False).kind, "Unresolved")

    def test_validator(self):
        validator = jschema.validator_for({"items": {"$ref": SEVEN}})
        self.assertEqual([it.message for it in validator.iter_errors([1])], ["1 is not of type 'object'"])


class InstalledMetaschemas(LibraryCase):
    """Those of the package that this Python has."""

    def setUp(self):
        super().setUp()
        if not metaschemas._known():
            self.skipTest("neither jsonschema-specifications nor Debian's python3-jsonschema")

    def test_each_draft(self):
        for draft, uri in zip(DRAFTS, URIS):
            with self.subTest(draft), jschema.Schemas({URI: {"$ref": uri}}) as schemas:
                self.assertTrue(schemas.is_valid(URI, {"minimum": 1, "properties": {"a": {}}}))
                self.assertFalse(schemas.is_valid(URI, {"minimum": "1"}))

    def test_recursive_reference(self):
        """It is `#` (2019-09 Core 8.2.4.2.1)."""
        with self.assertRaisesRegex(jschema.Refused, r"a \$recursiveRef of 2019-09 is `#`") as caught:
            jschema.Schemas({URI: {"$schema": URIS[4], "not": {"$recursiveRef": "#/a"}}}).close()
        self.assertEqual((caught.exception.kind, caught.exception.place), ("BadReference", "/not/$recursiveRef"))


class Program(unittest.TestCase):
    """The engine of the program: by `jschema-upgrade` beside it."""

    def setUp(self):
        folder = tempfile.TemporaryDirectory()
        self.addCleanup(folder.cleanup)
        self.folder = Path(folder.name)
        os.symlink(jschema.program.find_program(), self.folder / "jschema")

    def write(self, script):
        path = self.folder / "jschema-upgrade"
        path.write_text(f"#!/bin/sh\n{script}\n", "utf-8")
        path.chmod(stat.S_IRWXU)

    def schemas(self, documents):
        return jschema.Schemas(documents, engine=jschema.ProgramEngine(str(self.folder / "jschema")))

    def test_missing(self):
        with self.assertRaisesRegex(jschema.EngineError, "older drafts need the library .* or the program "
                                                         "jschema-upgrade beside .*/jschema$"):
            self.schemas({URI: {"$schema": SEVEN}})
        with self.schemas({URI: {"$schema": LATEST, "type": "null"}}) as schemas:
            self.assertTrue(schemas.is_valid(URI, None))

    def test_upgrade(self):
        """The files that it makes are those that are used."""
        self.write(f"""echo "$@" >{self.folder}/words
                       for it; do case $it in */?.json) cp $it $4/${{it##*/}}; esac; done
                       echo '{{"type": "string"}}' >$4/1.json""")
        with self.schemas([(URI, {"$ref": "t"}), (OTHER, {"$schema": SEVEN})]) as schemas:
            self.assertTrue(schemas.is_valid(URI, '"x"'))
            self.assertFalse(schemas.is_valid(URI, "1"))
        words = (self.folder / "words").read_text("utf-8").split()
        self.assertEqual((words[:3], words[4:6], words[7]),
                         (["--default-dialect", LATEST, "--into"], ["--", URI], OTHER))

    def test_refused(self):
        self.write("""echo '/tmp/x/1.json: refused: document 1 at "/items/0/$ref": Unresolved' >&2; exit 3""")
        refused = refusal(self.schemas, [(URI, "true"), (OTHER, {"$schema": SEVEN, "items": [{"$ref": "#/a"}]})])
        self.assertEqual((refused.kind, refused.place, refused.index, refused.document),
                         ("Unresolved", "/items/0/$ref", 1, OTHER))
        self.write("echo 'usage: ..' >&2; exit 2")
        with self.assertRaisesRegex(jschema.EngineError, "/jschema-upgrade ended with status 2: usage: .."):
            self.schemas({URI: {"$schema": SEVEN}})


OLDER = """{
  "$schema": "http://json-schema.org/draft-07/schema#",
  "definitions": {"age": {"minimum": 0}},
  "properties": {"age": {"$ref": "#/definitions/age", "maximum": 1}}
}"""


class Command(CommandCase):
    def setUp(self):
        if find_library() is None:
            self.skipTest("no library")
        self.write("draft07.json", OLDER)
        self.write("good.json", '{"age": 36}')
        self.write("bad.json", '{"age": -1}')
        self.uri = f"file://{self.folder}/draft07.json"

    def test_validate(self):
        note = "note: draft07.json: upgraded from draft-07\n"
        self.assertEqual(self.run_inside("validate", "--schema", "draft07.json", "good.json"),
                         ("", f"{note}1 valid, 0 invalid\n", 0))
        self.assertEqual(self.run_inside("validate", "--format", "short", "draft07.json", "bad.json"),
                         (f"bad.json:1:9: less than 0 (/age; minimum, {self.uri}#/definitions/age/minimum)\n",
                          f"{note}0 valid, 1 invalid (1 error)\n", 1))
        self.assertEqual(self.run_inside("validate", "--format", "flag", "draft07.json", "good.json", "bad.json"),
                         ('{"valid":true}\n{"valid":false}\n', note, 1))

    def test_place_of_the_keyword(self):
        out, said, status = self.run_inside("validate", "--format", "json", "draft07.json", "bad.json")
        self.assertEqual((said, status), ("note: draft07.json: upgraded from draft-07\n", 1))
        [error] = json.loads(out)[0]["errors"]
        self.assertEqual((error["schema"], error["absoluteKeywordLocation"], error["upgradedLocation"]),
                         ({"file": "draft07.json", "line": 3, "column": 27},
                          f"{self.uri}#/definitions/age/minimum", f"{self.uri}#/$defs/age/minimum"))
        out, _, _ = self.run_inside("validate", "draft07.json", "bad.json")
        self.assertIn(f"  = draft07.json:3:27: minimum\n  = {self.uri}#/definitions/age/minimum\n", out)
        self.assertNotIn("$defs", out)

    def test_no_upgrade(self):
        self.assertEqual(self.run_inside("validate", "--no-upgrade", "--format", "short", "draft07.json", "good.json"),
                         ("", "draft07.json:2:14: refused: $schema isn't https://json-schema.org/draft/2020-12/schema "
                          "(/$schema; UnknownDialect)\n", 3))

    def test_default_dialect(self):
        self.write("four.json", '{"properties": {"age": {"minimum": 0, "exclusiveMinimum": true}}}')
        self.write("zero.json", '{"age": 0}')
        for name in ("draft-04", "http://json-schema.org/draft-04/schema#"):
            _, said, status = self.run_inside("validate", "--default-dialect", name, "--format", "flag", "four.json",
                                              "zero.json")
            self.assertEqual((said, status), ("note: four.json: upgraded from draft-04\n", 1))
        self.assertEqual(self.run_inside("validate", "four.json", "zero.json")[2], 3)

    def test_several(self):
        self.write("a.json", json.dumps({"$schema": SEVEN, "$ref": "b.json#/definitions/c"}))
        self.write("b.json", json.dumps({"$schema": SEVEN, "definitions": {"c": {"type": "null"}}}))
        _, said, status = self.run_inside("validate", "--format", "flag", "a.json", "good.json")
        self.assertEqual((said, status), ("note: a.json: upgraded from draft-07 (and 1 other document)\n", 1))

    def test_own_uri(self):
        """In draft-04 a document's URI is its `id`; one beside it that refers to that is found by it."""
        self.write("id.json", json.dumps({"$schema": "http://json-schema.org/draft-04/schema#", "type": "null",
                                          "id": "https://example.com/id#"}))
        out, _, status = self.run_inside("validate", "--format", "short", "id.json", "good.json")
        self.assertEqual((out, status),
                         ("good.json:1:1: type is object (root; type, https://example.com/id#/type)\n", 1))

    def test_misuse(self):
        for words in (["--default-dialect", "draft-05"], ["--default-dialect", "draft-07", "--no-upgrade"]):
            out, said, status = self.run_inside("validate", *words, "draft07.json", "good.json")
            self.assertEqual((out, status), ("", 2))
            self.assertIn("dialect", said)


if __name__ == "__main__":
    unittest.main()
