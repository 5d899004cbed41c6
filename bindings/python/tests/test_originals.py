"""The places of errors in documents of older drafts, and the documents that these become."""
import json
import pickle
import unittest
from unittest import mock

import jschema
from commands import Case as CommandCase
from jschema.dialects import DRAFTS, URIS
from jschema.library import find_library
from jschema.program import find_program, find_upgrader

URI, OTHER = "https://example.com/s", "https://example.com/t"
LATEST = URIS[-1]

# Of each draft a schema, an instance, and the keyword of its first error there and in the upgraded schema.
PLACES = {
    "draft-03": [
        ({"type": ["string", {"type": "null"}]}, 1, "/type", "/anyOf"),
        ({"not": False, "extends": {"type": [{"type": "null"}]}}, 1, "/extends/type", "/allOf/0/anyOf"),
        ({"properties": {"a": {"required": True}}}, {}, "/properties", "/required"),
        ({"divisibleBy": 2}, 3, "/divisibleBy", "/multipleOf"),
        ({"extends": {"maximum": 3}}, 4, "/extends/maximum", "/allOf/0/maximum"),
        ({"disallow": ["string"]}, "x", "/disallow", "/not"),
        ({"dependencies": {"a": "b"}}, {"a": 1}, "/dependencies", "/dependentRequired"),
    ],
    "draft-04": [
        ({"maximum": 3, "exclusiveMaximum": True}, 3, "/maximum", "/exclusiveMaximum"),
        ({"items": [{"type": "null"}]}, [1], "/items/0/type", "/prefixItems/0/type"),
        ({"items": [{}], "additionalItems": {"minimum": 2}}, [1, 1], "/additionalItems/minimum", "/items/minimum"),
    ],
    "draft-06": [
        ({"definitions": {"a b~/%": {"const": 1}}, "items": {"$ref": "#/definitions/a%20b~0~1%25"}}, [2],
         "/definitions/a%20b~0~1%25/const", "/$defs/a%20b~0~1%25/const"),
    ],
    "draft-07": [
        ({"dependencies": {"a": {"minProperties": 2}}}, {"a": 1}, "/dependencies/a/minProperties",
         "/dependentSchemas/a/minProperties"),
        ({"if": True, "then": {"not": {}}}, 1, "/then/not", "/then/not"),
        ({"components": {"a": {"items": [{"type": "null"}]}}, "items": {"$ref": "#/components/a"}}, [[1]],
         "/components/a/items/0/type", "/$defs/~1components~1a/prefixItems/0/type"),
        ({"$defs": {"a": {"minimum": 2}}, "items": {"$ref": "#/$defs/a"}}, [1], "/$defs/a/minimum",
         "/$defs/a/minimum"),
    ],
    "2019-09": [
        ({"items": [False]}, [1], "/items/0", "/prefixItems/0"),
        ({"x": {"type": "null"}, "$ref": "#/x"}, 1, "/x/type", "/$defs/~1x/type"),
        ({"$defs": {"a": {"type": "null"}}, "$ref": "#/$defs/a"}, 1, "/$defs/a/type", "/$defs/a/type"),
    ],
    "2020-12": [
        ({"prefixItems": [False], "items": {"type": "null"}}, [1], "/prefixItems/0", "/prefixItems/0"),
    ],
}


class Places(unittest.TestCase):
    def setUp(self):
        if find_library() is None and find_upgrader(find_program()) is None:
            self.skipTest("neither the library nor the program jschema-upgrade")

    def judge(self, documents, instance, expected, **named):
        with jschema.Schemas(documents, **named) as schemas:
            errors = schemas.errors(URI, json.dumps(instance))
            found = [(it.absolute_keyword_location, it.upgraded_location) for it in errors]
            self.assertEqual(found[:len(expected)], expected)
            self.assertEqual([schemas.original_location(it) for _, it in expected], [it for it, _ in expected])
            return errors

    def test_drafts(self):
        for draft, rows in PLACES.items():
            for schema, instance, place, upgraded in rows:
                with self.subTest(draft, place=place):
                    expected = [(f"{URI}#{place}", f"{URI}#{upgraded}")]
                    self.judge({URI: {"$schema": URIS[DRAFTS.index(draft)], **schema}}, instance, expected)
                    self.judge({URI: schema}, instance, expected, default_dialect=draft)

    def test_documents(self):
        """Also of another document, and of a schema with an identifier, whose places start from there."""
        documents = {URI: {"$schema": URIS[3], "items": {"$ref": f"{OTHER}#/definitions/a"},
                           "definitions": {"b": {"$id": "u", "items": [{"type": "null"}]}}, "not": {"$ref": "u"}},
                     OTHER: {"$schema": URIS[1], "definitions": {"a": {"minimum": 0, "exclusiveMinimum": True}}}}
        self.judge(documents, [None, 0], [
            (f"{OTHER}#/definitions/a/minimum", f"{OTHER}#/$defs/a/exclusiveMinimum"), (f"{URI}#/not", f"{URI}#/not")])
        documents[URI] = {**documents[URI], "not": False, "items": {"$ref": "u"}}
        self.judge(documents, [[1]], [
            ("https://example.com/u#/items/0/type", "https://example.com/u#/prefixItems/0/type")])

    def test_nothing_of_it(self):
        """What no keyword of the document becomes stays."""
        with jschema.Schemas({URI: {"$schema": URIS[3], "items": [True]}}) as schemas:
            for location in (f"{URI}#/$defs/none/type", f"{OTHER}#/items", f"{URI}#"):
                self.assertEqual(schemas.original_location(location), location)

    def test_error(self):
        """It can be pickled, and says where it is in the document's own words."""
        [error] = self.judge({URI: {"$schema": URIS[3], "dependencies": {"a": ["b"]}}}, {"a": 1},
                             [(f"{URI}#/dependencies", f"{URI}#/dependentRequired")])
        self.assertIn(f"{URI}#/dependencies)", str(error))
        copied = pickle.loads(pickle.dumps(error))
        self.assertEqual((copied.absolute_keyword_location, copied.upgraded_location),
                         (error.absolute_keyword_location, error.upgraded_location))
        plain = jschema.ValidationError("m", "", "/type", f"{URI}#/type", error.text)
        self.assertEqual(plain.upgraded_location, f"{URI}#/type")

    def test_validator(self):
        validator = jschema.validator_for({"$schema": URIS[1], "id": URI, "definitions": {
            "a": {"anyOf": [{"maximum": 3, "exclusiveMaximum": True}]}}, "items": {"$ref": "#/definitions/a"}})
        [error] = validator.iter_errors([3])
        self.assertEqual((error.absolute_keyword_location, error.upgraded_location),
                         (f"{URI}#/definitions/a/anyOf", f"{URI}#/$defs/a/anyOf"))
        self.assertEqual([it.absolute_keyword_location for it in error.context],
                         [f"{URI}#/definitions/a/anyOf/0/maximum"])


class Contains(unittest.TestCase):
    """`contains` of 2019-09, which evaluates no items: what an engine says of the upgraded schema."""

    def test_error(self):
        schema = {"$schema": URIS[4], "contains": {"const": 1}, "allOf": [True]}
        node = {"valid": False, "keywordLocation": "/anyOf/0/not", "instanceLocation": "", "error": "not met",
                "absoluteKeywordLocation": f"{URI}#/anyOf/0/not"}
        tree = {"valid": False, "keywordLocation": "", "instanceLocation": "", "absoluteKeywordLocation": f"{URI}#",
                "errors": [node]}
        engine = mock.Mock(**{"is_valid.return_value": False, "locate.return_value": None,
                              "check.return_value": jschema.Answer(False, json.dumps(tree).encode())})
        [error] = jschema.Validator({**schema, "$id": URI}, engine=engine).iter_errors([2])
        self.assertEqual((error.message, error.validator, error.validator_value, error.schema["allOf"]),
                         ("[2] does not contain items matching the given schema", "contains", {"const": 1}, [True]))
        self.assertEqual((error.absolute_keyword_location, error.upgraded_location),
                         (f"{URI}#/contains", f"{URI}#/anyOf/0/not"))


class Command(CommandCase):
    def setUp(self):
        if find_library() is None:
            self.skipTest("no library")

    def test_reports(self):
        """No report names a place that the file doesn't have, but beside the one that it has."""
        self.write("seven.json", json.dumps({"$schema": URIS[3], "$id": URI, "definitions": {"a": {"minimum": 0}},
                                             "items": {"$ref": "#/definitions/a"}}))
        self.write("list.json", "[-1]")
        for format in ("text", "short", "github", "html", "junit"):
            out, _, _ = self.run_inside("validate", "--format", format, "seven.json", "list.json")
            self.assertIn(f"{URI}#/definitions/a/minimum", out)
            self.assertNotIn("$defs", out)
        out, _, _ = self.run_inside("validate", "--format", "sarif", "seven.json", "list.json")
        [found] = json.loads(out)["runs"][0]["results"]
        self.assertEqual({name: it for name, it in found["properties"].items() if "#" in it},
                         {"absoluteKeywordLocation": f"{URI}#/definitions/a/minimum",
                          "upgradedLocation": f"{URI}#/$defs/a/minimum"})

    def test_format_warning(self):
        self.write("addresses.json", json.dumps({"$schema": URIS[3], "$id": URI, "items": {"$ref": "#/definitions/a"},
                                                 "definitions": {"a": {"format": "ipv4"}}}))
        self.write("list.json", '["x"]')
        out, _, _ = self.run_inside("validate", "--formats", "--format", "json", "addresses.json", "list.json")
        [warning] = json.loads(out)[0]["warnings"]
        self.assertEqual(warning["absoluteKeywordLocation"], f"{URI}#/definitions/a/format")


class Upgraded(unittest.TestCase):
    """`jschema.upgrade`, by the library or the program."""

    def setUp(self):
        if find_library() is None and find_upgrader(find_program()) is None:
            self.skipTest("no library, and no program jschema-upgrade")

    def judge(self, documents, expected, **named):
        found = jschema.upgrade(documents, **named)
        self.assertEqual([(uri, json.loads(text)) for uri, text in found.items()], expected)
        return found

    def test_together(self):
        """In their order, and references by where their targets stand then."""
        four = {"$schema": URIS[1], "definitions": {"a": {"minimum": 3, "exclusiveMinimum": True}}}
        found = self.judge([(OTHER, {"$schema": URIS[3], "items": [{"$ref": "s#/definitions/a"}]}), (URI, four)],
                           [(OTHER, {"$schema": LATEST, "prefixItems": [{"$ref": "s#/$defs/a"}]}),
                            (URI, {"$schema": LATEST, "$defs": {"a": {"exclusiveMinimum": 3}}})])
        with jschema.Schemas(found, upgrade=False) as schemas:
            self.assertEqual([schemas.is_valid(OTHER, [it]) for it in (3, 4)], [False, True])
        self.assertEqual(jschema.upgrade(found), found)

    def test_the_latest_stays(self):
        text = b'{"$defs":{"a":{}},"$schema":"%s","items":{"$ref":"#/$defs/a"}}' % LATEST.encode()
        self.assertEqual(jschema.upgrade({URI: text})[URI].rstrip(), text)
        self.assertEqual(jschema.upgrade({URI: True, OTHER: "{}"}), {URI: b"true\n", OTHER: b"{}\n"})
        self.assertEqual(jschema.upgrade({}), {})

    def test_default_dialect(self):
        self.judge({URI: {"divisibleBy": 2}}, [(URI, {"$schema": LATEST, "multipleOf": 2})], default_dialect="draft-03")
        with self.assertRaisesRegex(ValueError, "no dialect"):
            jschema.upgrade({URI: True}, default_dialect="draft-05")

    def test_refused(self):
        documents = {OTHER: True, URI: {"$schema": URIS[3], "items": {"$ref": "#/definitions/none"}}}
        with self.assertRaises(jschema.Refused) as raised:
            jschema.upgrade(documents)
        refused = raised.exception
        self.assertEqual((refused.kind, refused.place, refused.index, refused.document, refused.is_upgraded),
                         ("Unresolved", "/items/$ref", 1, URI, False))
        self.assertIn(f"no schema has the URI {URI}#/definitions/none", str(refused))
        with self.assertRaisesRegex(TypeError, "a schema document is a JSON text"):
            jschema.upgrade({URI: 1})
