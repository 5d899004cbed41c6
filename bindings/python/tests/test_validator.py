"""The calls of pip's `jsonschema` for one schema: `validator_for`."""
import json
import os
import pickle
import threading
import unittest
from collections import deque

import jschema

try:
    import referencing
    import referencing.jsonschema
except ImportError:
    referencing = None

PERSON = {"$id": "https://example.com/person", "type": "object", "required": ["name", "age"],
          "properties": {"name": {"type": "string"}, "age": {"minimum": 0}}}


def errors(schema, instance, registry=None):
    return list(jschema.validator_for(schema, registry).iter_errors(instance))


class Calls(unittest.TestCase):
    def test_is_valid(self):
        validator = jschema.validator_for(PERSON)
        self.assertTrue(validator.is_valid({"name": "Ada", "age": 36}))
        self.assertFalse(validator.is_valid({"name": "Ada", "age": -1}))
        self.assertEqual(validator.schema, PERSON)

    def test_a_string_is_a_string(self):
        """A str is a value here, and not a JSON text."""
        validator = jschema.validator_for({"type": "string", "maxLength": 2})
        for instance, valid in (("1", True), ("{}", True), ("", True), ("abc", False), (1, False), (None, False)):
            self.assertEqual(validator.is_valid(instance), valid)
        for instance in (b"{}", bytearray(b"1"), memoryview(b"1"), {1}, object()):
            self.assertRaises(TypeError, validator.is_valid, instance)

    def test_schemas(self):
        for schema, valid in ((True, True), (False, False), ({}, True)):
            self.assertEqual(jschema.validator_for(schema).is_valid(1), valid)
        for schema in ("{}", b"{}", 1, None, [], object()):
            self.assertRaises((TypeError, jschema.SchemaError), jschema.validator_for, schema)

    def test_validate(self):
        jschema.validator_for(PERSON).validate({"name": "Ada", "age": 36})
        with self.assertRaises(jschema.ValidationError) as raised:
            jschema.validate({"name": 1, "age": -1}, PERSON)
        self.assertEqual(raised.exception.message, "1 is not of type 'string'")
        self.assertEqual(str(raised.exception), "1 is not of type 'string'\n\nFailed validating 'type' in schema"
                         "['properties']['name']:\n    {'type': 'string'}\n\nOn instance['name']:\n    1")

    def test_schema_errors(self):
        for schema, kind, path in (({"type": 1}, "BadKeyword", ["type"]), ({"items": [{}]}, "NotASchema", ["items"]),
                                   ({"pattern": "("}, "BadPattern", ["pattern"]),
                                   ({"minimum": 1.5}, "NotWhole", ["minimum"]),
                                   ({"$ref": "#/none"}, "Unresolved", ["$ref"])):
            with self.subTest(schema), self.assertRaises(jschema.SchemaError) as raised:
                jschema.validator_for(schema)
            error = raised.exception
            self.assertEqual((error.kind, error.path), (kind, deque(path)))
            self.assertIn(kind, error.message)
            self.assertIsInstance(error, jschema.Refused)

    def test_check_schema(self):
        jschema.Validator.check_schema(PERSON)
        jschema.Validator.check_schema({"$ref": "https://example.com/other"})
        for schema in ({"type": 1}, {"$ref": "https://example.com/other", "minimum": "0"}):
            self.assertRaises(jschema.SchemaError, jschema.Validator.check_schema, schema)

    def test_refused(self):
        with self.assertRaises(jschema.Refused) as raised:
            jschema.validator_for({}).is_valid({"a": 1.5})
        self.assertEqual((raised.exception.kind, raised.exception.place), ("NotWhole", "/a"))


class Errors(unittest.TestCase):
    def test_each_missing_member(self):
        found = errors(PERSON, {})
        self.assertEqual([it.message for it in found],
                         ["'name' is a required property", "'age' is a required property"])
        self.assertEqual({it.validator for it in found}, {"required"})
        found = errors({"dependentRequired": {"a": ["b", "c"], "d": ["e"]}}, {"a": 1, "b": 1})
        self.assertEqual([it.message for it in found], ["'c' is a dependency of 'a'"])

    def test_members_that_there_may_not_be(self):
        schema = {"properties": {"a": {"additionalProperties": False}}, "additionalProperties": False}
        found = errors(schema, {"a": {"x": 1, "y": 2}, "b": 1})
        self.assertEqual([(it.message, [*it.path]) for it in found],
                         [("Additional properties are not allowed ('b' was unexpected)", []),
                          ("Additional properties are not allowed ('x', 'y' were unexpected)", ["a"])])
        [error] = errors({"prefixItems": [{}], "items": False}, [1, 2, 3])
        self.assertEqual((error.message, [*error.path]), ("Expected at most 1 item but found 2 extra: [2, 3]", []))

    def test_context(self):
        schema = {"properties": {"a": {"anyOf": [{"type": "string"}, {"items": {"minimum": 5}}]}}}
        [error] = errors(schema, {"a": [7, 1]})
        self.assertEqual((error.validator, error.validator_value, error.instance, error.schema),
                         ("anyOf", schema["properties"]["a"]["anyOf"], [7, 1], schema["properties"]["a"]))
        self.assertIsNone(error.parent)
        first, second = error.context
        self.assertIs(second.parent, error)
        self.assertEqual([(it.message, [*it.path], [*it.absolute_path], [*it.schema_path], [*it.absolute_schema_path])
                          for it in (first, second)],
                         [("[7, 1] is not of type 'string'", [], ["a"], [0, "type"],
                           ["properties", "a", "anyOf", 0, "type"]),
                          ("1 is less than the minimum of 5", [1], ["a", 1], [1, "items", "minimum"],
                           ["properties", "a", "anyOf", 1, "items", "minimum"])])
        self.assertEqual(second.json_path, "$.a[1]")

    def test_references_and_places(self):
        """Paths leave references out, as pip's have them; the locations of the standard don't."""
        schema = {"$ref": "#/$defs/a", "$defs": {"a": {"properties": {"b c": {"type": "null"}}}}}
        [error] = errors(schema, {"b c": 1})
        self.assertEqual([*error.schema_path], ["properties", "b c", "type"])
        self.assertEqual(error.keyword_location, "/$ref/properties/b c/type")
        self.assertEqual((error.instance_location, error.json_path), ("/b c", "$['b c']"))
        self.assertEqual(error.position.column, 9)

    def test_false(self):
        [error] = errors({"properties": {"a": False}}, {"a": 1})
        self.assertEqual((error.message, error.validator, error.validator_value, error.schema, error.instance),
                         ("False schema does not allow 1", None, None, False, 1))

    def test_names(self):
        [error] = errors({"properties": {"a": {"propertyNames": {"maxLength": 1}}}}, {"a": {"bc": 1}})
        self.assertEqual((error.message, [*error.path], error.instance), ("'bc' is too long", ["a"], "bc"))

    def test_one_of(self):
        [error] = errors({"oneOf": [{"type": "integer"}, {"type": "string"}, {"minimum": 0}]}, 1)
        self.assertEqual(error.message, "1 is valid under each of {'minimum': 0}, {'type': 'integer'}")

    def test_the_instance_itself(self):
        instance = {"a": [{"b": (1, 2)}]}
        [error] = errors({"properties": {"a": {"items": {"properties": {"b": {"type": "object"}}}}}}, instance)
        self.assertIs(error.instance, instance["a"][0]["b"])

    def test_pickle(self):
        [error] = errors({"anyOf": [{"type": "string"}]}, 1)
        again = pickle.loads(pickle.dumps(error))
        self.assertEqual((again.message, again.context[0].message, again.context[0].parent),
                         (error.message, error.context[0].message, again))


class BestMatch(unittest.TestCase):
    """By the words of pip's documentation: high up in the instance, but for `anyOf` and `oneOf` deep."""

    def best(self, schema, instance):
        error = jschema.best_match(jschema.validator_for(schema).iter_errors(instance))
        return None if error is None else (error.validator, [*error.absolute_path])

    def test_matches(self):
        deep = {"properties": {"a": {"properties": {"b": {"type": "string"}}}}}
        for schema, instance, expected in (
                ({}, 1, None), ({**deep, "minProperties": 2}, {"a": {"b": 1}}, ("minProperties", [])),
                ({"anyOf": [{"type": "string"}, {"type": "number"}], "minProperties": 2}, {}, ("minProperties", [])),
                ({"anyOf": [{"type": "string"}, deep]}, {"a": {"b": 1}}, ("type", ["a", "b"])),
                ({"oneOf": [{"type": "array", "minItems": 2}, {"type": "string"}]}, [1], ("minItems", []))):
            with self.subTest(schema):
                self.assertEqual(self.best(schema, instance), expected)


class Registries(unittest.TestCase):
    STRING = {"type": "string"}

    def test_mapping(self):
        for registry in ({"https://example.com/s": self.STRING}, {"https://example.com/s#": self.STRING}):
            validator = jschema.validator_for({"$ref": "https://example.com/s"}, registry)
            self.assertEqual((validator.is_valid("a"), validator.is_valid(1)), (True, False))
        registry = {"a": {"$ref": "b/c"}, "b/c": {"$ref": "../d"}, "d": {"$defs": {"e": {"$id": "f", "$ref": "d#g"}}},
                    "unused": {"type": 1}}
        with self.assertRaises(jschema.SchemaError) as raised:
            jschema.validator_for({"$ref": "a"}, {**registry, "d": {"$ref": "none"}})
        self.assertEqual(raised.exception.kind, "Unresolved")
        self.assertTrue(jschema.validator_for({"$ref": "a"}, {**registry, "d": True}).is_valid(1))

    @unittest.skipUnless(referencing, "needs referencing")
    def test_registry(self):
        """Of a Registry those are taken that are referred to, also by the call that retrieves others."""
        draft = referencing.jsonschema.DRAFT202012
        resources = [(uri, draft.create_resource(schema)) for uri, schema in (
            ("https://example.com/s", {"$ref": "t"}), ("https://example.com/u", {"type": 1}))]
        asked = []

        def retrieve(uri):
            asked.append(uri)
            return draft.create_resource(self.STRING)

        registry = referencing.Registry(retrieve=retrieve).with_resources(resources)
        validator = jschema.validator_for({"$ref": "https://example.com/s"}, registry=registry)
        self.assertEqual((validator.is_valid("a"), validator.is_valid(1)), (True, False))
        self.assertEqual(asked, ["https://example.com/t"])
        self.assertRaises(jschema.SchemaError, jschema.validator_for, {"$ref": "https://example.com/s"},
                          registry=referencing.Registry().with_resources(resources))


class Sharing(unittest.TestCase):
    def test_threads(self):
        validator = jschema.validator_for(PERSON)
        wrong = []

        def check(number):
            for age in range(-20, 20):
                if validator.is_valid({"name": str(number), "age": age}) != (age >= 0):
                    wrong.append(age)

        threads = [threading.Thread(target=check, args=(number,)) for number in range(8)]
        for thread in threads:
            thread.start()
        for thread in threads:
            thread.join()
        self.assertEqual(wrong, [])

    def test_fork(self):
        """A child checks with what its parent has made, while the parent checks too."""
        validator = jschema.validator_for(PERSON)
        validator.is_valid({})
        read, write = os.pipe()
        child = os.fork()
        if not child:
            try:
                found = [[it.message for it in validator.iter_errors({"name": 1})], validator.is_valid({"name": "A"})]
                os.write(write, json.dumps(found).encode())
            finally:
                os._exit(0)
        self.assertFalse(validator.is_valid({}))
        os.close(write)
        with open(read, "rb") as file:
            found = json.loads(file.read())
        os.waitpid(child, 0)
        self.assertEqual(found, [["1 is not of type 'string'", "'age' is a required property"], False])
