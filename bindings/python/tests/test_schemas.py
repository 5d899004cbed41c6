"""What `Schemas` promises beside the rows: instances, errors, refusals, engines."""
import json
import math
import os
import pickle
import unittest
from collections import OrderedDict
from concurrent.futures import ThreadPoolExecutor
from enum import IntEnum
from unittest import mock

import jschema
from jschema.library import find_library
from jschema.outputs import without_recursion

URI = "https://example.com/s"
SCHEMA = """{
  "properties": {
    "a/b~c": {"items": {"type": "integer"}},
    "0": {"minimum": 1},
    "allOf": {"allOf": [true, {"type": "null"}]},
    "not": {"properties": {"properties": false}},
    "no": false
  },
  "propertyNames": {"maxLength": 5}
}"""


class Bytes(bytes):
    """Bytes of a subclass."""


class Name(str):
    """A str of a subclass."""


class Number(IntEnum):
    """An int of a subclass."""

    ONE = 1


def refusal(call, *arguments):
    """What a refused call carries."""
    try:
        call(*arguments)
    except jschema.Refused as refused:
        return refused.subject, refused.kind, refused.place, refused.index, refused.document
    raise AssertionError("it isn't refused")


class Answers(unittest.TestCase):
    @classmethod
    def setUpClass(cls):
        cls.schemas = jschema.Schemas({URI: SCHEMA})
        cls.addClassCleanup(cls.schemas.close)

    def only_error(self, instance):
        [error] = self.schemas.errors(URI, instance)
        return error

    def test_instances(self):
        for valid, invalid in ((b'{"0": 1}', b'{"0": 0}'), (bytearray(b"1"), bytearray(b'{"0": 0}')),
                               (memoryview(b"1"), memoryview(b'{"0": 0}')), ('{"0": 1}', '{"0": 0}'),
                               ({"0": 1}, {"0": 0}), ([None, True, "\x00\"é\U0001f600"], {"a/b~c": (1, "\\")}),
                               (2**64 - 1, {"0": -2**63}), (None, {"no": None}),
                               (Bytes(b"1"), Bytes(b'{"0": 0}')),
                               (OrderedDict({Name("0"): Number.ONE}), {Name("no"): OrderedDict()}),
                               ([Name(""), (True, Number.ONE)], {"no": Number.ONE})):
            with self.subTest(valid):
                self.assertTrue(self.schemas.is_valid(URI, valid))
                self.assertFalse(self.schemas.is_valid(URI, invalid))

    def test_values_out_of_the_profile(self):
        for value, kind, place in ((1.0, "NotWhole", ""), ({"b": [1, 0.5], "c": 0.5}, "NotWhole", "/b/1"),
                                   ({"b": 0.5, "a/~": math.nan}, "NotWhole", "/a~1~0"), (2**64, "NotWhole", ""),
                                   (-2**63 - 1, "NotWhole", ""), (["\ud800"], "NotJson", "")):
            with self.subTest(value):
                self.assertEqual(refusal(self.schemas.is_valid, URI, value), ("instance", kind, place, None, None))
        for begun, add in (([], lambda it: [it]), ({}, lambda it: {"a": it}), ((), lambda it: (0, it)),
                           (OrderedDict(), lambda it: [it])):
            deep = begun
            for _ in range(126):
                deep = add(deep)
            with self.subTest(type(begun)):
                self.assertTrue(self.schemas.is_valid(URI, deep))
                self.assertEqual(refusal(self.schemas.is_valid, URI, add(deep)),
                                 ("instance", "NotJson", "", None, None))

    def test_value_in_itself(self):
        value = []
        value += [value, value]
        self.assertEqual(refusal(self.schemas.is_valid, URI, value), ("instance", "NotJson", "", None, None))

    def test_values_that_json_does_not_have(self):
        for value in ({1: 2}, {True: 1}, {1, 2}, [object()], {"a": b"1"}, [{"a": 1, 2: 1}], OrderedDict({1: 2})):
            with self.subTest(value), self.assertRaises(TypeError):
                self.schemas.is_valid(URI, value)

    def test_paths(self):
        for instance, path, schema_path, keyword, column in (
                ('{"a/b~c": [0, ""]}', ["a/b~c", 1], ["properties", "a/b~c", "items", "type"], "type", 15),
                ('{"0": 0}', ["0"], ["properties", "0", "minimum"], "minimum", 7),
                ('{"allOf": 0}', ["allOf"], ["properties", "allOf", "allOf", 1, "type"], "type", 11),
                ('{"not": {"properties": 1}}', ["not", "properties"],
                 ["properties", "not", "properties", "properties"], "false", 24),
                ('{"é": 1, "longer": 1}', ["longer"], ["propertyNames", "maxLength"], "maxLength", 10)):
            with self.subTest(instance):
                error = self.only_error(instance)
                self.assertEqual((error.path, error.schema_path, error.keyword), (path, schema_path, keyword))
                self.assertEqual(error.position[1:], (1, column))
                self.assertEqual([type(it) for it in error.path], [type(it) for it in path])

    def test_error(self):
        error = self.only_error('{"0": 0}')
        self.assertEqual(str(error), f"less than 1 (at /0; {URI}#/properties/0/minimum)")
        self.assertEqual((error.message, error.instance_location, error.keyword_location,
                          error.absolute_keyword_location),
                         ("less than 1", "/0", "/properties/0/minimum", f"{URI}#/properties/0/minimum"))

    def test_validate(self):
        self.assertIsNone(self.schemas.validate(URI, 1))
        with self.assertRaises(jschema.ValidationError) as raised:
            self.schemas.validate(URI, {"0": 0, "a/b~c": [""]})
        self.assertEqual(raised.exception.path, ["a/b~c", 0])

    def test_no_errors(self):
        self.assertEqual(self.schemas.errors(URI, 1), [])
        self.assertEqual(list(self.schemas.iter_errors(URI, {"0": 0, "no": 1}))[1].path, ["no"])

    def test_output(self):
        self.assertEqual(self.schemas.output(URI, {"0": 0}, format="flag"), {"valid": False})
        self.assertEqual(self.schemas.output(URI, {"0": 0}),
                         {"valid": False, "errors": [{
                             "valid": False, "error": "less than 1", "instanceLocation": "/0",
                             "keywordLocation": "/properties/0/minimum",
                             "absoluteKeywordLocation": f"{URI}#/properties/0/minimum"}]})
        with self.assertRaisesRegex(ValueError, "no format 'json': it is one of flag, basic,"):
            self.schemas.output(URI, 1, format="json")

    def test_deep_output(self):
        """The verbose output of many nested schemas, which is deeper than Python's reader goes."""
        depth = 250
        names = {f"s{number}": {"not": {"$ref": f"#/$defs/s{number + 1}"}} for number in range(depth)}
        document = {"$ref": "#/$defs/s0", "$defs": {**names, f"s{depth}": {"type": "null"}}}
        with jschema.Schemas({URI: json.dumps(document)}) as schemas:
            node = schemas.output(URI, 1, format="verbose")
        count = 0
        while children := node.get("errors", node.get("annotations")):
            [node] = children
            count += 1
        self.assertEqual((node["error"], count), ("type is integer", 4 * depth + 3))

    def test_reader_without_recursion(self):
        text = self.schemas.output_text(URI, {"0": 0, "a/b~c": ["", 1]}, format="verbose")
        self.assertEqual(without_recursion(text), json.loads(text))

    def test_places(self):
        self.assertIn(f"{URI}#/properties/a~1b~0c/items", self.schemas.places())
        self.assertTrue(self.schemas.is_valid(f"{URI}#/properties/0", 1))

    def test_threads(self):
        instances = [{"0": number % 3} for number in range(48)]
        with ThreadPoolExecutor(8) as pool:
            found = list(pool.map(lambda it: (self.schemas.is_valid(URI, it), not self.schemas.errors(URI, it)),
                                  instances))
        self.assertEqual(found, [(it["0"] > 0, it["0"] > 0) for it in instances])


class Refusals(unittest.TestCase):
    def test_documents(self):
        other = "https://example.com/t"
        self.assertEqual(refusal(jschema.Schemas, {URI: b"1.5"}), ("document", "NotWhole", "", 0, URI))
        self.assertEqual(refusal(jschema.Schemas, {URI: "true", other: '{"not": {"a\\"/": 1, "type": []}}'}),
                         ("document", "BadKeyword", "/not/type", 1, other))
        self.assertEqual(refusal(jschema.Schemas, [(URI, "true"), (URI, "true")]),
                         ("document", "DuplicateUri", "", 1, URI))
        self.assertEqual(refusal(jschema.Schemas, {"-x": "true"}), ("document", "BadUri", "", 0, "-x"))

    def test_others(self):
        with jschema.Schemas({URI: '{"$ref": "#"}'}) as schemas:
            self.assertEqual(refusal(schemas.is_valid, URI + "s", 1), ("entry", "Unresolved", None, None, None))
            self.assertEqual(refusal(schemas.is_valid, URI, 1), ("walk", "TooLarge", None, None, None))
            self.assertEqual(refusal(schemas.is_valid, URI, b'{"a\\nb": 0.5}'),
                             ("instance", "NotWhole", "/a\nb", None, None))
            self.assertEqual(refusal(schemas.is_valid, URI, b" " * (2**24 + 1)),
                             ("input", "InputTooLarge", None, None, None))

    def test_message(self):
        with self.assertRaises(jschema.Refused) as raised:
            jschema.Schemas({URI: '{"type": 1}'})
        self.assertEqual(str(raised.exception),
                         f"document {URI} at /type: BadKeyword: the keyword's value has the wrong form")
        again = pickle.loads(pickle.dumps(raised.exception))
        self.assertEqual((str(again), again.place), (str(raised.exception), "/type"))


class Protocol(unittest.TestCase):
    def test_context_manager(self):
        with jschema.Schemas({URI: "true"}) as schemas:
            self.assertTrue(schemas.is_valid(URI, 1))
        schemas.close()
        with self.assertRaisesRegex(ValueError, "these Schemas are closed"):
            schemas.is_valid(URI, 1)

    def test_pickling(self):
        with jschema.Schemas({URI: "true"}) as schemas, \
                self.assertRaisesRegex(TypeError, "Schemas can't be pickled: send the documents"):
            pickle.dumps(schemas)

    def test_engine_is_closed_when_documents_are_refused(self):
        engine = mock.Mock()
        engine.finish.side_effect = jschema.Refused("document", "Unresolved", "/$ref", 0, URI)
        with self.assertRaises(jschema.Refused):
            jschema.Schemas({URI: "true"}, engine=engine)
        self.assertEqual(engine.mock_calls, [mock.call.add(URI, b"true"), mock.call.finish(), mock.call.close()])

    def test_any_engine(self):
        engine = mock.Mock()
        engine.check.return_value = jschema.Answer(True, b'{"valid":true}\n')
        schemas = jschema.Schemas({URI: b"true"}, engine=engine)
        self.assertEqual(schemas.output(URI, [1], format="merged"), {"valid": True})
        engine.check.assert_called_once_with(URI, b"[1]", "merged")
        engine.is_valid.return_value = False
        self.assertFalse(schemas.is_valid(URI, "1"))
        engine.is_valid.assert_called_once_with(URI, b"1")
