"""Numbers with fractions: in schemas what they say of integers, in instances those that are integers."""
import json
import os
import unittest

import jschema
from jschema.numbers import Number, exact_text, number
from jschema.library import find_library
from jschema.rewriting import Rewriting
from random_numbers import DRAFTS, compared

URI = "urn:x"
LEAST, GREATEST = -2**63, 2**64 - 1

# The integers that texts are, and for others what is below and above them.
INTEGERS = {"1.0": 1, "1e2": 100, "-0": 0, "-0.0e5": 0, "0e999999999999999999999": 0, "12.50E1": 125, "100e-2": 1,
            "18446744073709551615.0": GREATEST, "-9.223372036854775808e18": LEAST, "00000.0": 0}
OTHERS = {"0.5": (0, 1), "-0.5": (-1, 0), "1e-400": (0, 1), "-1e-99999999999999999999": (-1, 0), "2.75": (2, 3),
          "18446744073709551615.5": (GREATEST, GREATEST + 1), "1e30": (GREATEST + 1, GREATEST + 1),
          "-1e400": (LEAST - 1, LEAST - 1), "-9223372036854775808.5": (LEAST - 1, LEAST),
          "-100000000000000000000.5": (LEAST - 1, LEAST - 1), "123456789.0625e3": (123456789062, 123456789063)}
TEXTS = [
    ('{"a": 1.0, "b": [1e2, -0, 0.5]}', '{"a": 1, "b": [100, 0, 0.5]}'),
    ('"1.0"', '"1.0"'), (r'"\"1.0", 2.0', r'"\"1.0", 2'), ("1e30", "1e30"), ("-0.0", "0"), ("1e19", "1" + "0" * 19),
    # What is no JSON stays, so that it is refused.
    ("1.0-0", "1.0-0"), ("1.0.0", "1.0.0"), ("01.0", "01.0"), ("+1.0", "+1.0"), ("1.e2", "1.e2"), (".50", ".50"),
    ("1.0e", "1.0e"), ("--0", "--0"), ("1.0 -0", "1 0"),
]

# Schemas, with instances that are valid and that aren't, by Validation 6 of 2020-12.
ROWS = [
    ("6.2.4", '{"minimum": 0.5}', ["1", '"a"'], ["0", "-0"]),
    ("6.2.5", '{"exclusiveMinimum": 0.5}', ["1.0"], ["0"]),
    ("6.2.5: a whole one", '{"exclusiveMinimum": 1.0}', ["2"], ["1"]),
    ("6.2.2", '{"maximum": -0.5}', ["-1"], ["0"]),
    ("6.2.3", '{"exclusiveMaximum": 2.5}', ["2"], ["3"]),
    ("6.2.3: a whole one", '{"exclusiveMaximum": 20e-1}', ["1"], ["2"]),
    ("beyond: nothing", '{"maximum": 1e30, "exclusiveMaximum": 1e30, "minimum": -1e400, "exclusiveMinimum": -1e19}',
     [str(LEAST), str(GREATEST)], []),
    ("beyond: everything", '{"minimum": 1e30}', ['"a"'], [str(GREATEST), "0"]),
    ("beyond: everything, twice", '{"maximum": -1e30, "exclusiveMaximum": 5}', ["null"], [str(LEAST)]),
    ("6.2.1", '{"multipleOf": 1.5}', ["3", "0", "-6"], ["1", "2"]),
    ("6.2.1: all", '{"multipleOf": 0.01}', ["1", "7"], []),
    ("6.2.1: zero", '{"multipleOf": 1e25, "allOf": [{"maximum": 3}]}', ["0", "[]"], ["1", str(GREATEST)]),
    ("6.1.2", '{"enum": [0.5, 1.0, [2.5], {"a": 1e0}]}', ["1", '{"a": 1}'], ["0", "[2]", "[]"]),
    ("6.1.3", '{"const": 2.0}', ["2", "2.0"], ["1"]),
    ("6.1.3: none", '{"const": {"a": [0.5]}, "enum": [1]}', [], ["1", '{"a": [0]}']),
    ("6.3.1", '{"maxLength": 2.0, "minLength": 1e0}', ['"ab"'], ['""', '"abc"']),
    ("6.3.1: beyond", '{"maxLength": 1e30, "minItems": 1e30}', ['"ab"'], ["[]"]),
    ("6.1.1", '{"type": "integer"}', ["1.0", "1e2", "-0"], ["null"]),
    ("6.4.3", '{"uniqueItems": true}', ["[1, 2.0]"], ["[1, 1.0]"]),
    ("nested", '{"items": {"anyOf": [{"minimum": 2.5}, {"const": 0.5}]}}', ["[3]"], ["[2]"]),
]
OLD_ROWS = [
    ("draft-04", '{"minimum": 0.5, "exclusiveMinimum": true}', ["1"], ["0"]),
    ("draft-04", '{"minimum": 1.0, "exclusiveMinimum": true}', ["2"], ["1"]),
    ("draft-04", '{"maximum": 2.5}', ["2"], ["3"]),
    ("draft-04", '{"maximum": -1e30}', [], [str(LEAST)]),
    ("draft-04", '{"minimum": -1e30, "exclusiveMinimum": true}', [str(LEAST)], []),
    ("draft-03", '{"divisibleBy": 2.5}', ["5", "0"], ["1"]),
    ("draft-06", '{"const": 0.5}', [], ["0", "1"]),
]


def refused(call, *arguments, **named):
    try:
        call(*arguments, **named)
    except jschema.Refused as error:
        return error.kind, error.place
    raise AssertionError("it isn't refused")


class Numbers(unittest.TestCase):
    def test_integers(self):
        for text, value in INTEGERS.items():
            with self.subTest(text):
                self.assertEqual(number(text), value)

    def test_others(self):
        for text, (below, above) in OTHERS.items():
            with self.subTest(text):
                found = number(text)
                self.assertIsInstance(found, Number)
                self.assertEqual((found.floor(), found.ceiling()), (below, above))

    def test_texts(self):
        for given, made in TEXTS:
            with self.subTest(given):
                self.assertEqual(exact_text(given.encode()), made.encode())
        self.assertEqual(exact_text(b"[1.0, -0, 1e2]", has_fractions=False), b"[1.0, 0, 1e2]")

    def test_long_numbers(self):
        digits = b"9" * 100_000
        for text in (digits + b".5", b"1." + digits, b"1e" + digits, b"-" + digits + b"e-" + digits):
            self.assertEqual(exact_text(text), text)
        self.assertEqual(exact_text(b"1." + b"0" * 100_000), b"1")


class Schemas(unittest.TestCase):
    def judge(self, schemas, good, bad):
        with schemas:
            self.assertEqual([it for it in good + bad if schemas.is_valid(URI, it)], good)

    def test_rows(self):
        for section, schema, good, bad in ROWS:
            with self.subTest(section):
                self.judge(jschema.Schemas({URI: schema}, numbers="exact"), good, bad)

    def test_old_rows(self):
        if find_library() is None:
            self.skipTest("no library")
        for draft, schema, good, bad in OLD_ROWS:
            with self.subTest(draft, schema=schema):
                self.judge(jschema.Schemas({URI: schema}, default_dialect=draft, numbers="exact"), good, bad)

    def test_integers_of_old_drafts(self):
        """Up to draft-04 `1.0` is no integer, so there it stays refused; without `integer` it's the same as 1."""
        if find_library() is None:
            self.skipTest("no library")
        four, later = "http://json-schema.org/draft-04/schema#", "https://json-schema.org/draft/2020-12/schema"
        inner = {"$schema": four, "id": "urn:y", "items": {"type": "integer"}}
        for draft, schema in (
                ("draft-04", {"type": "integer"}), ("draft-04", {"items": {"type": ["integer", "null"]}}),
                ("draft-03", {"disallow": "integer"}), ("draft-03", {"extends": {"type": [{"type": "integer"}]}}),
                ("draft-04", {"properties": {"$schema": {"type": "integer"}}}),
                (None, {"$schema": four, "type": "integer"}), (None, {"$schema": later, "$defs": {"a": inner}}),
                (None, '{"$schema": "http://json-schema.org/draft\\u002d04/schema#", "type": "\\u0069nteger"}')):
            with self.subTest(schema):
                with jschema.Schemas({URI: schema}, default_dialect=draft, numbers="exact") as schemas:
                    self.assertEqual(refused(schemas.is_valid, URI, "[1.0]"), ("NotWhole", "/0"))
                    self.assertEqual(refused(schemas.is_valid, URI, [1.0]), ("NotWhole", "/0"))
                    schemas.is_valid(URI, "[-0]")
        for draft, schema in (("draft-04", {"minimum": 1}), (None, {"$schema": four, "title": "an integer"}),
                              (None, {"$schema": four, "type": "number"}),
                              (None, {"$schema": later, "type": "integer", "title": "not as in draft-04"})):
            with self.subTest(schema):
                with jschema.Schemas({URI: schema}, default_dialect=draft, numbers="exact") as schemas:
                    self.assertTrue(schemas.is_valid(URI, "1.0"))
                    self.assertTrue(schemas.is_valid(URI, 1.0))

    def test_random(self):
        try:
            import jsonschema
        except ImportError:
            self.skipTest("pip's jsonschema isn't installed")
        drafts = ["2020-12"] if os.environ.get("JSCHEMA_LIBRARY") == "off" else [*DRAFTS]
        verdicts, valid, refusals, failed = compared(1, 40 * len(drafts), drafts)
        self.assertEqual(failed, [])
        self.assertGreater(valid, verdicts // 5)
        self.assertEqual(refusals > 0, len(drafts) > 1)

    def test_what_stays_refused(self):
        self.assertEqual(refused(jschema.Schemas, {URI: '{"minimum": 0.5}'}), ("NotWhole", "/minimum"))
        for schema, place in (('{"default": 0.5}', "/default"), ('{"minLength": 1.5}', "/minLength"),
                              ('{"multipleOf": -0.5}', "/multipleOf"), ('{"x": [1.0, 0.5]}', "/x/1"),
                              ('{"properties": {"a": {"default": 1e400}}}', "/properties/a/default")):
            with self.subTest(schema):
                self.assertEqual(refused(jschema.Schemas, {URI: schema}, numbers="exact"), ("NotWhole", place))
        with jschema.Schemas({URI: True}, numbers="exact") as schemas:
            self.assertEqual(refused(schemas.is_valid, URI, '{"a": 0.5}'), ("NotWhole", "/a"))
            self.assertEqual(refused(schemas.is_valid, URI, "1.0-0"), ("NotJson", ""))
        with self.assertRaises(ValueError):
            jschema.Schemas({URI: True}, numbers="all")

    def test_texts_of_annotations(self):
        """Where asked for, fractions become texts; those of keywords that can't have them stay refused."""
        schema = '{"default": {"a": [0.50]}, "x": 1e30, "examples": [1.0], "properties": {"b": {"title": -1.5}}}'
        [(_, text)] = Rewriting(None, "texts").texts([(URI, schema.encode())], 5)
        self.assertEqual(json.loads(text), {"default": {"a": ["0.50"]}, "x": "1e30", "examples": [1],
                                            "properties": {"b": {"title": "-1.5"}}})
        self.assertEqual(refused(jschema.Schemas, {URI: '{"required": [0.5]}'}, numbers="texts"),
                         ("NotWhole", "/required/0"))

    def test_values(self):
        """Documents and instances that are values."""
        with jschema.Schemas({URI: {"minimum": 0.5, "type": "integer"}}, numbers="exact") as schemas:
            self.assertTrue(schemas.is_valid(URI, 1.0))
            self.assertFalse(schemas.is_valid(URI, 0.0))
            self.assertEqual(refused(schemas.is_valid, URI, 1.5), ("NotWhole", ""))
            self.assertEqual(refused(schemas.is_valid, URI, float("nan")), ("NotWhole", ""))
        self.assertEqual(refused(jschema.Schemas, {URI: {"minimum": float("inf")}}, numbers="exact"),
                         ("NotWhole", "/minimum"))
        with self.assertRaises(TypeError):
            jschema.Schemas({URI: {"minimum": 0.5, "x": {1: 2}}}, numbers="exact")


class Recording:
    """An engine that takes integers as the validator does, and says which texts it was asked about."""

    def __init__(self):
        self.asked = []

    add = finish = close = lambda self, *_: None

    def is_valid(self, entry, instance):
        self.asked.append(instance)
        if not instance.strip(b"-").isdigit() or instance == b"-0":
            raise jschema.Refused("instance", "NotWhole", "")
        return True

    def check(self, entry, instance, format):
        return jschema.Answer(self.is_valid(entry, instance), b'{"valid":true}\n')


class Rewritten(unittest.TestCase):
    def test_only_what_is_refused(self):
        """A text that the validator takes has no number to rewrite, so nothing looks for one."""
        for text, asked in (("12", [b"12"]), ("1.0", [b"1.0", b"1"]), ("-0", [b"-0", b"0"])):
            engine = Recording()
            with self.subTest(text), jschema.Schemas({}, engine=engine, numbers="exact") as schemas:
                self.assertTrue(schemas.is_valid(URI, text))
                self.assertEqual(schemas.output_text(URI, text), b'{"valid":true}\n')
                self.assertEqual(engine.asked, asked * 2)
        for text, asked in (("0.5", [b"0.5"]), ("[1.0", [b"[1.0", b"[1"])):
            engine = Recording()
            with self.subTest(text), jschema.Schemas({}, engine=engine, numbers="exact") as schemas:
                self.assertEqual(refused(schemas.is_valid, URI, text), ("NotWhole", ""))
                self.assertEqual(engine.asked, asked)


class Errors(unittest.TestCase):
    def test_errors(self):
        """They have the keyword and the number of the schema, and positions in the instance as it is written."""
        schema = '{"properties": {"a": {"minimum": 1.5}, "b": {"multipleOf": 1e30}, "c": {"const": 0.5},' \
                 ' "d": {"minimum": 1e30}}}'
        with jschema.Schemas({URI: schema}, numbers="exact") as schemas:
            found = [(it.message, it.keyword_location, it.position.column)
                     for it in schemas.errors(URI, '{"a": 1.00, "b": 1e0, "c": -0, "d": 1}')]
            self.assertEqual(found, [("less than 1.5", "/properties/a/minimum", 7),
                                     ("not a multiple of 1e30", "/properties/b/multipleOf", 18),
                                     ("not the constant", "/properties/c/const", 28),
                                     ("less than 1e30", "/properties/d/minimum", 37)])
            self.assertEqual(schemas.places(), [f"{URI}#", *(f"{URI}#/properties/{it}" for it in "abcd")])
