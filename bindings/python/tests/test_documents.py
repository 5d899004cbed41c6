"""What documents, URIs and instances may be: one rule for both engines."""
import json
import unittest
from pathlib import Path

import jschema
from jschema.library import find_library

URI = "https://example.com/s"
LARGEST = 2**24


def engines():
    """Each engine, by name."""
    yield "program", jschema.ProgramEngine
    if find_library() is not None:
        yield "library", jschema.LibraryEngine


def outcome(documents, entry, instance, engine):
    """A verdict, or what a refusal carries."""
    try:
        with jschema.Schemas(documents, engine=engine()) as schemas:
            return schemas.is_valid(entry, instance)
    except jschema.Refused as refused:
        return refused.subject, refused.kind, refused.place, refused.index, refused.document


def padded(length):
    return b"true" + b" " * (length - 4)


BAD = "document", "BadUri", "", 0
# A place that is longer than the room that the engine of the library has at first.
LONG = "a/" * 5000
# The documents, the entry, the instance, and what must come of them with each engine.
RULES = (
    ({URI: padded(LARGEST)}, URI, b"1", True),
    ({URI: padded(LARGEST + 1)}, URI, b"1", ("input", "InputTooLarge", None, 0, URI)),
    ({"a:b": b"true", URI: padded(LARGEST + 1)}, URI, b"1", ("input", "InputTooLarge", None, 1, URI)),
    ({URI: b"1.5", "a:b": padded(LARGEST + 1)}, URI, b"1", ("input", "InputTooLarge", None, 1, "a:b")),
    ({URI: b"true"}, URI, padded(LARGEST), True),
    ({URI: b"true"}, URI, padded(LARGEST + 1), ("input", "InputTooLarge", None, None, None)),
    ({"a:\0": b"true"}, "a:\0", b"1", (*BAD, "a:\0")),
    ({URI + "\0": b"true"}, URI, b"1", (*BAD, URI + "\0")),
    ({"a:\ud800": b"true"}, "a:b", b"1", (*BAD, "a:\ud800")),
    ({"a:\udcff": b"true"}, "a:b", b"1", (*BAD, "a:\udcff")),
    ({"a:b": b"1.5", "a:\0": b"true"}, "a:b", b"1", ("document", "BadUri", "", 1, "a:\0")),
    ({URI: b"true"}, URI + "\0", b"1", ("entry", "BadUri", None, None, None)),
    ({URI: b"true"}, URI + "\ud800", b"1", ("entry", "BadUri", None, None, None)),
    ({URI: b'{"$id": "https://a.example/\\u0000s"}'}, "https://a.example/%00s", b"1", True),
    ({URI: '{"title": "\ud800"}'}, URI, b"1", ("document", "NotJson", "", 0, URI)),
    ({URI: {"title": "\ud800"}}, URI, b"1", ("document", "NotJson", "", 0, URI)),
    ({"a:b": True, URI: {"minimum": 1.0}}, URI, b"1", ("document", "NotWhole", "/minimum", 1, URI)),
    ({"a:b": True, URI: {"properties": {LONG: 1}}}, URI, b"1",
     ("document", "NotASchema", f"/properties/{LONG.replace('/', '~1')}", 1, URI)),
    ({URI: True}, URI, json.dumps({LONG: [0, 0.5]}).encode(),
     ("instance", "NotWhole", f"/{LONG.replace('/', '~1')}/1", None, None)),
    ({URI: True}, URI, b"{", ("instance", "NotJson", "", None, None)),
    ({URI: {"$ref": "#"}}, URI, b"1", ("walk", "TooLarge", None, None, None)),
    ({URI: True}, "a:b", b"1", ("entry", "Unresolved", None, None, None)),
)
# Documents and an entry whose URIs no engine takes: `Schemas` refuses them before.
ZERO_BYTES = (
    (["a:\0"], "a:b"),
    (["\0a:b"], "a:b"),
    (["a:b", "a:\0c"], "a:b"),
    ([URI], URI + "\0"),
    ([URI], f"{URI}#\0"),
)


class Rules(unittest.TestCase):
    def test_rules(self):
        for name, engine in engines():
            for number, (documents, entry, instance, expected) in enumerate(RULES):
                with self.subTest(number, engine=name):
                    self.assertEqual(outcome(documents, entry, instance, engine), expected)


    def test_zero_bytes(self):
        for name, engine in engines():
            for number, (uris, entry) in enumerate(ZERO_BYTES):
                with self.subTest(number, engine=name), self.assertRaises(jschema.EngineError):
                    asked = engine()
                    for uri in uris:
                        asked.add(uri, b"true")
                    asked.finish()
                    asked.is_valid(entry, b"1")


class Values(unittest.TestCase):
    def test_documents(self):
        text = '{"type": "string"}'
        for document in (text, text.encode(), bytearray(text.encode()), memoryview(text.encode()), json.loads(text)):
            with self.subTest(type(document)), jschema.Schemas({URI: document}) as schemas:
                self.assertEqual((schemas.is_valid(URI, '"A"'), schemas.is_valid(URI, 1)), (True, False))
        for document in (True, False):
            with self.subTest(document), jschema.Schemas([(URI, document)]) as schemas:
                self.assertIs(schemas.is_valid(URI, 1), document)

    def test_no_documents(self):
        for document in ([123, 125], 10**9, 5, 1.5, None, (1,), Path("s.json"), {1: 2}, {"a": {1}}, object()):
            with self.subTest(document), self.assertRaisesRegex(TypeError, "the document https://example.com/s"):
                jschema.Schemas({URI: document})

    def test_uri_of_another_type(self):
        with self.assertRaisesRegex(TypeError, "a URI is a str, not bytes"):
            jschema.Schemas({b"a:b": "true"})

    def test_text_of_a_check(self):
        with jschema.Schemas({URI: "true"}) as schemas, self.assertRaisesRegex(TypeError, "bytes, not str"):
            schemas.check(URI, "{}", "flag")
