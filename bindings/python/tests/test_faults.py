"""Where texts stop being JSON."""
import json
import json.decoder
import json.scanner
import random
import unittest
from functools import partial
from unittest import mock

import jschema
from jschema.faults import first_fault
from jschema.library import find_library, locate
from jschema.limits import DEEPEST
from random_faults import TEXTS, changed, compared, is_json

JSON = (
    b"-0", b"1E-5", b"1e308", b'"\\u0000"', b"\r\n1\r\n", b"[[], {}]", b'"\\/\\b"', b'{"": 1, "": 2}',
    b"123456789012345678901234567890", b"-1.5e-999", b'"\x7f"', b"\t\n[]", b'{"a":{"a":{}}}', b"1" * 309,
    b"0." + b"9" * 5000, b'"\\\\ud800 \\ud83d\\ude00"', b'["NaN", "-Infinity", "1e400"]',
)
# Texts that aren't, and where that shows: at what can't stand there, or is no string, number or word.
NOT_JSON = {
    b"": 0, b" ": 1, b"\n\t": 2, b"01": 1, b"-": 0, b"-01": 2, b"1.": 1, b"1e": 1, b"1.5e+": 3, b"+1": 0, b".5": 0,
    b"[1.x]": 2, b"1 1": 2, b"[1 2]": 3, b"nul": 0, b"nulls": 4, b"True": 0, b"[tru, 1]": 1, b"\x0b1": 0,
    b"'a'": 0, b"// a\n1": 0, b"[1, # a\n 2]": 4,
    # Strings.
    b'"\t"': 0, b'"\\x41"': 0, b'"\\u12g4"': 0, b'"a': 0, b'["a", "b]': 6, b'"a\\"': 0, b'["a", "b\\q c"]': 6,
    b'["\\\\", "\\"\\q"]': 7, b'{"a\n": 1}': 1,
    # Arrays and objects.
    b"[": 1, b"[1": 2, b"[1, ": 4, b"[1,]": 3, b"[1, \n]": 5, b"[,1]": 1, b"[1,,2]": 3, b"[}": 1, b"[1}": 2,
    b"[1]]": 3, b"]": 0, b"{": 1, b'{"a"': 4, b'{"a":': 5, b'{"a": 1': 7, b'{"a":1,': 7, b'{"a":1,}': 7, b"{,}": 1,
    b'{"a" 1}': 5, b'{"a",1}': 4, b"{1:1}": 1, b"{]": 1, b'{"a":1 "b":2}': 7, b'{"a":1;}': 6, '{"é": 01}'.encode(): 8,
    '["😀", \u00a01]'.encode(): 9,
    # What Python's reader takes.
    b"\xef\xbb\xbf1": 0, b"NaN": 0, b"-Infinity": 0, b"[1, Infinity]": 4, b"[-1, 2.5, 0, -Infinity, NaN]": 13,
    b'{"a": {"NaN": [NaN, }': 15, b"1e400": 0, b"1" * 400: 0, b"[-2, -1e309]": 5, b'[1e308, "1e400", 5, 9e99999]': 20,
    b"[1e-400, 1e0400, 1e400]": 9, b'"\\ud800"': 0, b'"\\udc00\\ud800"': 0, b'"\\ud800\\u0041"': 0,
    b'["\\ud83d\\ude00", {"\\uD83D\\uD83D\\uDE00": 1}]': 18, b'["\\\\ud800", "\\\\\\udc00"]': 12,
    # Bytes that aren't UTF-8.
    b'["\xc3"]': 2, b'{"Zo\xeb": 1}': 4, b"[1, \xff]": 4, b'["\xed\xa0\x80"]': 2, b"\xff\xfe1\x00": 0,
    # The first of several faults.
    b"[NaN, 1e400, }": 1, b"[1e400, NaN, }": 1, b"[}, NaN]": 1, b'[1 "\xff"]': 3, b'["\xff" 1]': 2,
    b'["\\ud800", "\\q"]': 1, b'["\\q", "\\ud800"]': 1, b'[1] "\\ud800': 4, b'"a" \\"\\ud800': 4,
    b'["a\xff\xff", x]': 3,
}


class PurePython(json.JSONDecoder):
    """Python's own reader where it isn't written in C."""

    def __init__(self, **words):
        super().__init__(**words)
        self.parse_string = json.decoder.py_scanstring
        self.scan_once = json.scanner.py_make_scanner(self)


def loads_since_3_13(loads, text, **words):
    """`json.loads`, whose errors about a bracket after a comma name the place of the comma, since 3.13."""
    try:
        return loads(text, **words)
    except json.JSONDecodeError as error:
        before = text[:error.pos].rstrip(" \t\n\r")
        if before[-1:] == "," and text[error.pos:error.pos + 1] in ("]", "}") and before[-2:] != "[,":
            raise json.JSONDecodeError("Illegal trailing comma before end of array", text, len(before) - 1) from None
        raise


class Faults(unittest.TestCase):
    def judge(self):
        for text in JSON:
            with self.subTest(text[:20]):
                self.assertTrue(is_json(text))
                self.assertIsNone(first_fault(text))
        for text, place in NOT_JSON.items():
            with self.subTest(text[:20]):
                self.assertFalse(is_json(text))
                self.assertEqual(first_fault(text), place)

    def test_texts(self):
        self.judge()

    def test_other_readers(self):
        """The place is the same with each version of Python, and where its reader isn't the one in C."""
        for name, loads in (("pure", partial(json.loads, cls=PurePython)),
                            ("3.13", partial(loads_since_3_13, json.loads))):
            with self.subTest(name), mock.patch.object(json, "loads", loads):
                self.judge()

    def test_torn(self):
        """A text that breaks off does so at its end, or where the string, number or word begins that is torn."""
        for text in TEXTS:
            for end in range(len(text)):
                found = first_fault(text[:end])
                self.assertEqual(found is None, is_json(text[:end]), text[:end])
                if found is not None:
                    self.assertNotRegex(text[found:end], rb"\A[\[\]{}:, \r\n\t]")

    def test_random(self):
        known, failed = compared(11, 400)
        self.assertEqual(failed, [])
        self.assertGreater(known, 20)

    def test_any_number(self):
        for text in JSON:
            self.assertIsNone(first_fault(text, any_number=True), text)
        for text, place in ((b"[1e400, " + b"9" * 400 + b"]", None), (b"[1e400, -1, -Infinity]", 12),
                            (b"[1e400, NaN]", 8), (b"[1e400,]", 7)):
            self.assertEqual(first_fault(text, any_number=True), place)

    def test_levels(self):
        for begin, middle, end, count in ((b"[", b"", b"]", DEEPEST), (b'{"a":', b"1", b"}", DEEPEST),
                                          (b'[{"[": ', b'"{{"', b"}, {}]", DEEPEST // 2)):
            with self.subTest(begin):
                self.assertIsNone(first_fault(begin * count + middle + end * count))
                self.assertIsNotNone(first_fault(begin * (count + 1) + middle + end * (count + 1)))
        for text, deepest, place in ((b"[" * 128 + b"]" * 128, 127, 127), (b"[" * 128 + b"]" * 128, 128, None),
                                     (b'["]", [], [[]]]', 2, 11), (b'{"{": {"}": {}}, "a": [[[', 2, 12),
                                     (b"[[]}[[[[", 2, 3), (b"[" * 10**6, 127, 127), (b'{"a":' * 10**5, 127, 635)):
            with self.subTest(text[:20]):
                self.assertEqual(first_fault(text, deepest), place)

    def test_large(self):
        """The time grows with the length of a text, whatever is in it."""
        size = 1 << 21
        for text, place in ((b" " * size, size), (b"9" * size, 0), (b"[" + b"1," * size, 2 * size + 1),
                            (b'"' + b"\\" * size + b'"', None), (b'"' + b'\\"' * size, 0), (b'"' * size, 2),
                            (b'"' + b"\\ud800" * size, 0), (b'["' + b"\\ud83d\\ude00" * (size // 8) + b'\\udc00"]', 1),
                            (b"[" + b'"",' * size, 3 * size + 1), (b"[" + b"[]," * size + b"NaN]", 3 * size + 1),
                            (b"-" * size, 0), (b"[" + b"1e," * size, 2), (b"\xff" * size, 0), (b"]" * size, 0),
                            (b"[0." + b"0" * size + b"1e5, 1e400]", size + 8)):
            with self.subTest(text[:20]):
                self.assertEqual(first_fault(text), place)


class BesideTheLibrary(unittest.TestCase):
    """A text has a fault where the library refuses it."""

    def setUp(self):
        if find_library() is None:
            self.skipTest("no library")
        numbers = random.Random(5)
        self.texts = [changed(numbers, numbers.choice(TEXTS)) for _ in range(2000)]

    def test_refused(self):
        with jschema.Schemas({"a:b": True}) as schemas:
            for text in [*JSON, *NOT_JSON, *self.texts]:
                try:
                    kind = str(schemas.is_valid("a:b", text))
                except jschema.Refused as refused:
                    kind = refused.kind
                self.assertEqual(first_fault(text) is not None, kind == "NotJson", text)

    def test_located(self):
        for text in [*JSON, *NOT_JSON, *self.texts]:
            fault = first_fault(text, DEEPEST + 1, any_number=True)
            self.assertEqual(fault is not None, locate(text, [""]) is None, text)
