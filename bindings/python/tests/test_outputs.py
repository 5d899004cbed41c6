"""Outputs that nest deeper than Python's own reader goes."""
import json
import unittest

from jschema.outputs import without_recursion


class Deep(unittest.TestCase):
    """They are read in pieces."""

    def test_levels(self):
        for levels in (1, 99, 100, 101, 250, 400):
            for begin, end in (('[{"[": 1}, ', ', "]"]'), ('{"\\\\": [], "a": ', ', "b": [[0.5]], "c\\"": {}}')):
                with self.subTest(levels, begin=begin):
                    text = begin * levels + '"é"' + end * levels
                    self.assertEqual(without_recursion(text.encode()), json.loads(text))

    def test_siblings(self):
        deep = "[" * 99 + "[1], [2, []], [[3]], {}" + "]" * 99
        text = f'{{"a": {deep}, "b": [{deep}, {deep}], "a": {deep}}}'
        self.assertEqual(without_recursion(text.encode()), json.loads(text))

    def test_deep(self):
        value, levels = without_recursion(b'{"a": [' * 50_000 + b"]}" * 50_000), 0
        while value:
            [value], levels = value.values() if isinstance(value, dict) else value, levels + 1
        self.assertEqual(levels, 99_999)

    def test_malformed(self):
        for text in (b"[" * 1000, b"[" * 1000 + b"NaN" + b"]" * 1000, b"[" * 1000 + b"]" * 999, b"]" * 1000,
                     b"[" * 99 + b"[NaN]" * 2, b"[" * 150 + b"]" * 50 + b"}" * 100, b"[" * 1000 + b"]" * 1001):
            with self.subTest(text[:120]):
                self.assertRaises(ValueError, without_recursion, text)
