"""A YAML text that is read again in part comes to what it is when it is read as a whole."""
import random
import unittest
from unittest import mock

from lsp_client import once

from jschema.errors import Refused
from jschema.lsp.rereading import reread
from jschema.sources import read, writing

try:
    import yaml
except ImportError:
    yaml = None

BEGINNINGS = ("", "# é\n", "%YAML 1.2\n---\n", "---\n")
LINES = ("- ", "  ", "a: 1", "b:", "é: [1, {x: 2}]", "c: |", "d: >-", "# x", "\n", "'q': \"r\"", "e: x", " y",
         "- - f: 1", "g: {h: 1}", "'", '"', ":", "-", "1.5", "[", "}", "---", "&a", "*a", "\U0001f600: ~", "? k", "...")


def document(numbers):
    """A text with blocks in one another."""
    lines = [numbers.choice(BEGINNINGS) + "top:"]
    for index in range(numbers.randrange(6, 14)):
        lines += [f"  k{index}:", f"    name: n{index}", "    list:", f"    - {index}", f"    - id: {index}",
                  "      tag: é", "    text: |", "      one", "", "      two",
                  "    more: {a: 1}"][:numbers.randrange(2, 12)]
    return "\n".join(lines) + numbers.choice(("", "\n", "\nlast: 1\n"))


def shape(node):
    """All of a tree."""
    content = node.content
    if isinstance(content, dict):
        content = [(name, it.begin, it.end, shape(it.value)) for name, it in content.items()]
    elif isinstance(content, list):
        content = list(map(shape, content))
    return node.begin, node.end, content


@unittest.skipUnless(yaml, "PyYAML isn't installed")
class Rereading(unittest.TestCase):
    def edited(self, numbers, text):
        begin = numbers.randrange(len(text) + 1)
        end = begin + numbers.choice((0, 0, 1, 1, 2, 8))
        return text[:begin] + numbers.choice(LINES) + numbers.choice(("", "", "\n", "\n      ")) + text[end:]

    def setUp(self):
        once(self)
        # How often a text was read in part and as a whole; how often one that isn't YAML was, and with the same fault.
        self.again = self.whole = self.faults = self.unread = self.same = 0

    def test_random_edits(self):
        """With and without texts of arrays and objects that are kept."""
        numbers = random.Random(6)
        for number in range(60):
            with mock.patch.object(writing, "_LONGEST", 16 if number % 2 else 4096):
                text = document(numbers)
                source = read(text.encode(), "yaml")[0]
                for _ in range(8):
                    changed = self.edited(numbers, text)
                    source, text = self.judged(source, text, changed)
        self.assertGreater(self.again, self.whole / 4)
        self.assertGreater(self.faults, self.unread)
        self.assertGreater(self.same, self.faults * 0.8)

    def test_another_holder(self):
        """What follows the change stands in another member then."""
        more = "".join(f"  k{it}:\n    name: {it}\n" for it in range(1, 20))
        before, after = f"top:\n  k0:\n    name: 0\n    list:\n{more}", f"top:\n  k0:\n    name: 0\nb:\n  list:\n{more}"
        self.judged(read(before.encode(), "yaml")[0], before, after)

    def judged(self, source, text, changed):
        """Compares the two ways to read a changed text, and returns the last that could be read."""
        refused = None
        try:
            expected = read(changed.encode(), "yaml")
        except Refused as error:
            expected, refused = [], error
        try:
            found = reread(source, changed.encode())
        except Refused as error:
            self.assertIsNotNone(refused, (text, changed))
            self.faults += 1
            self.same += (error.meaning, error.range) == (refused.meaning, refused.range)
            # (What is wrong with it shows; it may have other faults before.)
            self.assertGreaterEqual(error.range.begin.offset, refused.range.begin.offset, (text, changed))
            return source, text
        if found is not None:
            self.again += 1
            self.assertEqual(len(expected), 1, (text, changed))
            self.assertEqual((found.json, shape(found.tree())), (expected[0].json, shape(expected[0].tree())),
                             (text, changed))
        elif len(expected) == 1:
            self.whole += 1
        self.unread += refused is not None
        return (found or expected[0], changed) if len(expected) == 1 else (source, text)
