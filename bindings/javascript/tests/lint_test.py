"""Lint and the warnings of formats: the expectations of the Python package, on this package."""
import json
import random
import unittest
from unittest import mock

import on_node
from on_node import asked
from this_command import OnThisCommand

import jschema  # isort: skip
import test_formats as formats  # isort: skip
import test_lint as lint  # isort: skip
from jschema.dialects import KEYWORDS, URIS  # isort: skip
from jschema.lint import bounds, keywords, numbers, references  # isort: skip
from jschema.resources import document  # isort: skip
from jschema.sources import read  # isort: skip


class Rules(lint.Rules):
    def setUp(self):
        for place, name, made in ((lint, "lint", on_node.lint), (lint, "lint_all", on_node.lint_all),
                                  (lint, "find_library", lambda: "the module"), (jschema, "Schemas", on_node.Schemas)):
            patch = mock.patch.object(place, name, made)
            patch.start()
            self.addCleanup(patch.stop)


class Commands(OnThisCommand, lint.Commands):
    pass


class Formats(unittest.TestCase):
    def test_strings(self):
        self.assertEqual({*asked("tables")["formats"]}, {*formats.CHECKS})
        for format_, (_, good, bad) in formats.STRINGS.items():
            with self.subTest(format_):
                self.assertEqual(asked("holds", format_, [*good, *bad]), [True] * len(good) + [False] * len(bad))

    def test_exact(self):
        """Where the standards say more than the libraries of Python take."""
        for format_, good, bad in EXACT:
            with self.subTest(format_):
                self.assertEqual(asked("holds", format_, [*good, *bad]), [True] * len(good) + [False] * len(bad))


class FormatsOfTheCommand(OnThisCommand, formats.Commands):
    pass


class Tables(unittest.TestCase):
    def test_rules(self):
        self.assertEqual(asked("tables")["rules"], lint.RULES)


class AsInPython(unittest.TestCase):
    """The rules for which no validator is asked find the same in both packages."""

    def test_random(self):
        maker, rules = Maker(1), set()
        for _ in range(100):
            documents = [(f"https://example.com/d/{name}", maker.schema()) for name in maker.random.choice(["a", "ab"])]
            rewritten = maker.random.choice([None, "exact", "texts"])
            with self.subTest(documents, numbers=rewritten):
                found = [sorted(map(json.dumps, it)) for it in asked("found", documents, rewritten)]
                expected = [*found_by_python(documents, rewritten)]
                self.assertEqual(found, [sorted(map(json.dumps, it)) for it in expected])
                rules |= {it[0] for them in expected for it in them}
        self.assertEqual(rules, {*lint.RULES} - {"not-json", "refused", "pattern"})


def found_by_python(documents, rewritten):
    made = [document(uri, read(text.encode(), "json")[0]) for uri, text in documents]
    uses = references.Uses(made)
    for it in made:
        found = (*keywords.unknown(it), *keywords.inactive(it), *keywords.formats(it), *references.unused(it, uses),
                 *bounds.nothing(it), *references.unresolved(it, uses), *numbers.outside(it, rewritten))
        yield [(one.rule, one.severity, one.tokens, one.is_name, one.message, one.suggestion) for one in found]


NUMBERS = ("0", "1", "2", "3", "-1", "1.5", "2.0", "1e2", "-0", "-0.0", "1e30", "18446744073709551616", "0.00001",
           "1e-7", "1.5e300", "1e16", "9007199254740993", "1e400", "9" * 30)
BOUNDS = [f"{one}{what}" for one in ("min", "max") for what in ("imum", "Length", "Items", "Contains", "Properties")]


class Maker:
    """Makes schemas with typing errors, bounds that exclude one another, and references that lead nowhere."""

    def __init__(self, seed):
        self.random = random.Random(seed)

    def schema(self, depth=0):
        members = {} if depth or self.random.random() < 0.6 else {"$schema": json.dumps(self.random.choice(URIS))}
        for _ in range(self.random.randrange(1, 6)):
            members.update(self.members(depth))
        return "{" + ", ".join(f"{json.dumps(name)}: {value}" for name, value in members.items()) + "}"

    def members(self, depth):
        choose, kind = self.random.choice, self.random.randrange(9)
        if kind == 0:
            return {self.mistyped(): choose(["1", "true", '"a"', "{}", "null"])}
        if kind == 1:
            return {name: choose(NUMBERS) for name in (choose(BOUNDS), choose(BOUNDS), "exclusiveMinimum")}
        if kind == 2:
            return {"type": choose(['"integer"', '"string"', '["array", "null"]', '"object"', '"number"'])}
        if kind == 3:
            return {"enum": choose(["[]", "[1, 1.0]", '["a", null, true]', '[{"a": 1.5}]', "[2.5]"]),
                    "const": choose([*NUMBERS, "null", '{"x": 0.5}'])}
        if kind == 4:
            return {"required": choose(['["a", "b", "\U0001f600", "\uff5e"]', '["a"]', "[]"]),
                    "additionalProperties": choose(["false", "true"]), "maxProperties": choose(["0", "1", "2.0"])}
        if kind == 5:
            return {"$ref": choose(['"#/$defs/a"', '"#/definitions/b/x"', '"b#/$defs/a"', '"#name"', '"other"'])}
        if kind == 6:
            name = choose(["$id", "id", "$anchor", "$dynamicAnchor"])
            return {name: choose(['"urn:q"', '"name"', '"#name"', '"x/y"']), "format": '"date"'}
        return {} if depth > 2 else self.below(depth + 1)

    def below(self, depth):
        if self.random.random() < 0.5:
            holder = self.random.choice(["properties", "$defs", "definitions", "dependentSchemas"])
            return {holder: f'{{"a": {self.schema(depth)}, "b": {self.schema(depth)}, "__proto__": {{}}}}'}
        keyword = self.random.choice(["items", "not", "if", "contains", "additionalItems", "extends"])
        return {keyword: self.random.choice(["%s", "[%s]"]) % self.schema(depth)}

    def mistyped(self):
        """A keyword with up to three typing errors."""
        letters = [*self.random.choice([*KEYWORDS])]
        for _ in range(self.random.randrange(4)):
            at = self.random.randrange(len(letters) + 1)
            letters[at:at + self.random.randrange(3)] = self.random.choice(["", "", "a", "S", "\u00e9", "$"])
        return "".join(letters) or "q"


# By RFC 3339, 5.6 and 5.7 (leap seconds) and appendix A; RFC 4291, 2.2; RFC 3986, appendix A; ECMA-262 with the flag
# `u`.
EXACT = (
    ("time", ("23:59:60Z", "15:59:60.5-08:00", "01:29:60+01:30"), ("22:59:60Z", "23:59:60+01:00", "23:59:61Z")),
    ("date-time", ("1990-12-31T23:59:60Z", "2000-02-29t00:00:00.123z"),
     ("1900-02-29T00:00:00Z", "2000-01-01 00:00:00Z")),
    ("duration", ("P1Y2M3DT4H5M6S", "PT6S", "P2M"), ("P1Y3D", "PT4H6S", "P1W1D", "P1DT", "PT1.5S")),
    ("ipv6", ("::", "1:2:3:4:5:6:7:8", "1::8", "1:2:3:4:5:6:7::", "::ffff:1.2.3.4"),
     ("1:2:3:4:5:6:7:8:9", "1::2::3", "1:2:3:4:5:6:7", "::1.2.3", "g::")),
    ("uri", ("http://[::1]:80/a?b#c", "http://u:p@h/%41", "a:", "mailto:a@b"),
     ("http://[1]/", "http://h/%4", "1a:b", "a:\u00e9", "http://h:x/")),
    ("uri-reference", ("//h/a", "a/b:c", "?q", "./a:b"), ("1a:b", "%", "a#b#c", "[")),
    ("regex", (r"\p{L}", r"(?<!a)b", r"(?<n>a)\k<n>"), (r"\p{Nothing}", "(?i)a", "a++")),
)


if __name__ == "__main__":
    unittest.main()
