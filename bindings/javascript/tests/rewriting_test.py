"""Numbers and patterns that are rewritten: the expectations of the Python package, on this package."""
import json
import random
import unittest
from unittest import mock

import on_node
from on_node import asked
from this_command import OnThisCommand

import jschema  # isort: skip
import random_numbers  # isort: skip
import random_patterns  # isort: skip
import test_numbers as numbers  # isort: skip
import test_patterns as patterns  # isort: skip
import test_rewriting as rewriting  # isort: skip
from jschema.dialects import DRAFTS, KEYWORDS  # isort: skip
from jschema.patterns import read, read_single, schema_of  # isort: skip
from jschema.rewriting import Rewriting  # isort: skip
from jschema.uris import with_pointer  # isort: skip


class OnThisPackage:
    """Has the tests call this package's `Schemas`, which upgrades as Python's does with the library."""

    def setUp(self):
        def find():
            return "the module"

        for place, name, made in ((jschema, "Schemas", on_node.Schemas), (numbers, "find_library", find),
                                  (patterns, "find_library", find)):
            patch = mock.patch.object(place, name, made)
            patch.start()
            self.addCleanup(patch.stop)
        super().setUp()


class Numbers(unittest.TestCase):
    def test_integers(self):
        self.assertEqual(asked("numbers", [*numbers.INTEGERS]), [*map(str, numbers.INTEGERS.values())])

    def test_others(self):
        expected = [[str(below), str(above)] for below, above in numbers.OTHERS.values()]
        self.assertEqual(asked("numbers", [*numbers.OTHERS]), expected)

    def test_texts(self):
        for given, made in numbers.TEXTS:
            with self.subTest(given):
                self.assertEqual(asked("exactText", given, True), made)
        self.assertEqual(asked("exactText", "[1.0, -0, 1e2]", False), "[1.0, 0, 1e2]")

    def test_long_numbers(self):
        digits = "9" * 100_000
        for text in (digits + ".5", "1." + digits, "1e" + digits, "-" + digits + "e-" + digits):
            self.assertEqual(asked("exactText", text, True), text)
        self.assertEqual(asked("exactText", "1." + "0" * 100_000, True), "1")


class SchemasWithNumbers(OnThisPackage, numbers.Schemas):
    # (Values of JavaScript are others: see rewriting.test.js.)
    test_values = None


class ErrorsOfNumbers(OnThisPackage, numbers.Errors):
    pass


class Patterns(unittest.TestCase):
    def test_written(self):
        made = asked("patterns", [pattern for pattern, _ in patterns.WRITTEN])
        self.assertEqual([it for it, _ in made], [{"pattern": text} for _, text in patterns.WRITTEN])

    def test_left(self):
        left = [*patterns.THE_SAME, *patterns.LEFT]
        self.assertEqual(asked("patterns", left), [[None, None]] * len(left))


class Matches(OnThisPackage, patterns.Matches):
    # These are about Python's own functions.
    test_forms_in_node = test_random = test_values_stay = None


class Names(OnThisPackage, patterns.Names):
    pass


class Places(OnThisPackage, patterns.Places):
    pass


class Options(OnThisCommand, rewriting.Options):
    pass


class AsInPython(unittest.TestCase):
    """What is rewritten becomes the same in both packages, and leads back to the same."""

    def test_keywords(self):
        self.assertEqual({name: tuple(it) for name, it in asked("tables")["keywords"].items()}, KEYWORDS)

    def test_patterns(self):
        maker = random_patterns.Maker(1)
        given = [maker.pattern()[0] for _ in range(300)]
        expected = [[it and schema_of(it) for it in (read(pattern), read_single(pattern))] for pattern in given]
        self.assertEqual(asked("patterns", given), expected)
        self.assertGreater(sum(it is not None for it, _ in expected), 200)

    def test_documents(self):
        maker, changed = Documents(1), 0
        for _ in range(100):
            draft, documents, options = maker.draft(), maker.documents(), maker.options()
            with self.subTest(documents, **options):
                mine = Rewriting(options.get("patterns"), options.get("numbers"))
                texts = [text for _, text in mine.texts([(uri, text.encode()) for uri, text in documents], draft)]
                units = maker.units(documents, texts)
                found = asked("rewritten", documents, options, draft, units)
                self.assertEqual([*map(json.loads, found["texts"])], [*map(json.loads, texts)])
                uris = [it["absoluteKeywordLocation"] for it in units]
                self.assertEqual(found["schemas"], [*map(mine.restoring.schema, uris)])
                self.assertEqual(found["entries"], [*map(mine.entry, uris)])
                self.assertEqual(found["errors"], restored(mine, units))
                changed += any(text.encode() != now for (_, text), now in zip(documents, texts))
        self.assertGreater(changed, 50)


def restored(mine, units):
    """Units as Python's package leads them back."""
    errors = [jschema.ValidationError(it["error"], it["instanceLocation"], it["keywordLocation"],
                                      it["absoluteKeywordLocation"], jschema.Text(b"1")) for it in units]
    return [{"error": it.message, "instanceLocation": it.instance_location, "keywordLocation": it.keyword_location,
             "absoluteKeywordLocation": it.absolute_keyword_location} for it in mine.restoring.errors(errors)]


# Documents with a schema and a pattern in them.
FORMS = (
    '{"allOf": [%s, {"pattern": %s}]}',
    '{"definitions": {"a": %s}, "type": "integer", "pattern": %s}',
    '{"items": %s, "additionalProperties": false, "properties": {"ab": {}}, "patternProperties": {%s: true}}',
    '{"patternProperties": {"^\\\\d$": %s}, "$ref": "#/patternProperties/%%5E%%5Cd$", "not": {"pattern": %s}}',
    '{"default": [0.5, {"x": 1.0}], "not": %s, "patternProperties": {"\\\\s": {"pattern": %s}}}',
)


class Documents:
    """Makes documents with numbers and patterns, and units of outputs about them."""

    def __init__(self, seed):
        self.random = random.Random(seed)
        self.numbers, self.patterns = random_numbers.Maker(seed), random_patterns.Maker(seed)

    def draft(self):
        return DRAFTS.index(self.random.choice(["draft-03", "draft-04", "draft-06", "2020-12", "2020-12"]))

    def options(self):
        words = {"patterns": ["ecma", None], "numbers": ["exact", "texts", None]}
        given = {name: self.random.choice(them) for name, them in words.items()}
        return {name: it for name, it in given.items() if it is not None}

    def documents(self):
        return [(f"urn:x{number}", self.document()) for number in range(self.random.choice([1, 1, 2]))]

    def document(self):
        text = self.numbers.schema(self.random.choice(["draft-04", "2020-12"]))
        for _ in range(self.random.randrange(4)):
            pattern = json.dumps(self.patterns.pattern()[0])
            text = self.random.choice(FORMS) % (text, pattern)
        return text

    def units(self, documents, texts):
        """Units about places of the rewritten documents, and about some of what they were."""
        places = [with_pointer(uri, [*tokens]) for (uri, _), text in zip(documents, texts)
                  for tokens in tokens_in(json.loads(text))]
        places += [with_pointer(uri, [*tokens]) for uri, text in documents for tokens in tokens_in(json.loads(text))]
        return [{"error": self.random.choice("ab"), "instanceLocation": self.random.choice(["", "/a"]),
                 "keywordLocation": "/$ref" + uri.partition("#")[2], "absoluteKeywordLocation": uri}
                for uri in self.random.sample(places, min(len(places), 30))]


def tokens_in(value):
    """The tokens of each value in a value."""
    waiting = [(value, ())]
    for it, tokens in waiting:
        yield tokens
        below = it.items() if isinstance(it, dict) else enumerate(it) if isinstance(it, list) else ()
        waiting += [(child, (*tokens, str(token))) for token, child in below]


if __name__ == "__main__":
    unittest.main()
