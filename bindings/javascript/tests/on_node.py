"""The JavaScript package as tests of the Python package call theirs: by a process that is asked."""
import base64
import json

from this_command import process

import jschema  # isort: skip
from jschema.lint import Finding  # isort: skip
from jschema.positions import Position, Text  # isort: skip
from jschema.sources import Range  # isort: skip


def asked(name, *given):
    """What a call returns. Raises what Python's package would."""
    answer = process("asked.js").asked([name, *given])
    if "answer" in answer:
        return answer["answer"]
    if answer["thrown"] == "Refused":
        refused = jschema.Refused(answer["subject"], answer["kind"], answer.get("place"), answer.get("index"))
        refused.is_upgraded = answer["isUpgraded"]
        raise refused
    raise {"RangeError": ValueError, "TypeError": TypeError}.get(answer["thrown"], RuntimeError)(answer["message"])


def text_of(value):
    """The bytes of a document or an instance."""
    if isinstance(value, bytes):
        return value
    return value.encode() if isinstance(value, str) else json.dumps(value).encode()


def sent(value):
    return base64.b64encode(text_of(value)).decode()


def pairs(documents):
    return [(uri, sent(it)) for uri, it in dict(documents).items()]


class Schemas:
    """`jschema.Schemas`, by this package."""

    def __init__(self, documents, *, default_dialect=None, upgrade=True, patterns=None, numbers=None):
        options = {"defaultDialect": default_dialect, "patterns": patterns, "numbers": numbers}
        self.index = asked("create", pairs(documents),
                           {"upgrade": upgrade, **{name: it for name, it in options.items() if it is not None}})

    def is_valid(self, entry, instance):
        return asked("isValid", self.index, entry, sent(instance))

    def errors(self, entry, instance):
        return [jschema.ValidationError(it["message"], it["instanceLocation"], it["keywordLocation"],
                                        it["absoluteKeywordLocation"], Text(text_of(instance)), it["upgradedLocation"])
                for it in asked("errors", self.index, entry, sent(instance))]

    def places(self):
        return asked("places", self.index)

    def close(self):
        asked("close", self.index)

    def __enter__(self):
        return self

    def __exit__(self, *_):
        self.close()


def lint_all(texts, others=(), **options):
    """`jschema.lint.lint_all`, of JSON texts."""
    found = asked("lint", [(uri, sent(text)) for uri, text, _ in texts], pairs(others), options)
    return [[Finding(it["rule"], it["severity"], it["message"], it["place"], range_of(it["range"]),
                     it.get("suggestion")) for it in findings] for findings in found]


def lint(text, uri, others=(), **options):
    """`jschema.lint.lint`, of a JSON text."""
    return lint_all([(uri, text, "json")], others, **options)[0]


def range_of(given):
    return Range(*(Position(it["offset"], it["line"], it["column"]) for it in (given["begin"], given["end"])))
