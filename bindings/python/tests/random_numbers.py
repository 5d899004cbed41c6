#!/usr/bin/env python3
"""Random schemas with numbers that have fractions and exponents: the validator beside pip's `jsonschema`.

    bindings/python/tests/random_numbers.py [--seed N] [--count N]

JSCHEMA and JSCHEMA_LIBRARY name the program and the library. Fractions are multiples of 1/8, which floats are exactly,
since pip's validator computes with them. Up to draft-04 `1.0` is no integer: where a schema of these asks for integers,
such instances are refused, and those refusals are counted. The last line is 'N passed, M failed'.
"""
import argparse
import json
import os
import random
import re
import sys

sys.path.insert(0, os.path.join(os.path.dirname(os.path.abspath(__file__)), ".."))
import jschema  # noqa: E402

URI = "urn:x"
DRAFTS = {"draft-03": "Draft3Validator", "draft-04": "Draft4Validator", "draft-06": "Draft6Validator",
          "2020-12": "Draft202012Validator"}
OLD = ("draft-03", "draft-04")
FRACTION = re.compile("[0-9][.eE]")
# (With these pip's division isn't exact.)
LARGE = ["9223372036854775807", "18446744073709551615", "-9223372036854775808"]
INSTANCES = ["0", "1", "2", "3", "-1", "-2", "5", "6", "12", "1.0", "1e1", "-0", "2.50e1", "-3.0", "0e9", "1000", '"a"',
             '"abc"', '""', "null", "true",
             "[]", "[1, 1.0]", "[1, 2]", "[1.0, 2, 3]", '{"a": 1.0}', '{"a": 2, "b": 1e0}', '{"a": 0}', "[[1.0]]"]


class Maker:
    def __init__(self, seed):
        self.random = random.Random(seed)

    def number(self):
        """The text of a number."""
        one = self.random
        kind = one.randrange(8)
        if kind < 4:
            return repr(one.randrange(-32, 64) / 8)
        if kind == 4:
            return one.choice(["1e0", "1E1", "0.5e1", "-2e0", "25e-1", "1.50", "-0.0", "-0", "2.0", "100e-2"])
        if kind == 5:
            return one.choice(["1e30", "-1e30", "18446744073709551616", "-9223372036854775809", "1e19", "4e19"])
        return str(one.randrange(-3, 7))

    def positive(self):
        return repr(self.random.randrange(1, 40) / 8) if self.random.random() < 0.7 else self.random.choice(
            ["2.0", "1e0", "3", "0.5e1", "1e25", "5e-1"])

    def count(self):
        return self.random.choice(["0", "1", "2", "1.0", "2.0", "0.0", "1e0", "1e30", "3", "20e-1"])

    def value(self):
        kind = self.random.randrange(6)
        if kind < 3:
            return self.number()
        if kind == 3:
            return f"[{', '.join(self.number() for _ in range(self.random.randrange(3)))}]"
        return f'{{"a": {self.number()}}}' if kind == 4 else self.random.choice(['"a"', "null", "true"])

    def schema(self, draft, depth=0):
        """The text of a schema."""
        members = {}
        for keyword in self.random.sample(["minimum", "maximum", "exclusiveMinimum", "exclusiveMaximum", "multipleOf",
                                           "enum", "const", "length", "type", "below"], self.random.randrange(1, 4)):
            members.update(self.keyword(keyword, draft, depth))
        return "{" + ", ".join(f'"{name}": {value}' for name, value in members.items()) + "}"

    def keyword(self, keyword, draft, depth):
        is_old = draft in OLD
        if keyword == "multipleOf":
            return {"divisibleBy" if draft == "draft-03" else keyword: self.positive()}
        if keyword == "enum":
            return {keyword: f"[{', '.join(self.value() for _ in range(self.random.randrange(1, 4)))}]"}
        if keyword == "const":
            return {} if is_old else {keyword: self.value()}
        if keyword == "type":
            return {keyword: self.random.choice(['"number"', '"array"', '"integer"', '["integer", "string"]'])}
        if keyword == "length":
            what = self.random.choice(["minLength", "maxLength", "minItems", "maxItems"] +
                                      ["minProperties", "maxProperties"] * (draft != "draft-03"))
            return {what: self.count()}
        if keyword == "below":
            return {} if depth > 1 else self.below(draft, depth + 1)
        if keyword.startswith("exclusive") and is_old:
            return {keyword[9:].lower(): self.number(), keyword: self.random.choice(["true", "true", "false"])}
        return {keyword: self.number()}

    def below(self, draft, depth):
        inner = self.schema(draft, depth)
        if draft == "draft-03":
            return self.random.choice([{"items": inner}, {"properties": f'{{"a": {inner}}}'}, {"extends": inner},
                                       {"extends": f"[{inner}, {self.schema(draft, depth)}]"},
                                       {"disallow": f'[{inner}, "null"]'}, {"type": f'["array", {inner}]'}])
        return self.random.choice([{"items": inner}, {"not": inner}, {"properties": f'{{"a": {inner}}}'},
                                   {"allOf": f"[{inner}, {self.schema(draft, depth)}]"}, {"anyOf": f"[{inner}]"}])


def compared(seed, count, drafts):
    """How many verdicts were compared and how many were valid, how many instances were refused, since `1.0` may be an
    integer or not, and the cases that differ."""
    import jsonschema
    maker, verdicts, valid, refusals, failed = Maker(seed), 0, 0, 0, []
    for _ in range(count):
        draft = maker.random.choice(drafts)
        text = maker.schema(draft)
        validator = getattr(jsonschema, DRAFTS[draft])(json.loads(text))
        has_large = "multipleOf" not in text and "divisibleBy" not in text
        with jschema.Schemas({URI: text}, default_dialect=draft, numbers="exact") as schemas:
            for instance in maker.random.sample(INSTANCES + LARGE * has_large, 8):
                try:
                    ours = schemas.is_valid(URI, instance)
                except jschema.Refused as refused:
                    ours = refused.kind
                if ours == "NotWhole" and draft in OLD and '"integer"' in text and FRACTION.search(instance):
                    refusals += 1
                    continue
                theirs = validator.is_valid(json.loads(instance))
                verdicts, valid = verdicts + 1, valid + theirs
                if ours != theirs:
                    failed.append((draft, text, instance, ours))
    return verdicts, valid, refusals, failed


def main():
    parser = argparse.ArgumentParser(description="Compares schemas with fractions with pip's jsonschema.")
    parser.add_argument("--seed", type=int, default=1)
    parser.add_argument("--count", type=int, default=1000, help="how many schemas (default: 1000)")
    given = parser.parse_args()
    verdicts, valid, refusals, failed = compared(given.seed, given.count, [*DRAFTS])
    for draft, text, instance, ours in failed[:20]:
        print(f"FAILED {draft}: {text} on {instance}: {ours}")
    print(f"{valid} valid, {refusals} instances refused")
    print(f"{verdicts - len(failed)} passed, {len(failed)} failed")
    return 1 if failed or not verdicts else 0


if __name__ == "__main__":
    sys.exit(main())
