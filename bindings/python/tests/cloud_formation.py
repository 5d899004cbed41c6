#!/usr/bin/env python3
"""The schemas of CloudFormation that pip's `cfn-lint` has: how many the validator takes with their patterns rewritten,
and whether it then gives the verdicts of pip's `jsonschema`.

    bindings/python/tests/cloud_formation.py [--seed N] [--strings N] [--schemas N] [--list]

JSCHEMA and JSCHEMA_LIBRARY name the program and the library. A schema that names no dialect is of draft-07, as
`cfn-lint` reads it, and so is one that names CloudFormation's own. Of each pattern that was rewritten, and that
Python's `re` reads too, there are some strings that it may match. The last line is 'N passed, M failed'.
"""
import argparse
import glob
import importlib.util
import json
import os
import random
import re
import sys
from collections import Counter
from pathlib import Path

sys.path.insert(0, os.path.join(os.path.dirname(os.path.abspath(__file__)), ".."))
import jschema  # noqa: E402
from jschema.dialects import dialect_named  # noqa: E402
from jschema.locations import pointer  # noqa: E402
from jschema.lookup import file_url  # noqa: E402
from jschema.patterns import read  # noqa: E402
from jschema.patterns.nodes import Assertion, Group, Look, Repeat  # noqa: E402
from jschema.patterns.syntax import Read  # noqa: E402
from jschema.resources import document  # noqa: E402
from jschema.sources import JsonSource  # noqa: E402
from jschema.uris import with_pointer  # noqa: E402

OPTIONS = {"patterns": "ecma", "numbers": "texts"}
COMMON = "aA0z9-_./: "


class Strings:
    """Makes strings that a pattern may match, in ASCII."""

    def __init__(self, seed):
        self.random = random.Random(seed)

    def of(self, pattern):
        text = self.some(self.random.choice(Read(pattern).alternatives))
        for _ in range(self.random.randrange(3)):
            at = self.random.randrange(len(text) + 1)
            text = text[:at] + self.random.choice([*COMMON, "aws:", "--", ""]) + text[at + self.random.randrange(2):]
        return text

    def some(self, sequence):
        return "".join(map(self.node, sequence))

    def node(self, node):
        if isinstance(node, Assertion):
            return ""
        if isinstance(node, Look):
            # (So that what is forbidden is there, too.)
            return self.some(self.random.choice(node.body)) if self.random.random() < 0.1 else ""
        if isinstance(node, Group):
            return self.some(self.random.choice(node.body))
        if isinstance(node, Repeat):
            most = node.least + 3 if node.most is None else min(node.most, node.least + 3)
            return "".join(self.node(node.node) for _ in range(self.random.randrange(node.least, most + 1)))
        known = [chr(code) for first, last in node.ranges for code in range(max(first, 0x20), min(last, 0x7E) + 1)]
        return self.random.choice(known or COMMON)


def files():
    """The schemas, without those that change others."""
    folder = os.path.join(os.path.dirname(importlib.util.find_spec("cfnlint").origin), "data", "schemas")
    return sorted(it for it in glob.glob(os.path.join(folder, "**", "*.json"), recursive=True)
                  if f"{os.sep}patches{os.sep}" not in it)


def schema_of(path):
    schema = json.loads(Path(path).read_bytes())
    if isinstance(schema, dict) and dialect_named(schema.get("$schema")) is None:
        schema.pop("$schema", None)
    return schema


def opened(path, schema, options):
    """The schemas of a file, or why they are refused."""
    try:
        return jschema.Schemas({file_url(path): json.dumps(schema)}, default_dialect="draft-07", **options)
    except jschema.Refused as refused:
        return refused


def rewritten(path, schema):
    """The places in a schema with a pattern that is rewritten, with that, and whether it is of names."""
    text = json.dumps(schema).encode()
    for it in document(file_url(path), JsonSource("json", text, text)).schemas:
        named = it.value.get("patternProperties")
        for pattern, is_name in [(it.value.get("pattern"), False),
                                 *((name, True) for name in (named if isinstance(named, dict) else ()))]:
            if isinstance(pattern, str) and read(pattern) is not None:
                yield it, pattern, is_name


def differing(path, schema, schemas, strings, count):
    """The number of verdicts that were compared and of those that are valid, and the cases that differ."""
    import jsonschema
    verdicts, valid, failed = 0, 0, []
    for it, pattern, is_name in rewritten(path, schema):
        try:
            re.compile(pattern)
        except re.error:
            continue
        entry = with_pointer(file_url(path), ["$defs" if token == "definitions" else token for token in it.tokens])
        others = {name: value for name, value in schema.items() if name == "definitions"}
        validator = jsonschema.Draft7Validator({**others, **it.value})
        for _ in range(count):
            text = strings.of(pattern)
            instance = {text: strings.random.choice(["a", 1, {}, [], True])} if is_name else text
            ours, theirs = schemas.is_valid(entry, json.dumps(instance)), validator.is_valid(instance)
            verdicts, valid = verdicts + 1, valid + theirs
            if ours != theirs:
                failed.append((path, it.tokens, pattern, instance, ours))
    return verdicts, valid, failed


def main():
    parser = argparse.ArgumentParser(description="Compares CloudFormation's schemas with pip's jsonschema.")
    parser.add_argument("--seed", type=int, default=1)
    parser.add_argument("--strings", type=int, default=10, help="how many strings of each pattern (default: 10)")
    parser.add_argument("--schemas", type=int, help="how many schemas, from the first (default: all)")
    parser.add_argument("--list", action="store_true", help="list those that stay refused")
    given = parser.parse_args()
    strings, counts, failed = Strings(given.seed), Counter(), []
    for path in files()[:given.schemas]:
        schema = schema_of(path)
        before = opened(path, schema, {"numbers": "texts"})
        if not isinstance(before, jschema.Refused) or before.kind != "BadPattern":
            counts["taken as it is" if not isinstance(before, jschema.Refused) else f"refused: {before.kind}"] += 1
            continue
        schemas = opened(path, schema, OPTIONS)
        if isinstance(schemas, jschema.Refused):
            counts[f"refused for a pattern, and still: {schemas.kind}"] += 1
            if given.list:
                print(f"{os.path.basename(path)}: {schemas.kind} at {schemas.place}")
            continue
        counts["refused for a pattern, and then taken"] += 1
        with schemas:
            verdicts, valid, more = differing(path, schema, schemas, strings, given.strings)
        counts["verdicts"] += verdicts
        counts["valid"] += valid
        failed += more
    for path, tokens, pattern, instance, ours in failed[:20]:
        print(f"FAILED {os.path.basename(path)} {pointer([*tokens])}: {pattern!r} on {instance!r}: {ours}")
    print(", ".join(f"{name}: {count}" for name, count in counts.items()))
    print(f"{counts['verdicts'] - len(failed)} passed, {len(failed)} failed")
    return 1 if failed or not counts["verdicts"] else 0


if __name__ == "__main__":
    sys.exit(main())
