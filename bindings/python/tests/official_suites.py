#!/usr/bin/env python3
"""The JSON Schema Test Suite of each draft, through the Python package with patterns of ECMA-262 and numbers with
fractions.

    bindings/python/tests/official_suites.py SUITE [--optional] [--plain] [--list] [DRAFT]...

SUITE is a checkout of the suite, DRAFT a folder in its `tests`. With `--plain` nothing is rewritten, with `--optional`
the optional tests of ECMA-262's patterns and of numbers are run too. Each test passes, differs, or has no verdict,
which is counted by the reason. The last line is 'N passed, M failed'.
"""
import argparse
import json
import os
import sys
from collections import Counter
from pathlib import Path

HERE = os.path.dirname(os.path.abspath(__file__))
sys.path[:0] = [os.path.join(HERE, ".."), os.path.join(HERE, "..", "..", "..", "tests", "conformance")]
import jschema  # noqa: E402
from jschema.numbers import Number, number  # noqa: E402
from jschema.uris import document_of, joined  # noqa: E402
from suite import REMOTES, json_files  # noqa: E402

DIALECTS = {"draft3": "draft-03", "draft4": "draft-04", "draft6": "draft-06", "draft7": "draft-07",
            "draft2019-09": "2019-09", "draft2020-12": "2020-12"}
OPTIONAL = ("optional/ecmascript-regex.json", "optional/non-bmp-regex.json", "optional/float-overflow.json",
            "optional/bignum.json", "optional/zeroTerminatedFloats.json")
OPTIONS = {"patterns": "ecma", "numbers": "exact"}
URI = "https://suite.example/0"


def references(value, base):
    """The URIs, without fragments, that references anywhere in a value make; some may stand where no schema does."""
    if isinstance(value, dict):
        for keyword in ("$id", "id"):
            if isinstance(value.get(keyword), str):
                base = joined(base, value[keyword])
        for name, below in value.items():
            if name in ("$ref", "$dynamicRef", "$recursiveRef") and isinstance(below, str):
                yield document_of(joined(base, below))
            yield from references(below, base)
    elif isinstance(value, list):
        for below in value:
            yield from references(below, base)


def opened(schema, draft, documents, options):
    """The schemas of a group, with the documents that it refers to."""
    others, waiting = {}, [*references(schema, URI)]
    for uri in waiting:
        # (The list grows on the way.)
        if uri in documents and uri not in others:
            others[uri] = Path(documents[uri]).read_bytes()
            waiting += references(json.loads(others[uri]), uri)
    return jschema.Schemas({URI: json.dumps(schema), **others}, default_dialect=DIALECTS[draft], **options)


def has_fraction(value):
    """Whether an instance has a number that is no integer from -2^63 to 2^64 - 1."""
    if isinstance(value, dict):
        return any(map(has_fraction, value.values()))
    if isinstance(value, list):
        return any(map(has_fraction, value))
    return isinstance(value, (int, float)) and not isinstance(value, bool) and isinstance(number(repr(value)), Number)


def outcome(schemas, test):
    """`passed`, `differs`, or why there is no verdict."""
    if isinstance(schemas, jschema.Refused):
        return f"the schema is refused: {schemas.kind}"
    try:
        verdict = schemas.is_valid(URI, json.dumps(test["data"]))
    except jschema.Refused as refused:
        if refused.kind == "NotWhole" and has_fraction(test["data"]):
            return "a number in the instance"
        return f"the instance is refused: {refused.kind}"
    return "passed" if verdict == test["valid"] else "differs"


def judged(folder, draft, options, optional):
    """What came of each test of a draft, with the names of its file, its group and itself."""
    documents = {REMOTES + it.replace(os.sep, "/"): os.path.join(folder, "remotes", it)
                 for it in json_files(os.path.join(folder, "remotes"))}
    tests = os.path.join(folder, "tests", draft)
    files = [it for it in json_files(tests) if not it.startswith("optional")]
    for name in files + [it for it in OPTIONAL if optional and os.path.isfile(os.path.join(tests, it))]:
        for group in json.loads(Path(tests, name).read_bytes()):
            try:
                schemas = opened(group["schema"], draft, documents, options)
            except jschema.Refused as refused:
                schemas = refused
            for test in group["tests"]:
                yield outcome(schemas, test), (name, group["description"], test["description"])


def main():
    parser = argparse.ArgumentParser(description="Runs the JSON Schema Test Suite of each draft.")
    parser.add_argument("suite", help="the folder with `tests` and `remotes`")
    parser.add_argument("draft", nargs="*", choices=[*DIALECTS, []], help="a folder in `tests` (default: all)")
    parser.add_argument("--optional", action="store_true", help="run the optional tests of patterns and numbers too")
    parser.add_argument("--plain", action="store_true", help="rewrite nothing")
    parser.add_argument("--list", action="store_true", help="list the tests that don't pass")
    given = parser.parse_args()
    total = Counter()
    for draft in given.draft or DIALECTS:
        found = list(judged(given.suite, draft, {} if given.plain else OPTIONS, given.optional))
        counts = Counter(it for it, _ in found)
        total += counts
        print(f"{draft}: {len(found)} tests; " + "; ".join(f"{count} {it}" for it, count in counts.most_common()))
        for it, names in found if given.list else ():
            if it not in ("passed", "a number in the instance"):
                print(f"    {it}: {': '.join(names)}")
    print(f"{total['passed']} passed, {total['differs']} failed")
    return 1 if total["differs"] or not total["passed"] else 0


if __name__ == "__main__":
    sys.exit(main())
