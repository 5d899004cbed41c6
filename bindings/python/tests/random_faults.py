#!/usr/bin/env python3
"""Where random texts stop being JSON, beside the reference's reader.

    bindings/python/tests/random_faults.py [--seed N] [--count N]

A text has no fault where the reference reads it. Otherwise what is before the fault can be completed to a JSON text,
and what goes beyond the string, number, word or sign at the fault can't. The last line is 'N passed, M failed'.
"""
import argparse
import os
import random
import re
import sys
from unittest import mock

HOME = os.path.dirname(os.path.abspath(__file__))
sys.path[:0] = [os.path.join(HOME, name) for name in ("../../..", "..")]
from jschema.faults import first_fault  # noqa: E402
from tests.reference import json_text  # noqa: E402

SAMPLE = ('{"a\\u00e9" : [1, -20.5e+1,\n "\\ud83d\\ude00é", {}], "b/~": {"": null}, '
          '"b/~": [true,\r\n\t[], false]}\n').encode()
TEXTS = [
    SAMPLE,
    b'[[1,2],{"a":"b\\\\"}]', b'"x\\"y"', b' [1e5, "1e400", "NaN", 0.25]', b'{"[": {"\\\\\\"": [[]]}, "b": "}"}', b"",
]
PIECES = [
    *(bytes([it]) for it in b'"\\[]{}:, \n10-.eax\x00\x7f\xc3\xff'), b'\\"', b"\\\\", b"1e400", b"1e-400", b"9" * 310,
    b"NaN", b"-Infinity", b"true", b"nul", b"\\ud800", b"\\udc00", b"\\u0041", b"\\ud83d\\ude00", "é".encode(),
    "😀".encode(), b"\xef\xbb\xbf", b"\xed\xa0\x80", b"[1", b'{"a":', b"//", b"'",
]
# What may follow where no string, number or word is torn, and what may where a string is.
NEXT = (b"", b" 0", b' "":0', b" :0")
NEXT_IN_STRING = (b'"', b'":0')
WORD = re.compile(rb"[-+.0-9A-Za-z]{2}")
STRING_OR_BRACKET = re.compile(rb'"(?:[^"\\]|\\.)*"?|([\[\]{}])', re.DOTALL)


def is_json(text):
    """Whether the reference reads a text."""
    try:
        json_text.any_value(text)
    except json_text.NotJson:
        return False
    return True


def changed(numbers, text):
    """A text with some pieces put in or taken out."""
    for _ in range(numbers.randrange(1, 4)):
        begin = numbers.randrange(len(text) + 1)
        end = begin + numbers.choice((0, 0, 1, 3))
        text = text[:begin] + numbers.choice(PIECES) + text[end:]
    return text


def can_begin(text, following=NEXT):
    """Whether a text with one of these behind it is JSON, once its arrays and objects are closed."""
    closings = b""
    for bracket in STRING_OR_BRACKET.findall(text):
        if bracket in (b"[", b"{"):
            closings = (b"]" if bracket == b"[" else b"}") + closings
        elif bracket:
            closings = closings[1:]
    return any(is_json(text + it + closings) for it in following)


def not_unicode(text):
    """The first byte that isn't UTF-8."""
    try:
        text.decode()
    except UnicodeDecodeError as error:
        return error.start
    return None


def fails(text, deepest):
    """What is wrong with the fault that is found in a text; None if it is right."""
    found = first_fault(text, deepest)
    with mock.patch.object(json_text, "DEEPEST", deepest):
        if found is None or is_json(text):
            return None if (found is None) == is_json(text) else f"{found}, and it is JSON: {is_json(text)}"
        if not can_begin(text[:found], (*NEXT, *NEXT_IN_STRING) if found == not_unicode(text) else NEXT):
            return f"{found} is too late"
        beyond = (it for it in range(found + 1, len(text) + 1) if not WORD.match(text, it - 1))
        later = next((it for it in beyond if can_begin(text[:it])), None)
        return None if later is None else f"{found} is too early: at least {later}"


def compared(seed, count):
    """How many texts have no fault, and those whose fault is wrong."""
    numbers, known, failed = random.Random(seed), 0, []
    for _ in range(count):
        text, deepest = changed(numbers, numbers.choice(TEXTS)), numbers.choice((2, 4, 127))
        known += first_fault(text, deepest) is None
        wrong = fails(text, deepest)
        if wrong is not None:
            failed.append((text, deepest, wrong))
    return known, failed


def main():
    parser = argparse.ArgumentParser(description="Compares where texts stop being JSON with the reference's reader.")
    parser.add_argument("--seed", type=int, default=1)
    parser.add_argument("--count", type=int, default=10_000, help="how many texts (default: 10,000)")
    given = parser.parse_args()
    known, failed = compared(given.seed, given.count)
    for text, deepest, wrong in failed[:20]:
        print(f"FAILED {text!r}, {deepest} levels: {wrong}")
    print(f"{known} are JSON")
    print(f"{given.count - len(failed)} passed, {len(failed)} failed")
    return 1 if failed or not known else 0


if __name__ == "__main__":
    sys.exit(main())
