#!/usr/bin/env python3
"""The program's words over the reference: slow and short, to be compared with the program.

    tests/reference/jschema.py (check FORMAT INSTANCE ENTRY | suite SUITE | places) [URI FILE]...

It ends with the program's status, or with 70 and a traceback where the reference itself fails.
"""
import functools
import os
import sys
import traceback

sys.path.insert(0, os.path.join(os.path.dirname(os.path.abspath(__file__)), "..", ".."))
from tests.reference.bundle import Bundle, EntryRefused, Refused  # noqa: E402
from tests.reference.deep_stack import with_deep_stack  # noqa: E402
from tests.reference.forms import form_text  # noqa: E402
from tests.reference.json_text import (Fraction, NotJson, NotWhole, any_value, first_fraction,  # noqa: E402
                                       pointer_text, read, text)
from tests.reference.result import TooLarge, result  # noqa: E402
from tests.support.interface import FORMATS  # noqa: E402

LARGEST = 16_777_216
CRASHED = 70
USAGE = "usage: jschema (check FORMAT INSTANCE ENTRY | suite SUITE | places) [URI FILE]..."
PAIRS = "usage: URI and FILE come in pairs"


class Fault(Exception):
    """What goes to standard error, and the status."""

    def __init__(self, status, line):
        super().__init__(status, line)
        self.status, self.line = status, line


def refused(where, pointer, kind):
    return Fault(3, f"refused: {where} at {text(pointer_text(pointer))}: {kind}")


def take(path):
    try:
        with open(path, "rb") as file:
            return within(file.read())
    except OSError:
        raise Fault(4, "failed: Read") from None


def within(data):
    if len(data) > LARGEST:
        raise Fault(3, "refused: input: InputTooLarge")
    return data


def finished(documents):
    bundle = Bundle()
    for uri, data in documents:
        bundle.add(uri, data)
    bundle.finish()
    return bundle


@functools.lru_cache(maxsize=1)
def judged(documents, entry, data):
    """The result of a run, or its fault: the last one is kept, for the other formats."""
    try:
        return judge(documents, entry, data)
    except Fault as fault:
        return fault


def judge(documents, entry, data):
    try:
        bundle = finished(documents)
        place = bundle.entry(entry)
    except Refused as fault:
        raise refused(f"document {fault.document}", fault.pointer, fault.kind) from None
    except EntryRefused as fault:
        raise Fault(3, f"refused: entry: {fault.kind}") from None
    try:
        value = read(within(data))
    except NotJson:
        raise refused("instance", (), "NotJson") from None
    except NotWhole as fault:
        raise refused("instance", fault.pointer, "NotWhole") from None
    try:
        return result(bundle, place, value)
    except TooLarge:
        raise Fault(3, "refused: walk: TooLarge") from None


def run(documents, entry, data, format_):
    """The outcome of a run: its text and its verdict."""
    node = judged(tuple(documents), entry, data)
    if isinstance(node, Fault):
        raise node
    return form_text(node, format_), node.valid


def run_pair(data):
    document, _, instance = within(data).partition(b"\n")
    uri = "https://a.example/s"
    return run([(uri, document)], uri, instance, "flag")


def check_suite(groups):
    """Refuses a suite at the first value that is missing or of the wrong kind."""

    def wanted(value, pointer, kind):
        if kind is not None and type(value) is not kind:
            raise refused("suite", pointer, "BadSuite")

    def member(value, pointer, name, kind):
        if name not in value:
            raise refused("suite", (*pointer, name), "BadSuite")
        wanted(value[name], (*pointer, name), kind)

    wanted(groups, (), list)
    for g, group in enumerate(groups):
        at = (str(g),)
        wanted(group, at, dict)
        for name, kind in (("description", str), ("schema", None), ("tests", list)):
            member(group, at, name, kind)
        for t, test in enumerate(group["tests"]):
            below = (*at, "tests", str(t))
            wanted(test, below, dict)
            for name, kind in (("data", None), ("description", str), ("valid", bool)):
                member(test, below, name, kind)


def suite_word(documents, group, number, test):
    uri = f"https://suite.example/{number}"
    if first_fraction(group["schema"]) is not None or first_fraction(test["data"]) is not None:
        return "skip"
    try:
        bundle = finished([*documents, (uri, text(group["schema"]).encode())])
        valid = result(bundle, bundle.entry(uri), test["data"]).valid
    except (Refused, TooLarge):
        return "skip"
    return "pass" if valid == test["valid"] else "fail"


def run_suite(documents, data):
    try:
        finished(documents)
    except Refused as fault:
        raise refused(f"document {fault.document}", fault.pointer, fault.kind) from None
    try:
        groups = any_value(within(data))
    except NotJson:
        raise refused("suite", (), "NotJson") from None
    check_suite(groups)
    counts = {"pass": 0, "fail": 0, "skip": 0}
    lines = []
    for g, group in enumerate(groups):
        for t, test in enumerate(group["tests"]):
            word = suite_word(documents, group, g, test)
            counts[word] += 1
            lines.append(f"{word} {g}.{t} {text(test['description'])}\n")
    lines.append(f"passed {counts['pass']}, failed {counts['fail']}, skipped {counts['skip']}\n")
    return "".join(lines), counts["fail"] == counts["skip"] == 0


def run_places(documents):
    try:
        bundle = finished(documents)
    except Refused as fault:
        raise refused(f"document {fault.document}", fault.pointer, fault.kind) from None
    return "".join(it.absolute() + "\n" for it in bundle.places), True


def positionals(words):
    """The words after a command; a word that begins with `-` is of another form, but for `-` and what follows `--`."""
    taken, all_are = [], False
    for word in words:
        if not all_are and word == "--":
            all_are = True
        elif not all_are and word.startswith("-") and word != "-":
            raise Fault(2, USAGE)
        else:
            taken.append(word)
    return taken


def command(words, given):
    """The text that goes out and whether the status is 0."""
    if not words:
        return run_pair(given())
    least = {"check": 3, "suite": 1, "places": 0}.get(words[0])
    if least is None:
        raise Fault(2, USAGE)
    taken = positionals(words[1:])
    if len(taken) < least or words[0] == "check" and taken[0] not in FORMATS:
        raise Fault(2, USAGE)
    pairs = taken[least:]
    if len(pairs) % 2:
        raise Fault(2, PAIRS)
    documents = [(uri, take(file)) for uri, file in zip(pairs[::2], pairs[1::2])]
    if words[0] == "check":
        return run(documents, taken[2], take(taken[1]), taken[0])
    if words[0] == "suite":
        return run_suite(documents, take(taken[0]))
    return run_places(documents)


def answer(words, given=lambda: b""):
    """What the program writes on both outputs, and its status."""
    try:
        out, holds = command(words, given)
        return out.encode(), b"", 0 if holds else 1
    except Fault as fault:
        return b"", f"{fault.line}\n".encode(), fault.status


def main():
    out, faults, status = answer(sys.argv[1:], sys.stdin.buffer.read)
    sys.stdout.buffer.write(out)
    sys.stdout.buffer.flush()
    sys.stderr.buffer.write(faults)
    sys.stderr.buffer.flush()
    return status


def status_of_main():
    """The program's status, or one that it doesn't have where the reference itself fails."""
    try:
        return with_deep_stack(main)
    except Exception:
        traceback.print_exc()
        return CRASHED


if __name__ == "__main__":
    sys.exit(status_of_main())
