"""What the program and pip's `jsonschema` say of a schema document, with instances."""
import collections
import json
import os
import random
import re
from dataclasses import dataclass, field

from documents import Document
from others import OlderJudge, left_out_of_older
from sampling import Sampler, places
from suite import CURRENT
from tests.support.programs import TimeoutExpired, answer_of, no_end

LINE = re.compile(rb"(pass|fail|skip) (\d+)\.(\d+) ")
REFUSAL = re.compile(rb'(?:"[^"]*": )?refused: (.*: \w+)\n')
VERDICTS = {b"pass": True, b"fail": False}
MOST_BESIDE = 20


@dataclass
class Asked:
    """A document, why it isn't accepted as it stands and upgraded, and what was seen of its verdicts."""

    document: Document
    plain: str | None = None
    upgraded: str | None = None
    seen: collections.Counter = field(default_factory=collections.Counter)
    fault: str | None = None

    def is_compared(self):
        return self.upgraded is None and (self.seen["valid"] + self.seen["invalid"] > 0 or self.fault is not None)

    def lines(self, all_of_them):
        """What to print of it."""
        if self.fault:
            yield f"FAILED {self.document.name}: {self.fault}"
        if self.upgraded:
            yield f"not accepted: {self.document.name} ({self.document.dialect()}): {self.upgraded}"
        elif all_of_them:
            yield f"accepted: {self.document.name} ({self.document.dialect()}): {dict(self.seen)}"


def taken(results, stage):
    return sum(getattr(it, stage) is None for it in results)


class Fault(Exception):
    """What a program does that it must not do."""


def run(given, folder, *words):
    """What a program writes, and the reason where it refuses what it is given."""
    try:
        out, errors, status = answer_of([*words], given.seconds, cwd=folder)
    except TimeoutExpired as error:
        raise Fault(no_end(error)) from None
    refused = REFUSAL.fullmatch(errors)
    if status == 3 and refused and not refused[1].endswith(b": NotJson"):
        return out, refused[1].decode()
    if status not in (0, 1) or errors:
        raise Fault(f"status {status}: {errors.decode(errors='replace').strip()[-300:]}")
    return out, None


def put(folder, name, value):
    with open(os.path.join(folder, name), "w", encoding="utf-8") as file:
        json.dump(value, file)
    return name


def pairs_of(folder, documents):
    """Writes documents by their URIs into a folder: the arguments for them."""
    return [word for number, (uri, value) in enumerate(documents.items())
            for word in (uri, put(folder, f"{number}.json", value))]


def judge(given, documents, document, folder):
    """What comes of a document."""
    result, needed = Asked(document), documents.needed(document)
    try:
        pairs = pairs_of(folder, {**needed, document.uri: document.value})
        instance = put(folder, "instance.json", None)
        _, result.plain = run(given, folder, given.program, "check", "flag", instance, document.uri, *pairs)
        result.upgraded = upgrade(given, folder, pairs, document)
        if result.upgraded is None:
            compare(given, folder, documents, needed, result)
    except Fault as fault:
        result.fault = str(fault)
    return result


def upgrade(given, folder, pairs, document):
    """Upgrades documents into the folder `new`; why they, or what they become, are refused. Those that name no dialect
    are of this document's."""
    new = os.path.join(folder, "new")
    os.makedirs(new, exist_ok=True)
    assumed = ["--default-dialect", document.dialect()] if document.draft() else []
    _, refused = run(given, folder, given.upgrade, *assumed, "--into", "new", *pairs)
    if refused:
        return f"upgrade: {refused}"
    _, refused = run(given, folder, given.program, "check", "flag", "instance.json", document.uri, *new_pairs(pairs))
    return refused


def new_pairs(pairs):
    return [f"new/{word}" if number % 2 else word for number, word in enumerate(pairs)]


def compare(given, folder, documents, needed, result):
    """Compares the verdicts on a document, and at some of its places, with those of the package."""
    document, draft = result.document, result.document.draft() or CURRENT
    known = {**needed, document.uri: document.value}
    why = left_out_of_older(draft.dialect, [*known.items()])
    if why:
        result.seen[f"left out: {why}"] += 1
        return
    chosen = random.Random(f"{given.seed}/{document.name}")
    pointers = ["", *chosen.sample(found := places(document.value, draft), min(given.places, len(found)))]
    entries = {f"https://entry.example/{number}": {"$schema": document.dialect(), "$ref": f"{document.uri}#{pointer}"}
               for number, pointer in enumerate(pointers)}
    pairs = pairs_of(folder, {**known, **entries})
    if upgrade(given, folder, pairs, document):
        result.seen["places not compared: the upgrade refuses references to them"] += 1
        entries = dict([*entries.items()][:1])
        pairs = pairs_of(folder, {**known, **entries})
        upgrade(given, folder, pairs, document)
    sampler = Sampler(chosen, known)
    asked = [instances_of(given, documents, document, sampler, entry) for entry in entries.values()]
    judge_all(given, folder, new_pairs(pairs), entries, asked, known, result)


def instances_of(given, documents, document, sampler, entry):
    """The instances for an entry: made, and for the document as a whole those beside it too."""
    is_root = entry["$ref"].endswith("#")
    beside = [it.value for it in documents.beside(document)[:MOST_BESIDE]] if is_root else []
    count = given.instances if is_root else max(1, given.instances // given.places)
    return beside + [sampler.instance(entry, document.uri) for _ in range(count)]


def judge_all(given, folder, pairs, entries, asked, known, result):
    """Compares the verdicts of all entries, in one process."""
    groups = [{"description": "", "schema": {"$ref": uri},
               "tests": [{"description": "", "data": it, "valid": True} for it in instances]}
              for uri, instances in zip(entries, asked)]
    out, refused = run(given, folder, given.program, "suite", put(folder, "suite.json", groups), *pairs)
    if refused:
        result.seen[f"no verdict: {refused.rpartition(': ')[2]}"] += 1
        return
    said = {(int(group), int(test)): VERDICTS.get(word) for word, group, test in LINE.findall(out)}
    if len(said) != sum(map(len, asked)):
        raise Fault(f"suite doesn't say of each instance what comes of it: {out[-300:]!r}")
    dialect = (result.document.draft() or CURRENT).uris + "schema"
    for number, (uri, entry) in enumerate(entries.items()):
        package = OlderJudge(dialect, [(uri, entry), *known.items()])
        for test, instance in enumerate(asked[number]):
            if (got := said[number, test]) is None:
                result.seen["no verdict"] += 1
                continue
            wanted, why = package.verdict(instance)
            result.seen[why or {True: "valid", False: "invalid"}[wanted]] += 1
            if why is None and got != wanted:
                result.fault = (f"at {entry['$ref']} {json.dumps(instance)[:300]}: the verdict is {got}, and that of "
                                f"jsonschema {wanted}")
