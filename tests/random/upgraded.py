"""Compares the verdicts of the program, on documents of an older draft that jschema-upgrade has upgraded, with those
of the package `jsonschema` by that draft."""
import collections
import json
import os
import re
import shutil
import tempfile
from concurrent.futures import ThreadPoolExecutor

import others
from older import DRAFTS, OlderMaker
from tests.support.programs import TimeoutExpired, answer_of, no_end

LINE = re.compile(rb"(pass|fail|skip) 0\.(\d+) ")
REFUSAL = re.compile(rb'(?:"\d\.json": )?refused: .*: (\w+)\n')
VERDICTS = {b"pass": True, b"fail": False}
# Some references lead to what is no schema in 2020-12 (docs/MIGRATING.md). No case has another fault.
UNRESOLVED = b"Unresolved"


class Fault(Exception):
    """What a program does that it must not do."""


def run(words, given, folder):
    """What a program writes; the reason where it refuses the documents."""
    try:
        out, errors, status = answer_of(words, given.seconds, cwd=folder)
    except TimeoutExpired as error:
        raise Fault(no_end(error)) from None
    refused = REFUSAL.fullmatch(errors)
    if status == 3 and refused and refused[1] == UNRESOLVED:
        return out, UNRESOLVED.decode()
    if status not in (0, 1) or errors:
        raise Fault(f"status {status}: {errors.decode(errors='replace').strip()[-300:]}")
    return out, None


def verdicts(given, draft, documents, instances, folder):
    """The verdict on each instance, none where there is none; and the reason where the documents are refused."""
    words, pairs = [given.upgrade, "--default-dialect", draft.dialect, "--into", "new"], []
    os.makedirs(os.path.join(folder, "new"))
    for number, (uri, document) in enumerate(documents):
        put(folder, f"{number}.json", document)
        words += [uri, f"{number}.json"]
        pairs += [uri, f"new/{number}.json"]
    _, refused = run(words, given, folder)
    if refused:
        return [], refused
    tests = [{"description": "", "data": it, "valid": True} for it in instances]
    put(folder, "suite.json", [{"description": "", "schema": {"$ref": documents[0][0]}, "tests": tests}])
    out, refused = run([given.program, "suite", "suite.json", *pairs], given, folder)
    if refused:
        return [], refused
    said = {int(number): VERDICTS.get(word) for word, number in LINE.findall(out)}
    if said.keys() != {*range(len(instances))}:
        raise Fault(f"suite doesn't say of each instance what comes of it: {out[-300:]!r}")
    return [said[number] for number in range(len(instances))], None


def put(folder, name, value):
    with open(os.path.join(folder, name), "w", encoding="utf-8") as file:
        json.dump(value, file, ensure_ascii=False)


def compare(given, draft, number, folder, seen):
    """What differs in one case, if something does; and whether both had a verdict on an instance."""
    maker = OlderMaker(f"{given.seed}/{number}", draft)
    documents = maker.documents()
    instances = [*maker.instances(), *maker.instances()]
    got, refused = verdicts(given, draft, documents, instances, folder)
    left_out = others.left_out_of_older(draft.dialect, documents)
    if refused or left_out:
        seen[f"refused: {refused}" if refused else f"left out: {left_out}"] += 1
        return None, False
    judge, compared = others.OlderJudge(draft.uri, documents), 0
    for instance, verdict in zip(instances, got):
        if verdict is None:
            seen["no verdict"] += 1
            continue
        wanted, why = judge.verdict(instance)
        seen[why or {True: "valid", False: "invalid"}[wanted]] += 1
        compared += why is None
        if why is None and wanted != verdict:
            return f"{json.dumps(instance)}: the verdict is {verdict}, and that of jsonschema {wanted}", True
    return None, compared > 0


def run_case(given, draft, number):
    """Whether a case passes, none where nothing could be compared; and what was seen. Prints what to run again where it
    fails."""
    name, seen = f"--draft {draft} --seed {given.seed} --only {number}", collections.Counter()
    folder = tempfile.mkdtemp(prefix="jschema-diff-")
    try:
        why, compared = compare(given, DRAFTS[draft], number, folder, seen)
    except Fault as fault:
        why, compared = fault, True
    if why:
        print(f"FAILED {name}: {why}", flush=True)
    if given.only is None:
        shutil.rmtree(folder)
    else:
        print(f"the files are in {folder}")
    return not why if compared else None, seen


def run_cases(given, drafts, numbers):
    """How many cases passed, and how many failed. Prints how many verdicts there were, and why there was none."""
    seen, results = collections.Counter(), collections.Counter()
    cases = [(draft, number) for draft in drafts for number in numbers]
    with ThreadPoolExecutor(os.cpu_count()) as pool:
        for result, seen_in_case in pool.map(lambda case: run_case(given, *case), cases):
            results[result] += 1
            seen += seen_in_case
    for what, times in sorted(seen.items()):
        print(f"{times:8} {what}")
    return results[True], results[False]
