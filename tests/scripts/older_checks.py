"""Tests that the scripts about older drafts fail where they must: over fakes of either program."""
import importlib.util
import json
import os
from pathlib import Path

from script_checks import FAKES, Check
from tests.support.programs import HOME

REFERENCE = os.path.join(HOME, "tests", "reference", "jschema.py")
# A jschema-upgrade that writes each document as it is. (Its words: --default-dialect D, --into FOLDER, pairs.)
COPIES = """into=; [ "$1" != --default-dialect ] || shift 2; [ "$1" != --into ] || { into=$2; shift 2; }
while [ $# -gt 0 ]; do if [ "$into" ]; then cp "$2" "$into/${2##*/}"; else cat "$2"; fi; shift 2; done"""
# What a fake does, and what a script must say of it. One that is valid in the right shape writes no document.
UPGRADES = {**FAKES, "writes nothing": ("exit 0", "FAILED"),
            "writes no JSON": (COPIES.replace('cp "$2"', "echo none >"), "FAILED|JSONDecodeError")}


def scripts(room):
    """Each script on little; without pip's jsonschema the first alone."""
    folder = os.path.join(room.folder, "real")
    os.makedirs(folder)
    schema = {"$schema": "https://json-schema.org/draft/2020-12/schema", "not": {"type": "null"}}
    Path(folder, "schema.json").write_text(json.dumps(schema))
    yield ["tests/conformance/run", "tests/conformance/small", "plain.json", "--draft", "draft7"]
    if importlib.util.find_spec("jsonschema"):
        yield ["tests/random/run", "--draft", "draft7", "--count", "8"]
        yield ["benchmarks/compare/real", "--folder", folder]


def of_older_drafts(room):
    """Each of the scripts over fakes of jschema, over those of jschema-upgrade, and over none."""
    missing, copies = os.path.join(room.folder, "none"), room.executable("upgrades/copies", COPIES)
    for words in scripts(room):
        name = f"{words[0]} of older drafts"
        right = ["--program", REFERENCE, "--upgrade", copies]
        yield Check(f"{name}, no jschema", [*words, "--program", missing, *right[2:]], "no program at")
        yield Check(f"{name}, no jschema-upgrade", [*words, *right[:2], "--upgrade", missing], "no program at")
        for fake, (body, says) in FAKES.items():
            program = room.executable(f"fakes/{fake}", body)
            given = [*right[2:], "--program", program, "--seconds", "1" if fake == "hangs" else "60"]
            yield Check(f"{name}, a jschema that {fake}", [*words, *given], says)
        for fake, (body, says) in UPGRADES.items():
            program = room.executable(f"upgrades/{fake}", body)
            given = [*right[:2], "--upgrade", program, "--seconds", "1" if fake == "hangs" else "60"]
            yield Check(f"{name}, a jschema-upgrade that {fake}", [*words, *given], says)
    words = ["tests/conformance/run", "tests/conformance/small", "--draft", "x"]
    yield Check("tests/conformance/run, no such draft", words, "invalid choice", has_count=False)
