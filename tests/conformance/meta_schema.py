"""The 2020-12 meta-schema as an ordinary document: the program's verdict on schemas by it, and whether the program
accepts as schemas those that are valid. What the program must say is asked of the reference, never of the program."""
import json
import os
from pathlib import Path

from judging import Judged
from program import Outcome, Program, ProgramFailed, read_json, refusal
from suite import CURRENT, META_SCHEMA, REMOTES, Suite, json_files, needed
from tests.reference.jschema import answer as reference
from tests.reference.jschema import finished
from tests.reference.json_text import NotJson, NotWhole, read
from tests.reference.result import TooLarge, result

# The refusals of a schema whose form is wrong: the meta-schema must find it invalid. It says nothing of the others.
OF_FORM = {"NotASchema", "BadKeyword", "BadAnchor"}
BY_META_SCHEMA = {"$ref": META_SCHEMA}
# No schema may have this, so each schema with it is one that must be found invalid, whatever schemas a suite has.
SPOILED = {"maxLength": -1}


def judge_meta_schema(program: Program, suite: Suite, more):
    """Two tests of each schema: the meta-schema's verdict on it, and whether it is accepted as a schema."""
    named = list(with_spoiled(schemas_of(suite, more)))
    documents = needed(BY_META_SCHEMA, suite.documents)
    verdict_of = verdicts(documents)
    outcomes = program.outcomes([(BY_META_SCHEMA, [schema for _, schema in named])], documents)[0]
    judged = [it for number, ((name, schema), outcome) in enumerate(zip(named, outcomes))
              for it in judge_schema(program, suite, (name, str(number), schema), verdict_of(schema), outcome)]
    if not judged:
        raise ProgramFailed("meta-schema: the reference has no verdict on any schema")
    return judged


def verdicts(documents):
    """What the reference says of a schema by the meta-schema; None where it has no verdict."""
    bundle = finished([(uri, Path(path).read_bytes()) for uri, path in documents.items()])
    place = bundle.entry(META_SCHEMA)

    def verdict_of(schema):
        try:
            return result(bundle, place, read(json.dumps(schema).encode())).valid
        except (NotJson, NotWhole, TooLarge):
            return None

    return verdict_of


def judge_schema(program, suite, named, valid, outcome):
    """The two tests of a schema, where the reference has a verdict. What isn't refused for its form is accepted: of
    other refusals the meta-schema says nothing, so such schemas have the first test alone."""
    name, number, schema = named
    if valid is None:
        return
    documents = needed(BY_META_SCHEMA, suite.documents)
    words = program.check_words("basic", BY_META_SCHEMA, schema, documents)
    yield judged_schema(program, (name, "verdict", number), valid, outcome, words)
    documents = needed(schema, suite.documents)
    words = program.places_words(schema, documents)
    _, why, status = reference(words)
    if acceptance(status, why.decode(), documents).verdict is not None:
        done = program.run(*words)
        accepted = acceptance(done.returncode, done.stderr, documents)
        yield judged_schema(program, (name, "acceptance", number), valid, accepted, words)


def judged_schema(program, named, valid, outcome, words):
    """A test of a schema with its outcome, and the arguments that show another verdict than the wanted one."""
    name, test, number = named
    shown_by = (program.path, *words) if outcome.verdict is (not valid) else ()
    return Judged("meta-schema", name, test, number, valid, outcome, shown_by)


def acceptance(status, why, documents):
    """Whether a schema is accepted, by how listing its places ended."""
    if status == 0:
        return Outcome(True)
    refused = refusal(why, documents)
    return Outcome(False) if refused.reason in OF_FORM else refused


def with_spoiled(named):
    """The schemas, and each that is an object once more with an argument that no schema may have."""
    for name, schema in named:
        yield name, schema
        if isinstance(schema, dict):
            yield f"{name}, spoiled", schema | SPOILED


def schemas_of(suite: Suite, more):
    """Schemas by a name: those of the suite's tests, its remotes, the meta-schema itself, and files `*.schema.json`."""
    for name in suite.files() + suite.files(optional=True):
        for g, group in enumerate(read_json(os.path.join(suite.tests(), name))):
            yield f"{name} {g}: {group['description']}", group["schema"]
    for uri, path in suite.documents.items():
        if uri.startswith((f"{REMOTES}{CURRENT.folder}/", CURRENT.uris)):
            yield uri, read_json(path)
    for name in schema_files(more) if more else []:
        yield from readable(name, os.path.join(more, name))


def schema_files(folder):
    """The files `*.schema.json` below a folder, by their names from there."""
    return [name for name in json_files(folder) if name.endswith(".schema.json")]


def readable(name, path):
    """A schema with its name, unless the file isn't JSON: rows have such files too."""
    try:
        yield name, read_json(path)
    except (ValueError, RecursionError):
        return
