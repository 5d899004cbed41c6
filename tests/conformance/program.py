"""The program under test: its verdict on each instance, and why it has none. Whatever else it does, as a crash or a run
without an end, is a ProgramFailed."""
import itertools
import json
import os
import re
import subprocess
from dataclasses import dataclass

HOME = os.path.join(os.path.dirname(os.path.abspath(__file__)), "..", "..")
# ./jschema copies the first to the second, and ./jschema-upgrade likewise.
BUILDS = [os.path.join(HOME, "crates", "js_cli", "out", "js_cli"), os.path.join(HOME, "out", "jschema")]
UPGRADES = [os.path.join(HOME, "crates", "js_upgrade_cli", "out", "js_upgrade_cli"),
            os.path.join(HOME, "out", "jschema-upgrade")]
LINE = re.compile(r"(pass|fail|skip) (\d+)\.(\d+) ")
REFUSED = re.compile(r"refused: (document (\d+)|entry|input|instance|suite|walk)\b.*: (\w+)\n", re.S)
SECONDS = 600
# The reason where a document that the schema refers to is refused.
REFUSED_REFERENCE = "RefusedReference"


class ProgramFailed(Exception):
    """The program did something that it must not do on these arguments, or isn't there."""


@dataclass(frozen=True)
class Outcome:
    """Whether an instance is valid; none where there is no verdict, and why."""

    verdict: bool | None
    reason: str | None = None
    detail: str = ""


def default_program(builds=BUILDS):
    """The program as the gate, or `./jschema`, built it; none where it isn't built."""
    return next((os.path.normpath(it) for it in builds if os.path.isfile(it)), None)


def parse_json(text):
    """A value of JSON, in which a number that isn't whole stays so: `-0` is one of them."""
    return json.loads(text, parse_int=lambda digits: -0.0 if digits == "-0" else int(digits))


def read_json(path):
    with open(path, encoding="utf-8") as file:
        return parse_json(file.read())


def write_json(path, value):
    with open(path, "w", encoding="utf-8") as file:
        json.dump(value, file, allow_nan=False)


def words_of(documents):
    """The arguments for documents: each URI and its file."""
    return [word for pair in documents.items() for word in pair]


class Program:
    """A built program, and a folder for its input files."""

    def __init__(self, path, folder, seconds=SECONDS):
        self.path, self.folder, self.seconds, self.numbers = os.path.abspath(path), folder, seconds, itertools.count()
        self.name = os.path.basename(path)
        if not (os.path.isfile(path) and os.access(path, os.X_OK)):
            raise ProgramFailed(f"no program at {path}")

    def run(self, *words):
        """Runs it with these arguments. It must end with a verdict, or refuse them."""
        try:
            done = subprocess.run([self.path, *words], capture_output=True, text=True, encoding="utf-8",
                                  timeout=self.seconds)
        except subprocess.TimeoutExpired as error:
            raise ProgramFailed(f"{self.name} {words[0]}: no end after {self.seconds:g} s") from error
        if done.returncode not in (0, 1, 3):
            raise ProgramFailed(f"{self.name} {words[0]} ended with {done.returncode}: {done.stderr.strip()}")
        return done

    def file(self, value):
        """A new file of the folder that holds a value."""
        path = os.path.join(self.folder, f"{next(self.numbers)}.json")
        write_json(path, value)
        return path

    def outcomes(self, cases, documents):
        """What it says of each instance of each case, a schema with instances; the documents are files by their URIs.

        Every test is named as a valid one, whatever the suite says: the program isn't told what to answer.
        """
        tests = [[{"description": "", "data": it, "valid": True} for it in instances] for _, instances in cases]
        groups = [{"description": "", "schema": schema, "tests": of} for (schema, _), of in zip(cases, tests)]
        done = self.run("suite", self.file(groups), *words_of(documents))
        if done.returncode == 3 and len(cases) > 1:
            # A value that isn't read refuses the suite whole: each case by itself.
            return [self.outcomes([case], documents)[0] for case in cases]
        if done.returncode == 3:
            return [[refusal(done.stderr, documents)] * len(instances) for _, instances in cases]
        said = {(int(g), int(t)): status for status, g, t in LINE.findall(done.stdout)}
        if said.keys() != {(g, t) for g, of in enumerate(tests) for t in range(len(of))}:
            raise ProgramFailed(f"suite doesn't say of each test what came of it: {done.stdout[-300:]!r}")
        return [[self.outcome(said[g, t], schema, it, documents) for t, it in enumerate(instances)]
                for g, (schema, instances) in enumerate(cases)]

    def outcome(self, status, schema, instance, documents):
        """An outcome by the word that a line begins with: it doesn't say why one is skipped, and `check` does."""
        if status != "skip":
            return Outcome(status == "pass")
        words = self.check_words("flag", schema, instance, documents)
        done = self.run(*words)
        if done.returncode != 3:
            raise ProgramFailed(f"suite skips what check answers with {done.returncode}: {words}")
        return refusal(done.stderr, documents)

    def check_words(self, format_, schema, instance, documents, uri="https://suite.example/0"):
        """The arguments that judge one instance by one schema, whose files stay in the folder."""
        return ["check", format_, self.file(instance), uri, *words_of(documents), uri, self.file(schema)]

    def places_words(self, schema, documents, uri="https://suite.example/0"):
        """The arguments that list the places of a schema, and of documents that it refers to."""
        return ["places", *words_of(documents), uri, self.file(schema)]


def refusal(line, documents):
    """No verdict, by the line on standard error: the documents that are referred to come before the schema."""
    found = REFUSED.fullmatch(line)
    if not found:
        raise ProgramFailed(f"status 3 with {line!r}")
    where, number, name = found.groups()
    if number is not None and int(number) < len(documents):
        return Outcome(None, REFUSED_REFERENCE, f"{name}: {list(documents)[int(number)]}")
    return Outcome(None, name, where)
