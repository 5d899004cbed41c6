"""Tests of older drafts, or with numbers rewritten: jschema-upgrade upgrades the schema of each group, and what it
refers to, and the program judges by the result."""
import os
import shutil

from judging import judged_test
from program import Outcome, Program, ProgramFailed, read_json, refusal, words_of
from suite import Suite, needed

# Where the program has the schema of a suite's first group.
SCHEMA = "https://suite.example/0"


class Upgrade(Program):
    """A built jschema-upgrade, for documents that are of one dialect where they name none: 2020-12 if it is None."""

    def __init__(self, given, folder, dialect):
        super().__init__(given.upgrade, folder, given.seconds)
        numbers = ["--numbers", "exact"] if given.numbers == "exact" else []
        self.options = [*numbers, *(["--default-dialect", dialect] if dialect else [])]
        os.makedirs(folder)

    def upgraded(self, schema, documents):
        """The upgraded schema, and the documents that it refers to as files by their URIs; an `Outcome` where one of
        them is refused."""
        folder = os.path.splitext(self.file(schema))[0]
        os.makedirs(os.path.join(folder, "new"))
        files = [os.path.join(folder, f"{number}.json") for number in range(len(documents) + 1)]
        for path, copy in zip([*documents.values(), f"{folder}.json"], files):
            shutil.copy(path, copy)
        pairs = dict(zip([*documents, SCHEMA], files))
        into = os.path.join(folder, "new")
        done = self.run(*self.options, "--into", into, *words_of(pairs))
        if done.returncode:
            return refusal(done.stderr.partition(": ")[2], documents)
        made = [os.path.join(into, os.path.basename(it)) for it in files]
        if sorted(os.listdir(into)) != sorted(map(os.path.basename, files)):
            raise ProgramFailed(f"jschema-upgrade doesn't write each document: {os.listdir(into)}")
        try:
            return read_json(made[-1]), dict(zip(documents, made))
        except ValueError as error:
            raise ProgramFailed(f"jschema-upgrade writes what isn't JSON: {error}") from error


def judge_upgraded_file(program: Program, upgrade: Upgrade, suite: Suite, name):
    """Each test of a file whose schemas are upgraded: a process for each group, since what refers to its schema by its
    URI has to find it."""
    judged = []
    file = os.path.join(suite.draft.folder, name) if suite.draft.dialect else name
    for number, group in enumerate(read_json(os.path.join(suite.tests(), name))):
        documents = needed(group["schema"], suite.documents)
        made = upgrade.upgraded(group["schema"], documents)
        if isinstance(made, Outcome):
            outcomes = [made] * len(group["tests"])
        else:
            schema, documents = made
            group = {**group, "schema": schema}
            outcomes = program.outcomes([(schema, [it["data"] for it in group["tests"]])], documents)[0]
        judged += [judged_test(program, file, number, t, group, documents, it) for t, it in enumerate(outcomes)]
    return judged
