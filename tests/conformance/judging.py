"""What the program says of each test of a suite, and of each output test."""
import json
import os
from dataclasses import dataclass

from program import Outcome, Program, ProgramFailed, read_json, refusal
from suite import Suite, needed
from tests.reference.jschema import answer as reference


@dataclass(frozen=True)
class Judged:
    """A test with the verdict that it wants, what came of it, and the arguments that show another verdict."""

    file: str
    group: str
    test: str
    number: str
    wanted: bool
    outcome: Outcome
    shown_by: tuple[str, ...] = ()

    def passes(self):
        return self.outcome.verdict == self.wanted

    def differs(self):
        """Whether there is a verdict, and it's another one."""
        return self.outcome.verdict is (not self.wanted)

    def name(self):
        return f"{self.file} {self.number}: {self.group} / {self.test}"


def judge_file(program: Program, suite: Suite, name):
    """Each test of a file: one process for the groups that refer to the same documents, most often to none."""
    groups = read_json(os.path.join(suite.tests(), name))
    referred = [needed(group["schema"], suite.documents) for group in groups]
    outcomes = {}
    for documents in {tuple(it): it for it in referred}.values():
        numbers = [g for g, it in enumerate(referred) if it == documents]
        cases = [(groups[g]["schema"], [test["data"] for test in groups[g]["tests"]]) for g in numbers]
        outcomes |= zip(numbers, program.outcomes(cases, documents))
    return [judged_test(program, name, g, t, group, referred[g], outcomes[g][t])
            for g, group in enumerate(groups) for t in range(len(group["tests"]))]


def judged_test(program, name, g, t, group, documents, outcome):
    """A test with its outcome, and the arguments that show another verdict than the one that it wants."""
    test = group["tests"][t]
    shown_by = ()
    if outcome.verdict is (not test["valid"]):
        shown_by = (program.path, *program.check_words("basic", group["schema"], test["data"], documents))
    return Judged(name, group["description"], test["description"], f"{g}.{t}", test["valid"], outcome, shown_by)


def judge_output_file(program: Program, suite: Suite, name):
    """Each format that each output test of a file asks for."""
    groups = read_json(os.path.join(suite.outputs(), "content", name))
    return [judge_output(program, suite, name, (g, t), group, format_)
            for g, group in enumerate(groups) for t, test in enumerate(group["tests"]) for format_ in test["output"]]


def judge_output(program, suite, name, number, group, format_):
    """The output of a format has to be valid by the schema that the test names. The reference judges it."""
    g, t = number
    test = group["tests"][t]
    uri = group["schema"].get("$id", "https://suite.example/0")
    documents = needed(group["schema"], suite.documents)
    words = program.check_words(format_, group["schema"], test["data"], documents, uri)
    done = program.run(*words)
    shown_by = ()
    if done.returncode > 1:
        outcome = refusal(done.stderr, documents)
    else:
        meant = program.check_words("basic", test["output"][format_], read_output(done.stdout), output_schema(suite))
        _, why, status = reference(meant)
        if status > 1:
            raise ProgramFailed(f"the schema for the output isn't accepted: {why.decode()}")
        outcome = Outcome(status == 0)
        shown_by = (program.path, *meant) if status else ()
    title = f"{test['description']} ({format_})"
    return Judged(os.path.join("output-tests", name), group["description"], title, f"{g}.{t}", True, outcome, shown_by)


def read_output(text):
    """The output of a check."""
    try:
        return json.loads(text)
    except ValueError as error:
        raise ProgramFailed(f"an output that isn't JSON: {text[-300:]!r}") from error


def output_schema(suite):
    """The schema of output, which output tests refer to: its file by its URI."""
    path = os.path.join(suite.outputs(), "output-schema.json")
    return {read_json(path)["$id"]: path}
