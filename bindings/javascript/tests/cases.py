"""The cases that the JavaScript tests are asked: the worked rows, and the JSON Schema Test Suite."""
import base64
import contextlib
import hashlib
import json
import os
import signal
import subprocess
import sys
import threading
from pathlib import Path

HOME = Path(__file__).resolve().parents[3]
SUITE = Path("/usr/share/perl5/auto/share/dist/Test-JSON-Schema-Acceptance")
CONFORMANCE = HOME / "tests" / "conformance"
FORMATS = ("flag", "basic", "detailed", "verbose", "merged")


sys.path[:0] = [str(HOME), str(CONFORMANCE)]
from exclusions import read_exclusions, report_of  # noqa: E402
from judging import judge_file  # noqa: E402
from program import REFUSED_REFERENCE, Outcome, ProgramFailed  # noqa: E402
from suite import Suite, find_meta_schemas  # noqa: E402
from tests.support.rows import ROWS, checks, runs  # noqa: E402


def encoded(text):
    return base64.b64encode(text).decode()


def digest(text):
    return hashlib.sha256(text).hexdigest()


def write_rows(path, program, answer_of):
    """Each check of the rows in every format, as rows.test.js reads it: the row's own format with what the row has, the
    others with what the program writes; of the texts the SHA-256. `own` says how many are the row's. Returns how many
    cases there are."""
    words = {f"{row}/{run}": words for row, run, words in runs()}
    asked = {}
    for check in checks():
        folder = os.path.join(ROWS, check.name.split("/")[0])
        asked.setdefault((folder, *words[check.name][2:]), []).append(check)
    with open(path, "w", encoding="utf-8") as file:
        for (folder, *arguments), alike in asked.items():
            first = alike[0]
            expected = [(it.format, it.status, digest(it.refusal.encode() if it.status > 1 else it.output))
                        for it in alike]
            for format_ in set(FORMATS) - {it.format for it in alike}:
                said, line, status = answer_of([program, "check", "--", format_, *arguments], cwd=folder)
                expected.append((format_, status, digest(line if status > 1 else said)))
            documents = [(uri, encoded(text)) for uri, text in first.documents]
            case = {"name": first.name, "entry": first.entry, "instance": encoded(first.instance),
                    "documents": documents, "own": len(alike), "expected": expected}
            file.write(json.dumps(case) + "\n")
    return len(asked)


class OfTheModule:
    """The module, as the suite's runner asks a program."""

    path = "suite.js"

    def __init__(self, script, seconds):
        self.process = subprocess.Popen(["node", script], stdin=subprocess.PIPE, stdout=subprocess.PIPE, text=True,
                                        encoding="utf-8")
        self.end = threading.Timer(seconds, self.process.kill)

    def __enter__(self):
        self.end.start()
        return self

    def __exit__(self, *_):
        with contextlib.suppress(BrokenPipeError):
            self.process.stdin.close()
        self.process.wait()
        self.end.cancel()

    def outcomes(self, cases, documents):
        """What it says of each instance of each case, a schema with instances; documents are files."""
        texts = [(uri, Path(path).read_text(encoding="utf-8")) for uri, path in documents.items()]
        return [self.of_case(schema, instances, texts) for schema, instances in cases]

    def of_case(self, schema, instances, texts):
        uri = "https://suite.example/0"
        asked = {"documents": [*texts, (uri, json.dumps(schema))], "entry": uri,
                 "instances": [json.dumps(it) for it in instances]}
        with contextlib.suppress(BrokenPipeError):
            self.process.stdin.write(json.dumps(asked) + "\n")
            self.process.stdin.flush()
        line = self.process.stdout.readline()
        if not line.endswith("\n"):
            killed = self.process.wait() == -signal.SIGKILL
            raise ProgramFailed(f"no end after {self.end.interval:g} s" if killed else "the module has stopped")
        return [outcome(answer, len(texts)) for answer in json.loads(line)]

    def check_words(self, *_):
        """A test that failed is shown by its name alone."""
        return ()


def outcome(answer, count):
    """A verdict, or a refusal. The `count` documents that are referred to come first."""
    if isinstance(answer, bool):
        return Outcome(answer)
    if answer.get("index") is not None and answer["index"] < count:
        return Outcome(None, REFUSED_REFERENCE, answer["kind"])
    return Outcome(None, answer["kind"], answer["subject"])


def suite_report(script, seconds):
    """What came of the suite's tests of draft 2020-12, by the profile. Raises `ProgramFailed` if the module stops, or
    takes longer than `seconds` for all."""
    suite = Suite(str(SUITE), find_meta_schemas())
    with OfTheModule(script, seconds) as module:
        judged = [it for name in suite.files() + suite.files(optional=True) for it in judge_file(module, suite, name)]
    return report_of(judged, read_exclusions(CONFORMANCE / "profile"))
