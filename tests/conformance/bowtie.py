#!/usr/bin/env python3
"""Speaks the protocol of Bowtie, the harness of the JSON Schema community, over the built program.

    tests/conformance/bowtie.py --home URL [--version TEXT] [--meta-schemas FOLDER] [--program FILE] [--seconds N]

Requests are lines of JSON on standard input, `start`, `dialect`, `run` and `stop`; each but the last is answered by a
line on standard output. A test that the program gives no verdict on is skipped, with the name of the refusal. Where it
crashes, or takes more than N seconds, the answer says so. URL is where this repository stands: Bowtie wants to know it.
"""
import argparse
import json
import platform
import sys
import tempfile

from program import SECONDS, Program, ProgramFailed, default_program, parse_json
from suite import META_SCHEMA, find_meta_schemas, needed

PROTOCOL = 1


class Session:
    """A conversation with Bowtie: a method for each request."""

    def __init__(self, program, meta_schemas, given):
        self.program, self.meta_schemas, self.given = program, meta_schemas, given

    def start(self, request):
        if request["version"] != PROTOCOL:
            raise ValueError(f"the version of the protocol is {PROTOCOL}")
        implementation = {
            "name": "jschema",
            "language": "rattle",
            "homepage": self.given.home,
            "source": self.given.home,
            "issues": self.given.home.rstrip("/") + "/issues",
            "dialects": [META_SCHEMA],
            "os": platform.system(),
            "os_version": platform.release(),
        }
        if self.given.version:
            implementation["version"] = self.given.version
        return {"version": PROTOCOL, "implementation": implementation}

    def dialect(self, request):
        return {"ok": request["dialect"] == META_SCHEMA}

    def run(self, request):
        """One schema and its tests; an exception is reported for the whole case."""
        try:
            return {"seq": request["seq"], "results": self.results(request["case"])}
        except (ProgramFailed, ValueError) as fault:
            return {"seq": request["seq"], "errored": True, "context": {"message": str(fault)}}

    def results(self, case):
        registry = {uri: self.program.file(schema) for uri, schema in case.get("registry", {}).items()}
        instances = [it["instance"] for it in case["tests"]]
        documents = needed(case["schema"], self.meta_schemas | registry)
        return [result(outcome) for outcome in self.program.outcomes([(case["schema"], instances)], documents)[0]]

    def answer(self, request):
        handlers = {"start": self.start, "dialect": self.dialect, "run": self.run}
        return handlers[request["cmd"]](request)


def result(outcome):
    """An outcome, as Bowtie wants it."""
    if outcome.verdict is None:
        return {"skipped": True, "message": f"{outcome.reason} ({outcome.detail})"}
    return {"valid": outcome.verdict}


def main():
    parser = argparse.ArgumentParser(description="Speaks the protocol of Bowtie over the built program.")
    parser.add_argument("--home", required=True, metavar="URL", help="where this repository stands")
    parser.add_argument("--version", metavar="TEXT", help="the version to report to Bowtie")
    parser.add_argument("--meta-schemas", metavar="FOLDER", help="the documents of the meta-schema")
    parser.add_argument("--program", default=default_program(), help="the program, in place of the built one")
    parser.add_argument("--seconds", type=float, default=SECONDS, help="limit for each run (default: %(default)s)")
    given = parser.parse_args()
    if given.program is None:
        print("bowtie: no program is built: ./jschema builds it, and ./test", file=sys.stderr)
        return 1
    with tempfile.TemporaryDirectory(prefix="jschema-bowtie-") as folder:
        try:
            program = Program(given.program, folder, given.seconds)
        except ProgramFailed as fault:
            print(f"bowtie: {fault}", file=sys.stderr)
            return 1
        session = Session(program, find_meta_schemas(given.meta_schemas), given)
        for line in sys.stdin:
            request = parse_json(line)
            if request["cmd"] == "stop":
                break
            print(json.dumps(session.answer(request)), flush=True)
    return 0


if __name__ == "__main__":
    sys.exit(main())
