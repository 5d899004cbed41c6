"""Checks side by side: in order, as soon as they are done, and ended where nobody waits for them."""
import json
import os
import select
import signal
import subprocess
import sys
import time
import unittest

import jschema
from commands import SOME, TWO_LINES, Case
from jschema.command.inputs import Input
from jschema.command.places import Places
from jschema.command.results import Checker, Wanted
from jschema.sources import JsonSource

URI = "https://example.com/s"


def given(line, text):
    """An instance on a line."""
    return Input("x", line, JsonSource("json", text, text))


class Slow:
    """An engine of which each check takes a while, or as long as its instance says."""

    def __init__(self):
        self.checked = []

    def add(self, uri, document):
        pass

    finish = close = lambda self: None

    def check(self, entry, instance, format):
        time.sleep(float(instance))
        self.checked.append(instance)
        return jschema.Answer(True, b'{"valid":true}\n')


class Results(unittest.TestCase):
    def setUp(self):
        self.engine = Slow()
        self.checker = Checker(jschema.Schemas({}, engine=self.engine), URI, Places([]), Wanted("flag"))

    def results(self, texts, jobs=2):
        return self.checker.results((given(number, it) for number, it in enumerate(texts)), jobs)

    def test_order(self):
        texts = [b"0.1", b"0", b"0.05", b"0", b"0"] * 4
        for jobs in (1, 2, 7):
            found = list(self.results(texts, jobs))
            self.assertEqual([(it.input.line, it.input.source.json) for it in found], list(enumerate(texts)))

    def test_what_waits_is_not_run(self):
        found = self.results([b"0"] + [b"0.3"] * 20)
        self.assertEqual(next(found).input.line, 0)
        begin = time.monotonic()
        found.close()
        self.assertLess(time.monotonic() - begin, 0.2)
        time.sleep(1)
        self.assertLessEqual(len(self.engine.checked), 3)

    def test_error_of_the_input(self):
        def inputs():
            yield given(1, b"0")
            raise ZeroDivisionError
        found = self.checker.results(inputs(), 2)
        self.assertEqual(next(found).input.line, 1)
        with self.assertRaises(ZeroDivisionError):
            next(found)

    def test_few_wait(self):
        """No more is read than a few instances ahead of those that are answered."""
        read = []

        def inputs():
            for number in range(1000):
                read.append(number)
                yield given(number, b"0")
        found = self.checker.results(inputs(), 3)
        next(found)
        time.sleep(0.3)
        self.assertLess(len(read), 20)
        self.assertEqual(len(list(found)), 999)


class Streams(Case):
    def test_live_stream(self):
        """Each line has its answer before the next one comes."""
        for jobs in ("1", "4"):
            for format, expected in (("short", b"<stdin>:%d:1: "), ("flag", b'{"valid":false}\n')):
                with self.subTest(format, jobs=jobs), subprocess.Popen(
                        [sys.executable, "-m", "jschema", *SOME, "--jobs", jobs, "--format", format, "--lines", "-"],
                        cwd=self.folder, stdin=subprocess.PIPE, stdout=subprocess.PIPE,
                        stderr=subprocess.DEVNULL) as job:
                    for number in (1, 2, 3):
                        job.stdin.write(b"{}\n")
                        job.stdin.flush()
                        self.assertTrue(select.select([job.stdout], [], [], 20)[0], "no answer")
                        line = os.read(job.stdout.fileno(), 1000)
                        self.assertTrue(line.startswith(expected % number if b"%" in expected else expected), line)
                    job.stdin.close()
                    self.assertEqual(job.wait(), 1)

    def slow(self, *words):
        """The arguments of a run in which each of many checks takes long."""
        chain = {f"s{number}": {"anyOf": [{"$ref": f"#/$defs/s{number + 1}"}] * 2} for number in range(13)}
        (self.folder / "slow.json").write_text(json.dumps(
            {"$ref": "#/$defs/s0", "$defs": {**chain, "s13": {"type": "null"}}}), "utf-8")
        (self.folder / "ones.jsonl").write_text("1\n" * 200, "utf-8")
        return [sys.executable, "-m", "jschema", "validate", "--schema", "slow.json", "--jobs", "2", *words,
                "--lines", "ones.jsonl"]

    def test_interrupt(self):
        with subprocess.Popen(self.slow("--format", "flag"), cwd=self.folder, stdout=subprocess.PIPE,
                              stderr=subprocess.PIPE) as job:
            job.stdout.readline()
            begin = time.monotonic()
            job.send_signal(signal.SIGINT)
            self.assertEqual((job.wait(), job.stderr.read()), (130, b""))
            self.assertLess(time.monotonic() - begin, 15)

    def test_closed_pipe(self):
        with subprocess.Popen(self.slow("--format", "flag"), cwd=self.folder, stdout=subprocess.PIPE,
                              stderr=subprocess.PIPE) as job:
            job.stdout.readline()
            job.stdout.close()
            begin = time.monotonic()
            self.assertEqual((job.wait(), job.stderr.read()), (4, b""))
            self.assertLess(time.monotonic() - begin, 15)

    def test_interrupt_of_a_waiting_reader(self):
        with subprocess.Popen([sys.executable, "-m", "jschema", *SOME, "--jobs", "2", "--format", "flag", "--lines",
                               "-"], cwd=self.folder, stdin=subprocess.PIPE, stdout=subprocess.PIPE,
                              stderr=subprocess.PIPE) as job:
            job.stdin.write(b"{}\n")
            job.stdin.flush()
            job.stdout.readline()
            job.send_signal(signal.SIGINT)
            self.assertEqual((job.wait(20), job.stderr.read()), (130, b""))

    def test_as_one_by_one(self):
        words = [*SOME, "two.json", "data/ada.json", "none.json", "half.json", "data"]
        one, many = self.run_command(*words), self.run_command(*words, "--jobs", "3")
        self.assertEqual(many, one)
        self.assertTrue(one[0].startswith(TWO_LINES))
