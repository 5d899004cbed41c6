"""Lines that several processes check: the same bytes as one by one, and what happens where a process ends."""
import json
import os
import random
import signal
import subprocess
import sys
import tempfile
import time
import unittest
from pathlib import Path
from unittest import mock

from commands import SOME, Case
from jschema.command.arguments import REPORTS
from jschema.command.files import File
from jschema.command.inputs import line_input, lines
from jschema.command.lines import Pace
from jschema.engine import FORMATS
from jschema.library import find_library

# Lines of each kind: valid, empty, blank, invalid, with a fraction that is an integer and one that isn't, no JSON.
KINDS = ['{"name": "A"}', "", " \t", '{"name": "A", "age": -1}', '{"name": "A", "age": 1.0}',
         '{"name": "A", "age": 0.5}', '{"name": "Bé"', "[]", '{"friends": [{"age": -2, "name": 1}]}', "1"]


def mixed(count):
    """A text of lines of all kinds, with either end; the last has none."""
    numbers = random.Random(1)
    text = "".join(numbers.choice(KINDS) + numbers.choice(("\n", "\n", "\r\n")) for _ in range(count))
    return text + '{"name": "last", "age": -3}'


def children(process):
    """The processes that a process has started, by their numbers."""
    found = []
    for path in Path("/proc").glob("[0-9]*/stat"):
        try:
            state, parent, *_ = path.read_text("utf-8").rpartition(")")[2].split()
        except OSError:
            continue
        if int(parent) == process and state not in "ZX":
            found.append(int(path.parent.name))
    return found


def is_running(process):
    try:
        return Path(f"/proc/{process}/stat").read_text("utf-8").rpartition(")")[2].split()[0] not in "ZX"
    except OSError:
        return False


class Same(Case):
    """What several processes write is what one does."""

    def compare(self, *words, given="", jobs="4"):
        one = self.run_command("validate", "--schema", "schema.json", "--lines", *words, given=given)
        many = self.run_command("validate", "--schema", "schema.json", "--lines", "--jobs", jobs, *words, given=given)
        self.assertEqual(many, one)
        return one

    def test_formats(self):
        """In each format: of a file, of one that isn't there, of an empty one, and of standard input."""
        self.write("mixed.jsonl", mixed(30))
        for format in (*REPORTS, *FORMATS):
            with self.subTest(format):
                out, _, status = self.compare("--format", format, "mixed.jsonl", "none.jsonl", "empty/x", "-",
                                              given='{"name": 1}\r\n{"name": "B"}')
                self.assertEqual(status, 4)
                self.assertIn("valid" if format in FORMATS else "mixed.jsonl", out)

    def test_numbers_of_lines(self):
        """In a file of several blocks, of which some lines are in two."""
        if find_library() is None:
            self.skipTest("no library")
        texts = ['{"name": "%s"}' % ("A" * (number % 997)) for number in range(3000)]
        for bad in (0, 255, 256, 1700, 2999):
            texts[bad] = "1.5"
        self.write("long.jsonl", "\n".join(texts))
        _, said, status = self.compare("--format", "short", "long.jsonl")
        self.assertEqual([int(line.split(":")[1]) for line in said.splitlines()[:-1]], [1, 256, 257, 1701, 3000])
        self.assertEqual((said.splitlines()[-1], status), ("2995 valid, 0 invalid, 5 refused", 3))

    def test_large_lines(self):
        """Of more bytes than a process shares, among small ones; and one that is too large."""
        texts = ['{"name": "%s"}' % ("A" * size) for size in (1, 3 << 20, 1, 1 << 24, 1, 1 << 20)]
        texts[2] = '{"name": 1}'
        self.write("large.jsonl", "\n".join(texts))
        out, said, status = self.compare("--format", "short", "large.jsonl")
        self.assertEqual([line.split(":")[1] for line in (out + said).splitlines()[:-1]], ["3", "4"])
        self.assertEqual((said.splitlines()[-1], status), ("4 valid, 1 invalid (1 error), 1 refused", 3))

    def test_valid_lines_are_counted(self):
        """Reports that only count the valid lines count those that others list."""
        self.write("mixed.jsonl", mixed(200))
        for words in ((), ("--numbers", "exact"), ("--formats",)):
            with self.subTest(words):
                listed = json.loads(self.compare(*words, "--format", "json", "mixed.jsonl")[0])
                sarif = json.loads(self.compare(*words, "--format", "sarif", "mixed.jsonl")[0])
                out, said, _ = self.compare(*words, "--format", "short", "mixed.jsonl")
                verdicts = [it["valid"] for it in listed]
                *refused, summary = said.splitlines()
                self.assertRegex(summary, rf"\A{verdicts.count(True)} valid, {verdicts.count(False)} invalid \(")
                lines = {it["line"] for it in listed if it["valid"] is not True}
                self.assertEqual({int(line.split(":")[1]) for line in [*out.splitlines(), *refused]}, lines)
                self.assertEqual({it["locations"][0]["physicalLocation"]["region"]["startLine"]
                                  for it in sarif["runs"][0]["results"]}, lines)

    def test_what_is_not_checked(self):
        """Libraries that only the processes that check have missed are named."""
        self.write("formats.json", '{"format": "hostname"}')
        self.write("none/fqdn.py", "raise ImportError")
        path = os.pathsep.join([str(self.folder / "none"), os.environ.get("PYTHONPATH", "")])
        with mock.patch.dict(os.environ, PYTHONPATH=path):
            for jobs in ("1", "3"):
                out, said, status = self.run_command("validate", "--lines", "--formats", "--jobs", jobs,
                                                     "formats.json", "-", given='"-"\n1\n')
                self.assertEqual((out, status), ("", 0))
                self.assertRegex(said, r"\A2 valid, 0 invalid\njschema: .* by fqdn, which isn't installed: .*\n\Z")


class Ends(Case):
    """How processes end."""

    def start(self, *words):
        """A run that has answered a line of a live stream, and its processes."""
        job = subprocess.Popen([*self.COMMAND, *SOME, "--jobs", "3", "--format", "flag", "--lines", *words, "-"],
                               cwd=self.folder, stdin=subprocess.PIPE, stdout=subprocess.PIPE, stderr=subprocess.PIPE)
        self.addCleanup(job.communicate)
        self.addCleanup(job.kill)
        job.stdin.write(b'{"name": "A"}\n')
        job.stdin.flush()
        self.assertEqual(job.stdout.readline(), b'{"valid":true}\n')
        processes = children(job.pid)
        self.assertEqual(len(processes), 3)
        return job, processes

    def assert_ended(self, processes):
        """Soon none of some processes is there."""
        end = time.monotonic() + 10
        while any(map(is_running, processes)):
            self.assertLess(time.monotonic(), end, "a process goes on")
            time.sleep(0.02)

    def test_killed(self):
        """Where a process is killed there is no verdict: one line says so."""
        job, processes = self.start()
        for it in processes:
            os.kill(it, signal.SIGKILL)
        self.assertEqual(job.communicate(b'{"name": "A"}\n' * 3, 20),
                         (b"", b"jschema: a process that checks was killed by signal 9\n"))
        self.assertEqual(job.returncode, 4)

    def test_killed_while_it_checks(self):
        """The same in the middle of a check, whatever the others find."""
        for one in range(3):
            job, processes = self.start()
            os.kill(processes[one], signal.SIGSTOP)
            job.stdin.write(b'{"name": "A"}\n' * 30)
            job.stdin.flush()
            time.sleep(0.1)
            os.kill(processes[one], signal.SIGKILL)
            out, said = job.communicate(timeout=20)
            self.assertEqual((said, job.returncode), (b"jschema: a process that checks was killed by signal 9\n", 4))
            self.assertLess(out.count(b"\n"), 30)
            self.assert_ended(processes)

    def test_end_of_input(self):
        job, processes = self.start()
        self.assertEqual(job.communicate(b"1\n", 20), (b'{"valid":false}\n', b""))
        self.assertEqual(job.returncode, 1)
        self.assert_ended(processes)

    def test_interrupt(self):
        """As a terminal does it: each process gets the signal."""
        job, processes = self.start()
        for it in (*processes, job.pid):
            os.kill(it, signal.SIGINT)
        self.assertEqual((job.wait(20), job.stdout.read(), job.stderr.read()), (130, b"", b""))
        self.assert_ended(processes)

    def test_closed_pipe(self):
        job, processes = self.start()
        job.stdout.close()
        job.stdin.write(b"1\n")
        job.stdin.flush()
        self.assertEqual((job.wait(20), job.stderr.read()), (4, b""))
        self.assert_ended(processes)

    def test_without_parent(self):
        """Where the command itself is killed nothing goes on."""
        job, processes = self.start()
        job.kill()
        job.wait(20)
        self.assert_ended(processes)

    def test_end_of_processes_is_ignored(self):
        """What starts the command may have it ignore that processes end. (Then it can't run the program.)"""
        if find_library() is None:
            self.skipTest("no library")
        self.write("two.jsonl", '{"name": "A"}\n1\n')
        out, said, status = self.run_in_shell('trap "" CHLD; exec "$@"', *SOME, "--lines", "--jobs", "2", "two.jsonl")
        self.assertEqual((out.split(" ")[0], said, status), ("two.jsonl:2:1:", "1 valid, 1 invalid (1 error)\n", 1))

    def test_no_process(self):
        """Where none can be started, as by a limit on processes."""
        self.write("one.jsonl", "1\n")
        with mock.patch("os.fork", side_effect=BlockingIOError(11, "Resource temporarily unavailable")):
            self.assertEqual(self.run_inside(*SOME, "--lines", "--jobs", "2", "one.jsonl"),
                             ("", "jschema: no process can be started: Resource temporarily unavailable\n", 4))


class Blocks(unittest.TestCase):
    """Lines as they are read: by blocks that end anywhere."""

    LARGEST = 5

    def expected(self, data):
        """Each line that counts, with its number. Of one that is too large the beginning is enough."""
        found = []
        for number, line in enumerate(data.split(b"\n"), 1):
            text = line.removesuffix(b"\r")
            if len(text) > self.LARGEST:
                found.append((number, "too large"))
            elif text.strip(b" \t\r\n"):
                found.append((number, text))
        return found

    def read(self, path, data, size):
        found, number = [], 0
        for some in lines([File(path)], lambda: size):
            self.assertEqual(some.are_first, number == 0)
            *texts, after = some.data.split(b"\n")
            self.assertEqual(after, b"")
            self.assertTrue(len(some.data) <= size or len(texts) == 1, some.data)
            for number, line in enumerate(texts, number + 1):
                it = line_input(path, number, line)
                if it is not None:
                    text = it.source.json
                    if len(text) > self.LARGEST:
                        self.assertTrue(data.split(b"\n")[it.line - 1].startswith(text.rstrip(b"\r")))
                    found.append((it.line, "too large" if len(text) > self.LARGEST else text))
        return found

    def test_random(self):
        numbers = random.Random(2)
        with tempfile.NamedTemporaryFile() as file:
            for _ in range(2000):
                data = bytes(numbers.choice(b"ab \r\n\n\r") for _ in range(numbers.randrange(30)))
                Path(file.name).write_bytes(data)
                with mock.patch.multiple("jschema.command.inputs", LARGEST_TEXT=self.LARGEST,
                                         _BLOCK_OF_LINES=numbers.randrange(1, 12)):
                    self.assertEqual(self.read(file.name, data, numbers.choice((1, 3, 100))), self.expected(data), data)


class Paces(unittest.TestCase):
    """How much is checked at once."""

    def test_cut_at_line_ends(self):
        """Lines of one length never fill a size that is no multiple of it. There are more at once all the same."""
        pace, line = Pace(), 1017
        for _ in range(8):
            pace.took(max(line, pace.size() // line * line), 0.0001)
        self.assertGreaterEqual(pace.size(), 1 << 19)

    def test_quick_and_slow(self):
        """The first line is alone. What is quick grows; what is slow is little at once."""
        pace = Pace()
        self.assertEqual(pace.size(), 1)
        pace.took(100, 0.0001)
        self.assertEqual(pace.size(), 800)
        pace.took(100, 0.0001)
        self.assertEqual(pace.size(), 800)
        pace.took(800, 0.01)
        self.assertEqual(pace.size(), 1600)
        pace.took(10, 0.2)
        self.assertEqual(pace.size(), 1)

    def test_most(self):
        pace = Pace()
        for _ in range(20):
            pace.took(pace.size(), 0)
        self.assertEqual(pace.size(), 1 << 20)

    def test_live(self):
        """Each line of a live stream is alone, so that it is reported as soon as it is checked."""
        ours, theirs = os.pipe()
        with os.fdopen(theirs, "wb") as file:
            file.write(b"1\n2\n\n3")
        with mock.patch.object(sys, "stdin", os.fdopen(ours, "rb")):
            self.assertEqual([it.data for it in lines([File("-")], lambda: 1000)], [b"1\n", b"2\n", b"\n", b"3\n"])
            sys.stdin.close()

    def test_nothing(self):
        """What can't be read is a portion of its own."""
        [it] = lines([File("none", OSError(2, "no"))], lambda: 1)
        self.assertEqual((it.data, it.fault.strerror), (b"", "no"))
