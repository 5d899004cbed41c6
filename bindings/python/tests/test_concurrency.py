"""The package beside others: a server with asyncio, processes that fork, and a Python without a global lock."""
import asyncio
import json
import multiprocessing
import os
import shutil
import signal
import subprocess
import sys
import unittest
from pathlib import Path

import jschema

ROOT = Path(__file__).resolve().parents[3]
FREE = next((name for minor in (14, 13) if (name := shutil.which(f"python3.{minor}t"))), None)
# Threads that share schemas, each with verdicts that are known.
SHARED = """
import sys, threading, jschema
if sys.argv[1:] == ["free"]:
    assert not sys._is_gil_enabled()
validator = jschema.validator_for({"properties": {"a": {"items": {"minimum": 0}}}})
wrong = []
def check(number):
    for n in range(200):
        if validator.is_valid({"a": [number, n % 7 - 3]}) != (n % 7 >= 3):
            wrong.append(n)
        if sum(1 for _ in validator.iter_errors({"a": [-1, number, -2]})) != 2:
            wrong.append(n)
threads = [threading.Thread(target=check, args=(n,)) for n in range(8)]
[it.start() for it in threads], [it.join() for it in threads]
print(len(wrong))
"""


def verdicts(schemas, numbers):
    return [schemas.is_valid("a:b", number) for number in numbers]


class Asyncio(unittest.TestCase):
    def test_server(self):
        """Many clients at once: each gets the answers to its own lines, in order."""
        async def ask(port, number):
            reader, writer = await asyncio.open_connection("127.0.0.1", port)
            for age in range(-2, 3):
                writer.write(json.dumps({"name": str(number), "age": age}).encode() + b"\n")
            writer.write(b'{"age": 0.5}\n')
            writer.write_eof()
            lines = (await reader.read()).splitlines()
            writer.close()
            return [json.loads(line) for line in lines]

        async def ask_all(port):
            return await asyncio.gather(*(ask(port, number) for number in range(20)))

        words = [sys.executable, ROOT / "examples" / "asyncio_validate.py", "--schema",
                 ROOT / "examples" / "person.schema.json"]
        with subprocess.Popen(words, stdout=subprocess.PIPE, stderr=subprocess.PIPE) as server:
            answers = asyncio.run(ask_all(int(server.stdout.readline())))
            server.send_signal(signal.SIGINT)
            self.assertEqual(server.communicate(timeout=20), (b"", b""))
        expected = [*({"valid": age >= 0} for age in range(-2, 3)), {"refused": "NotWhole", "place": "/age"}]
        self.assertEqual(answers, [expected] * 20)


class Processes(unittest.TestCase):
    def test_pools(self):
        """Forked children check with what their parent has made; others make their own of the documents."""
        schemas = jschema.Schemas({"a:b": {"minimum": 0}})
        self.assertTrue(schemas.is_valid("a:b", 1))
        children = []
        for _ in range(3):
            child = os.fork()
            if not child:
                os._exit(verdicts(schemas, range(-2, 3)) != [False, False, True, True, True])
            children.append(child)
        self.assertEqual([os.waitpid(child, 0)[1] for child in children], [0, 0, 0])
        with multiprocessing.get_context("spawn").Pool(1) as pool:
            self.assertEqual(pool.apply(in_other_process), [False, True])


def in_other_process():
    with jschema.Schemas({"a:b": {"minimum": 0}}) as schemas:
        return verdicts(schemas, (-1, 1))


class Threads(unittest.TestCase):
    def test_shared(self):
        self.run_shared(sys.executable)

    @unittest.skipUnless(FREE, "needs a free-threaded Python: python3.13t")
    def test_free_threaded(self):
        self.run_shared(FREE, "free")

    def run_shared(self, python, *words):
        done = subprocess.run([python, "-c", SHARED, *words], check=True, stdout=subprocess.PIPE, text=True)
        self.assertEqual(done.stdout, "0\n")
