"""The engine of the library: which it takes, and its handles beside threads, forks, signals and on small stacks."""
import itertools
import json
import os
import random
import subprocess
import sys
import unittest
from unittest import mock

import jschema
from jschema import library
from jschema.library import find_library

URI = "https://example.com/s"


class Libraries(unittest.TestCase):
    def test_named_library_is_missing(self):
        with mock.patch.dict(os.environ, JSCHEMA_LIBRARY="/nowhere"), \
                self.assertRaisesRegex(jschema.EngineNotFound, "JSCHEMA_LIBRARY names /nowhere, which is no file"):
            jschema.Schemas({})

    def test_library_of_others(self):
        with self.assertRaisesRegex(jschema.EngineError, "libc.so.6 is no library of jschema: .*jschema_version"):
            jschema.LibraryEngine("libc.so.6")

    def test_system_is_asked_once(self):
        """It starts a compiler to ask."""
        getattr(library, "_installed", mock.Mock()).cache_clear()
        with mock.patch.dict(os.environ, JSCHEMA_LIBRARY=""), mock.patch.object(library, "_FILE", "none"), \
                mock.patch.object(library.ctypes.util, "find_library", return_value=None) as asked:
            self.assertEqual([find_library(), find_library()], [None, None])
        self.assertEqual(asked.call_count, 1)
        library._installed.cache_clear()

    def test_no_library(self):
        with mock.patch.dict(os.environ, JSCHEMA_LIBRARY="off"):
            self.assertIsNone(find_library())
            with self.assertRaisesRegex(jschema.EngineError, "tools/build-library in its repository makes it"):
                jschema.LibraryEngine()


class Case(unittest.TestCase):
    def setUp(self):
        if find_library() is None:
            self.skipTest("no library")

    def printed(self, code, seconds=60):
        """What a program in Python prints, which must end in time."""
        done = subprocess.run([sys.executable, "-W", "ignore", "-c", code], check=False, stdout=subprocess.PIPE,
                              stderr=subprocess.STDOUT, text=True, timeout=seconds)
        self.assertEqual(done.returncode, 0, done.stdout)
        return done.stdout


class Forms(Case):
    def test_positions_of_another_form(self):
        """A library whose struct has its members in another order isn't misread."""
        path = find_library()
        names = ("line", "column", "offset", "name_offset", "name_line", "name_column", "end")
        other = type("_Position", (library.ctypes.Structure,), {"_fields_": [(it, library.c_size_t) for it in names]})
        self.assertIsNotNone(library._load.__wrapped__(path))
        with mock.patch.object(library, "_Position", other), self.assertRaisesRegex(
                jschema.EngineError, "positions in another form: build it again"):
            with mock.patch.object(library, "POINTER", lambda it: library.c_void_p):
                library._load.__wrapped__(path)


class Handles(Case):
    def test_refusal_leaves_the_others(self):
        engine = jschema.LibraryEngine()
        engine.add(URI, b'{"$ref": "t"}')
        for document in (b"1", b"{"):
            with self.assertRaises(jschema.Refused):
                engine.add("t", document)
        with self.assertRaises(jschema.Refused) as raised:
            engine.finish()
        self.assertEqual((raised.exception.kind, raised.exception.document), ("Unresolved", URI))
        engine.add("https://example.com/t", b"false")
        engine.finish()
        self.assertEqual(engine.check(URI, b"1", "flag"), (False, b'{"valid":false}\n'))
        engine.close()

    def test_long_output(self):
        """An output of many times the room that a handle has at first."""
        with jschema.Schemas({URI: '{"items": {"minimum": 1}}'}, engine=jschema.LibraryEngine()) as schemas:
            self.assertEqual([it.path for it in schemas.errors(URI, [0] * 2000)], [[it] for it in range(2000)])
            self.assertTrue(schemas.is_valid(URI, [1]))

    def test_entries(self):
        """The spellings of an entry are kept with a bound."""
        engine = jschema.LibraryEngine()
        with jschema.Schemas({URI: '{"$defs": {"a": false}}'}, engine=engine) as schemas:
            for spelling in (f"https://example.com/{'x/../' * number}s#/$defs/a" for number in range(3000)):
                self.assertFalse(schemas.is_valid(spelling, 1))
            kept = [name for handle in engine._free for name in handle._entries]
            self.assertLessEqual(len(kept), 1000)
            self.assertLessEqual(sum(map(len, kept)), 1 << 20)
            self.assertFalse(schemas.is_valid(f"{URI}#/$defs/a", 1))

    def test_valid_lines(self):
        """So many lines follow one another of which each is valid alone; one without an end doesn't count."""
        numbers = random.Random(1)
        verdicts = {b"1": True, b" [-1]\r": True, b"\"\xc3\xa9\"": True, b"-1": False, b"": False, b"0.5": False}
        with jschema.Schemas({URI: {"minimum": 0}}, engine=jschema.LibraryEngine()) as schemas:
            for _ in range(1000):
                lines = numbers.choices([*verdicts], [4, 4, 4, 1, 1, 1], k=numbers.randrange(10))
                first = numbers.randrange(len(lines) + 1)
                begin = len(b"".join(line + b"\n" for line in lines[:first]))
                valid = list(itertools.takewhile(verdicts.get, lines[first:]))
                text = b"".join(line + b"\n" for line in lines) + numbers.choice((b"", b"1"))
                end = begin + sum(len(line) + 1 for line in valid)
                self.assertEqual(schemas.valid_lines(URI, text, begin), (len(valid), end), (text, begin))
            with self.assertRaises(jschema.Refused):
                schemas.valid_lines(f"{URI}#none", b"1\n")

    def test_room_of_a_large_text(self):
        self.assertEqual(self.printed(f"""
import jschema
def resident():
    return int(open("/proc/self/statm").read().split()[1]) * 4096
schemas = jschema.Schemas({{"{URI}": {{"items": {{"type": "string"}}}}}}, engine=jschema.LibraryEngine())
small = [1] * 100
schemas.output_text("{URI}", small, format="verbose")
before = resident()
length = len(schemas.output_text("{URI}", [1] * 300_000, format="verbose"))
assert length > 50_000_000, length
assert resident() < before + 25_000_000, (before, resident())
print(schemas.is_valid("{URI}", small))
"""), "False\n")


class Interrupted(Case):
    """Forks and signals in the middle of a call."""

    MAKES_HANDLES = f"""
import os, signal, sys, threading, time, jschema
engine = jschema.LibraryEngine()
schemas = jschema.Schemas({{"{URI}": "true"}}, engine=engine)
def make():
    while True:
        engine._taken()
"""

    def test_fork_beside_threads(self):
        """A child has no thread that would give back a lock."""
        self.assertEqual(self.printed(self.MAKES_HANDLES + f"""
for _ in range(4):
    threading.Thread(target=make, daemon=True).start()
ended = []
for _ in range(20):
    time.sleep(0.01)
    child = os.fork()
    if child == 0:
        signal.alarm(20)
        engine._free.clear()
        os._exit(not schemas.is_valid("{URI}", 1))
    ended.append(os.waitpid(child, 0)[1])
print(set(ended), flush=True)
os._exit(0)
""", 120), "{0}\n")

    def test_signal_handler(self):
        """A handler that checks may run in the middle of a check of its own thread."""
        self.assertEqual(self.printed(self.MAKES_HANDLES + f"""
checked = 0
def handle(*_):
    global checked
    engine._free.clear()
    checked += schemas.is_valid("{URI}", 1)
    if checked == 500:
        print("done", flush=True)
        os._exit(0)
    signal.setitimer(signal.ITIMER_REAL, 0.001)
signal.signal(signal.SIGALRM, handle)
signal.setitimer(signal.ITIMER_REAL, 0.001)
make()
"""), "done\n")


class SmallStacks(Case):
    """A check on a thread with a small stack has the answer that it has on others."""

    def test_stacks(self):
        chain = {f"s{number}": {"$ref": f"#/$defs/s{number + 1}"} for number in range(509)}
        deep = json.dumps(1)
        for _ in range(120):
            deep = f'{{"not": {deep}}}'
        documents = {"a:chain": {"$ref": "#/$defs/s0", "$defs": {**chain, "s509": {"type": "null"}}},
                     "a:pattern": {"pattern": "(" * 200 + "a" + ")" * 200}, "a:loop": {"$ref": "#"}}
        code = f"""
import json, sys, threading, jschema
documents = json.loads({json.dumps(json.dumps(documents))})
documents["a:deep"] = '{deep.replace("1", "false")}'
def judge():
    schemas = jschema.Schemas(documents, engine=jschema.LibraryEngine())
    said = [schemas.is_valid("a:chain", None), schemas.output_text("a:chain", 1)[-16:], len(schemas.places()),
            schemas.is_valid("a:pattern", '"a"'), schemas.is_valid("a:deep", 1)]
    try:
        schemas.is_valid("a:loop", 1)
    except jschema.Refused as refused:
        said.append(refused.kind)
    schemas.close()
    print(said)
sizes = set()
for size in (0, 64, 128, 256, 512, 1024):
    threading.stack_size(size * 1024)
    thread = threading.Thread(target=judge)
    thread.start()
    thread.join()
    assert threading.stack_size() == size * 1024
"""
        said = [True, b',"valid":false}\n', 634, True, False, "TooLarge"]
        self.assertEqual(self.printed(code), f"{said}\n" * 6)
