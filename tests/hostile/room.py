"""A folder in which the program runs, how it is run there, and what was counted."""
import collections
import os
import re
import shutil
import subprocess
import sys
import tempfile
import time

from tests.support.programs import answer_of

HERE = os.path.dirname(os.path.abspath(__file__))
MOST_CALLS = 100_000
MEGABYTE = 1024 * 1024
# Enough for 512 nested schema applications in every format.
STACK = MEGABYTE
MEMORY_BOUND = 1_500_000_000

# A small process of its own starts the program: else the peak would be that of this one, and the time would have what
# it takes to empty the file of the last output.
MEASURED = """
import os, sys, time
begin = time.monotonic()
child = os.fork()
if not child:
    os.execv(sys.argv[1], sys.argv[1:])
_, status, usage = os.wait4(child, 0)
with open("measured", "w") as file:
    file.write(f"{time.monotonic() - begin:.3f} {usage.ru_maxrss // 1024}")
os._exit(os.waitstatus_to_exitcode(status))
"""


class Room:
    """A temporary folder, which is the current one as long as the room is open."""

    def __init__(self, given):
        self.program, self.tests, self.seconds = given.program, given.tests, given.seconds
        self.times, self.only = given.times, given.only
        self.count = collections.Counter()
        self.folder = tempfile.mkdtemp(prefix="jschema-hostile-")
        os.chdir(self.folder)

    def close(self):
        os.chdir(HERE)
        shutil.rmtree(self.folder)

    def put(self, files):
        for name, text in files.items():
            with open(name, "wb") as file:
                file.write(text if isinstance(text, bytes) else text.encode())

    def chosen(self, cases):
        """The cases to run: all, or those whose names have the text that was asked for. Their files are written."""
        for case in cases:
            if self.only in case.name:
                self.put(case.files)
                yield case

    def record(self, name, why):
        """Counts a run as passed where nothing is wrong with it."""
        self.count["failed" if why else "passed"] += 1
        if why:
            print(f"FAILED {name}: {why}", flush=True)

    def judge(self, name, wanted, got):
        wrong = [what for what, w, g in zip(("output", "errors", "status"), wanted, got) if w != g]
        self.record(name, wrong and f"{', '.join(wrong)}; wanted {short(wanted)}, got {short(got)}")

    def run_case(self, case, stack=None):
        """Runs a case and judges it. Its output, which may be large, goes to a file."""
        self.put({"given": case.given})
        words = [self.program, *case.words]
        if self.times:
            words = [sys.executable, "-S", "-c", MEASURED, *words]
        memory = case.most_memory or stack and MEMORY_BOUND
        if memory:
            words = ["prlimit", f"--as={memory}:{memory}", *words]
        if stack:
            words = ["prlimit", f"--stack={stack}:{stack}", *words]
        begin = time.monotonic()
        with open("given", "rb") as given, open("out", "wb") as out:
            _, errors, status = answer_of(words, self.seconds, None, stdin=given, stdout=out)
        took = time.monotonic() - begin
        if self.times:
            alone, peak = read("measured").decode().split()
            print(f"{float(alone):8.2f} s {peak:>6} MB {os.path.getsize('out'):12,} bytes"
                  f"  {case.name}", flush=True)
        if case.most_seconds and took > case.most_seconds:
            self.record(case.name, f"took {took:.1f} s; at most {case.most_seconds} s")
        elif callable(case.out):
            self.judge(case.name, (True, case.errors, case.status), (is_made_of("out", case.out()), errors, status))
        else:
            self.judge(case.name, case.wanted(), (read("out"), errors, status))


def short(text):
    """A text as a message shows it."""
    said = repr(text)
    return said if len(said) < 300 else said[:200] + ".." + said[-80:]


def is_made_of(name, pieces):
    """Whether a file is these pieces and nothing else."""
    with open(name, "rb") as file:
        return all(file.read(len(it)) == it for it in pieces) and not file.read(1)


def read(name):
    with open(name, "rb") as file:
        return file.read()


def kit():
    """The folder of the Rattle kit."""
    return os.path.dirname(subprocess.run(["rt", "doc"], capture_output=True, text=True, check=True).stdout.strip())


def preloaded(room, program, words, given=b"", executable=None, **env):
    """What the program writes with the library of preload.c loaded before it, and what that reports."""
    if not os.path.exists("preload.so"):
        subprocess.run([f"{kit()}/toolchain/bin/clang", "-O1", "-fPIC", "-shared", "-nostdlib", "-o", "preload.so",
                        os.path.join(HERE, "preload.c")], check=True)
    # The library reports on descriptor 3.
    reported = os.open("reported", os.O_WRONLY | os.O_CREAT | os.O_TRUNC)
    if reported != 3:
        os.dup2(reported, 3)
        os.close(reported)
    env = {"LD_PRELOAD": os.path.join(room.folder, "preload.so"), "PATH": os.environ["PATH"],
           **{name: str(value) for name, value in env.items()}}
    got = answer_of([program, *words], room.seconds, given, executable=executable, env=env, pass_fds=(3,))
    return got, read("reported")


def in_turn(room, name, run, judge):
    """Runs with call 1 refused, then call 2, until a run meets no refusal; answers how many met one."""
    number = 0
    while True:
        number += 1
        got, reported = run(number)
        room.record(f"{name}, {number} refused", judge(got, reported))
        if not reported:
            break
        if number == MOST_CALLS:
            room.record(name, f"no end after {number} runs")
            break
    if number == 1:
        room.record(name, "nothing was refused")
    return number - 1
