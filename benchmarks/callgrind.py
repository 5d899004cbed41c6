"""Counts a program's instructions by valgrind's callgrind, by function too."""
import os
import re
import shutil
import subprocess
import tempfile
from collections import Counter
from dataclasses import dataclass

from tests.support.programs import TimeoutExpired, answer_of, no_end

# The statuses of a verdict.
VERDICTS = (0, 1)
# In a symbol: which instance of a generic function it is. At its end: the depth of a recursion.
INSTANCE = re.compile(r"(::)?<#[0-9a-f]+>|'\d+$")


class NotCounted(Exception):
    """Why there is no count."""


@dataclass(frozen=True)
class Counted:
    """The instructions of a process, and of each function by itself, without those that it calls."""

    instructions: int
    functions: Counter


def needs_valgrind():
    """Raises `NotCounted` where valgrind isn't installed."""
    if not shutil.which("valgrind"):
        raise NotCounted("needs valgrind, and finds none on the PATH")


def count(words, seconds, statuses=VERDICTS, **how):
    """Runs a program, whose output goes nowhere, under callgrind. `how` is for `subprocess.Popen`."""
    needs_valgrind()
    with tempfile.TemporaryDirectory(prefix="jschema-callgrind-") as folder:
        file = os.path.join(folder, "callgrind.out")
        words = ["valgrind", "--tool=callgrind", f"--callgrind-out-file={file}", *words]
        try:
            _, errors, status = answer_of(words, seconds, None, stdout=subprocess.DEVNULL, **how)
        except TimeoutExpired as error:
            raise NotCounted(f"valgrind: {no_end(error)}") from None
        collected = re.search(rb"Collected : (\d+)", errors)
        if status not in statuses or not collected:
            raise NotCounted(f"valgrind: status {status}: {errors.decode(errors='replace')[-600:]}")
        with open(file, encoding="utf-8", errors="replace") as lines:
            return Counted(int(collected[1]), functions(lines))


def functions(lines):
    """What each function takes by itself, of the lines of callgrind's file.

    A cost line has a position and a cost, and belongs to the last `fn=`; the one after `calls=` has what the callee
    takes with all that it calls.
    """
    names, costs = {}, Counter()
    function, is_callee = None, False
    for line in lines:
        key, _, value = line.rstrip("\n").partition("=")
        if key == "fn":
            function = name_of(value, names)
        elif key == "cfn":
            name_of(value, names)
        elif key == "calls":
            is_callee = True
        elif function and line[0] in "+-*0123456789":
            if not is_callee:
                costs[function] += int(line.split()[1])
            is_callee = False
    return costs


def name_of(value, names):
    """The function of `(NUMBER) NAME`, or of `(NUMBER)` where the name stood before."""
    number, _, name = value.partition(" ")
    if name:
        names[number] = INSTANCE.sub("", name)
    return names[number]
