"""What the scripts share that run a program and count what it does."""
import contextlib
import os
import re
import signal
import subprocess
import sys
from subprocess import PIPE, TimeoutExpired

HOME = os.path.dirname(os.path.dirname(os.path.dirname(os.path.abspath(__file__))))
OUT = os.path.join(HOME, "crates", "js_cli", "out")
PROGRAM = os.path.join(OUT, "js_cli")
UPGRADE = os.path.join(HOME, "crates", "js_upgrade_cli", "out", "js_upgrade_cli")


def add_options(parser, seconds, program=PROGRAM):
    """The options of each script that runs the built program."""
    parser.add_argument("--program", default=program, help="the program to run (default: the one that `rt ci` built)")
    parser.add_argument("--seconds", type=float, default=seconds, help="limit for each run (default: %(default)s)")


def runnable(path):
    """The absolute path of a program. Ends the script where there is none."""
    if not (os.path.isfile(path) and os.access(path, os.X_OK)):
        print("0 passed, 1 failed", flush=True)
        sys.exit(f"{os.path.relpath(sys.argv[0], HOME)}: no program at {path}")
    return os.path.abspath(path)


def answer_of(words, seconds, given=b"", **how):
    """What a program writes on standard output and standard error, and its status. `how` is for `subprocess.Popen`.

    Raises `TimeoutExpired` where it takes longer than `seconds`; it is killed then, with all that it started.
    """
    how = {"stdin": PIPE, "stdout": PIPE, "stderr": PIPE, "start_new_session": True, **how}
    with subprocess.Popen(words, **how) as job:
        try:
            out, faults = job.communicate(given, timeout=seconds)
        except BaseException:
            with contextlib.suppress(ProcessLookupError):
                os.killpg(job.pid, signal.SIGKILL)
            raise
    return out, faults, job.returncode


def no_end(error):
    """What to print of a `TimeoutExpired`."""
    return f"no end after {error.timeout:g} s"


# The last line of a script: the third number is there where something was skipped.
COUNT = re.compile(r"(?:^|\n)(\d+) passed, (\d+) failed(?:, (\d+) skipped)?\n$")
_skipped = []


def skip(what):
    """Says what isn't tested, and why. The last line counts it, and so does the gate, which names it at its end."""
    _skipped.append(what)
    print(f"skipped: {what}", flush=True)


def counted(passed, failed, skipped=None):
    """Prints the last line of a script. Its status is 0 only where nothing failed, and something passed or was skipped.

    `skipped` is how many lines `skipped: ..` were printed, where `skip` hasn't printed them all.
    """
    skipped = len(_skipped) if skipped is None else skipped
    print(f"{passed} passed, {failed} failed" + (f", {skipped} skipped" if skipped else ""), flush=True)
    return 0 if passed + skipped and not failed else 1
