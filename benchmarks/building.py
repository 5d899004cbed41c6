"""Builds a program that measures, over the crates, and runs it."""
import contextlib
import os
import shutil
import signal
import subprocess
import sys
import tempfile
import threading

from tests.support.programs import HOME, TimeoutExpired, answer_of, no_end
from tools import libraries

GNU_TIME = shutil.which("time")
SOURCE = os.path.join("crates", "measure", "src", "main.rt")
PROGRAM = os.path.join("crates", "measure", "out", "measure")


def add_options(parser):
    """The options of each script that measures."""
    parser.add_argument("--in", dest="folder", help="build in this folder, and keep it (default: a temporary one)")
    parser.add_argument("--seconds", type=float, default=7200, help="limit for each process (default: %(default)s)")


def measured(words, given, seconds):
    """What a process writes on standard output, and its greatest memory in bytes; its standard input is a file.

    Ends the script where the process fails, or takes longer than `seconds`.
    """
    with tempfile.NamedTemporaryFile() as peak:
        # The memory of a process counts that of the one that started it, which GNU time keeps small.
        small = [GNU_TIME, "-q", "-f", "%M", "-o", peak.name] if GNU_TIME else []
        out, status, used = ended([*small, *words], given, seconds, " ".join(words))
        if small and status > 128:
            status = 128 - status  # a signal
        if status:
            sys.exit(f"{' '.join(words)}: status {status}")
        return out, int(peak.read() or used) * 1024


def ended(words, given, seconds, name):
    """What a process writes, its status, and its greatest memory in KB."""
    job = subprocess.Popen(words, stdin=given, stdout=subprocess.PIPE, start_new_session=True)
    has_ended = threading.Event()
    was_killed = threading.Event()

    def kill_late():
        if not has_ended.wait(seconds):
            was_killed.set()
            with contextlib.suppress(ProcessLookupError):
                os.killpg(job.pid, signal.SIGKILL)

    threading.Thread(target=kill_late, daemon=True).start()
    with job.stdout:
        out = job.stdout.read()
    _, status, used = os.wait4(job.pid, 0)
    has_ended.set()
    job.returncode = os.waitstatus_to_exitcode(status)
    if was_killed.is_set():
        sys.exit(f"{name}: no end after {seconds:g} s")
    return out, job.returncode, used.ru_maxrss


def build(folder, name, crates, used, begin, seconds, answer=None):
    """Proves and builds `benchmarks/NAME.rt.txt` in the folder, over `crates`, of which it uses `used` itself.

    To the input `begin` it must give the answer, if one is named. Ends the script where nothing is built.
    """
    if not shutil.which("rt"):
        sys.exit(f"benchmarks/{name}: needs the Rattle kit's command rt on the PATH, and finds none")
    folder = os.path.abspath(folder)
    put_source(name, os.path.join(folder, SOURCE))
    over = over_gate if all(map(libraries.is_of_gate, crates)) else over_copies
    try:
        out, errors, status = over(folder, crates, used, begin, seconds)
    except TimeoutExpired as error:
        sys.exit(f"benchmarks/{name}: not built: {no_end(error)}")
    if status != 0 or answer not in (None, out.decode().strip()):
        sys.exit(f"benchmarks/{name}: not built:\n{out.decode()}\n{errors.decode()}")
    return os.path.join(folder, PROGRAM)


def put_source(name, path):
    """Puts `benchmarks/NAME.rt.txt` there. A file that has its text already stays as old as it is."""
    with open(os.path.join(HOME, "benchmarks", f"{name}.rt.txt")) as file:
        text = file.read()
    os.makedirs(os.path.dirname(path), exist_ok=True)
    with open(path, "a+") as file:
        file.seek(0)
        if file.read() != text:
            file.truncate(0)
            file.write(text)


def is_newer(program, files):
    """Whether a program was built after each of these files."""
    return os.path.exists(program) and os.stat(program).st_mtime_ns > max(os.stat(it).st_mtime_ns for it in files)


def over_gate(folder, crates, used, begin, seconds):
    """Builds it over the crates as `rt ci` proved them, unless that was done, and runs it.

    Returns the output, the errors and the status of the last step.
    """
    kit, words = libraries.kit(), list(libraries.arguments(used))
    program = os.path.join(folder, PROGRAM)
    os.makedirs(os.path.dirname(program), exist_ok=True)
    prove = [f"{kit}/bin/rattle", "build", "--crate-name", "measure", "src/main.rt", *words, "--links", "measure=",
             "--toolchain", f"{kit}/toolchain", "--backend", "llvm", "-o", f"{program}.o"]
    link = [f"{kit}/bin/rattle-link", "--target", "x86_64-unknown-linux-gnu", "--toolchain", f"{kit}/toolchain",
            "-o", program, f"{program}.o", f"{kit}/c/libos_c.a", f"{kit}/c/liblibc_c.a"]
    is_built = is_newer(program, [os.path.join(folder, SOURCE), *map(libraries.library, crates)])
    for step in () if is_built else (prove, link):
        out, errors, status = answer_of(step, seconds, cwd=os.path.join(folder, "crates", "measure"))
        if status:
            return out, errors, status
    return answer_of([program], seconds, begin.encode())


def over_copies(folder, crates, used, begin, seconds):
    """Proves copies of the crates too, from what earlier checks kept, builds it and runs it."""
    for crate in crates:
        copy(crate, folder)
    shutil.copy(os.path.join(HOME, "HANDLES"), folder)
    with open(os.path.join(HOME, "crates.txt")) as file:
        lines = [line for line in file if line.split(":")[0] in crates]
    with open(os.path.join(folder, "crates.txt"), "w") as file:
        file.writelines([*lines, f"measure: {' '.join(used)}\n"])
    subprocess.run(["git", "init", "-q", folder], check=True)
    return answer_of(["rt", "run"], seconds, begin.encode(), cwd=os.path.join(folder, "crates", "measure"))


def copy(crate, folder):
    """Copies a crate, and what earlier checks kept of it, where the copy has none."""
    to = os.path.join(folder, "crates", crate)
    for part in ("src", "specs", "proofs"):
        shutil.rmtree(os.path.join(to, part), ignore_errors=True)
        shutil.copytree(os.path.join(HOME, "crates", crate, part), os.path.join(to, part))
    kept = os.path.join(HOME, "crates", crate, "out")
    if os.path.isdir(kept) and not os.path.isdir(os.path.join(to, "out")):
        shutil.copytree(kept, os.path.join(to, "out"))
