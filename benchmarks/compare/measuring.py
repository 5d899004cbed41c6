"""Measures processes: their wall time, the least of several rounds, and their peak memory."""
import json
import os
import resource
import shutil
import signal
import subprocess
import tempfile
import time
from dataclasses import dataclass, field

from validators import Files

# What is measured of each case and validator.
VARIANTS = ("one", "many", "one_open", "many_open", "errors")
MANY_BYTES = 2_000_000
MANY_LEAST, MANY_MOST = 3, 100
TIME = shutil.which("time")
DATA_BYTES = 6_000_000_000
# How long a process may take.
SECONDS = float(os.environ.get("SECONDS_EACH", 600))


@dataclass
class Measured:
    """The least seconds of each variant, the peak of memory on one instance, and what kept it from an answer."""

    many: int
    seconds: dict[str, float] = field(default_factory=dict)
    megabytes: float | None = None
    fault: str | None = None

    def take(self, variant, seconds):
        """Keeps the time of a process if it is the least so far."""
        self.seconds[variant] = min(seconds, self.seconds.get(variant, seconds))

    def further(self, one="one", many="many"):
        """Seconds for each further instance in one process."""
        return (self.seconds[many] - self.seconds[one]) / (self.many - 1)

    def judged(self):
        """The same without what the schema `{}` takes, which is the reading."""
        return self.further() - self.further("one_open", "many_open")


def run_once(command, environment):
    """Wall seconds of a process whose output goes nowhere."""
    null = os.open(os.devnull, os.O_RDWR)
    actions = [(os.POSIX_SPAWN_DUP2, null, it) for it in (0, 1, 2)]
    begin = time.perf_counter()
    process = os.posix_spawnp(command[0], command, os.environ | environment, file_actions=actions)
    os.waitpid(process, 0)
    seconds = time.perf_counter() - begin
    os.close(null)
    return seconds


@dataclass
class Bounded:
    """What came of a process under limits: its status is none where it was stopped."""

    returncode: int | None
    stdout: str
    stderr: str
    seconds: float
    megabytes: float | None


def limit_memory():
    """Gives this process DATA_BYTES at most."""
    resource.setrlimit(resource.RLIMIT_DATA, (DATA_BYTES, DATA_BYTES))


def run_bounded(command, environment, seconds):
    """Runs a process with a limit in seconds, and with DATA_BYTES at most.

    GNU time measures its peak memory, which for a child of Python would be that of Python at least.
    """
    with tempfile.NamedTemporaryFile("r") as report:
        timed = [TIME, "-q", "-f", "%M", "-o", report.name, *command] if TIME else command
        begin = time.perf_counter()
        process = subprocess.Popen(timed, stdin=subprocess.DEVNULL, stdout=subprocess.PIPE, stderr=subprocess.PIPE,
                                   text=True, errors="replace", env=os.environ | environment,
                                   start_new_session=True, preexec_fn=limit_memory)
        try:
            out, faults = process.communicate(timeout=seconds)
            status = process.returncode
        except subprocess.TimeoutExpired:
            os.killpg(process.pid, signal.SIGKILL)
            out, faults = process.communicate()
            status = None
        took = time.perf_counter() - begin
        peak = report.read().split()
    return Bounded(status, out, faults, took, int(peak[-1]) / 1000 if peak and status is not None else None)


def write_files(folder, name, schema, instances):
    """The files of a schema with instances, which are texts of JSON."""
    paths = Files(*(os.path.join(folder, f"{name}.{it}.json") for it in ("suite", "schema", "instance", "instances")))
    tests = ",".join(f'{{"description":"","data":{it},"valid":true}}' for it in instances)
    texts = f'[{{"description":"","schema":{schema},"tests":[{tests}]}}]', schema, instances[0], "\n".join(instances)
    for path, text in zip((paths.suite, paths.schema, paths.instance, paths.instances), texts):
        with open(path, "w", encoding="utf-8") as file:
            file.write(text)
    return paths


class Case:
    """A case of cases.json with the files of each variant."""

    def __init__(self, source, entry, folder):
        def text(kind):
            with open(os.path.join(source, entry[kind]), encoding="utf-8") as file:
                return json.dumps(json.load(file), ensure_ascii=False, separators=(",", ":"))

        schema, instance, spoiled = text("schema"), text("instance"), text("spoiled")
        self.name, self.draft = entry["name"], entry["draft"]
        self.sizes = len(schema.encode()), len(instance.encode())
        self.many = max(MANY_LEAST, min(MANY_MOST, MANY_BYTES // self.sizes[1]))
        many = [instance] * self.many
        variants = {"one": (schema, [instance]), "many": (schema, many), "one_open": ("{}", [instance]),
                    "many_open": ("{}", many), "errors": (schema, [spoiled])}
        self.files = {variant: write_files(folder, f"{self.name}.{variant}", *it) for variant, it in variants.items()}


def mode_of(variant):
    """The mode of a driver for a variant."""
    return "errors" if variant == "errors" else "verdict"


def verdicts(tool, case, variant):
    """The verdicts, or why there are none."""
    mode = mode_of(variant)
    if variant == "errors" and "errors" not in tool.asked:
        mode = "verdict"
    done = run_bounded(tool.command(mode, case.files[variant]), tool.environment, SECONDS)
    if done.returncode is None:
        return f"no end after {SECONDS:g} s"
    answer = tool.verdicts(mode, done)
    return answer if answer is not None else fault_of(done)


def fault_of(done):
    """Why a process gave no verdict: its status and the last line of its standard error."""
    lines = done.stderr.strip().splitlines()
    return f"status {done.returncode}: {lines[-1][:160] if lines else 'no message'}"


def measure_case(tools, case, rounds, seconds):
    """Each validator on one case, in turns; `seconds` bound what one takes after its first two rounds."""
    measured = {tool.name: Measured(case.many) for tool in tools if tool.draft >= case.draft}
    for tool in tools:
        if tool.name in measured:
            measured[tool.name].fault = disagreement(tool, case)
    spent = dict.fromkeys(measured, 0.0)
    for number in range(rounds):
        for tool in tools:
            if tool.name not in measured or measured[tool.name].fault or number > 1 and spent[tool.name] > seconds:
                continue
            for variant in VARIANTS:
                if variant != "errors" or "errors" in tool.asked:
                    wall = run_once(tool.command(mode_of(variant), case.files[variant]), tool.environment)
                    measured[tool.name].take(variant, wall)
                    spent[tool.name] += wall
    for tool in tools:
        if tool.name in measured and not measured[tool.name].fault:
            done = run_bounded(tool.command("verdict", case.files["one"]), tool.environment, SECONDS)
            measured[tool.name].megabytes = done.megabytes
    return measured


def disagreement(tool, case):
    """How a validator's verdicts differ from the case's: its instance is valid, and the spoiled one isn't."""
    for variant, wanted in (("one", [True]), ("errors", [False])):
        got = verdicts(tool, case, variant)
        if isinstance(got, str):
            return f"no verdict ({got})"
        if got != wanted:
            return f"it answers {got}, and the case says {wanted} ({variant})"
    return None
