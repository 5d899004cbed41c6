"""The tables of a run, as Markdown."""
import datetime
import os
import platform

from validators import plain_version


def page(tools, missing, results, given):
    """All tables of a run, with the machine and what each validator was asked."""
    parts = [heading(results, given), asked(tools, missing), sizes(results)]
    for title, note, cell in TABLES:
        parts.append(f"### {title}\n\n{note}\n\n{rows(tools, results, cell)}")
    parts.append(faults(results))
    return "\n".join(it for it in parts if it)


def heading(results, given):
    """When and where was measured, and by which command."""
    names = " ".join(f"--only {it}" for it in given.only or [])
    words = ("benchmarks/compare/run FOLDER", names, f"--rounds {given.rounds} --seconds {given.seconds:g}")
    command = " ".join(it for it in words if it)
    return (f"Measured on {datetime.date.today()} by `{command}` on {processor()}, {os.cpu_count()} processors, "
            f"{platform.system()} {platform.release()}; the load was {os.getloadavg()[2]:.1f} at the end.\n")


def processor():
    """The name of the machine's processor."""
    try:
        with open("/proc/cpuinfo", encoding="utf-8") as file:
            return next(line.split(":", 1)[1].strip() for line in file if line.startswith("model name"))
    except (OSError, StopIteration):
        return platform.machine()


def asked(tools, missing):
    """The table of the validators, and those that aren't installed."""
    lines = ["| validator | version | newest draft | asked for a verdict | asked for all errors |",
             "|---|---|---|---|---|"]
    drafts = {7: "draft-07", 2020: "2020-12"}
    lines += [f"| {it.name} | {plain_version(it.version)} | {drafts[it.draft]} | {it.asked['verdict']} | "
              f"{it.asked.get('errors', 'not asked: it has none')} |" for it in tools]
    return "\n".join(lines) + "\n" + "".join(f"\nNot installed: {it}.\n" for it in missing)


def sizes(results):
    """The table of the cases."""
    lines = ["| case | schema, bytes | instance, bytes | instances in one process |", "|---|---:|---:|---:|"]
    lines += [f"| {case.name} | {case.sizes[0]:,} | {case.sizes[1]:,} | {case.many} |" for case, _ in results]
    return "\n".join(lines) + "\n"


def rows(tools, results, cell):
    """A table with a row for each case and a column for each validator."""
    lines = ["| case | " + " | ".join(it.name for it in tools) + " |", "|---|" + "---:|" * len(tools)]
    for case, measured in results:
        lines.append(f"| {case.name} | " + " | ".join(figure(measured.get(it.name), cell) for it in tools) + " |")
    return "\n".join(lines) + "\n"


def figure(measured, cell):
    """A figure; a dash where the validator doesn't know the draft, or has no such call."""
    if measured is None:
        return "–"
    if measured.fault:
        return "no" if measured.fault.startswith("no verdict") else "differs"
    try:
        return cell(measured)
    except KeyError:
        return "–"


def milliseconds(seconds):
    value = max(seconds, 0) * 1000
    return "< 0.01" if value < 0.01 else f"{value:.2f}" if value < 10 else f"{value:,.0f}"


def faults(results):
    """The verdicts that differ, and those that are missing."""
    found = [f"- {case.name}, {name}: {it.fault}" for case, measured in results
             for name, it in measured.items() if it.fault]
    if not found:
        return "All verdicts agree, on each instance and on the spoiled one.\n"
    return "All other verdicts agree, on each instance and on the spoiled one:\n\n" + "\n".join(found) + "\n"


TABLES = (
    ("A whole process, one instance", "Milliseconds from the start of a process to its end, with the reading of the "
     "schema and of one instance.", lambda it: milliseconds(it.seconds["one"])),
    ("Each further instance, reading included", "Milliseconds for each further instance in one process.",
     lambda it: milliseconds(it.further())),
    ("Each further instance, reading not included", "The same less what it takes with the schema `{}`.",
     lambda it: milliseconds(it.judged())),
    ("All errors", "Milliseconds of a whole process that reports all errors of one spoiled instance.",
     lambda it: milliseconds(it.seconds["errors"])),
    ("Memory", "Peak memory of a whole process on one instance, in MB, as GNU time reports it.",
     lambda it: "–" if it.megabytes is None else f"{it.megabytes:.1f}"),
)
