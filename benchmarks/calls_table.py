"""The table of benchmarks/calls in benchmarks/RESULTS.md."""

# The columns by the names of their cases, and the rows by who is asked.
COLUMNS = {"age, 11 bytes": "11 bytes", "events, 1 KB": "events, 1 KB", "events, 300 KB": "302 KB",
           "a Rust target, 1 KB": "a Rust target, 1 KB", "all Rust targets": "305 KB"}
ROWS = {
    "C, flag": "C, `flag`",
    "C, basic": "C, `basic`",
    "Python, flag": "Python, `flag`, of a text",
    "Python, `is_valid` of a text": "Python, `is_valid`, of a text",
    "Python, `is_valid` of a value": "Python, `is_valid`, of a value",
    "Node, flag": "Node, `flag`, of a text",
    "Node, basic": "Node, `basic`, of a text",
    "Node, `isValid` of a text": "Node, `isValid`, of a text",
    "Node, `isValid` of a value": "Node, `isValid`, of a value",
    "ajv 6 of a value": "ajv 6, of a value",
    "pip jsonschema, `is_valid` of a value": "`pip`, `is_valid`",
    "a process a call, flag": "a process a call",
}


def shown(microseconds):
    """A time with two significant digits at least: the tenths only below ten."""
    if microseconds < 10:
        return f"{microseconds:.1f}"
    if microseconds < 1000:
        return f"{microseconds:.0f}"
    digits = 2 if microseconds < 1_000_000 else 3
    return f"{round(microseconds, -digits if microseconds >= 10_000 else -1):,.0f}"


def table(found):
    """The least microseconds of each row and column; what wasn't measured is left out. `found` has least and median by
    the names of case and row."""
    columns = [it for it in COLUMNS if any(found.get((it, row)) for row in ROWS)]
    lines = ["| | " + " | ".join(COLUMNS[it] for it in columns) + " |", "|---|" + "---:|" * len(columns)]
    for row, name in ROWS.items():
        times = [found.get((it, row)) for it in columns]
        if any(times):
            lines.append(f"| {name} | " + " | ".join(shown(it[0]) if it else "" for it in times) + " |")
    return "\n".join(lines) + "\n"
