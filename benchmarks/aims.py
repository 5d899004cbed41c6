"""The aims of benchmarks/instructions, and its table."""
import statistics
from dataclasses import dataclass


@dataclass(frozen=True)
class Aim:
    """What a figure should be (`wanted`), and the most that it may be, in each case and on average of the cases."""

    wanted: int
    most: int | None = None
    most_on_average: int | None = None

    def shown(self):
        """The cell of the most that it may be."""
        if self.most_on_average is None:
            return f"{self.most:,}" if self.most else "–"
        return f"{self.most_on_average:,}, each {self.most:,}"

    def missed(self, figures):
        """What is too much of these figures, by case; empty where nothing is."""
        faults = []
        average = statistics.mean(figures.values())
        if self.most_on_average is not None and average > self.most_on_average:
            faults.append(f"{average:,.0f} on average")
        case = max(figures, key=figures.get)
        if self.most is not None and figures[case] > self.most:
            faults.append(f"{figures[case]:,.0f} in {case}")
        return ", ".join(faults)


# Each figure with its column's head and its aim. All but the first are per node, `reading` per byte of the instance.
FLAG = "flag"
BEYOND_FLAG = ("basic", "detailed", "merged", "verbose")
COLUMNS = {
    "nodes": ("nodes", None),
    "flag": ("`flag`", Aim(400, 600, 500)),
    "basic": ("beyond: `basic`", Aim(700, 1_000)),
    "detailed": ("`detailed`", Aim(700, 1_000)),
    "merged": ("`merged`", Aim(700, 1_000)),
    "verbose": ("`verbose`", Aim(1_500, 2_000)),
    "written": ("bytes", None),
    "memory basic": ("memory: `basic`", Aim(120, 160)),
    "memory detailed": ("`detailed`", Aim(120, 160)),
    "memory merged": ("`merged`", Aim(120, 160)),
    "memory verbose": ("`verbose`", Aim(120, 160)),
    "reading": ("reading", Aim(110)),
}


def line(cells):
    """A row of Markdown."""
    return "| " + " | ".join(cells) + " |"


def number(figure):
    return "–" if figure is None else f"{figure:,.0f}"


def table(rows):
    """A row a case, whose figures are a dict by column, then the averages that have an aim, and the aims."""
    lines = [line(["case", *(head for head, _ in COLUMNS.values())]), "|---|" + "---:|" * len(COLUMNS)]
    lines += [line([f"`{name}`", *(number(figures.get(it)) for it in COLUMNS)]) for name, figures in rows.items()]
    lines.append(line(["average", *(number(average(rows, it)) if aim and aim.most_on_average else ""
                                    for it, (_, aim) in COLUMNS.items())]))
    lines.append(line(["aim", *(number(aim.wanted) if aim else "" for _, aim in COLUMNS.values())]))
    lines.append(line(["at most", *(aim.shown() if aim else "" for _, aim in COLUMNS.values())]))
    return "\n".join(lines) + "\n"


def of_column(rows, column):
    """The figures of a column, by case."""
    return {name: figures[column] for name, figures in rows.items() if figures.get(column) is not None}


def average(rows, column):
    """The average of a column; none where it has no figure."""
    figures = of_column(rows, column).values()
    return statistics.mean(figures) if figures else None


def verdict(rows):
    """Whether all figures are within their limits, and which aren't."""
    faults, unknown = [], []
    for column, (_, aim) in COLUMNS.items():
        figures = of_column(rows, column) if aim else {}
        if aim and aim.most is not None and len(figures) < len(rows):
            unknown.append(column)
        missed = aim.missed(figures) if figures else ""
        if missed:
            faults.append(f"{column} {missed}")
    cases = "one case" if len(rows) == 1 else f"{len(rows)} cases"
    if faults:
        return f"Limits: not met on {cases}: {'; '.join(faults)}."
    if unknown or not rows:
        return f"Limits: not known on {cases}: not measured: {', '.join(unknown)}."
    return f"Limits: met on {cases}."
