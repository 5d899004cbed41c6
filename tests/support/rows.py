"""The worked rows (tests/rows), and the checks among them."""
import os
from dataclasses import dataclass

from .programs import HOME

ROWS = os.path.join(HOME, "tests", "rows")

# Runs of `check` about the program's own arguments and files, which the package doesn't have.
OF_THE_PROGRAM = {"files", "words"}


@dataclass(frozen=True)
class Check:
    """A check, and what must come of it."""

    name: str
    format: str
    entry: str
    instance: bytes
    documents: tuple
    status: int
    output: bytes
    refusal: str


def read(path, otherwise=b""):
    """The bytes of a file, or what stands for a file that isn't there."""
    try:
        with open(path, "rb") as file:
            return file.read()
    except FileNotFoundError:
        return otherwise


def names():
    """Every row."""
    return sorted(it for it in os.listdir(ROWS) if os.path.isdir(os.path.join(ROWS, it)))


def words_of(row, run):
    """The arguments of a run."""
    return read(os.path.join(ROWS, row, f"{run}.words")).decode().split("\n")[:-1]


def runs():
    """Each run: its row, its name, its words."""
    for row in names():
        for file in sorted(os.listdir(os.path.join(ROWS, row))):
            if file.endswith(".words"):
                run = file.removesuffix(".words")
                yield row, run, words_of(row, run)


def checks():
    """Every row that is a check."""
    for row, run, words in runs():
        if words[:1] == ["check"] and row not in OF_THE_PROGRAM:
            _, format, instance, entry, *pairs = words
            stem = os.path.join(ROWS, row, run)
            # A file that isn't there would be a mistake here: `open` says so.
            texts = [open_bytes(os.path.join(ROWS, row, it)) for it in (instance, *pairs[1::2])]
            yield Check(f"{row}/{run}", format, entry, texts[0], tuple(zip(pairs[::2], texts[1:])),
                        int(read(f"{stem}.status", b"0")), read(f"{stem}.stdout"), read(f"{stem}.stderr").decode())


def open_bytes(path):
    with open(path, "rb") as file:
        return file.read()


def texts():
    """Every JSON text of the rows, and every text that should be one: the files that no run is made of."""
    for row in names():
        folder = os.path.join(ROWS, row)
        for file in sorted(os.listdir(folder)):
            if not file.endswith((".words", ".stdout", ".stderr", ".status")):
                yield f"{row}/{file}", open_bytes(os.path.join(folder, file))
