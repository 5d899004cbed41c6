"""Validates newline-delimited JSON over a Dask bag.

    python3 examples/dask_validate.py --schema person.schema.json 'people/*.jsonl'

Each file is a partition, which one worker checks: split a large one. Each line that isn't blank is an instance.

Each error is an object on a line of standard output, with `file`, `line`, and `instance_location`, `keyword_location`
and `message` as `jschema.ValidationError` has them. For an instance that is refused there is one without a
`keyword_location`. The summary goes to standard error.
"""
from __future__ import annotations

import argparse
import functools
import json
import sys
from collections import Counter
from collections.abc import Iterable
from pathlib import Path
from typing import NamedTuple, Optional

import jschema

NEEDS = "this needs dask[bag] and distributed (Debian: python3-distributed), and each worker needs jschema too"
STATUSES = """exit status: 0 all are valid, 1 some are invalid, 2 the arguments are wrong, 3 an input is refused,
4 anything else failed; the highest of these"""

#: Each document's absolute URI with its text. The first is the schema to apply.
Documents = tuple[tuple[str, bytes], ...]


class Row(NamedTuple):
    """An error of an instance, or why the instance is refused."""

    file: str
    line: int
    instance_location: str
    keyword_location: Optional[str]
    message: str


class Part(NamedTuple):
    """What came of a partition: how many instances are valid, invalid and refused, and why."""

    counts: Counter[str]
    rows: list[Row]


@functools.lru_cache(maxsize=1)
def schemas_of(documents: Documents) -> jschema.Schemas:
    """The schemas. They can't be pickled, so each worker process makes them, once."""
    return jschema.Schemas(documents)


def check(lines: Iterable[tuple[str, str]], documents: Documents) -> list[Part]:
    """Checks the lines of a partition, each with its file. This is what the workers run."""
    schemas, entry = schemas_of(documents), documents[0][0]
    part = Part(Counter(), [])
    for number, (line, file) in enumerate(lines, 1):
        if not line.strip(" \t\r\n"):
            continue
        try:
            errors = schemas.errors(entry, line)
        except jschema.Refused as refused:
            part.counts["refused"] += 1
            part.rows.append(Row(file, number, refused.place or "", None, f"refused: {refused}"))
        else:
            part.counts["invalid" if errors else "valid"] += 1
            part.rows.extend(Row(file, number, it.instance_location, it.keyword_location, it.message) for it in errors)
    return [part]


def validate(arguments: argparse.Namespace, documents: Documents) -> list[Part]:
    """What came of each file."""
    from dask import delayed
    from dask.bag import read_text
    from distributed import Client
    from fsspec import open_files

    # What is missing is found here, before a worker starts.
    for file in open_files(arguments.instances):
        file.fs.info(file.path)
    local = {"n_workers": arguments.workers, "threads_per_worker": 1, "dashboard_address": None}
    with Client(arguments.scheduler) if arguments.scheduler else Client(**local) as client:
        # A running cluster doesn't have this file.
        client.upload_file(__file__)
        # An instance may have a carriage return. With a surrogate it is refused, like all that isn't UTF-8.
        lines = read_text(arguments.instances, encoding="utf-8", errors="surrogateescape", linedelimiter="\n",
                          include_path=True)
        # Delayed, the documents go to each worker once, and not into each task.
        return lines.map_partitions(check, delayed(documents)).compute()


def report(parts: list[Part]) -> int:
    """Writes the rows and the summary. Returns the exit status."""
    for part in parts:
        for row in part.rows:
            print(json.dumps(row._asdict()))
    counts = sum((part.counts for part in parts), Counter())
    print(", ".join(f"{counts[it]} {it}" for it in ("valid", "invalid", "refused")), file=sys.stderr)
    return 3 if counts["refused"] else 1 if counts["invalid"] else 0


def document(argument: str) -> tuple[str, bytes]:
    """The document that an argument `[URI=]FILE` names, after the URI to register it under."""
    uri, _, file = argument.rpartition("=")
    return uri or Path(file).absolute().as_uri(), Path(file).read_bytes()


def positive(word: str) -> int:
    """The number that an argument is."""
    if not word.isdecimal() or int(word) == 0:
        raise argparse.ArgumentTypeError(f"{word!r} isn't a number from 1")
    return int(word)


def parse() -> argparse.Namespace:
    """Reads the arguments."""
    parser = argparse.ArgumentParser(description="Validates newline-delimited JSON over a Dask bag.", epilog=STATUSES)
    parser.add_argument("--schema", required=True, metavar="[URI=]FILE",
                        help="the schema, with the URI to register it under (default: its file's URL)")
    parser.add_argument("--ref", action="append", default=[], metavar="[URI=]FILE",
                        help="a schema document that is referred to, in the same way")
    where = parser.add_mutually_exclusive_group()
    where.add_argument("--workers", type=positive, metavar="N", help="processes to start (default: one for each core)")
    where.add_argument("--scheduler", metavar="ADDRESS", help="a running cluster to use, such as tcp://host:8786")
    parser.add_argument("instances", nargs="+", metavar="INSTANCES",
                        help="a file, a pattern, or a URL that Dask can read; each line is an instance")
    return parser.parse_args()


def main() -> int:
    """Runs the command. Returns the exit status."""
    arguments = parse()
    try:
        documents = tuple(map(document, [arguments.schema, *arguments.ref]))
        # What is wrong with them is found here, too.
        schemas_of(documents)
        return report(validate(arguments, documents))
    except jschema.Refused as refused:
        print(f"dask_validate: {refused}", file=sys.stderr)
        return 3
    except ImportError as error:
        print(f"dask_validate: {error}: {NEEDS}", file=sys.stderr)
    except Exception as error:  # A lost worker, say, must not end like an instance that is invalid.
        print(f"dask_validate: {error}", file=sys.stderr)
    return 4


if __name__ == "__main__":
    # Workers find what they run by the name of its module, which isn't __main__ there.
    import dask_validate

    sys.exit(dask_validate.main())
