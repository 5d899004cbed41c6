#!/usr/bin/env python3
"""Where the prover finds the libraries that a crate uses.

    tools/libraries.py [--of-gate] [--made FILE] CRATE

Prints the prover's arguments, a line each. With --of-gate it ends with status 1 unless `rt ci` proved all of these
crates and no source has changed since; with --made unless the file was made of the present sources of all of them and
the crate, by the present kit.
"""
import argparse
import os
import subprocess
import sys

HOME = os.path.dirname(os.path.dirname(os.path.abspath(__file__)))
CRATES = os.path.join(HOME, "crates")


def crates():
    """Each crate with what it uses, in the order of crates.txt. Its kind may stand after its name."""
    with open(os.path.join(HOME, "crates.txt")) as file:
        pairs = [line.split(":", 1) for line in file if line.strip() and not line.startswith("#")]
    return {name.split()[0]: used.split() for name, used in pairs}


def with_below(used):
    """The repository's crates among these and below them, each once and after those that it uses."""
    ours, listed = crates(), {}
    for crate in filter(ours.__contains__, used):
        listed.update(dict.fromkeys([*with_below(ours[crate]), crate]))
    return list(listed)


def library(crate):
    return os.path.join(CRATES, crate, "out", "rlib", f"{crate}.rlib")


def sources(crate):
    """The files and folders of which a library is made."""
    yield os.path.join(HOME, "crates.txt")
    for part in ("src", "specs", "proofs"):
        for folder, _, names in os.walk(os.path.join(CRATES, crate, part)):
            yield folder
            yield from (os.path.join(folder, name) for name in names)


def is_of_gate(crate):
    """Whether `rt ci` made the library of a crate, of the present sources. (What `rt lib` makes has a stamp.)"""
    made = library(crate)
    if not os.path.isdir(made) or os.path.exists(os.path.join(os.path.dirname(made), "stamp")):
        return False
    since = os.stat(made).st_mtime_ns
    return all(os.stat(path).st_ctime_ns <= since for path in sources(crate))


def is_made_of(path, crate):
    """Whether a file is newer than each source of a crate and of those below, and than the kit."""
    if not os.path.isfile(path):
        return False
    since = os.stat(path).st_mtime_ns
    used = [*with_below(crates()[crate]), crate]
    paths = [f"{kit()}/KIT-ID", *(it for name in used for it in sources(name))]
    return all(os.stat(it).st_ctime_ns <= since for it in paths)


def kit():
    """The folder of the Rattle kit."""
    page = subprocess.run(["rt", "doc"], stdout=subprocess.PIPE, text=True, check=True).stdout
    return os.path.dirname(page.strip())


def arguments(used):
    """The prover's arguments for a crate that uses these, but for those of the crate itself."""
    found, ours = kit(), with_below(used)
    for name in ["std", *used]:
        yield from ("--extern", f"{name}={library(name) if name in ours else f'{found}/rlibs/{name}.rlib'}")
    for folder in [*map(os.path.dirname, map(library, ours)), f"{found}/rlibs"]:
        yield from ("-L", f"dependency={folder}")
    yield from ("--logic-built", f"{found}/logic_built")
    yield from ("--antt-project", f"{found}/rattle/logic/antt-project.json")


def check(rt, crate):
    """The command that checks a crate in its folder, from what it kept: `rt check`, or after `rt ci`, while no
    source below has changed, the prover itself. (rt would prove all crates below again.)"""
    used = crates()[crate]
    below = with_below(used)
    if not below or not all(map(is_of_gate, below)):
        return [rt, "check"]
    root = "src/lib.rt" if os.path.exists(os.path.join(CRATES, crate, "src", "lib.rt")) else "src/main.rt"
    return [f"{kit()}/bin/rattle", "check", "--crate-name", crate, root, *arguments(used),
            "--links", f"{crate}=", "--incremental", "out/incremental"]


def main():
    words = argparse.ArgumentParser(description="Lists where the libraries that a crate uses are.")
    words.add_argument("--of-gate", action="store_true", help="fail unless `rt ci` made them, of the present sources")
    words.add_argument("--made", metavar="FILE", help="fail unless this was made of the present sources")
    words.add_argument("crate")
    given = words.parse_args()
    used = crates()[given.crate]
    if given.of_gate and not all(map(is_of_gate, with_below(used))):
        sys.exit(1)
    if given.made and not is_made_of(given.made, given.crate):
        sys.exit(1)
    print("\n".join(arguments(used)))


if __name__ == "__main__":
    main()
