"""What a program or library needs of the C library, as readelf shows it."""
from __future__ import annotations

import re
import subprocess

# The oldest glibc that systems in use have.
OLDEST = (2, 17)


def shown(path, option):
    """What readelf shows of a file."""
    done = subprocess.run(["readelf", "--wide", option, str(path)], stdout=subprocess.PIPE, text=True, check=True)
    return done.stdout


def needed(path):
    """The shared libraries that a file names."""
    return re.findall(r"\(NEEDED\).*\[(.*)\]", shown(path, "--dynamic"))


def glibc(path):
    """The oldest version of glibc that has all symbols that a file needs, of those from OLDEST on."""
    versions = [tuple(map(int, it.split("."))) for it in re.findall(r"Name: GLIBC_([\d.]+)",
                                                                    shown(path, "--version-info"))]
    return ".".join(map(str, max([OLDEST, *versions])[:2]))


def machine(path):
    """The name of a file's processor, as Python's wheels have it."""
    found = re.search(r"Machine: +(.*)", shown(path, "--file-header"))[1]
    return {"Advanced Micro Devices X86-64": "x86_64", "AArch64": "aarch64"}[found]
