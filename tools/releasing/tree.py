"""The files of an installation, as tools/install puts them under a prefix, and the pages beside them."""
from __future__ import annotations

from dataclasses import dataclass
from pathlib import Path

from .files import File, read, text

# Each program with its manual page and completions, as they stand in tools/installed.
PROGRAMS = ("jschema", "jschema-upgrade")
SONAME = "libjschema.so.0"


@dataclass(frozen=True)
class Release:
    """What the packages are made of."""

    home: Path
    version: str
    #: The time of the commit, which is the time of all that is made.
    epoch: int
    maintainer: str
    #: The folder of the programs, the folder of the library for C, the WebAssembly module if there is one.
    programs: dict[str, Path]
    library: Path
    module: Path | None
    #: What may be done with it; the licences of its parts; what was proved.
    licence: str
    notices: str
    record: str

    @property
    def name(self):
        return f"jschema-{self.version}"


def programs(release):
    """The programs with their manual pages and completions."""
    for name in PROGRAMS:
        installed = release.home / "tools" / "installed"
        yield read(f"bin/{name}", release.programs[name], mode=0o755)
        yield read(f"share/man/man1/{name}.1", installed, f"{name}.1")
        yield read(f"share/bash-completion/completions/{name}", installed, f"{name}.bash")
        yield read(f"share/zsh/site-functions/_{name}", installed, f"{name}.zsh")


def shared(release):
    """The shared library."""
    yield read(f"lib/{SONAME}", release.library, SONAME, mode=0o755)


def development(release):
    """What a program in C is compiled and linked with."""
    bindings = release.home / "bindings" / "c"
    yield read("include/jschema.h", bindings, "jschema.h")
    yield read("lib/libjschema.a", release.library, "libjschema.a")
    yield File("lib/libjschema.so", link=SONAME)
    yield read("lib/pkgconfig/jschema.pc", bindings, "jschema.pc")


def pages(release):
    """What stands beside each package, by name."""
    yield text("LICENCE.txt", release.licence)
    yield text("NOTICES.txt", release.notices)
    yield text("PROOF.txt", release.record)


def whole(release):
    """All files under a prefix."""
    yield from programs(release)
    yield from shared(release)
    yield from development(release)
    documents = f"share/doc/{release.name}"
    for page in pages(release):
        yield File(f"{documents}/{page.path}", page.data)
    for name in ("README.md", "CHANGELOG.md"):
        yield read(f"{documents}/{name}", release.home, name)
