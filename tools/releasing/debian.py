"""Debian packages: the program, the shared library, and what programs in C are compiled with."""
from __future__ import annotations

import datetime
import email.utils
import hashlib
import os
import re
import subprocess
import tempfile
import textwrap
from dataclasses import dataclass
from pathlib import Path

from . import elf, parts, tree
from .files import File, compressed, text

ARCHITECTURES = {"x86_64": "amd64", "aarch64": "arm64"}
ABOUT = """\
jschema validates JSON against JSON Schema, draft 2020-12. Every function is proved to be safe, to end, and to return \
what the standard says. Nothing is fetched, and format is an annotation."""


@dataclass(frozen=True)
class Package:
    """A package: its name and fields, what it depends on, its files, and files for dpkg alone."""

    name: str
    section: str
    title: str
    about: str
    depends: str
    files: tuple[File, ...]
    fields: str = ""
    control: tuple[File, ...] = ()


def version(release):
    return f"{release.version}-1"


def placed(file, triplet):
    """A file of an installation where Debian has it."""
    path = file.path.replace("share/zsh/site-functions/", "share/zsh/vendor-completions/")
    path = re.sub(r"^lib/", f"lib/{triplet}/", path)
    if "/man/" in path:
        return File(f"usr/{path}.gz", compressed(file.data))
    if path.endswith(".pc"):
        data = re.sub(rb"^#.*\n|(?<=^prefix=).*", lambda it: b"" if it[0].startswith(b"#") else b"/usr", file.data,
                      flags=re.M)
        return File(f"usr/{path}", re.sub(rb"(?<=^libdir=).*", b"${prefix}/lib/" + triplet.encode(), data, flags=re.M))
    return File(f"usr/{path}", file.data, 0o644 if path.startswith("lib/") else file.mode, file.link)


def changes(release):
    """Debian's changelog: the versions of CHANGELOG.md, each of its day, the newest of the commit's time."""
    versions = re.findall(r"^## \[([\d.]+)\] - (\S+)$", (release.home / "CHANGELOG.md").read_text("utf-8"), re.M)
    for number, day in versions:
        at = datetime.datetime.fromisoformat(f"{day}T00:00+00:00").timestamp()
        when = email.utils.formatdate(release.epoch if number == release.version else at)
        yield (f"jschema ({number}-1) unstable; urgency=medium\n\n  * As the changelog of {number} says.\n\n"
               f" -- {release.maintainer}  {when}\n")


def pages(release, name):
    """The pages of a package: Debian's own, and those that stand beside each package."""
    folder = f"usr/share/doc/{name}"
    holders = "".join(f" {it}\n" for it in parts.copyrights(release.notices))
    yield text(f"{folder}/copyright",
               f"{release.licence}\nIt contains libraries, whose licences are in NOTICES.txt.gz, of:\n\n{holders}")
    yield File(f"{folder}/changelog.gz", compressed((release.home / "CHANGELOG.md").read_bytes()))
    yield File(f"{folder}/changelog.Debian.gz", compressed("\n".join(changes(release)).encode()))
    yield File(f"{folder}/NOTICES.txt.gz", compressed(release.notices.encode()))
    yield text(f"{folder}/PROOF.txt", release.record)


def packages(release, triplet):
    """The three packages."""
    def here(files):
        return tuple(placed(it, triplet) for it in files)

    library = release.library / tree.SONAME
    needed = max((elf.glibc(it) for it in release.programs.values()), key=lambda it: [*map(int, it.split("."))])
    yield Package("jschema", "utils", "proved validator for JSON Schema 2020-12",
                  "This package has the programs.", f"libc6 (>= {needed})", here(tree.programs(release)))
    yield Package("libjschema0", "libs", "proved validator for JSON Schema 2020-12 (library)",
                  "This package has the shared library.", f"libc6 (>= {elf.glibc(library)})",
                  here(tree.shared(release)), "Multi-Arch: same\n",
                  (text("shlibs", f"libjschema 0 libjschema0 (>= {release.version})\n"),
                   text("triggers", "activate-noawait ldconfig\n")))
    yield Package("libjschema-dev", "libdevel", "proved validator for JSON Schema 2020-12 (for C)",
                  "This package has the header, the static library and pkg-config's file.",
                  f"libjschema0 (= {version(release)})", here(tree.development(release)), "Multi-Arch: same\n")


def described(package):
    """The package's description, as a field of its control file."""
    lines = [*textwrap.wrap(ABOUT, 76), ".", *textwrap.wrap(package.about, 76)]
    return f"Description: {package.title}\n" + "".join(f" {it}\n" for it in lines)


def control(release, package, architecture, files):
    """The files for dpkg."""
    size = sum(-(-len(it.data) // 1024) or 1 for it in files)
    yield text("control", f"Package: {package.name}\nSource: jschema\nVersion: {version(release)}\n"
                          f"Architecture: {architecture}\nMaintainer: {release.maintainer}\nInstalled-Size: {size}\n"
                          f"Depends: {package.depends}\nSection: {package.section}\nPriority: optional\n"
                          f"{package.fields}{described(package)}")
    yield text("md5sums", "".join(f"{hashlib.md5(it.data).hexdigest()}  {it.path}\n" for it in files if not it.link))
    yield from package.control


def put(folder, file, epoch):
    """Writes a file below a folder, with modes that don't depend on the caller's."""
    path = Path(folder, file.path)
    path.parent.mkdir(parents=True, exist_ok=True)
    if file.link:
        path.symlink_to(file.link)
    else:
        path.write_bytes(file.data)
        path.chmod(file.mode)
    os.utime(path, (epoch, epoch), follow_symlinks=False)


def stripped(file, folder):
    """The file without the symbols that nothing at run time needs, as Debian has programs and libraries."""
    if not file.data.startswith((b"\x7fELF", b"!<arch>")):
        return file
    path = Path(folder, "stripped")
    path.write_bytes(file.data)
    option = "--strip-debug" if file.path.endswith(".a") else "--strip-unneeded"
    subprocess.run(["strip", "--enable-deterministic-archives", option, "--remove-section=.comment",
                    "--remove-section=.note", path], check=True)
    return File(file.path, path.read_bytes(), file.mode)


def build(release, package, architecture, out):
    """Writes a package into a folder."""
    with tempfile.TemporaryDirectory(prefix="jschema-release-") as scratch:
        files = sorted((*(stripped(it, scratch) for it in package.files), *pages(release, package.name)),
                       key=lambda it: it.path)
        folder = Path(scratch, "package")
        for file in files:
            put(folder, file, release.epoch)
        for file in control(release, package, architecture, files):
            put(folder / "DEBIAN", file, release.epoch)
        for at, _, _ in os.walk(folder, topdown=False):
            os.chmod(at, 0o755)
            os.utime(at, (release.epoch, release.epoch))
        target = Path(out, f"{package.name}_{version(release)}_{architecture}.deb")
        subprocess.run(["dpkg-deb", "--root-owner-group", "-Zxz", "-z6", "--threads-max=1", "--build", folder, target],
                       check=True, stdout=subprocess.DEVNULL,
                       env={**os.environ, "SOURCE_DATE_EPOCH": str(release.epoch)})


def build_all(release, out):
    """Writes the packages into a folder."""
    machine = elf.machine(release.programs["jschema"])
    for package in packages(release, f"{machine}-linux-gnu"):
        build(release, package, ARCHITECTURES[machine], out)
