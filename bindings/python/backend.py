"""Builds the distributions (PEP 517). It needs nothing but Python, so an installation needs no network.

A wheel has the C library if tools/build-library made it before; without it the package runs the program."""
from __future__ import annotations

import base64
import csv
import hashlib
import io
import re
import sysconfig
import tarfile
import zipfile
from pathlib import Path

HOME = Path(__file__).resolve().parent


def section(name):
    """The lines of a section of pyproject.toml. (Python 3.9 has no reader of TOML.)"""
    return (HOME / "pyproject.toml").read_text("utf-8").partition(f"[{name}]\n")[2].partition("\n[")[0]


PROJECT = dict(re.findall(r'^([\w-]+) = "(.*)"$', section("project"), re.M))
SCRIPTS = re.findall(r'^([\w-]+) = "(.*)"$', section("project.scripts"), re.M)
EXTRAS = [(extra, re.findall('"([^"]+)"', needed))
          for extra, needed in re.findall(r"^([\w-]+) = \[(.*)\]$", section("project.optional-dependencies"), re.M)]
STEM = f"{PROJECT['name']}-{PROJECT['version']}"
LIBRARY = HOME.parents[1] / "out" / "lib" / "libjschema.so.0"


def build_wheel(wheel_directory, config_settings=None, metadata_directory=None):
    """Writes the wheel, and returns its name. The settings may name the `library` and its `platform`, and have `pages`
    that stand beside the metadata, by their names."""
    settings = config_settings or {}
    library = Path(settings.get("library", LIBRARY))
    files = {path.relative_to(HOME).as_posix(): path.read_bytes() for path in package()}
    platform = "any"
    if library.is_file():
        files[f"jschema/{LIBRARY.name}"] = library.read_bytes()
        platform = settings.get("platform", re.sub(r"[-.]", "_", sysconfig.get_platform()))
    files.update((f"{STEM}.dist-info/licenses/{name}", data) for name, data in settings.get("pages", {}).items())
    return write_wheel(wheel_directory, files, platform)


def build_editable(wheel_directory, config_settings=None, metadata_directory=None):
    """Writes a wheel that names this folder instead of having the package, and returns its name (PEP 660)."""
    return write_wheel(wheel_directory, {f"{PROJECT['name']}.pth": f"{HOME}\n".encode()}, "any")


def write_wheel(wheel_directory, files, platform):
    """Writes a wheel of files, and returns its name."""
    files[f"{STEM}.dist-info/METADATA"] = metadata().encode()
    files[f"{STEM}.dist-info/entry_points.txt"] = scripts().encode()
    files[f"{STEM}.dist-info/WHEEL"] = about_wheel(f"py3-none-{platform}", platform == "any").encode()
    files[f"{STEM}.dist-info/RECORD"] = record(files).encode()
    name = f"{STEM}-py3-none-{platform}.whl"
    with zipfile.ZipFile(Path(wheel_directory, name), "w", zipfile.ZIP_DEFLATED) as wheel:
        for path, data in files.items():
            wheel.writestr(zipfile.ZipInfo(path, (1980, 1, 1, 0, 0, 0)), data, zipfile.ZIP_DEFLATED)
    return name


def build_sdist(sdist_directory, config_settings=None):
    """Writes the source distribution, and returns its name."""
    name = f"{STEM}.tar.gz"
    with tarfile.open(Path(sdist_directory, name), "w:gz", format=tarfile.PAX_FORMAT) as sdist:
        for path in [*package(), HOME / "pyproject.toml", HOME / "backend.py", HOME / "README.md"]:
            sdist.add(path, f"{STEM}/{path.relative_to(HOME).as_posix()}")
        data = metadata().encode()
        about = tarfile.TarInfo(f"{STEM}/PKG-INFO")
        about.size = len(data)
        sdist.addfile(about, io.BytesIO(data))
    return name


def package():
    """The files of the package."""
    return sorted(path for path in (HOME / "jschema").rglob("*") if path.suffix == ".py" or path.name == "py.typed")


def about_wheel(tag, is_pure):
    return f"Wheel-Version: 1.0\nGenerator: jschema\nRoot-Is-Purelib: {str(is_pure).lower()}\nTag: {tag}\n"


def metadata():
    """The core metadata, with the README as the description."""
    readme = (HOME / PROJECT["readme"]).read_text("utf-8")
    extras = "".join(f"Provides-Extra: {extra}\n{''.join(map(requirement(extra), needed))}" for extra, needed in EXTRAS)
    return (f"Metadata-Version: 2.1\nName: {PROJECT['name']}\nVersion: {PROJECT['version']}\n"
            f"Summary: {PROJECT['description']}\nRequires-Python: {PROJECT['requires-python']}\n{extras}"
            f"Description-Content-Type: text/markdown\n\n{readme}")


def requirement(extra):
    """How the metadata name a library that an extra needs."""
    def line(needed):
        name, _, marker = needed.partition(";")
        condition = f"({marker.strip()}) and " if marker else ""
        return f'Requires-Dist: {name} ; {condition}extra == "{extra}"\n'

    return line


def scripts():
    """The entry points: the commands that an installation puts on the PATH."""
    lines = "".join(f"{name} = {call}\n" for name, call in SCRIPTS)
    return f"[console_scripts]\n{lines}"


def record(files):
    """The list of a wheel's files, with their checksums."""
    lines = io.StringIO()
    rows = csv.writer(lines, lineterminator="\n")
    for path, data in files.items():
        digest = base64.urlsafe_b64encode(hashlib.sha256(data).digest()).rstrip(b"=").decode()
        rows.writerow([path, f"sha256={digest}", len(data)])
    rows.writerow([f"{STEM}.dist-info/RECORD", "", ""])
    return lines.getvalue()
