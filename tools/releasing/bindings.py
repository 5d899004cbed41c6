"""The packages for Python and JavaScript."""
from __future__ import annotations

import importlib.util
import json
from pathlib import Path

from . import elf, tree
from .files import read, tarball

# What any system has that a wheel for Linux may be installed on (PEP 600).
OF_LINUX = {"libc.so.6", "libm.so.6", "libdl.so.2", "libpthread.so.0", "librt.so.1", "libgcc_s.so.1",
            "ld-linux-x86-64.so.2", "ld-linux-aarch64.so.1"}


def platform(library):
    """The platform of a wheel with the library: Linux, with the oldest glibc that has what the library needs."""
    if others := set(elf.needed(library)) - OF_LINUX:
        raise ValueError(f"{library} needs {', '.join(sorted(others))}, which a wheel may not rely on")
    return f"manylinux_{elf.glibc(library).replace('.', '_')}_{elf.machine(library)}"


def wheel(release, out):
    """Writes the wheel, with the library inside, into a folder."""
    path = release.home / "bindings" / "python" / "backend.py"
    found = importlib.util.spec_from_file_location("backend", path)
    backend = importlib.util.module_from_spec(found)
    found.loader.exec_module(backend)
    library = release.library / tree.SONAME
    pages = {it.path: it.data for it in tree.pages(release)}
    return backend.build_wheel(out, {"library": library, "platform": platform(library), "pages": pages})


def javascript(release, out):
    """Writes the package for npm into a folder: the files that package.json names, as `npm pack` takes them."""
    home = release.home / "bindings" / "javascript"
    about = json.loads((home / "package.json").read_text(encoding="utf-8"))
    files = [*tree.pages(release), read("jschema.wasm", release.module)]
    for name in ("package.json", "README.md", *about["files"]):
        paths = [home / name] if (home / name).is_file() else sorted((home / name).rglob("*"))
        files += [read(path.relative_to(home).as_posix(), path, mode=0o755 if name == "bin" else 0o644)
                  for path in paths if path.is_file() and name != "jschema.wasm"]
    Path(out, f"jschema-{about['version']}.tgz").write_bytes(tarball(files, "package", release.epoch))
