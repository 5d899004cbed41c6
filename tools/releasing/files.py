"""Files for archives, and archives that are the same bytes whenever they have the same files."""
from __future__ import annotations

import gzip
import hashlib
import io
import tarfile
from dataclasses import dataclass
from pathlib import Path


@dataclass(frozen=True)
class File:
    """A file of a package: where it goes, and its bytes or, of a link, what it names."""

    path: str
    data: bytes = b""
    mode: int = 0o644
    link: str = ""


def read(path, *sources, mode=0o644):
    """The file of a package that has the bytes of a file here."""
    return File(path, Path(*sources).read_bytes(), mode)


def text(path, value):
    return File(path, value.encode())


def compressed(data):
    """The bytes that `gzip -9n` writes."""
    out = io.BytesIO()
    with gzip.GzipFile("", "wb", 9, out, mtime=0) as file:
        file.write(data)
    return out.getvalue()


def member(file, folder, epoch):
    """What a tar archive says of a file."""
    about = tarfile.TarInfo(f"{folder}/{file.path}")
    about.mtime, about.mode, about.size = epoch, 0o777 if file.link else file.mode, len(file.data)
    about.uname = about.gname = "root"
    if file.link:
        about.type, about.linkname = tarfile.SYMTYPE, file.link
    return about


def tarball(files, folder, epoch):
    """A compressed tar archive of files in one folder."""
    out = io.BytesIO()
    with tarfile.open(fileobj=out, mode="w", format=tarfile.USTAR_FORMAT) as archive:
        for file in sorted(files, key=lambda it: it.path):
            archive.addfile(member(file, folder, epoch), io.BytesIO(file.data))
    return compressed(out.getvalue())


def sums(folder):
    """What sha256sum prints of the files of a folder."""
    return "".join(f"{hashlib.sha256(path.read_bytes()).hexdigest()}  {path.name}\n"
                   for path in sorted(Path(folder).iterdir()))
