"""The libraries of the kit that the program and the library for C contain, and their licences."""
from __future__ import annotations

import re
from pathlib import Path

# In the kit, what a library uses, and the names of its licences.
USES = re.compile(rb"^dep (\w+)$", re.M)
LICENCES = "LICENSE*"


def used(kit, name):
    """What a library of the kit uses."""
    path = Path(kit, "rlibs", f"{name}.rlib", "format")
    return [it.decode() for it in USES.findall(path.read_bytes())] if path.is_file() else []


def libraries(kit, crates):
    """The libraries of the kit that crates contain, by name: those that they name, and those below. `crates` has the
    crates of the repository, each with what it uses."""
    found, waiting = set(), ["std", *(it for uses in crates.values() for it in uses if it not in crates)]
    while waiting:
        name = waiting.pop()
        if name not in found:
            found.add(name)
            waiting += used(kit, name)
    return sorted(found)


def licences(kit, names):
    """Each licence text with the libraries that come with it, and the libraries that come with none."""
    texts, without = {}, []
    for name in names:
        paths = sorted(Path(kit, "rattle", name).glob(LICENCES))
        if not paths:
            without.append(name)
        for path in paths:
            texts.setdefault(path.read_text(encoding="utf-8").strip() + "\n", []).append(f"{name} ({path.name})")
    return texts, without


def notices(kit, crates):
    """The page of these licences."""
    texts, without = licences(kit, libraries(kit, crates))
    parts = ["The program and the libraries contain code of these libraries of the Rattle kit, under these licences.\n"]
    parts += [f"{'=' * 80}\n{', '.join(names)}\n{'=' * 80}\n\n{text}" for text, names in texts.items()]
    parts.append(f"{'=' * 80}\nThe kit has no licence text for: {', '.join(without)}\n")
    return "\n".join(parts)


def copyrights(page):
    """The lines of the page that name a holder and a year."""
    lines = (it.strip() for it in page.splitlines())
    return list(dict.fromkeys(it for it in lines if re.match(r"(?i)(copyright|©|\(c\)).*\b\d{4}\b", it)))
