"""How results are written: for people, for other programs, or as the validator's output."""
from __future__ import annotations

import importlib
from typing import TextIO

from ...engine import FORMATS
from .base import Report as Report

# The class of each report, with its module: only that of the format is imported.
_REPORTS = {
    "text": ("text", "TextReport"), "short": ("lines", "ShortReport"), "json": ("machines", "JsonReport"),
    "github": ("lines", "GithubReport"), "html": ("html", "HtmlReport"), "sarif": ("sarif", "SarifReport"),
    "junit": ("junit", "JunitReport"),
}


def report_for(format: str, command: str, out: TextIO) -> Report:
    """The report of a command in a format."""
    module, name = ("machines", "OutputReport") if format in FORMATS else _REPORTS[format]
    made: type[Report] = getattr(importlib.import_module(f".{module}", __name__), name)
    return made(format, command, out)
