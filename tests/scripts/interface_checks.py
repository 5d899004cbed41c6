"""That `tools/interface --check` finds what differs from interface.toml and keywords.toml."""
import os
import shutil

from script_checks import Check
from tests.support.programs import HOME
from tools.interface_texts import FOUND, TEXTS

COPIED = ("interface.toml", "keywords.toml", "tests/reference", "tools",
          *(it for it in (*TEXTS, *FOUND) if not it.startswith("tools/")))
SIXTH = '''[[format]]
name = "hierarchical"
number = 5
short = "by schema"
help = "the errors of each schema"
manual = "The errors of each schema."

[[status]]
number = 0'''
# A file, what is changed in it, and what must be said of it.
EDITS = {
    "an old help": ("jschema", "  flag      the verdict alone", "  flag      the verdict", "jschema is stale"),
    "an old header": ("bindings/c/jschema.h", "JSCHEMA_BASIC = 1", "JSCHEMA_BASIC = 2", "jschema.h is stale"),
    "a page without marks": ("docs/REFUSALS.md", "<!-- interface: limits -->\n", "",
                             "REFUSALS.md has no marks for limits"),
    "another version": ("interface.toml", 'version = "0.', 'version = "7.',
                        r"jschema is stale(.|\n)*jschema.1 is stale(.|\n)*jschema.pc is stale(.|\n)*"
                        r"jschema.h is stale(.|\n)*pyproject.toml is stale(.|\n)*package.json is stale(.|\n)*"
                        r"jschema_c/src/lib.rt: jschema_version"),
    "another word for a format": ("crates/js_tree/src/formats.rt", '"merged" =>', '"unique" =>',
                                  "js_tree/src/formats.rt: named"),
    "another number of a format": ("crates/js_tree/specs/Form.antt", "formats = Flag ∷ Basic", "formats = Basic ∷ Flag",
                                   "js_tree/specs/Form.antt: formats"),
    "another status": ("crates/js_command/src/status.rt", "REFUSED: u8 = 3", "REFUSED: u8 = 5",
                       "js_command/src/status.rt: the statuses"),
    "another limit": ("crates/js_output/src/input.rt", "16_777_216", "16_777_217", "js_output/src/input.rt: LIMIT"),
    "another name of a refusal": ("crates/js_output/specs/Line.antt", 'codes "BadId"', 'codes "NoId"',
                                  "js_output/specs/Line.antt: the names"),
    "a sixth format": ("interface.toml", "[[status]]\nnumber = 0", SIXTH,
                       r"jschema is stale(.|\n)*js_tree/src/formats.rt: Format(.|\n)*js_tree/src/formats.rt: named"
                       r"(.|\n)*js_tree/src/formats.rt: numbered(.|\n)*js_tree/specs/Form.antt: format_name"
                       r"(.|\n)*js_tree/specs/Form.antt: formats"),
    "another form of a keyword": ("keywords.toml", 'minItems = { first = "draft-03", form = "count"',
                                  'minItems = { first = "draft-03", form = "number"',
                                  r"keyword_table.py is stale(.|\n)*keyword_table.js is stale(.|\n)*"
                                  r"REFUSALS.md is stale"),
}


def copy(room, name):
    """A copy of what tools/interface reads."""
    home = os.path.join(room.folder, f"interface with {name}")
    for part in COPIED:
        os.makedirs(os.path.dirname(os.path.join(home, part)), exist_ok=True)
        (shutil.copytree if os.path.isdir(os.path.join(HOME, part)) else shutil.copy)(
            os.path.join(HOME, part), os.path.join(home, part))
    for crate in os.listdir(os.path.join(HOME, "crates")):
        for part in ("src", "specs"):
            if os.path.isdir(os.path.join(HOME, "crates", crate, part)):
                shutil.copytree(os.path.join(HOME, "crates", crate, part), os.path.join(home, "crates", crate, part))
    return home


def edit(path, old, new):
    """Changes a text that stands in a file."""
    with open(path, encoding="utf-8") as file:
        text = file.read()
    if old not in text:
        raise ValueError(f"{path} has no {old!r}")
    with open(path, "w", encoding="utf-8") as file:
        file.write(text.replace(old, new, 1))


def of_interface(room):
    """Over copies in which one thing is another."""
    words = ["tools/interface", "--check"]
    yield Check("tools/interface --check", words, home=copy(room, "nothing changed"))
    for name, (path, old, new, says) in EDITS.items():
        home = copy(room, name)
        edit(os.path.join(home, path), old, new)
        yield Check(f"tools/interface --check, {name}", words, f"FAILED (.|\n)*{says}", home)
