"""Tests of the scripts that compare the pages with the sources: over pages and sources with a fault each."""
import os
import shutil
from pathlib import Path

from script_checks import Check
from tests.support.programs import HOME

# What each script compares, the file with the fault, what stands there, what in its place, and what must be said.
FAULTS = [
    ("tools/rooms --check", "docs/ARCHITECTURE.md", "| `reporters/`, `finished_world` |", "| `finished_world` |",
     r"lacks: \| \| `keywords/` \|"),
    ("tools/rooms --check", "docs/ARCHITECTURE.md", " crates have folders", " crates have no folders",
     r"lacks: \w+ crates have folders"),
    ("tools/rooms --check", "crates/js_eval/src/searching/name_set.rt", "use js_doc::Memory;\n",
     "use crate::cursors::asking::in_box;\n",
     "lacks: .*in `js_eval` `searching/` and `cursors/` call each other"),
    ("tools/rooms --check", "docs/ARCHITECTURE.md", "| | `formats/` |", "| | `shapes/` |",
     "aren't those of the crates"),
    ("tools/rooms --check", "crates/js_tree/src/laws.rt", "use crate::tree::Tree;\n",
     "use crate::{formats::node_text, tree::Tree};\n", r"`formats/` \| .*\| `laws`"),
    ("tools/rooms --check", "crates/js_output/src/lib.rt", "",
     "use js_tree::{" + ", ".join(f"Item{number}" for number in range(16)) + "};\n",
     r"js_tree has \d\d items that js_output alone uses, at most 15"),
    ("tools/keyword-literals", "crates/js_eval/src/schema.rt", "Keyword::PatternProperties.name()",
     "\"patternProperties\"",
     r'js_eval/src/schema.rt: \d+: "patternProperties"'),
    ("tools/keyword-literals", "keywords.toml", "\nallOf = {", "\nallof = {", "lacks `allOf`"),
    ("tools/error-docs js_doc", "crates/js_doc/src/lib.rt", "",
     "\npub fn one(a: [u8; 2]) -> Result<(), Memory>\n{\n}\n",
     "one returns a Result"),
    ("tools/error-docs none", "crates/js_doc/src/lib.rt", "", "", "no crate none"),
    ("tools/definitions --check", "docs/DEFINITIONS.md", "| `Compact` |", "| `Compacted` |", "DEFINITIONS.md is stale"),
    ("tools/definitions --check", "crates/js_doc/specs/Escapes.antt", "-- Which bytes", "\n-- Which bytes",
     "js_doc/specs/Escapes.antt begins with no comment"),
    ("tools/page-facts --check", "crates.txt", "js_doc: serde_json", "js_doc: other serde_json",
     "the trusted libraries are `other`, `serde_json`"),
    ("tools/page-facts --check", "CONTRIBUTING.md", "`crates/js_keyword/src/assertion_keyword.rt`",
     "`crates/js_assert/src/lib.rt`",
     "A new assertion lacks crates/js_keyword/src/assertion_keyword.rt"),
    ("tools/page-facts --check", "CONTRIBUTING.md", "`crates/js_keyword/src/assertion_keyword.rt`",
     "`crates/js_assert/src/none.rt`",
     "there is no crates/js_assert/src/none.rt"),
    # (Not in one word here, which would be a source that has it.)
    ("tools/page-facts --check", "README.md", "## Licence", "`walk_" "nowhere` and [one](docs/DECISIONS.md#none)\n\n##",
     r"no source has `walk_\w+`\n(.|\n)*there is no docs/DECISIONS.md#none"),
]


def of_facts(room):
    """Each fault in a copy of the pages and of the sources of the crates."""
    base = Path(room.copy("facts"))
    for name in ("README.md", "CONTRIBUTING.md", "test", "jschema"):
        shutil.copy(Path(HOME, name), base)
    for part in ("docs", "crates"):
        shutil.copytree(Path(HOME, part), base / part, ignore=shutil.ignore_patterns("out", "must-fail"))
    for number, (command, file, old, new, says) in enumerate(FAULTS):
        home = room.copied(base, f"fact {number}")
        path = Path(home, file)
        text = path.read_text(encoding="utf-8")
        path.write_text(text.replace(old, new, 1) if old else text + new, encoding="utf-8")
        yield Check(f"{command}, a fault in {os.path.basename(file)}: {says}", command.split(), says, str(home),
                    has_count="none" not in command)
    yield Check("tools/rooms --check", ["tools/rooms", "--check"], home=str(base))
