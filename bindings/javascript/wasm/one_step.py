"""How the scripts of this folder run: each makes one text of another."""
import sys
from pathlib import Path


def run(step, *refusals):
    """Writes what the step makes of the text in the file GIVEN to the file MADE. A refusal ends the script."""
    script, *words = sys.argv
    name = Path(script).name
    if len(words) != 2:
        sys.exit(f"usage: {name} GIVEN MADE")
    given, made = map(Path, words)
    try:
        made.write_text(step(given.read_text("utf-8")), "utf-8")
    except refusals as error:
        sys.exit(f"{name}: {error}")
