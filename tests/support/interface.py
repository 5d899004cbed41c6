"""What interface.toml says, for the scripts."""
import os
import tomllib

from .programs import HOME

with open(os.path.join(HOME, "interface.toml"), "rb") as _file:
    INTERFACE = tomllib.load(_file)

# The names of the formats, by their numbers in the library for C.
FORMATS = tuple(it["name"] for it in sorted(INTERFACE["format"], key=lambda it: it["number"]))
# Those of the standard.
STANDARD_FORMATS = FORMATS[:4]
