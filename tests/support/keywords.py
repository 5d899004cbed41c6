"""The keywords of 2020-12 with the forms of their values, as keywords.toml has them."""
import os
import tomllib

from .programs import HOME

with open(os.path.join(HOME, "keywords.toml"), "rb") as _file:
    _KEYWORDS = {name: it for name, it in tomllib.load(_file)["keyword"].items() if "last" not in it}
FORMS = {name: it["form"] for name, it in _KEYWORDS.items()}
# The types of instances that a keyword says something of; none where it says something of all, or of none.
ABOUT = {name: it.get("about", []) for name, it in _KEYWORDS.items()}
