"""That the edits of a crate cover its tables of definitions: each row has one, by the edits' names."""
import re

# Of a crate: a file of definitions, the definition that has a row for each keyword, and how the name of an edit that is
# refused by that row begins.
TABLES = {
    "js_assert": [(f"specs/{file}.antt", f"{family}_{word}", begin)
                  for file, family in (("AnyType", "any_type"), ("Numbers", "number"), ("Strings", "string"),
                                       ("Arrays", "array"), ("Objects", "object"))
                  for word, begin in (("says", "{}-(?!text-)"), ("text", "{}-text-"))],
}


def in_words(keyword):
    """The keyword in lower case, with - between its words."""
    return re.sub(r"\B(?=[A-Z])", "-", keyword).lower()


def rows(crate, folder):
    """Each row of the crate's tables: how a failure names it, and how the names of its edits begin."""
    for file, definition, name in TABLES.get(crate, ()):
        text = (folder / file).read_text() if (folder / file).is_file() else ""
        keywords = re.findall(rf"^ *{definition}(?: [a-z]\w*)* «?([A-Z]\w*)»?(?: [a-z]\w*)* *=", text, re.M)
        for keyword in keywords or ["(no row)"]:
            yield f"{definition} {keyword} of {file}", name.format(in_words(keyword))


def covered(crate, folder, edits):
    """How many rows have an edit, and the others."""
    found = [(row, any(re.match(begin, it) for it in edits)) for row, begin in rows(crate, folder)]
    return sum(is_there for _, is_there in found), [row for row, is_there in found if not is_there]
