"""The edits of a crate: what each changes, in which function or arm of a match, and which can be made together."""
import re
from dataclasses import dataclass, field
from itertools import takewhile

FUNCTION = re.compile(r'\s*(?:pub(?:\([^)]*\))? )?(?:const |unsafe |extern "C" )*fn (\w+)')
CYCLE = re.compile(r"\s*#\[cycle\((\w+)\)\]")
IMPL = re.compile(r"impl(?:<[^>]*>)? (?:.* for )?(\w+)")
# An arm of a match, without a guard: its pattern's variant.
ARM = re.compile(r"\s*(?:\w+::)+(\w+)(?:\(.*\)| \{.*\})? =>")
ERROR = re.compile(r"(?:\./)?proofs/(\S+)/\w+\.antt:\d+:\d+: error: (?:`([^`]+)`)?")
NOTE = re.compile(r"note: src/(\S+)\.rt:(\d+):\d+: it is not proved (?:[^`]*\(`([^`]+)`\))?")
# A proof file that names what the edit took away says nothing of the contract. (rt's own words for it.)
OF_NAMES = re.compile(r"has no field|is not in scope|has no `|was not admitted")
# Their functions are in no module.
ROOTS = ("src/lib.rt", "src/main.rt")


@dataclass(frozen=True)
class Place:
    """What an edit changes: a function, or one arm of a match in it. A function has its file, its module, its name, its
    cycle of calls, or itself, and its lines. The prover counts a method to the module of its type."""

    file: str
    module: str
    name: str
    cycle: str
    arm: str
    lines: range = field(compare=False)

    def is_named(self, path, crate):
        """Whether the prover's name of a function is that of this one, or of a closure in it."""
        return path.startswith(f"{crate}::{self.module}::") and (
            path.rpartition("::")[2] == self.name or f"::fn::{self.name}::" in path)

    def has_goal(self, goal):
        """Whether a goal of the function, by its name, is of this place."""
        return not self.arm or bool(goal and re.search(rf"-in-{self.arm}(?:-|$)", goal))

    def has_error(self, line):
        """Whether a line is an error in a proof of this place, or of its cycle, but not one about a name."""
        found, module = ERROR.match(line), self.module.replace("::", "/")
        return bool(found and found[1].startswith(f"{module}/") and not OF_NAMES.search(line)
                    and found[1].rpartition("/")[2] in (self.name, f"+{self.cycle}") and self.has_goal(found[2]))

    def has_note(self, line):
        """Whether a line says that a goal of this place isn't proved."""
        found = NOTE.match(line)
        return bool(found and found[1] == self.file and int(found[2]) in self.lines
                    and self.has_goal(found[3]))

    def meets(self, other):
        """Whether one goal can be of both."""
        return self.cycle == other.cycle and (not self.arm or not other.arm or self.arm == other.arm)


@dataclass
class Edit:
    """An edit: its file's name, the lines that it changes, by file and number, and the places that they are in."""

    name: str
    lines: dict
    places: set

    def meets(self, other):
        """Whether the two can't be told apart in one check."""
        return bool(self.lines.keys() & other.lines.keys()) or any(
            mine.meets(its) for mine in self.places for its in other.places)


def changes(file):
    """The changes of an edit: a path in its crate, an old text there, and what stands in its place."""
    path = old = ""
    for line in file.read_text().split("\n"):
        if line.startswith("file: "):
            path = line.removeprefix("file: ").strip()
        elif line.startswith("old: "):
            old = line.removeprefix("old: ")
        elif line.startswith("new:"):
            yield path, old, line.removeprefix("new:").removeprefix(" ")


def changed_texts(file, folder):
    """The texts that an edit changes, by their paths in the crate, or None where an old text doesn't stand there
    exactly once."""
    texts = {}
    for path, old, new in changes(file):
        if path not in texts and (folder / path).is_file():
            texts[path] = (folder / path).read_text()
        text = texts.get(path, "")
        if not old or text.count(old) != 1:
            return None
        texts[path] = text.replace(old, new)
    return texts or None


def read_edit(file, folder):
    """An edit whose changes are all in functions, or None: such a one is tried by itself."""
    lines, places = {}, set()
    for path, text in (changed_texts(file, folder) or {}).items():
        before = (folder / path).read_text().split("\n")
        for number, (old, new) in enumerate(zip(before, text.split("\n"))):
            if old != new:
                lines[path, number] = new
                places.add(place_of(path, before, number, new))
    in_modules = all(path.startswith("src/") and path not in ROOTS for path, _ in lines)
    return Edit(file.name, lines, places) if lines and in_modules and None not in places else None


def module_of(lines, number):
    """The module of the type whose method this line begins, or None where it is that of the file, or no method's."""
    begin = next((it for it in reversed(lines[:number]) if it[:1].strip()), "")
    found = IMPL.match(begin) if lines[number][:1] == " " else None
    used = re.search(rf"^use crate::([\w:]+)::(?:\{{[^}}]*\b)?{found[1]}\b", "\n".join(lines), re.M) if found else None
    return used and used[1]


def place_of(path, lines, number, new):
    """The place of a line of a file, which becomes `new`, or None if it is in no function."""
    for start in range(number, -1, -1):
        found = FUNCTION.match(lines[start])
        if found:
            break
        if start < number and lines[start].startswith("}"):
            return None
    else:
        return None
    file = path.removeprefix("src/").removesuffix(".rt")
    module = module_of(lines, start) or file.replace("/", "::")
    cycle = next(filter(None, map(CYCLE.match, above(lines, start))), None)
    end = next((it for it in range(number + 1, len(lines)) if FUNCTION.match(lines[it])), len(lines))
    own = range(start + 1 - len(above(lines, start)), end + 1 - len(above(lines, end)))
    arm = "" if cycle else arm_of(lines, start, number, new)
    return Place(file, module, found[1], cycle[1] if cycle else f"{module}::{found[1]}", arm, own)


def above(lines, number):
    """The attributes and comments right above a line."""
    return list(takewhile(lambda it: it.lstrip().startswith(("#[", "//")), reversed(lines[:number])))


def arm_of(lines, start, number, new):
    """The variant of the arm of a match that a line is in, which becomes `new`: its pattern stays as it is. '' where
    the line is in no such arm, below the function's first line."""
    line = next((it for it in range(number, start, -1) if " =>" in lines[it]), start)
    found = ARM.match(lines[line])
    if not found or (line == number and not new.startswith(found[0])):
        return ""
    return found[1] if line == number or indent(lines[line]) < indent(lines[number]) else ""


def indent(line):
    return len(line) - len(line.lstrip())


def apart(edits):
    """The first edits that one check can tell apart, and those that are left."""
    chosen, left = [], []
    for edit in edits:
        (left if any(map(edit.meets, chosen)) else chosen).append(edit)
    return chosen, left
