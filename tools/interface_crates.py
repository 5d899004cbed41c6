"""What tools/interface compares with interface.toml: the constants of the crates and of the reference."""
import ast
import re
from pathlib import Path

HOME = Path(__file__).resolve().parent.parent
CRATES = HOME / "crates"


def found(path, pattern, part=None):
    """All that a pattern finds in a file of a crate; with `part`, in what a pattern finds there first."""
    text = (CRATES / path).read_text(encoding="utf-8")
    if part:
        text = (re.search(part, text, re.S) or [""])[0]
    return re.findall(pattern, text)


def formats(interface):
    """Where the crates have the formats: by name, and by number."""
    names = {it["name"]: it["name"].capitalize() for it in interface["format"]}
    numbers = {it["number"]: it["name"].capitalize() for it in interface["format"]}
    yield ("js_tree/src/formats.rt", "Format", set(names.values()),
           set(found("js_tree/src/formats.rt", r"\n    (\w+),", r"pub enum Format \{.*?\n\}")))
    yield ("js_tree/src/formats.rt", "named", names,
           dict(found("js_tree/src/formats.rt", r'"(\w+)" => Some\(Format::(\w+)\)')))
    yield ("js_tree/src/formats.rt", "numbered", numbers,
           {int(number): name for number, name in found("js_tree/src/formats.rt", r"(\d+) => Some\(Format::(\w+)\)")})
    yield ("js_tree/specs/Form.antt", "format_name", {variant: name for name, variant in names.items()},
           dict(found("js_tree/specs/Form.antt", r'format_name (\w+) = codes "(\w+)"')))
    yield ("js_tree/specs/Form.antt", "formats", [numbers[it] for it in sorted(numbers)],
           found("js_tree/specs/Form.antt", r"[A-Z]\w*(?= ∷)", r"\nformats = .*"))


def statuses(interface):
    """Where the crates have the exit statuses, and what a call of the C library answers."""
    of_c = {it["c_name"].capitalize(): it["number"] for it in interface["status"]}
    for path, pattern in (("jschema_c/src/status.rt", r"Status::(\w+) => (\d+)"),
                          ("jschema_c/specs/Status.antt", r"code status\.(\w+) = (\d+)")):
        yield path, "code", of_c, {name: int(number) for name, number in found(path, pattern)}
    path = "js_command/src/status.rt"
    yield (path, "the statuses", {it["name"]: it["number"] for it in interface["status"]},
           {name: int(number) for name, number in found(path, r"pub const (\w+): u8 = (\d+);")})


def usages(interface, usage):
    """Where the crates have the usage texts."""
    texts = {usage, f"usage: {interface['pairs_usage']}"}
    yield ("js_command/src/words.rt", "the usage texts", texts,
           set(found("js_command/src/words.rt", r'b"(usage: .*)\\n"')))
    yield ("js_command/specs/Words.antt", "the usage texts", texts,
           set(found("js_command/specs/Words.antt", r'codes "(usage: .*)"')))


def upgrade_texts(interface, usages):
    """Where the crates have the usage texts and the dialects of jschema-upgrade."""
    for path, pattern in (("js_upgrade_cli/src/words.rt", r'b"(usage: .*)\\n"'),
                          ("js_upgrade_cli/specs/Words.antt", r'codes "(usage: .*)"')):
        yield path, "the usage texts", set(usages), set(found(path, pattern))
    for path, pattern in (("js_upgrade_cli/src/words.rt", r'"(.*)" => Some\(Dialect::'),
                          ("js_upgrade_cli/specs/Words.antt", r'codes "(.*)"\) then Some Draft')):
        yield path, "the dialects", interface["upgrade"]["dialects"], found(path, pattern)


def refusals(interface):
    """Where the crates have the names of what is refused."""
    names = [it["name"] for it in sorted(interface["refusal"], key=lambda it: it["number"])]
    kinds = found("js_bundle/src/refusal.rt", r"\n    (\w+),", r"pub enum RefusalKind \{.*?\n\}")[1:]
    yield "interface.toml", "the numbers", list(range(1, len(names) + 1)), [
        it["number"] for it in interface["refusal"]]
    yield "js_bundle/src/refusal.rt", "RefusalKind", names[:len(kinds)], kinds
    own = {name: name for name in kinds}
    failures = {it["text"].split()[-1] for it in interface["line"] if it["text"].startswith("failed: ")}
    for path, pattern in (("js_output/src/fault_line.rt", r'RefusalKind::(\w+) => "(\w+)"'),
                          ("js_output/specs/Line.antt", r'kind_name kind\.(\w+) = codes "(\w+)"')):
        yield path, "the names", {"Memory": "Memory", **own}, dict(found(path, pattern))
        ends = set(found(path, r': (\w+)"')) - failures
        yield path, "all names", set(names), set(kinds) | ends
    entries = found("js_bundle/src/refusal.rt", r"\n    (\w+),", r"pub enum EntryFault \{.*?\n\}")[1:]
    yield "js_bundle/src/refusal.rt", "EntryFault", {it["name"] for it in interface["checks"]["entry"]}, set(entries)
    given = {it["name"] for kind in ("document", "schema", "keyword", "reference") for it in interface["checks"][kind]}
    yield "interface.toml", "the checks of documents", set(kinds), given


def numbers_of_refusals(interface):
    """Where the library for C has the numbers of refusals, and of what is refused."""
    numbers = {it["name"]: it["number"] for it in interface["refusal"]}
    kinds = found("js_bundle/src/refusal.rt", r"\n    (\w+),", r"pub enum RefusalKind \{.*?\n\}")[1:]
    own = {"Memory": 0, **{name: numbers[name] for name in kinds}}
    others = {name.upper(): number for name, number in numbers.items() if name not in kinds}
    subjects = {it["name"]: it["number"] for it in interface["subject"]}
    code, definition = "jschema_c/src/refusal.rt", "jschema_c/specs/Refusal.antt"
    yield code, "kind_number", own, as_numbers(found(code, r"RefusalKind::(\w+) => (\d+)"))
    yield definition, "kind_number", own, as_numbers(found(definition, r"kind_number kind\.(\w+) = (\d+)"))
    constants = as_numbers((name.replace("_", ""), number)
                           for name, number in found(code, r"const (\w+): u32 = (\d+);"))
    yield (code, "the other numbers", others, {name: number for name, number in constants.items() if name in others})
    yield (code, "the numbers of some kinds", {"NOTJSON": numbers["NotJson"], "NOTWHOLE": numbers["NotWhole"]},
           {name: constants[name] for name in ("NOTJSON", "NOTWHOLE")})
    yield (code, "the subjects", {name.upper(): number for name, number in subjects.items()},
           {name: number for name, number in constants.items() if name.lower() in subjects})
    yield (definition, "the other numbers", others,
           {name.replace("_", "").upper(): int(number) for name, number in
            found(definition, r"\n(input_too_large|too_large|bad_suite) = (\d+)")})
    variants = {"InputTooLarge": "input", "Refused": "document", "Entry": "entry", "Instance": "instance",
                "TooLarge": "walk", "Suite": "suite"}
    yield (definition, "subject_number", {variant: subjects[name] for variant, name in variants.items()},
           as_numbers(found(definition, r"subject_number \(?fault\.(\w+)[^=]*= (\d+)")))


def as_numbers(pairs):
    return {name: int(number) for name, number in pairs}


def limits(interface):
    """Where the crates have the limits: as a constant, a definition, a field, or what a function returns."""
    for limit in interface["limit"]:
        for place in limit["in"]:
            path, name = place.split(": ")
            forms = (f"const {name}: usize =", rf"(?:\n|^){name} =", rf"\n +{name}:(?= \d)",
                     rf"fn {name}\(\)[^{{]*{{[^}}]*}}\s*{{")
            values = found(path, rf"(?:{'|'.join(forms)})\s*([\d_]+)")
            yield path, name, [limit["value"]], [int(it.replace("_", "")) for it in values]


def constants(path):
    """The numbers to which a Python module gives a name: `NAME = 1`, or `ONE, TWO = 1, 2`."""
    values = {}
    for line in ast.parse(path.read_text(encoding="utf-8")).body:
        if isinstance(line, ast.Assign):
            [target] = line.targets
            pairs = zip(target.elts, line.value.elts) if isinstance(target, ast.Tuple) else [(target, line.value)]
            values.update({name.id: it.value for name, it in pairs if isinstance(it, ast.Constant)})
    return values


def reference_limits(interface):
    """Where the reference has the limits: they are its own, since it shares nothing with the program."""
    for limit in interface["limit"]:
        if "reference" in limit:
            path, name = limit["reference"].split(": ")
            yield (f"tests/reference/{path}", name, limit["value"],
                   constants(HOME / "tests" / "reference" / path).get(name))


def versions(number):
    """Where the crates have the version: as a clause, and in the code."""
    yield ("jschema_c/src/lib.rt", "jschema_version", [str(number)] * 2,
           found("jschema_c/src/lib.rt", r"(?:≡ |\n    )(\d+)", r"fn jschema_version\(\).*?\n\}"))


def faults(interface, usage, upgrade_usages, version):
    """How many comparisons there are, and of each that fails what it finds."""
    compared = [*versions(version), *formats(interface), *statuses(interface), *usages(interface, usage),
                *upgrade_texts(interface, upgrade_usages),
                *refusals(interface), *numbers_of_refusals(interface), *limits(interface),
                *reference_limits(interface)]
    return len(compared), [f"{path}: {name}: {there}, and interface.toml has {wanted}"
                           for path, name, wanted, there in compared if wanted != there]
