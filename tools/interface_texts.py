"""What tools/interface writes: a text for each mark of each file, made of interface.toml and keywords.toml."""
import json
import re
import textwrap

# The widest line of the help.
WIDTH = 79


def wrapped(name, text, indent):
    """An entry of the help: a name, and beside it a text in lines of its own."""
    return textwrap.fill(text, WIDTH, initial_indent=f"  {name}".ljust(indent), subsequent_indent=" " * indent,
                         break_on_hyphens=False) + "\n"


def arguments(interface, command):
    """The arguments of a command."""
    return " ".join(filter(None, (command["name"], command["arguments"], interface["pairs"])))


def usage(interface):
    """The usage text, which the program writes too."""
    commands = " | ".join(f"{it['name']} {it['arguments']}".rstrip() for it in interface["command"])
    return f"usage: jschema ({commands}) {interface['pairs']}"


def version_number(interface):
    """The version as the C library says it: 10,000 for each major version, 100 for each minor one, and the patch."""
    major, minor, patch = map(int, interface["version"].split("."))
    return 10_000 * major + 100 * minor + patch


def launcher_version(interface):
    return f"version='{interface['version']}'\n"


def launcher_usages(interface):
    return f"usage='{usage(interface)}'\npairs_usage='usage: {interface['pairs_usage']}'\n"


def launcher_help(interface):
    """The functions of ./jschema that print the help."""
    alone = interface["no_command"]
    lines = [f"  jschema {arguments(interface, it)}\n" for it in interface["command"]]
    commands = [(it["name"], it["help"]) for it in interface["command"]]
    commands.append(("(none)", alone["launcher"]))
    formats = [(it["name"], it["help"]) for it in interface["format"]]
    statuses = [(str(it["number"]), it.get("launcher", it["help"])) for it in interface["status"]]
    beginning = (f"{interface['summary']}\n\nUsage:\n{''.join(lines)}  jschema {alone['arguments']}\n\n"
                 "Each FILE holds a schema document. References find it by the URI before it;\nnothing is fetched.\n\n")
    return "\n".join((
        function("print_commands", beginning + section("Commands", commands, 12) + section("Formats", formats, 12)),
        function("print_statuses", section("Exit status", statuses, 5))))


def launcher_options(interface):
    return function("print_option_list", "".join(wrapped(it["name"], it["help"], 13) for it in interface["option"]))


def section(title, entries, indent):
    return f"{title}:\n" + "".join(wrapped(name, text, indent) for name, text in entries) + "\n"


def function(name, text):
    """A function of the shell that prints a text."""
    return f"{name}() {{\n    cat <<'HELP'\n{text}HELP\n}}\n"


def roff(text):
    """A text for the manual page, in its lines: `code` is bold, arguments are italic."""
    text = text.strip().replace("\\", "\\e").replace("-", "\\-")
    text = re.sub(r"`(.*?)`", r"\\fB\1\\fR", text)
    text = re.sub(r"\b(FORMAT|INSTANCE|ENTRY|SUITE|URI|FILE|PAIR|DIALECT|FOLDER)\b", r"\\fI\1\\fR", text)
    text = text.replace("absolute \\fIURI\\fR", "absolute URI")
    return "\n".join(textwrap.wrap(text, 80, break_long_words=False, break_on_hyphens=False)) + "\n"


def sentence(text):
    return text[0].upper() + text[1:] + "."


def manual_title(interface):
    return f'.TH JSCHEMA 1 {interface["date"]} "jschema {interface["version"]}" "User Commands"\n'


def manual_synopsis(interface):
    calls = [f"\\fBjschema {it['name']}\\fR " + roff(f"{it['arguments']} {interface['pairs']}").rstrip()
             for it in interface["command"]]
    return "\n.br\n".join([*calls, "\\fBjschema\\fR"]) + "\n"


def manual_commands(interface):
    parts = [f".TP\n\\fB{it['name']}\\fR " + roff(f"{it['arguments']} {interface['pairs']}") + roff(it["manual"])
             for it in interface["command"]]
    return "".join(parts) + ".TP\n.RB \"no arguments\"\n" + roff(interface["no_command"]["manual"])


def manual_formats(interface):
    return "".join(f".TP\n.B {it['name']}\n" + roff(it["manual"]) for it in interface["format"])


def manual_statuses(interface):
    return "".join(f".TP\n.B {it['number']}\n" + roff(sentence(it["help"])) for it in interface["status"])


def manual_limits(interface):
    rows = "".join(f"{it['what']}\t{it['value']:,}\n" for it in interface["limit"])
    return f".TS\nl r.\n{rows}.TE\n"


def bash_words(interface):
    return "".join(f"_jschema_{kind}s='{' '.join(it['name'] for it in interface[kind])}'\n"
                   for kind in ("command", "format"))


def zsh_words(interface):
    lists = (f"local -a {kind}s=(\n" + "".join(f"    '{it['name']}:{it['short']}'\n" for it in interface[kind]) + ")\n"
             for kind in ("command", "format"))
    return "".join(lists)


def c_enum(entries):
    """An enumeration of C: names, numbers, and what is said of each."""
    lines = [(f"JSCHEMA_{name} = {number}", comment) for name, number, comment in entries]
    lines = [(value + "," * (value is not lines[-1][0]), comment) for value, comment in lines]
    wide = max((len(value) for value, comment in lines if comment), default=0)
    return "enum {\n" + "".join(f"    {value.ljust(wide)} /* {comment} */\n" if comment else f"    {value}\n"
                                for value, comment in lines) + "};\n"


def c_version(interface):
    return (f'#define JSCHEMA_VERSION {version_number(interface)}\n'
            f'#define JSCHEMA_VERSION_TEXT "{interface["version"]}"\n')


def package_version(interface):
    """The version, as pkg-config's file has it."""
    return f"Version: {interface['version']}\n"


def project_version(interface):
    """The version, as pyproject.toml has it."""
    return f'version = "{interface["version"]}"\n'


def c_statuses(interface):
    return c_enum([(it["c_name"], it["number"], it["c"]) for it in interface["status"]])


def upgrade_usages(interface):
    """The usage texts that jschema-upgrade has and jschema doesn't."""
    upgrade = interface["upgrade"]
    return [f"usage: {text}" for text in (
        f"jschema-upgrade {upgrade['arguments']}", upgrade["dialect_usage"], upgrade["numbers_usage"],
        upgrade["folder_usage"], upgrade["names_usage"])]


def upgrade_help(interface):
    """The function of ./jschema-upgrade that prints the help."""
    upgrade = interface["upgrade"]
    options = [(f"{it['name']} {it['argument']}", it["help"]) for it in upgrade["option"]]
    statuses = [(str(it["number"]), it.get("launcher", it["help"])) for it in upgrade["status"]]
    return function("print_upgrade", (
        f"{upgrade['summary']}\n\nUsage:\n  jschema-upgrade [--default-dialect DIALECT] [--numbers RANGE]\n"
        "      [--into FOLDER] URI FILE [URI FILE]...\n\n"
        "Each FILE holds a schema document. References find it by the URI before it;\nnothing is fetched.\n\n"
        + section("Options", options, 29) + section("Exit status", statuses, 5)))


def upgrade_title(interface):
    return f'.TH JSCHEMA\\-UPGRADE 1 {interface["date"]} "jschema {interface["version"]}" "User Commands"\n'


def upgrade_synopsis(interface):
    return "\\fBjschema\\-upgrade\\fR " + roff(interface["upgrade"]["arguments"])


def upgrade_options(interface):
    return "".join(f".TP\n\\fB{roff(it['name']).strip()}\\fR " + roff(it["argument"]) + roff(it["manual"])
                   for it in interface["upgrade"]["option"])


def upgrade_statuses(interface):
    return manual_statuses(interface["upgrade"])


def upgrade_bash_words(interface):
    options = " ".join(it["name"] for it in interface["upgrade"]["option"])
    return (f"_jschema_upgrade_options='{options}'\n"
            f"_jschema_upgrade_dialects='{' '.join(interface['upgrade']['dialects'])}'\n"
            f"_jschema_upgrade_ranges='{' '.join(interface['upgrade']['ranges'])}'\n")


def upgrade_zsh_words(interface):
    options = "".join(f"    '{it['name']}:{it['short']}'\n" for it in interface["upgrade"]["option"])
    upgrade = interface["upgrade"]
    return (f"local -a options=(\n{options})\nlocal -a dialects=({' '.join(upgrade['dialects'])})\n"
            f"local -a ranges=({' '.join(upgrade['ranges'])})\n")


def by_number(entries):
    return sorted(entries, key=lambda it: it["number"])


def c_formats(interface):
    return c_enum([(it["name"].upper(), it["number"], it.get("c")) for it in by_number(interface["format"])])


def c_name(name):
    """The name of a refusal as one of C's constants."""
    return re.sub(r"\B(?=[A-Z])", "_", name).upper()


def c_refusals(interface):
    return c_enum([(c_name(it["name"]), it["number"], it.get("c", it["meaning"]))
                   for it in by_number(interface["refusal"])])


def c_subjects(interface):
    return c_enum([(f"SUBJECT_{it['name'].upper()}", it["number"], it["c"]) for it in by_number(interface["subject"])])


def python_tables(interface):
    """The tables of the Python package."""
    formats = ", ".join(f'"{it["name"]}": {it["number"]}' for it in by_number(interface["format"]))
    statuses = by_number(interface["status"])
    names = ", ".join(f'"{it["c_name"]}"' for it in statuses)
    subjects = "".join(f'    {it["number"]}: ("{it["name"]}", {it["placed"]}),\n'
                       for it in by_number(interface["subject"]))
    kinds = "".join(f'    {it["number"]}: "{it["name"]}",\n' for it in by_number(interface["refusal"]))
    limits = "".join(f'    "{it["name"]}": {it["value"]:_},\n' for it in interface["limit"])
    meanings = "".join(f'    "{it["name"]}": {json.dumps(it["meaning"])},\n'
                       for it in sorted(interface["refusal"], key=lambda it: it["name"]))
    rewriting = "".join(f'    "{it["name"]}": ("{it["argument"]}", {{\n{words(it)}    }}),\n'
                        for it in interface["rewriting"])
    return ("#: The version of the package, and of the library that belongs to it.\n"
            f'VERSION = "{interface["version"]}"\n\n'
            f"#: Each format, and its number in the library.\nFORMATS = {{{formats}}}\n\n"
            f"#: What a call of the library answers, and the program's exit statuses, by their numbers from 0.\n"
            f"STATUSES = ({names})\n\n"
            f"#: What is refused, by its number in the library, and whether the refusal has a place in it.\n"
            f"SUBJECTS = {{\n{subjects}}}\n\n"
            f"#: Each kind of refusal, by its number in the library.\nKINDS = {{\n{kinds}}}\n\n"
            f"#: The limits of the validator.\nLIMITS = {{\n{limits}}}\n\n"
            f"#: What each kind of refusal means.\nMEANINGS = {{\n{meanings}}}\n\n"
            "#: What is rewritten for the validator: of each option the name of the argument, and words with their\n"
            "#: meanings. The first is the default, and the last leaves everything to the validator.\n"
            f"REWRITING = {{\n{rewriting}}}\n")


def words(option):
    """The words of an option of the Python package, as entries of a dict."""
    return "".join(f'        "{it["name"]}": {json.dumps(it["help"].replace("`", ""))},\n' for it in option["word"])


def javascript_tables(interface):
    """The tables of the JavaScript package."""
    formats = ", ".join(f'"{it["name"]}"' for it in by_number(interface["format"]))
    statuses = ", ".join(f'{it["c_name"]} = {it["number"]}' for it in by_number(interface["status"])
                         if it["c_name"] != "MISUSED")
    subjects = "".join(f'  {it["number"]}: {{ name: "{it["name"]}", isPlaced: {json.dumps(it["placed"])} }},\n'
                       for it in by_number(interface["subject"]))
    kinds = "".join(f'  {it["number"]}: "{it["name"]}",\n' for it in by_number(interface["refusal"]))
    meanings = "".join(f'  {it["name"]}: {json.dumps(it["meaning"])},\n'
                       for it in sorted(interface["refusal"], key=lambda it: it["name"]))
    rewriting = "".join(f'  {it["name"]}: {{\n    argument: "{it["argument"]}",\n    words: {{\n'
                        f"{javascript_words(it)}    }},\n  }},\n" for it in interface["rewriting"])
    return ("/** The formats of the standard, and `merged`: `detailed` with each error once. */\n"
            f"export const FORMATS = Object.freeze([{formats}]);\n\n"
            f"/** What a call of the module returns. */\nexport const {statuses};\n\n"
            "/** What is refused, by its number, and whether the refusal has a place in it. */\n"
            f"export const SUBJECTS = Object.freeze({{\n{subjects}}});\n\n"
            f"/** Each kind of refusal, by its number. */\nexport const KINDS = Object.freeze({{\n{kinds}}});\n\n"
            f"/** What each kind of refusal means. */\nexport const MEANINGS = Object.freeze({{\n{meanings}}});\n\n"
            "/**\n * What is rewritten for the validator: of each option the name of the argument, and words with "
            "their meanings. The\n * first is the default, and the last leaves everything to the validator.\n */\n"
            f"export const REWRITING = Object.freeze({{\n{rewriting}}});\n")


def javascript_words(option):
    """The words of an option, as members of an object."""
    return "".join(f'      {it["name"]}: {json.dumps(it["help"].replace("`", ""))},\n' for it in option["word"])


def table(head, rows):
    """A table of Markdown. A heading that begins with `-` is of numbers."""
    rule = "|".join("---:" if it.startswith("-") else "---" for it in head)
    lines = ["| " + " | ".join(it.lstrip("-") for it in head) + " |", f"|{rule}|"]
    return "\n".join([*lines, *("| " + " | ".join(row) + " |" for row in rows)]) + "\n"


def page_commands(interface):
    rows = [(f"`{arguments(interface, it)}`", it["help"]) for it in interface["command"]]
    alone = interface["no_command"]
    return table(("arguments", "effect"), [*rows, (f"`{alone['arguments']}`", alone["help"])])


def page_statuses(interface):
    return table(("exit status", "meaning"),
                 [(str(it["number"]), it.get("launcher", it["help"])) for it in interface["status"]])


def page_limits(interface):
    rows = [(it["what"], f"{it['value']:,}") for it in interface["limit"]]
    return table(("what", "-at most"), [*rows, ("numbers", interface["numbers"])])


def page_lines(interface):
    return table(("line", "status", "meaning", "what to do"),
                 [(f"`{it['text']}`", str(it["status"]), it["meaning"].strip(), it["remedy"])
                  for it in interface["line"]])


def page_rewriting(interface):
    rows = [(f"`--{option['name']} {it['name']}`" + " (the default)" * (it is option["word"][0]), it["help"])
            for option in interface["rewriting"] for it in option["word"]]
    return table(("option", "meaning"), rows)


def page_checks(kind):
    """Writes the table of what is refused by a kind of check."""
    def write(interface):
        checks = interface["checks"][kind]
        head = ("name", "meaning", "at") if "at" in checks[0] else ("name", "meaning")
        return table(head, [(f"`{it['name']}`", it["when"].strip(), *([it["at"]] if "at" in it else ()))
                            for it in checks])
    return write


def page_examples(*kinds):
    """Writes the examples of what is refused by kinds of checks."""
    def write(interface):
        shown = [it for kind in kinds for it in interface["checks"][kind] if "example" in it]
        return "```console\n" + "".join(
            f"$ printf '%s\\n' '{it['example']}' 0 | ./jschema\n"
            f"refused: document 0 at \"{it['example_at']}\": {it['name']}\n" for it in shown) + "```\n"
    return write


def keyword_rows(interface):
    """Of each keyword its name, the numbers of the first and of the last dialect, the form of its value, the types of
    instances that it is about, and what 2020-12 has in its place."""
    drafts = interface["upgrade"]["dialects"]
    for name, it in interface["keywords"]["keyword"].items():
        last = it.get("last", drafts[-1])
        instead = " or ".join(it.get("instead", [])) or None
        yield name, drafts.index(it["first"]), drafts.index(last), it["form"], it.get("about", []), instead


def python_keywords(interface):
    rows = "".join(f'    "{name}": Row({", ".join(json.dumps(it) for it in row if it is not None)}),\n'
                   for name, *row in keyword_rows(interface))
    return f"ROWS: dict[str, Row] = {{\n{rows}}}\n"


def javascript_keywords(interface):
    rows = "".join(f"  {json.dumps([it for it in row if it is not None])},\n" for row in keyword_rows(interface))
    return f"const ROWS = [\n{rows}];\n"


def page_keywords(interface):
    rows = [row for row in keyword_rows(interface) if row[2] == len(interface["upgrade"]["dialects"]) - 1]
    shown = []
    for form, text in interface["keywords"]["form"].items():
        names = [name for name, _, _, its, *_ in rows if its == form]
        shown.append((f"`{' '.join(names)}`" if form != "anything" else "every other keyword", text))
    return table(("keyword", "its value must be"), shown)


def page_errors(interface):
    rows = [(f"`{name}`" if name in interface["keywords"]["keyword"] else name,
             *(f"`{it[part]}`" for part in ("schema", "instance", "text")), it["says"])
            for name, it in interface["keywords"]["error"].items()]
    return table(("keyword", "schema", "instance", "text", "meaning"), rows)


# For each file its marks, and what writes the text between each and the next `interface: end`.
TEXTS = {
    "jschema": {"version": launcher_version, "usage": launcher_usages, "help": launcher_help,
                "options": launcher_options, "upgrade help": upgrade_help},
    "tools/installed/jschema.1": {"title": manual_title, "synopsis": manual_synopsis, "commands": manual_commands,
                                  "formats": manual_formats, "statuses": manual_statuses, "limits": manual_limits},
    "tools/installed/jschema.bash": {"words": bash_words},
    "tools/installed/jschema.zsh": {"words": zsh_words},
    "tools/installed/jschema-upgrade.1": {"upgrade title": upgrade_title, "upgrade synopsis": upgrade_synopsis,
                                          "upgrade options": upgrade_options, "upgrade statuses": upgrade_statuses},
    "tools/installed/jschema-upgrade.bash": {"upgrade words": upgrade_bash_words},
    "tools/installed/jschema-upgrade.zsh": {"upgrade words": upgrade_zsh_words},
    "bindings/c/jschema.pc": {"version": package_version},
    "bindings/c/jschema.h": {"version": c_version, "statuses": c_statuses, "formats": c_formats,
                             "refusals": c_refusals, "subjects": c_subjects},
    "bindings/python/pyproject.toml": {"version": project_version},
    "bindings/python/jschema/interface.py": {"tables": python_tables},
    "bindings/python/jschema/keyword_table.py": {"keywords": python_keywords},
    "bindings/javascript/src/keyword_table.js": {"keywords": javascript_keywords},
    "bindings/javascript/src/interface.js": {"tables": javascript_tables},
    "README.md": {"commands": page_commands, "statuses": page_statuses},
    "docs/COMMAND.md": {"rewriting": page_rewriting},
    "docs/ERRORS.md": {"error texts": page_errors},
    "docs/REFUSALS.md": {"limits": page_limits, "lines": page_lines, **{kind: page_checks(kind) for kind in
                                                 ("document", "schema", "keyword", "reference", "entry")},
                         "keyword values": page_keywords,
                         "examples of documents": page_examples("document"),
                         "examples of checks": page_examples("schema", "keyword", "reference")},
}

# Of files that can have no marks: what is found, and what stands there.
FOUND = {
    "bindings/javascript/package.json": {r'(?<=^  "version": ")[^"]*': lambda interface: interface["version"]},
}
