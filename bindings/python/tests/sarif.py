"""What SARIF 2.1.0 (OASIS, errata 01) asks of the objects that the report has; and its published schema, where that is
installed.

Each object is listed with its properties that the report may have, by the standard's section. The published schema
allows no others than the standard's, so these aren't allowed more either.
"""
import importlib.metadata
import re
import shutil
import subprocess
from pathlib import Path

URI = "https://example.com/sarif"
TEXT, COUNT = {"type": "string"}, {"type": "integer", "minimum": 1}
LEVEL = {"enum": ["none", "note", "warning", "error"]}


def ref(name):
    return {"$ref": f"#/$defs/{name}"}


def items(name):
    return {"type": "array", "items": ref(name)}


def described(required, **properties):
    """An object with these properties alone."""
    return {"type": "object", "required": required, "properties": properties, "additionalProperties": False}


OBJECTS = {
    # 3.13: version SHALL be there (3.13.2), and runs (3.13.4)
    "sarifLog": described(["version", "runs"], **{"$schema": TEXT}, version={"const": "2.1.0"}, runs=items("run")),
    # 3.14: tool SHALL (3.14.6); columnKind (3.14.27)
    "run": described(["tool"], tool=ref("tool"), results=items("result"), invocations=items("invocation"),
                     columnKind={"enum": ["utf16CodeUnits", "unicodeCodePoints"]}),
    # 3.18.2 driver SHALL; 3.19.8 its name SHALL
    "tool": described(["driver"], driver=ref("toolComponent")),
    "toolComponent": described(["name"], name=TEXT, version=TEXT, rules=items("reportingDescriptor")),
    # 3.49.3 id SHALL; 3.12 text SHALL
    "reportingDescriptor": described(["id"], id=TEXT, shortDescription=ref("multiformatMessageString")),
    "multiformatMessageString": described(["text"], text=TEXT),
    # 3.20.14 executionSuccessful SHALL; 3.58.5 message SHALL
    "invocation": described(["executionSuccessful"], executionSuccessful={"type": "boolean"},
                            toolExecutionNotifications=items("notification")),
    "notification": described(["message"], message=ref("message"), level=LEVEL, locations=items("location")),
    # 3.27.11 message SHALL; 3.27.6 ruleIndex; 3.27.10 level
    "result": described(["message"], message=ref("message"), ruleId=TEXT, level=LEVEL,
                        ruleIndex={"type": "integer", "minimum": -1}, locations=items("location"),
                        relatedLocations=items("location"), properties={"type": "object"}),
    # 3.11.8, 3.11.10: a message has a text or an id
    "message": described(["text"], text=TEXT),
    # 3.28; 3.29.2: a physical location has an artifact or an address; 3.33.4 name, 3.33.5 fullyQualifiedName
    "location": described([], physicalLocation=ref("physicalLocation"), logicalLocations=items("logicalLocation"),
                          message=ref("message")),
    "physicalLocation": described(["artifactLocation"], artifactLocation=ref("artifactLocation"), region=ref("region")),
    "logicalLocation": described([], name=TEXT, fullyQualifiedName=TEXT),
    # 3.4.3: uri is a relative or absolute reference (RFC 3986)
    "artifactLocation": described(["uri"], uri={"type": "string", "pattern":
                                                r"^(?:[A-Za-z0-9._~!$&'()*+,;=:@/?#\[\]-]|%[0-9A-Fa-f]{2})*$"}),
    # 3.30.5 startLine, 3.30.6 startColumn, 3.30.7 endLine, 3.30.8 endColumn: from 1; a region of lines has startLine
    "region": described(["startLine"], startLine=COUNT, startColumn=COUNT, endLine=COUNT, endColumn=COUNT),
}
SCHEMA = {"$id": URI, "$ref": "#/$defs/sarifLog", "$defs": OBJECTS}
_NAME = re.compile(r"sarif(?:-schema)?-2\.1\.0.*\.json")


def published():
    """The file of the published schema, of a package of pip or Debian that has it; None if there is none."""
    for package in importlib.metadata.distributions():
        for file in package.files or ():
            if _NAME.fullmatch(file.name):
                return Path(package.locate_file(file))
    if shutil.which("dpkg"):
        listed = subprocess.run(["dpkg", "-S", "*sarif*2.1.0*.json"], check=False, stdout=subprocess.PIPE,
                                stderr=subprocess.DEVNULL, text=True).stdout
        for line in listed.splitlines():
            path = Path(line.partition(": ")[2])
            if _NAME.fullmatch(path.name):
                return path
    return None
