"""Makes the cases of benchmarks/instructions, of files that Debian, Rust and Python packages install."""
import itertools
import json
import os
import re
import subprocess

from case_schemas import EVENTS, OPENAPI_BASE, SERVICE
from sources import (Missing, compound_meta_schema, is_whole, iso, load, openapi_document, openapi_schema,
                     package, service, whole)

URI = "https://a.example/s"
# Shows what an unstable option of `rustc` prints: the kit's own toolchain is a stable one.
UNSTABLE = {"RUSTC_BOOTSTRAP": "1"}


def first(members, items):
    """The first members of an object."""
    return dict(itertools.islice(members.items(), items))


def iso_639_3(items):
    """Languages by the list's own schema."""
    schema, languages = iso("639-3")
    return [(URI, schema)], {name: records[:items] for name, records in languages.items()}


def events(items):
    """Made: unevaluated members over `allOf`, `oneOf`, `if` and `dependentSchemas`."""
    return [(URI, EVENTS)], [event(number) for number in range(items or 600)]


def event(number):
    kinds = ({"kind": "created", "path": f"/home/{number}", "size": number},
             {"kind": "moved", "from": f"/home/{number}", "to": f"/kept/{number}"},
             {"kind": "removed", "path": f"/tmp/{number}"})
    it = {"id": number, "at": f"2024-{number % 12 + 1:02}-{number % 28 + 1:02}", "by": f"user{number % 50}",
          "tags": [f"t{number % 7}", f"u{number % 5}"], "level": "info", **kinds[number % 3]}
    if number % 5 == 0:
        it |= {"level": "error", "message": "no space left"}
    return it | {"retries": 2, "after": 30} if number % 4 == 0 else it


def rustc(wanted):
    """What the compiler prints of its targets."""
    words = ["rustc", "-Z", "unstable-options", "--print", wanted]
    try:
        done = subprocess.run(words, capture_output=True, env=os.environ | UNSTABLE, check=True)
        return json.loads(done.stdout)
    except OSError:
        raise Missing("rustc isn't installed") from None
    except (subprocess.CalledProcessError, ValueError):
        raise Missing(f"rustc doesn't print {wanted}") from None


def rust_targets(items):
    """All target specifications, each by a reference to the compiler's own schema."""
    documents = [(URI, {"additionalProperties": {"$ref": "target"}}),
                 ("https://a.example/target", rustc("target-spec-json-schema"))]
    return documents, first(rustc("all-target-specs-json"), items)


def openapi(items):
    """A service of AWS as an OpenAPI document, with its schemas by the dialect: five documents."""
    schemas = [OPENAPI_BASE, openapi_schema(), compound_meta_schema(),
               load(package("openapi_schema_validator", "schemas", "oas3.1", "metaschema.json")),
               load(package("openapi_schema_validator", "schemas", "oas3.1", "vocabularies", "base"))]
    described = service("lambda")
    if items:
        described |= {it: first(described[it], items) for it in ("operations", "shapes")}
    return [(it["$id"], it) for it in schemas], openapi_document(described)


def sam_schema():
    """The schema of AWS SAM's templates, as the package makes it of its classes."""
    try:
        from samtranslator.internal.schema_source import schema
    except ImportError as fault:
        raise Missing(f"the Python package samtranslator isn't usable: {fault}") from None
    return without_look_ahead(schema.SamModel.schema())


def aws_sam(items):
    """A service of AWS as a template of functions, one for each operation."""
    operations = first(service("lambda")["operations"], items)
    return [(URI, sam_schema())], {"Transform": "AWS::Serverless-2016-10-31",
                             "Resources": {name: serverless(it) for name, it in operations.items()}}


def serverless(operation):
    """A function that returns an operation."""
    http = operation["http"]
    errors = {it["shape"]: str(400 + number) for number, it in enumerate(operation.get("errors", []))}
    api = {"Type": "Api", "Properties": {"Path": http["requestUri"], "Method": http["method"].lower()}}
    return {"Type": "AWS::Serverless::Function",
            "Properties": {"Handler": f"operations.{operation['name']}", "Runtime": "python3.11", "Timeout": 30,
                           "Environment": {"Variables": errors}, "Events": {"Call": api},
                           "Policies": ["AWSLambdaBasicExecutionRole"], "Tags": {"Status": str(http["responseCode"])}}}


def without_look_ahead(value):
    """Writes the pattern `^(?!WORD).+$`, of a kind that the program refuses, as `not` and `minLength`."""
    if isinstance(value, list):
        return list(map(without_look_ahead, value))
    if not isinstance(value, dict):
        return value
    value = {name: without_look_ahead(it) for name, it in value.items()}
    pattern = value.get("pattern")
    refused = re.fullmatch(r"\^\(\?!([\w:]+)\)\.\+\$", pattern) if isinstance(pattern, str) else None
    if refused:
        del value["pattern"]
        value |= {"minLength": 1, "not": {"pattern": f"^{refused[1]}"}}
    return value


def service_description(items):
    """A service of AWS as botocore describes it, by a schema that tells shapes apart by their type."""
    described = whole(service("lambda"))
    return [(URI, SERVICE)], described | {it: first(described[it], items) for it in ("operations", "shapes")}


CASES = {"iso-639-3": iso_639_3, "events": events, "rust-targets": rust_targets, "openapi-3.1": openapi,
         "aws-sam": aws_sam, "service-description": service_description}


def write_json(folder, file, value):
    with open(os.path.join(folder, file), "w", encoding="utf-8") as opened:
        json.dump(value, opened, ensure_ascii=False, separators=(",", ":"))
    return file


def write_case(folder, name, items):
    documents, instance = CASES[name](items)
    if not all(map(is_whole, [instance, *(schema for _, schema in documents)])):
        raise Missing("it has numbers that aren't whole")
    files = {uri: write_json(folder, f"{name}.{number}.json", schema)
             for number, (uri, schema) in enumerate(documents)}
    return {"name": name, "instance": write_json(folder, f"{name}.instance.json", instance), "entry": documents[0][0],
            "documents": files}
