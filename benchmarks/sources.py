"""What cases are made of: files that Debian and Python packages install, adapted to the program's profile."""
import glob
import gzip
import importlib.util
import json
import os

ISO_CODES = "/usr/share/iso-codes/json"


class Missing(Exception):
    """A source that isn't installed, or a case that is left out."""


def package(name, *path):
    """A file of a Python package."""
    found = importlib.util.find_spec(name)
    if found is None:
        raise Missing(f"the Python package {name} isn't installed")
    return os.path.join(os.path.dirname(found.origin), *path)


def load(path):
    opened = gzip.open if path.endswith(".gz") else open
    try:
        with opened(path, "rt", encoding="utf-8") as file:
            return json.load(file)
    except OSError as fault:
        raise Missing(f"{path}: {fault.strerror}") from None


def without(schema, *names):
    return {name: it for name, it in schema.items() if name not in names}


def iso(number):
    """A list of codes and its schema, of Debian's iso-codes."""
    schema = load(os.path.join(ISO_CODES, f"schema-{number}.json"))
    return without(schema, "$schema"), load(os.path.join(ISO_CODES, f"iso_{number}.json"))


def service(name):
    """The description of a service of AWS, of botocore: the newest one."""
    services = sorted(glob.glob(package("botocore", "data", name, "*", "service-2.json.gz")))
    if not services:
        raise Missing(f"botocore has no {name}")
    return load(services[-1])


def openapi_schema():
    """The schema of OpenAPI 3.1."""
    return load(package("openapi_spec_validator", "resources", "schemas", "v3.1", "schema.json"))


def draft_2020(*path):
    return package("jsonschema_specifications", "schemas", "draft202012", *path)


def compound_meta_schema():
    """The meta-schema of 2020-12 with its vocabularies, in one document."""
    schema = load(draft_2020("metaschema.json"))
    vocabularies = sorted(glob.glob(draft_2020("vocabularies", "*")))
    schema.setdefault("$defs", {}).update({os.path.basename(path): load(path) for path in vocabularies})
    return schema


def whole(value):
    """The value, with numbers such as 10.0 written as 10."""
    if isinstance(value, dict):
        return {name: whole(it) for name, it in value.items()}
    if isinstance(value, list):
        return list(map(whole, value))
    return int(value) if isinstance(value, float) and value.is_integer() else value


def modern(value):
    """Draft 4's `exclusiveMinimum: true` beside a limit is the limit itself in later drafts."""
    if isinstance(value, list):
        return [modern(it) for it in value]
    if not isinstance(value, dict):
        return value
    value = {name: modern(it) for name, it in value.items()}
    for limit, exclusive in (("minimum", "exclusiveMinimum"), ("maximum", "exclusiveMaximum")):
        if value.get(exclusive) is True:
            value[exclusive] = value.pop(limit)
    return value


def moved(value, begin, new_begin):
    """The value, with another beginning of the references that begin so."""
    if isinstance(value, list):
        return [moved(it, begin, new_begin) for it in value]
    if not isinstance(value, dict):
        return value
    value = {name: moved(it, begin, new_begin) for name, it in value.items()}
    if isinstance(value.get("$ref"), str) and value["$ref"].startswith(begin):
        value["$ref"] = new_begin + value["$ref"].removeprefix(begin)
    return value


def openapi_document(service):
    """An operation is a path, its input the body, its errors the responses; a shape is a schema."""
    shapes = {name: {"type": "object", "properties": {it: {"$ref": f"#/components/schemas/{member['shape']}"}
                                                      for it, member in shape.get("members", {}).items()}}
              for name, shape in service["shapes"].items()}
    paths = {}
    for name, operation in service["operations"].items():
        body = {"$ref": f"#/components/schemas/{operation['input']['shape']}"} if "input" in operation else {}
        responses = {"200": {"description": "done"}}
        for number, error in enumerate(operation.get("errors", [])):
            responses[str(400 + number)] = {"description": error["shape"]}
        paths[f"/{name}"] = {"post": {"operationId": name, "responses": responses,
                                      "requestBody": {"content": {"application/json": {"schema": body}}}}}
    info = {"title": service["metadata"]["serviceFullName"], "version": service["metadata"]["apiVersion"]}
    return {"openapi": "3.1.0", "info": info, "paths": paths, "components": {"schemas": shapes}}


def is_whole(value):
    """Whether each number is whole and has 64 bits: the profile has no others."""
    if isinstance(value, dict):
        return all(map(is_whole, value.values()))
    if isinstance(value, list):
        return all(map(is_whole, value))
    return not isinstance(value, float) and (not isinstance(value, int) or -2**63 <= value < 2**64)
