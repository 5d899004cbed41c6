"""Judges the tests of a suite's group with the package `jsonschema`: jsonschema_driver.py verdict|errors SUITE."""
import json
import sys

import jsonschema

mode, path = sys.argv[1:]
with open(path, encoding="utf-8") as file:
    group = json.load(file)[0]
kind = jsonschema.validators.validator_for(group["schema"], default=jsonschema.Draft202012Validator)
validator = kind(group["schema"])
for test in group["tests"]:
    if mode == "verdict":
        print("valid" if validator.is_valid(test["data"]) else "invalid")
    else:
        errors = list(validator.iter_errors(test["data"]))
        places = ["".join(f"/{it}" for it in error.absolute_path) for error in errors]
        print("invalid" if errors else "valid", len(errors), *places[:1])
