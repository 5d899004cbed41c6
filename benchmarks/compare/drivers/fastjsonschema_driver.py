"""Judges the tests of a suite's group with the package `fastjsonschema`: fastjsonschema_driver.py verdict SUITE."""
import json
import sys

import fastjsonschema

with open(sys.argv[2], encoding="utf-8") as file:
    group = json.load(file)[0]
validate = fastjsonschema.compile(group["schema"])
for test in group["tests"]:
    try:
        validate(test["data"])
        print("valid")
    except fastjsonschema.JsonSchemaValueException:
        print("invalid")
