"""The example of README.md, which tests/test_usage.py runs."""
import jschema

URI = "https://example.com/person"

with open("examples/person.schema.json", "rb") as file:
    schemas = jschema.Schemas({URI: file.read()})

print(schemas.is_valid(URI, {"name": "Ada", "age": 36}))
for error in schemas.errors(URI, b'{"name": 7,\n "age": -1}'):
    print(error.position.line, error.path, error.keyword, error.message)
print(schemas.output(URI, {"name": "Ada", "age": -1}, format="flag"))
try:
    schemas.validate(URI, {"name": "Ada", "age": 0.5})
except jschema.ValidationError as error:
    print("invalid:", error.message)
except jschema.Refused as refused:
    print("refused:", refused.kind, refused.place)
