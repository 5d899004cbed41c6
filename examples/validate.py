"""The example of README.md for Python."""
import jschema

schema = {"properties": {"age": {"minimum": 0}}}
schemas = jschema.Schemas({"urn:person": schema})
print(schemas.is_valid("urn:person", '{"age": 36}'))
for error in schemas.errors("urn:person", '{"age": -1}'):
    print(error.position.line, error.message, error.instance_location)
