// The example of README.md for JavaScript.
import { Schemas } from "jschema";

const schema = '{"properties": {"age": {"minimum": 0}}}';
const schemas = await Schemas.create({ "urn:person": schema });
console.log(schemas.isValid("urn:person", '{"age": 36}'));
for (const error of schemas.errors("urn:person", '{"age": -1}'))
  console.log(error.line, error.message, error.instanceLocation);
