import { Schemas } from "jschema";

const uri = "https://example.com/person";
const schemas = await Schemas.create({ [uri]: '{"properties": {"age": {"minimum": 0}}}' });

console.log(schemas.isValid(uri, '{"age": 36}'));          // a JSON text
for (const error of schemas.errors(uri, '{"age": -1}')) {
  console.log(error.line, error.column, error.message, error.instanceLocation);
}
console.log(schemas.output(uri, { age: -1 }, "flag"));     // a value; the output is parsed
