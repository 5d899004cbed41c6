/** What is known of each keyword: a table, which `tools/interface` writes from `keywords.toml`. */

// Its name, the numbers of the first and of the last dialect that has it, the form of its value, the types of instances
// that it is about (none: of all, or it says nothing of instances), and what 2020-12 has in its place.
// interface: keywords
const ROWS = [
  ["$ref", 0, 5, "string", []],
  ["$schema", 0, 5, "string", []],
  ["title", 0, 5, "anything", []],
  ["description", 0, 5, "anything", []],
  ["default", 0, 5, "anything", []],
  ["format", 0, 5, "anything", []],
  ["type", 0, 5, "type", []],
  ["enum", 0, 5, "array", []],
  ["properties", 0, 5, "named schemas", ["object"]],
  ["patternProperties", 0, 5, "named schemas", ["object"]],
  ["additionalProperties", 0, 5, "schema", ["object"]],
  ["items", 0, 5, "schema", ["array"]],
  ["minimum", 0, 5, "number", ["integer", "number"]],
  ["maximum", 0, 5, "number", ["integer", "number"]],
  ["minLength", 0, 5, "count", ["string"]],
  ["maxLength", 0, 5, "count", ["string"]],
  ["pattern", 0, 5, "string", ["string"]],
  ["minItems", 0, 5, "count", ["array"]],
  ["maxItems", 0, 5, "count", ["array"]],
  ["uniqueItems", 0, 5, "boolean", ["array"]],
  ["exclusiveMinimum", 0, 5, "number", ["integer", "number"]],
  ["exclusiveMaximum", 0, 5, "number", ["integer", "number"]],
  ["required", 0, 5, "names", ["object"]],
  ["definitions", 0, 5, "named schemas", []],
  ["extends", 0, 0, "anything", [], "`allOf`"],
  ["disallow", 0, 0, "anything", [], "`not`"],
  ["divisibleBy", 0, 0, "anything", [], "`multipleOf`"],
  ["id", 0, 1, "anything", [], "`$id`"],
  ["dependencies", 0, 3, "anything", [], "`dependentRequired` or `dependentSchemas`"],
  ["additionalItems", 0, 4, "schema", [], "`items` beside `prefixItems`"],
  ["allOf", 1, 5, "schemas", []],
  ["anyOf", 1, 5, "schemas", []],
  ["oneOf", 1, 5, "schemas", []],
  ["not", 1, 5, "schema", []],
  ["multipleOf", 1, 5, "positive number", ["integer", "number"]],
  ["minProperties", 1, 5, "count", ["object"]],
  ["maxProperties", 1, 5, "count", ["object"]],
  ["$id", 2, 5, "string", []],
  ["const", 2, 5, "anything", []],
  ["contains", 2, 5, "schema", ["array"]],
  ["propertyNames", 2, 5, "schema", ["object"]],
  ["examples", 2, 5, "anything", []],
  ["$comment", 3, 5, "anything", []],
  ["if", 3, 5, "schema", []],
  ["then", 3, 5, "schema", []],
  ["else", 3, 5, "schema", []],
  ["readOnly", 3, 5, "anything", []],
  ["writeOnly", 3, 5, "anything", []],
  ["contentEncoding", 3, 5, "anything", ["string"]],
  ["contentMediaType", 3, 5, "anything", ["string"]],
  ["$recursiveRef", 4, 4, "anything", [], "`$dynamicRef`"],
  ["$recursiveAnchor", 4, 4, "anything", [], "`$dynamicAnchor`"],
  ["$anchor", 4, 5, "string", []],
  ["$defs", 4, 5, "named schemas", []],
  ["$vocabulary", 4, 5, "anything", []],
  ["dependentRequired", 4, 5, "lists of names", ["object"]],
  ["dependentSchemas", 4, 5, "named schemas", ["object"]],
  ["unevaluatedItems", 4, 5, "schema", ["array"]],
  ["unevaluatedProperties", 4, 5, "schema", ["object"]],
  ["minContains", 4, 5, "count", ["array"]],
  ["maxContains", 4, 5, "count", ["array"]],
  ["contentSchema", 4, 5, "anything", []],
  ["deprecated", 4, 5, "anything", []],
  ["$dynamicRef", 5, 5, "string", []],
  ["$dynamicAnchor", 5, 5, "string", []],
  ["prefixItems", 5, 5, "schemas", ["array"]],
];
// interface: end

/** Of each keyword the first and the last dialect. */
export const KEYWORDS = new Map(ROWS.map(([name, first, last]) => [name, [first, last]]));

/** Of each keyword that is about some types the types. */
export const ABOUT = new Map(ROWS.flatMap(([name, , , , about]) => about.length > 0 ? [[name, about]] : []));

/** What 2020-12 has in the place of an older keyword. */
export const INSTEAD = new Map(ROWS.filter((row) => row.length > 5).map(([name, , , , , instead]) => [name, instead]));

/** The keywords with a form of value, in the last dialect that has them. */
export function ofForm(form) {
  return new Set(ROWS.flatMap(([name, , , its]) => its === form ? [name] : []));
}
