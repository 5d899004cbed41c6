/** What a keyword of an upgraded schema comes from in the schema that it was (crates/js_upgrade/specs). */
import { FOUR, LATEST, NINETEEN, SIX, dialectNamed, hides, identifier, isObject } from "./dialects.js";
import { ofForm } from "./keyword_table.js";
import { LISTS, OBJECTS, steps } from "./locations.js";

// What a value is: a schema, a list or an object of schemas, or neither.
const SCHEMA = 0, SEVERAL = 1, VALUE = 2;
// A keyword of the upgraded schema, the first dialect in which it is its own, and what it comes from before.
const ORIGINS = new Map(Object.entries({
  $anchor: [NINETEEN, "$id"], $dynamicRef: [LATEST, "$recursiveRef"], $dynamicAnchor: [LATEST, "$recursiveAnchor"],
  $defs: [NINETEEN, "definitions"], allOf: [FOUR, "extends"], anyOf: [FOUR, "type"], not: [FOUR, "disallow"],
  prefixItems: [LATEST, "items"], dependentRequired: [NINETEEN, "dependencies"],
  dependentSchemas: [NINETEEN, "dependencies"], required: [FOUR, "properties"], multipleOf: [FOUR, "divisibleBy"],
  exclusiveMaximum: [SIX, "maximum"], exclusiveMinimum: [SIX, "minimum"],
}));
const SCHEMAS = ofForm("schema");
const INDEX = /^(?:0|[1-9][0-9]*)$/;

/**
 * The tokens of what stands, in a document of a dialect, at the place that in the upgraded document has these tokens.
 * Undefined where nothing does.
 *
 * @param {unknown} value the document @param {readonly string[]} tokens @param {number} dialect
 * @returns {string[] | undefined}
 */
export function originalOf(value, tokens, dialect) {
  const found = copiedAt(value, tokens, dialect), left = tokens.slice(found.length > 0 ? 2 : 0);
  let holding = SCHEMA;
  for (const token of found) {
    if (!has(value, token)) return undefined;
    value = value[token];
  }
  while (left.length > 0) {
    // (The name of a type, of which the upgrade made a schema.)
    if (holding === SCHEMA && typeof value === "string") break;
    let way = [left.shift()];
    if (holding === SCHEMA && isObject(value)) {
      dialect = ownDialect(value, dialect);
      let [token] = way, keyword = originOf(value, token, dialect);
      if (keyword === "contains" && token !== keyword) {
        // (It stands with its limits in an item, behind two `not`s.)
        left.splice(0, 3);
        token = keyword = left.shift() ?? keyword;
      }
      if (!Object.hasOwn(value, keyword)) return undefined;
      const { kind, below } = held(value[keyword], token, keyword, left);
      holding = kind;
      way = [keyword, ...below];
    } else {
      holding = holding === SEVERAL ? SCHEMA : VALUE;
    }
    for (const step of way) {
      if (!has(value, step)) return undefined;
      value = value[step];
    }
    found.push(...way);
  }
  return found;
}

/** The place of what is copied, if the first two tokens lead to a copy among the definitions of a document. */
function copiedAt(root, [keyword, name], dialect) {
  if (dialect === LATEST || keyword !== "$defs" || name === undefined || !isObject(root)) return [];
  if (has(root[dialect === NINETEEN ? "$defs" : "definitions"], name)) return [];
  if (name.startsWith("/")) return steps(name);
  return has(root.$defs, name) ? ["$defs", name] : [];
}

/** The dialect of a schema: what it names beside an identifier of that dialect, or the one around it. */
export function ownDialect(schema, around) {
  const named = dialectNamed(schema.$schema);
  if (named === undefined) return around;
  const uri = schema[identifier(named)];
  const isOne = typeof uri === "string" && uri !== "" && !uri.startsWith("#");
  return isOne && !hides(schema, named) ? named : around;
}

/** The keyword of a schema that a keyword of the upgraded one comes from. */
function originOf(schema, keyword, dialect) {
  if (keyword === "items" && dialect < LATEST && Array.isArray(schema.items)) return "additionalItems";
  if ((keyword === "$id" || keyword === "$anchor") && dialect < SIX) return "id";
  if (dialect === NINETEEN && Object.hasOwn(schema, "contains") && keyword === holderOf(schema)) return "contains";
  const [first, older] = ORIGINS.get(keyword) ?? [0, keyword];
  return dialect < first ? older : keyword;
}

/** The keyword that `contains` of 2019-09 goes into: the first of these that isn't there. */
function holderOf(schema) {
  return ["allOf", "anyOf", "oneOf"].find((it) => !Object.hasOwn(schema, it)) ?? "contains";
}

/**
 * How the value of a keyword, which becomes that of the token, holds schemas; and which tokens lead on in it, of those
 * that are left.
 */
function held(value, token, keyword, left) {
  if (token === keyword) {
    const holdsSeveral = LISTS.has(keyword) || OBJECTS.has(keyword);
    return { kind: holdsSeveral ? SEVERAL : SCHEMAS.has(keyword) ? SCHEMA : VALUE, below: [] };
  }
  if (["definitions", "items"].includes(keyword) || token === "dependentSchemas") return { kind: SEVERAL, below: [] };
  if (keyword === "additionalItems") return { kind: SCHEMA, below: [] };
  if (["disallow", "extends", "type"].includes(keyword)) {
    // (In `not` stands `type` or `anyOf`. What was no list is its first item.)
    if (keyword === "disallow") left.shift();
    const index = left.splice(0, 1);
    return { kind: SCHEMA, below: Array.isArray(value) ? index : [] };
  }
  const below = token === "dependentRequired" ? left.slice(0, 1) : [];
  left.length = 0;
  return { kind: VALUE, below };
}

/** Whether an array has an item, or an object a member. */
function has(value, token) {
  if (Array.isArray(value)) return INDEX.test(token) && Number(token) < value.length;
  return isObject(value) && Object.hasOwn(value, token);
}
