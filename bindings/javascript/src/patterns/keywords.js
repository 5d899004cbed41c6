/** The keywords of a schema that have patterns, with these as `regex` reads them. */
import { Change } from "../changes.js";
import { FOUR, SIX, isObject } from "../dialects.js";
import { Every, Plain, read, readSingle, schemaOf, textOf } from "./index.js";
import { matches } from "./matching.js";
import { NotExact } from "./pushing.js";

// What the validator says of them.
const NO_MATCH = "no match", FALSE_SCHEMA = "false schema";

/** What `pattern` is rewritten to. Undefined where it stays. */
export function ofPattern(schema, dialect) {
  const found = typeof schema.pattern === "string" ? read(schema.pattern) : undefined;
  return found instanceof Plain || hasConditions(schema, dialect) ? found : undefined;
}

/**
 * What names in `patternProperties` are rewritten to: a pattern, `weaker`, and where that matches more than the name
 * does, as `whole` what `propertyNames` has to say. Others stay.
 */
export function ofNames(schema, dialect) {
  const made = new Map();
  for (const name of isObject(schema.patternProperties) ? Object.keys(schema.patternProperties) : []) {
    const found = readName(name);
    if (found instanceof Plain) {
      made.set(name, { weaker: found });
    } else if (found instanceof Every) {
      const weaker = found.of.at(-1);
      if (weaker instanceof Plain && isClosed(schema, dialect, found, weaker)) made.set(name, { weaker, whole: found });
    }
  }
  return made;
}

/**
 * Rewrites `pattern`: into another, and where that isn't enough what stands beside it in `allOf`.
 *
 * @returns {Change[]}
 */
export function rewritePattern(schema, dialect) {
  const found = ofPattern(schema, dialect);
  if (found === undefined) return [];
  const conditions = found instanceof Every ? [...found.of] : [found];
  const last = conditions.at(-1);
  if (last instanceof Plain) {
    schema.pattern = textOf(last);
    conditions.pop();
    if (conditions.length === 0) return [new Change(["pattern"], ["pattern"])];
  } else {
    delete schema.pattern;
  }
  return conditions.map((it) => withCondition(schema, schemaOf(it), ["pattern"], NO_MATCH));
}

/**
 * Rewrites the names in `patternProperties`. `free` makes of a name and a pattern one unlike all other names.
 *
 * @returns {Change[]}
 */
export function rewriteNames(schema, dialect, free) {
  const named = schema.patternProperties;
  if (!isObject(named)) return [];
  const rewritten = ofNames(schema, dialect);
  // (Every other name is refused, so it is enough to refuse these.)
  const changes = [...rewritten.values()].filter(({ whole }) => whole !== undefined).map(({ whole }) =>
    withCondition(schema, namesAllowed(schema, whole), ["additionalProperties"], FALSE_SCHEMA));
  const made = Object.entries(named).map(([name, value]) => {
    const found = rewritten.get(name);
    return [name, found === undefined ? name : free(name, textOf(found.weaker)), value];
  });
  schema.patternProperties = Object.fromEntries(made.map(([, now, value]) => [now, value]));
  return [...changes, ...made.filter(([name, now]) => now !== name).map(([name, now]) =>
    new Change(["patternProperties", name], ["patternProperties", now]))];
}

function readName(name) {
  const found = read(name);
  return found === undefined || found instanceof Plain ? found : readSingle(name) ?? found;
}

/**
 * Whether the one pattern's names, and those in `properties`, are all that there may be; and the weaker pattern matches
 * none of the latter that the whole doesn't.
 */
function isClosed(schema, dialect, wanted, weaker) {
  const { additionalProperties, patternProperties, properties = {} } = schema;
  if (dialect < SIX || !hasConditions(schema, dialect) || Object.keys(patternProperties).length !== 1) return false;
  if (additionalProperties !== false || !isObject(properties)) return false;
  try {
    return !Object.keys(properties).some((name) => matches(weaker, name) && !matches(wanted, name));
  } catch (error) {
    if (error instanceof NotExact) return false;
    throw error;
  }
}

function namesAllowed({ properties = {} }, wanted) {
  const listed = Object.keys(properties), allowed = schemaOf(wanted);
  return { propertyNames: listed.length > 0 ? { anyOf: [{ enum: listed }, allowed] } : allowed };
}

/** Whether a schema can have conditions in `allOf`. */
function hasConditions({ allOf = [] }, dialect) {
  return dialect >= FOUR && Array.isArray(allOf);
}

/** Adds a condition to `allOf`, for a keyword. (At its end, so that the others keep their places.) */
function withCondition(schema, condition, before, message) {
  const { allOf = [] } = schema;
  schema.allOf = [...allOf, condition];
  return new Change(before, ["allOf", String(allOf.length)], message);
}
