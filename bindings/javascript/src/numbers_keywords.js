/** The keywords of a schema that have numbers, with those that are no integers in the range as what says the same. */
import { Change } from "./changes.js";
import { FOUR, SIX } from "./dialects.js";
import { ofForm } from "./keyword_table.js";
import { acts } from "./keywords.js";
import { Decimal, GREATEST, LEAST, asTexts, hasDecimal, isInRange } from "./numbers.js";

// (What another one becomes comes last.)
const BOUNDS = ["exclusiveMinimum", "exclusiveMaximum", "minimum", "maximum"];
const COUNTS = [...ofForm("count")].sort();
const ANNOTATIONS = new Set(["$comment", "default", "description", "examples", "title"]);

/**
 * Rewrites the keywords of a schema that act in a dialect.
 *
 * @param {Record<string, any>} schema @param {number} dialect @returns {Change[]}
 */
export function rewriteNumbers(schema, dialect) {
  const isDecimal = (keyword) => schema[keyword] instanceof Decimal;
  const bounds = dialect < SIX ? ["minimum", "maximum"] : BOUNDS;
  const changes = bounds.filter(isDecimal).map((it) =>
    dialect < SIX ? rewriteOldBound(schema, it) : rewriteBound(schema, it));
  for (const keyword of COUNTS.filter((it) => acts(it, dialect) && isDecimal(it))) {
    // (Nothing is as long as that.)
    if (schema[keyword].isWhole && schema[keyword].isPositive) schema[keyword] = GREATEST;
  }
  changes.push(...rewriteMultiple(schema, dialect));
  if (Array.isArray(schema.enum)) schema.enum = schema.enum.filter((it) => !hasDecimal(it));
  if (acts("const", dialect) && hasDecimal(schema.const)) {
    delete schema.const;
    schema.enum = [];
    changes.push(new Change(["const"], ["enum"], "not the constant"));
  }
  return changes;
}

/** Makes texts of the numbers that are left in annotations. */
export function textsInAnnotations(schema, dialect) {
  for (const [keyword, value] of Object.entries(schema)) {
    if (!ANNOTATIONS.has(keyword) && acts(keyword, dialect)) continue;
    Object.defineProperty(schema, keyword, { value: asTexts(value), writable: true, enumerable: true,
      configurable: true });
  }
}

/** A bound of the first two drafts, which another keyword makes exclusive. */
function rewriteOldBound(schema, keyword) {
  const exclusive = exclusiveOf(keyword);
  const value = schema[keyword], isLeast = keyword === "minimum", isExclusive = schema[exclusive] === true;
  const bound = isLeast !== isExclusive ? value.ceiling() : value.floor();
  // Where it is out of range, it excludes everything, or nothing.
  if (!isInRange(bound)) schema[exclusive] = (bound > GREATEST) === isLeast;
  schema[keyword] = nearest(bound);
  return new Change([keyword], [keyword], messageOf(isLeast, isExclusive, value));
}

/** A bound of the later drafts. */
function rewriteBound(schema, keyword) {
  const isLeast = keyword.endsWith("inimum"), isExclusive = keyword.startsWith("exclusive");
  const value = schema[keyword];
  const bound = isLeast !== isExclusive ? value.ceiling() : value.floor();
  let now = keyword;
  if (!isInRange(bound)) {
    const excludesAll = (bound > GREATEST) === isLeast;
    if (excludesAll !== isExclusive) {
      delete schema[keyword];
      now = excludesAll ? exclusiveOf(keyword) : undefined;
    }
  }
  if (now !== undefined) schema[now] = nearest(bound);
  return new Change([keyword], [now ?? keyword], messageOf(isLeast, isExclusive, value));
}

/** The integer of the range that is nearest to an integer. */
function nearest(bound) {
  if (bound < LEAST) return LEAST;
  return bound > GREATEST ? GREATEST : bound;
}

function exclusiveOf(keyword) {
  return `exclusive${keyword[0].toUpperCase()}${keyword.slice(1)}`;
}

/** What the validator says of a value that breaks such a bound. */
function messageOf(isLeast, isExclusive, { text }) {
  if (isExclusive) return `not ${isLeast ? "greater" : "less"} than ${text}`;
  return `${isLeast ? "less" : "greater"} than ${text}`;
}

function rewriteMultiple(schema, dialect) {
  const keyword = dialect < FOUR ? "divisibleBy" : "multipleOf";
  const { [keyword]: value, allOf = [] } = schema;
  if (!(value instanceof Decimal) || !value.isPositive) return [];
  const numerator = value.numerator();
  let now = [keyword];
  if (numerator <= GREATEST) {
    schema[keyword] = numerator;
  } else if (dialect >= FOUR && Array.isArray(allOf)) {
    // (Of the numbers in the range zero alone is a multiple.)
    delete schema[keyword];
    schema.allOf = [...allOf, { minimum: 0, maximum: 0 }];
    now = ["allOf", String(allOf.length)];
  }
  return [new Change([keyword], now, `not a multiple of ${value.text}`)];
}
