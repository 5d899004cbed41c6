/** Schemas that accept nothing by their own bounds. */
import { isObject } from "../dialects.js";
import { ABOUT } from "../keyword_table.js";
import { Numeral } from "../numerals.js";
import { WARNING } from "./finding.js";
import { comparable, isNumber, isWhole, shown } from "./values.js";

// The bounds of which the first may not be above the second, and what they are about.
const PAIRS = [
  ...[...ABOUT].filter(([low]) => low.startsWith("min"))
    .map(([low, about]) => [low, "max" + low.slice(3), about.at(-1)]),
  ["minContains", "maxItems", "array"],
];
// Those that must be below.
const STRICT = [["exclusiveMinimum", "maximum"], ["minimum", "exclusiveMaximum"],
  ["exclusiveMinimum", "exclusiveMaximum"]];

/**
 * The keywords by which a schema accepts nothing, or nothing of a type.
 *
 * @param {import("../resources.js").Document} document @returns {Generator<import("./finding.js").Found>}
 */
export function* nothing(document) {
  for (const { value, tokens } of document.schemas) {
    for (const [keyword, message] of [...byBounds(value), ...byMembers(value), ...byValues(value)]) {
      yield { rule: "accepts-nothing", severity: WARNING, tokens: [...tokens, keyword], isName: false, message };
    }
  }
}

function* byBounds(schema) {
  for (const [low, high, about] of PAIRS) {
    if (low === "minContains" && !Object.hasOwn(schema, "contains")) continue;
    const [least, most] = [schema[low], schema[high]];
    if (isNumber(least) && isNumber(most) && comparable(least) > comparable(most)) {
      yield [low, `accepts no ${about}: \`${low}\` ${shown(least)} is more than \`${high}\` ${shown(most)}`];
    }
  }
  for (const [low, high] of STRICT) {
    const [least, most] = [schema[low], schema[high]];
    if (isNumber(least) && isNumber(most) && comparable(least) >= comparable(most)) {
      yield [low, `accepts no number: \`${low}\` ${shown(least)} isn't below \`${high}\` ${shown(most)}`];
    }
  }
  const { type, exclusiveMinimum: least, exclusiveMaximum: most, minItems, prefixItems } = schema;
  if (type === "integer" && isWhole(least) && isWhole(most) && BigInt(least) + 1n === BigInt(most)) {
    yield ["exclusiveMinimum", `accepts no integer: none is between ${least} and ${most}`];
  }
  if (Array.isArray(prefixItems) && schema.items === false && isWhole(minItems) && minItems > prefixItems.length) {
    yield ["minItems", `accepts no array: \`minItems\` ${minItems} is more than the ${prefixItems.length} of ` +
      "`prefixItems`"];
  }
}

function* byMembers(schema) {
  const { required, maxProperties: most, properties: known = {}, additionalProperties } = schema;
  if (!Array.isArray(required)) return;
  const names = new Set(required.filter((it) => typeof it === "string"));
  if (isWhole(most) && names.size > most) {
    yield ["required", `accepts no object: \`required\` has ${names.size} names, and \`maxProperties\` is ${most}`];
  }
  for (const name of isObject(known) ? [...names].sort(compared) : []) {
    const isKnown = Object.hasOwn(known, name);
    if (isKnown && known[name] === false) {
      yield ["required", `accepts no object: \`${name}\` is required, and its schema is false`];
    } else if (!isKnown && additionalProperties === false && !isMatched(schema, name)) {
      yield ["required", `accepts no object: \`${name}\` is required, and \`additionalProperties\` is false`];
    }
  }
}

/** The order of two strings by their characters. */
function compared(one, other) {
  const [some, others] = [[...one], [...other]];
  const at = some.findIndex((it, index) => it !== others[index]);
  if (at < 0 || at >= others.length) return some.length - others.length;
  return some[at].codePointAt(0) - others[at].codePointAt(0);
}

/** Whether a member may be one of `patternProperties`. */
function isMatched({ patternProperties: patterns = {} }, name) {
  if (!isObject(patterns)) return true;
  try {
    return Object.keys(patterns).some((it) => new RegExp(it, "u").test(name));
  } catch {
    return true;
  }
}

function* byValues(schema) {
  const { enum: listed } = schema;
  if (Array.isArray(listed) && listed.length === 0) yield ["enum", "accepts nothing: `enum` is empty"];
  const types = typesOf(schema.type);
  if (types === undefined) return;
  const named = types.join(" or ");
  if (Array.isArray(listed) && listed.length > 0 && !listed.some((it) => isOf(it, types))) {
    yield ["enum", `accepts nothing: no value of \`enum\` is of the type ${named}`];
  }
  if (Object.hasOwn(schema, "const") && !isOf(schema.const, types)) {
    yield ["const", `accepts nothing: the value of \`const\` isn't of the type ${named}`];
  }
}

function typesOf(given) {
  const types = typeof given === "string" ? [given] : given;
  const areNames = Array.isArray(types) && types.length > 0 && types.every((it) => typeof it === "string");
  return areNames ? types : undefined;
}

function isOf(value, types) {
  const type = typeOf(value);
  return types.includes(type) || type === "integer" && types.includes("number")
    || type === "number" && types.includes("integer") && Number.isInteger(comparable(value));
}

function typeOf(value) {
  if (value === null) return "null";
  if (isWhole(value)) return "integer";
  if (value instanceof Numeral) return "number";
  return Array.isArray(value) ? "array" : typeof value;
}
