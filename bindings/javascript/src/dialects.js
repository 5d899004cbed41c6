/** The dialects, from draft-03 to draft 2020-12. */
import { Numeral } from "./numerals.js";

export const DRAFTS = Object.freeze(["draft-03", "draft-04", "draft-06", "draft-07", "2019-09", "2020-12"]);
export const FOUR = 1, SIX = 2, NINETEEN = 4, LATEST = 5;

/** The `$schema` of each. */
export const URIS = Object.freeze(DRAFTS.map((name) => name.startsWith("draft")
  ? `http://json-schema.org/${name}/schema#` : `https://json-schema.org/draft/${name}/schema`));

// Schemas name the meta-schema or the hyper-schema of a draft, with `http` or `https`, and an empty fragment or none.
const NAMED =
  /^https?:\/\/json-schema\.org\/(?:(draft-0[3467]|draft\/2019-09)\/(?:hyper-)?|(draft\/2020-12)\/)schema#?$/;

/** The number of the dialect that a `$schema` names; undefined if it is another. */
export function dialectNamed(uri) {
  const found = typeof uri === "string" ? NAMED.exec(uri) : null;
  return found === null ? undefined : DRAFTS.indexOf((found[1] ?? found[2]).replace("draft/", ""));
}

/** The number of a document's dialect: what is assumed where it names none, and the latest for one that isn't known. */
export function dialectOf(schema, assumed = LATEST) {
  if (!isObject(schema) || !Object.hasOwn(schema, "$schema")) return assumed;
  return dialectNamed(schema.$schema) ?? LATEST;
}

/** The number of the dialect with a name of `DRAFTS`, or with a URI. Throws `RangeError`. */
export function dialectCalled(name) {
  const number = DRAFTS.includes(name) ? DRAFTS.indexOf(name) : dialectNamed(name);
  if (number === undefined) {
    throw new RangeError(`no dialect '${name}': it is one of ${DRAFTS.join(", ")}, or the URI of one`);
  }
  return number;
}

/** The keyword that identifies a schema. */
export function identifier(dialect) {
  return dialect < SIX ? "id" : "$id";
}

/** Whether a reference hides its siblings, as it does before 2019-09. */
export function hides(schema, dialect) {
  return dialect < NINETEEN && Object.hasOwn(schema, "$ref");
}

/** Whether a value of JSON is an object. */
export function isObject(value) {
  return typeof value === "object" && value !== null && !Array.isArray(value) && !(value instanceof Numeral);
}
