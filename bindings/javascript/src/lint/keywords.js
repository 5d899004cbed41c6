/** Keywords that no dialect knows, and keywords that can't act where they stand. */
import { NINETEEN } from "../dialects.js";
import { ABOUT } from "../keyword_table.js";
import { KEYWORDS, stranger } from "../keywords.js";
import { NOTE, WARNING } from "./finding.js";

// Of those with this beginning everybody knows that they are somebody's own.
const OWN = "x-";
// Up to how many letters a name is short: then one typing error is enough to make it another, else two.
const SHORT = 5, SHORTEST = 3;

// Each keyword that needs another one beside it.
const NEEDS = new Map(Object.entries({ then: "if", else: "if", minContains: "contains", maxContains: "contains",
  contentSchema: "contentMediaType" }));
// Each keyword to which another one leaves nothing.
const LEAVES = new Map(Object.entries({ unevaluatedItems: "items", unevaluatedProperties: "additionalProperties" }));
// Those that act beside `$ref` up to draft-07, or say nothing of instances.
const BESIDE_REFERENCES = new Set(["$ref", "$schema", "$id", "id", "definitions", "$comment", "title", "description"]);

/** @typedef {import("../resources.js").Document} Document */
/** @typedef {import("./finding.js").Found} Found */

/**
 * The keywords of no dialect, with the nearest that is one; of those that are near to none, the first of a name.
 *
 * @param {Document} document @returns {Generator<Found>}
 */
export function* unknown(document) {
  const own = new Map(), counts = new Map();
  for (const { value, tokens } of document.schemas) {
    for (const keyword of Object.keys(value).filter((it) => !KEYWORDS.has(it) && !it.startsWith(OWN))) {
      const meant = nearest(keyword), message = `no dialect knows the keyword \`${keyword}\``;
      const found = { rule: "unknown-keyword", severity: meant === undefined ? NOTE : WARNING,
        tokens: [...tokens, keyword], isName: true, message, suggestion: meant };
      if (meant !== undefined) {
        yield { ...found, message: `${message}: is \`${meant}\` meant?` };
      } else {
        if (!own.has(keyword)) own.set(keyword, found);
        counts.set(keyword, (counts.get(keyword) ?? 0) + 1);
      }
    }
  }
  for (const [keyword, found] of own) {
    const count = counts.get(keyword);
    const more = count > 1 ? ` (here and ${count - 1} times more)` : "";
    yield { ...found, message: `${found.message}, so it is an annotation${more}` };
  }
}

/**
 * The keywords that can't act.
 *
 * @param {Document} document @returns {Generator<Found>}
 */
export function* inactive(document) {
  for (const { value, tokens } of document.schemas) {
    for (const keyword of Object.keys(value)) {
      const message = stranger(keyword, document.dialect) ?? why(value, keyword, document.dialect);
      if (message === undefined) continue;
      yield { rule: "inactive-keyword", severity: WARNING, tokens: [...tokens, keyword], isName: true, message };
    }
  }
}

/**
 * The formats, none of which is asserted.
 *
 * @param {Document} document @returns {Generator<Found>}
 */
export function* formats(document) {
  for (const { value, tokens } of document.schemas) {
    if (typeof value.format !== "string") continue;
    yield { rule: "format", severity: NOTE, tokens: [...tokens, "format"], isName: true,
      message: "`format` is an annotation, and isn't asserted: `--formats` warns of values that break it" };
  }
}

/** The keyword that is meant by a name that is none: at most two typing errors away, or one in a short name. */
export function nearest(name) {
  const letters = [...name.toLowerCase()];
  if ([...name].length < SHORTEST) return undefined;
  const most = [...name].length <= SHORT ? 1 : 2;
  let least = most + 1, meant;
  for (const keyword of KEYWORDS.keys()) {
    const distance = distanceOf(letters, [...keyword.toLowerCase()], most);
    if (distance < least || distance === least && distance <= most && keyword < meant) {
      least = distance;
      meant = keyword;
    }
  }
  return meant;
}

/** Why a keyword can't act beside the others of its schema. */
function why(schema, keyword, dialect) {
  const has = (name) => Object.hasOwn(schema, name);
  if (has("$ref") && dialect < NINETEEN && !BESIDE_REFERENCES.has(keyword)) {
    return `\`${keyword}\` can't act beside \`$ref\`, which stands alone up to draft-07`;
  }
  const needed = NEEDS.get(keyword), leaving = LEAVES.get(keyword);
  if (needed !== undefined && !has(needed)) return `\`${keyword}\` can't act without \`${needed}\``;
  if (leaving !== undefined && has(leaving)) {
    return `\`${keyword}\` can't act: \`${leaving}\` beside it leaves nothing unevaluated`;
  }
  if (keyword === "if" && !has("then") && !has("else")) return "`if` asserts nothing without `then` or `else`";
  if (keyword === "additionalItems" && !Array.isArray(schema.items)) {
    return "`additionalItems` can't act without a list in `items`";
  }
  return whyByType(schema.type, keyword);
}

function whyByType(given, keyword) {
  const types = typeof given === "string" ? [given] : given, acting = ABOUT.get(keyword);
  if (acting === undefined || !Array.isArray(types) || types.length === 0) return undefined;
  if (types.some((it) => acting.includes(it))) return undefined;
  const named = types.map((it) => typeof it === "string" ? it : JSON.stringify(it)).join(" or ");
  return `\`${keyword}\` can't act on the type ${named}: it is about ${acting.at(-1)}s`;
}

/**
 * How many letters are to be put in, taken out, replaced or exchanged with the next to make one name of the other. More
 * than `most` counts as `most + 1`.
 */
function distanceOf(one, other, most) {
  if (Math.abs(one.length - other.length) > most) return most + 1;
  let twoBefore = [], before = [], row = [...other.keys(), other.length];
  for (const [i, letter] of one.entries()) {
    [twoBefore, before, row] = [before, row, [i + 1]];
    for (const [j, wanted] of other.entries()) {
      let cost = Math.min(before[j + 1] + 1, row[j] + 1, before[j] + (letter === wanted ? 0 : 1));
      if (i > 0 && j > 0 && letter === other[j - 1] && one[i - 1] === wanted) {
        cost = Math.min(cost, twoBefore[j - 1] + 1);
      }
      row.push(cost);
    }
    if (Math.min(...row) > most) return most + 1;
  }
  return Math.min(row.at(-1), most + 1);
}
