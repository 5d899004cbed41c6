/** Documents of older drafts, which the module upgrades to 2020-12. */
import { LATEST, URIS, dialectCalled, dialectOf, identifier } from "./dialects.js";
import { pointer, steps } from "./locations.js";
import { originalOf } from "./originals.js";
import { Document, originalLocation } from "./resources.js";

// What a document of an older draft has somewhere. (A slash may be escaped; and any character as its number.)
const OLDER = /json-schema\.org\\?\/draft(?:-0[3467]|\\?\/2019-09)\\?\/|\\u00/;

/**
 * The number of the dialect that is assumed where a document names none; undefined where nothing is upgraded.
 *
 * @param {{ defaultDialect?: string, upgrade?: boolean }} options
 * @param {{ bytes: Uint8Array }[]} documents
 */
export function upgradeOf({ defaultDialect, upgrade = true }, documents) {
  const assumed = defaultDialect === undefined ? undefined : dialectCalled(defaultDialect);
  if (assumed !== undefined && !upgrade) {
    throw new RangeError("defaultDialect says what to upgrade from, and upgrade is false");
  }
  // (A document of 2020-12 is upgraded to itself.)
  if (!upgrade || assumed === undefined && !documents.some(({ bytes }) => mayBeOlder(bytes))) return undefined;
  return assumed ?? LATEST;
}

/** The `$schema` of a dialect. */
export function uriOf(dialect) {
  return URIS[dialect];
}

/** Whether a document may be of an older draft, or have a part that is. (It may say too often that it may.) */
export function mayBeOlder(bytes, assumed = LATEST) {
  return assumed !== LATEST || OLDER.test(new TextDecoder().decode(bytes));
}

/** What identifies a schema: its `$id`, or in the first two drafts its `id`. */
export function identifierOf(schema, defaultDialect = undefined) {
  return schema?.[identifier(dialectOf(schema, defaultDialect && dialectCalled(defaultDialect)))];
}

/**
 * Puts the place of the refusal of an upgraded document into words of its text; or says that it has none.
 *
 * @param {import("./errors.js").Refused} refused @param {Uint8Array} bytes @param {number} assumed
 */
export function explainUpgraded(refused, bytes, assumed) {
  let found;
  try {
    const value = JSON.parse(new TextDecoder("utf-8", { fatal: true }).decode(bytes));
    const dialect = dialectOf(value, assumed);
    if (!mayBeOlder(bytes, dialect)) return;
    found = originalOf(value, steps(refused.place ?? ""), dialect);
  } catch {
    // (It isn't JSON, so it has no such place.)
  }
  if (found === undefined) refused.isUpgraded = true;
  else refused.place = pointer(found);
}

/** Documents as they were before they were upgraded. They are read when the first location is looked for. */
export class Originals {
  #texts;
  #assumed;
  #documents;

  /** @param {readonly { uri: string, bytes: Uint8Array }[]} texts @param {number | undefined} assumed */
  constructor(texts, assumed) {
    this.#texts = texts;
    this.#assumed = assumed;
  }

  /**
   * The absolute location of a keyword in them, by that in the upgraded documents. Where nothing becomes that keyword,
   * and where nothing was upgraded, it stays.
   */
  location(uri) {
    if (this.#assumed === undefined) return uri;
    this.#documents ??= this.#texts.map(({ uri, bytes }) =>
      new Document(uri, JSON.parse(new TextDecoder().decode(bytes)), this.#assumed));
    return originalLocation(uri, this.#documents);
  }
}
