/** References that lead nowhere, and definitions to which none leads. */
import { isObject } from "../dialects.js";
import { pointer } from "../locations.js";
import { DEFINITIONS, Targets } from "../resources.js";
import { documentOf, joined } from "../uris.js";
import { ERROR, WARNING } from "./finding.js";

// A document of definitions for others has nothing else at its root.
const ABOUT = new Set(["$schema", "$id", "id", "$anchor", "$comment", "$vocabulary", "title", "description",
  ...DEFINITIONS]);

/** @typedef {import("../resources.js").Document} Document */
/** @typedef {import("./finding.js").Found} Found */

/** What the references of documents lead to, found once for all of them. */
export class Uses extends Targets {
  #into = new Map();

  /** @param {readonly Document[]} documents */
  constructor(documents) {
    super(documents);
    for (const document of documents) {
      for (const { tokens: at, base, references } of document.schemas) {
        for (const [, reference] of references) this.#note(document, at, this.target(joined(base, reference)));
      }
    }
  }

  /** The references that lead into a document: the document and the schema in which each stands, and to what. */
  into(document) {
    return this.#into.get(document) ?? [];
  }

  #note(document, at, found) {
    if (found === undefined) return;
    if (!this.#into.has(found.document)) this.#into.set(found.document, []);
    this.#into.get(found.document).push({ document, at, tokens: found.tokens });
  }
}

/**
 * The references of a document that lead to no schema of the documents.
 *
 * @param {Document} document @param {Uses} uses @returns {Generator<Found>}
 */
export function* unresolved(document, uses) {
  for (const { tokens, base, references } of document.schemas) {
    for (const [keyword, reference] of references) {
      const uri = joined(base, reference), found = uses.target(uri);
      if (found?.document.places.has(pointer(found.tokens))) continue;
      yield { rule: "unresolved-reference", severity: ERROR, tokens: [...tokens, keyword], isName: false,
        message: why(uri, uses) };
    }
  }
}

/**
 * The definitions of a document to which no reference leads, but those within themselves.
 *
 * @param {Document} document @param {Uses} uses @returns {Generator<Found>}
 */
export function* unused(document, uses) {
  if (isObject(document.value) && Object.keys(document.value).every((it) => ABOUT.has(it))) return;
  const definitions = document.schemas.flatMap(({ value, tokens }) => DEFINITIONS.flatMap((holder) =>
    isObject(value[holder]) ? Object.keys(value[holder]).map((name) => [...tokens, holder, name]) : []));
  const used = new Set(dynamic(document).flatMap(beginnings));
  for (const { document: other, at, tokens } of uses.into(document)) {
    const within = new Set(other === document ? beginnings(at) : []);
    for (const it of beginnings(tokens)) if (!within.has(it)) used.add(it);
  }
  for (const tokens of definitions.filter((it) => !used.has(pointer(it)))) {
    yield { rule: "unused-definition", severity: WARNING, tokens, isName: true,
      message: `nothing refers to the definition \`${tokens.at(-1)}\`` };
  }
}

/** JSON Pointers to what tokens lead through, and to where they lead. */
function beginnings(tokens) {
  return tokens.map((_, index) => pointer(tokens.slice(0, index + 1)));
}

/** The schemas that a `$dynamicRef` may lead to in a way that only an evaluation shows. */
function dynamic(document) {
  return document.schemas.filter(({ value }) => Object.hasOwn(value, "$dynamicAnchor")).map(({ tokens }) => tokens);
}

function why(uri, uses) {
  const resource = documentOf(uri);
  if (uses.hasResource(resource)) return `no schema has the URI ${uri}`;
  return `no document has the URI ${resource}: give it too`;
}
