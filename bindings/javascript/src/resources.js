/** A schema document, each of its schemas, and the URIs that they have. */
import { LATEST, NINETEEN, dialectOf, hides, identifier, isObject } from "./dialects.js";
import { LISTS, OBJECTS, pointer, steps } from "./locations.js";
import { originalOf, ownDialect } from "./originals.js";
import { documentOf, fragmentOf, joined, unquoted, withPointer, withoutFragment } from "./uris.js";

/** The keywords under which definitions stand. */
export const DEFINITIONS = Object.freeze(["$defs", "definitions"]);

// The keywords whose value is a schema. (`items` may be a list of them, `dependencies` an object, in older drafts.)
const SCHEMAS = new Set(["additionalItems", "additionalProperties", "contains", "contentSchema", "else", "if", "items",
  "not", "propertyNames", "then", "unevaluatedItems", "unevaluatedProperties"]);
// Those of draft-03 that may have schemas, beside names of types.
const OF_THREE = new Set(["disallow", "extends", "type"]);
const REFERENCES = ["$ref", "$dynamicRef", "$recursiveRef"];
const ANCHORS = ["$anchor", "$dynamicAnchor"];

/** A schema that is an object, its tokens, and its base URI. */
class Schema {
  /** @param {Record<string, any>} value @param {readonly string[]} tokens @param {string} base */
  constructor(value, tokens, base) {
    this.value = value;
    this.tokens = tokens;
    this.base = base;
  }

  /** The keywords that refer to another schema, each with the reference as it is written. */
  get references() {
    return REFERENCES.map((keyword) => [keyword, stringAt(this.value, keyword)]).filter(([, it]) => it !== undefined);
  }
}

/** A schema document under a URI. */
export class Document {
  /** Its dialect: what is assumed where it names none. */
  dialect;
  /** The schemas that are objects. */
  schemas = [];
  /** JSON Pointers to all schemas, also to those that are booleans. */
  places = new Set();
  /**
   * The tokens of each resource with its dialect, by its URI (see `documentOf`); and those of each anchor, by that with
   * the fragment.
   */
  targets = new Map();
  // The dialects of the resources, by their pointers.
  #dialects = new Map();

  /** @param {string} uri @param {unknown} value @param {number} [assumed] */
  constructor(uri, value, assumed = LATEST) {
    this.uri = uri;
    this.value = value;
    this.dialect = dialectOf(value, assumed);
    this.#note(uri, [], this.dialect);
    this.#visit(value, [], withoutFragment(uri), this.dialect);
  }

  /** The identifier of the document as it is written, or undefined. */
  get id() {
    const { value } = this;
    if (!isObject(value) || hides(value, this.dialect)) return undefined;
    return stringAt(value, identifier(this.dialect));
  }

  /** The dialects of its resources. */
  get dialects() {
    return this.#dialects.values();
  }

  /** The dialect of the schema with these tokens: that of the innermost resource in which it stands. */
  dialectAt(tokens) {
    for (let length = tokens.length; ; length--) {
      const dialect = this.#dialects.get(pointer(tokens.slice(0, length)));
      if (dialect !== undefined) return dialect;
    }
  }

  /** The tokens of what becomes that at these tokens of a resource when it is upgraded; undefined for nothing. */
  originalOf(resource, tokens) {
    const value = resource.tokens.reduce((holder, token) => holder[token], this.value);
    return originalOf(value, tokens, resource.dialect);
  }

  /** Notes a schema and those below it. */
  #visit(schema, tokens, above, around) {
    this.places.add(pointer(tokens));
    if (!isObject(schema)) return;
    const dialect = tokens.length > 0 ? ownDialect(schema, around) : around;
    const base = this.#named(schema, tokens, above, dialect);
    for (const anchor of ANCHORS.map((it) => stringAt(schema, it)).filter((it) => it !== undefined)) {
      this.targets.set(`${documentOf(base)}#${anchor}`, { tokens, dialect });
    }
    this.schemas.push(new Schema(schema, tokens, base));
    for (const [below, child] of subschemas(schema, dialect)) {
      this.#visit(child, [...tokens, ...below], base, dialect);
    }
  }

  /** The base URI of a schema, whose own name is noted. */
  #named(schema, tokens, above, dialect) {
    const name = hides(schema, dialect) ? undefined : stringAt(schema, identifier(dialect));
    if (name === undefined) return above;
    if (name.startsWith("#") && dialect < NINETEEN) {
      // (What is an anchor since 2019-09.)
      this.targets.set(documentOf(above) + name, { tokens, dialect });
      return above;
    }
    const base = withoutFragment(joined(above, name));
    this.#note(base, tokens, dialect);
    return base;
  }

  /** Notes a resource. */
  #note(uri, tokens, dialect) {
    this.targets.set(documentOf(uri), { tokens, dialect });
    this.#dialects.set(pointer(tokens), dialect);
  }
}

/** The values that the keywords of a schema hold where schemas stand, with their tokens from there. */
function* subschemas(schema, dialect) {
  for (const [keyword, value] of Object.entries(schema)) {
    if (Array.isArray(value) && (LISTS.has(keyword) || keyword === "items" && dialect < LATEST)) {
      for (const [index, item] of value.entries()) yield [[keyword, String(index)], item];
    } else if (isObject(value) && (OBJECTS.has(keyword) || keyword === "dependencies" && dialect < NINETEEN)) {
      for (const [name, it] of Object.entries(value)) if (!Array.isArray(it)) yield [[keyword, name], it];
    } else if (dialect === 0 && OF_THREE.has(keyword)) {
      if (isObject(value)) yield [[keyword], value];
      for (const [index, it] of Array.isArray(value) ? value.entries() : []) {
        if (isObject(it)) yield [[keyword, String(index)], it];
      }
    } else if (SCHEMAS.has(keyword) && (isObject(value) || typeof value === "boolean")) {
      yield [[keyword], value];
    }
  }
}

/** The string at a member of an object, or undefined. */
function stringAt(schema, name) {
  return Object.hasOwn(schema, name) && typeof schema[name] === "string" ? schema[name] : undefined;
}

/** The value at a token of an array or an object; undefined where there is none. */
export function childOf(value, token) {
  const isHolder = Array.isArray(value) ? /^(?:0|[1-9][0-9]*)$/.test(token) : isObject(value);
  return isHolder && Object.hasOwn(value, token) ? value[token] : undefined;
}

/** The value at these tokens; undefined where there is none. */
export function valueAt(value, tokens) {
  return tokens.reduce(childOf, value);
}

/** What URIs name in documents that refer to one another. (The first of two with one URI has it.) */
export class Targets {
  #named = new Map();

  /** @param {Iterable<Document>} documents */
  constructor(documents) {
    for (const document of documents) {
      for (const [name, { tokens }] of document.targets) {
        if (!this.#named.has(name)) this.#named.set(name, { document, tokens });
      }
    }
  }

  /** Whether a document, or a resource in one, has the URI. */
  hasResource(uri) {
    return this.#named.has(uri);
  }

  /**
   * What the fragment of a URI names, which by a JSON Pointer may be less than a schema: the document and the tokens.
   * Undefined for nothing.
   *
   * @param {string} uri @returns {{ document: Document, tokens: readonly string[] } | undefined}
   */
  target(uri) {
    const resource = documentOf(uri), fragment = unquoted(fragmentOf(uri));
    if (fragment !== "" && !fragment.startsWith("/")) return this.#named.get(`${resource}#${fragment}`);
    const root = this.#named.get(resource);
    return root && { document: root.document, tokens: [...root.tokens, ...steps(fragment)] };
  }
}

/**
 * What becomes that which a URI names once the documents are upgraded: the document, the tokens of the resource in it,
 * and those from there. The URI is one of a resource, with a JSON Pointer as its fragment. Undefined for nothing.
 */
export function originalAt(uri, documents) {
  const name = documentOf(uri);
  const document = documents.find((it) => it.targets.has(name));
  const resource = document?.targets.get(name);
  const tokens = document?.originalOf(resource, steps(unquoted(fragmentOf(uri))));
  return tokens === undefined ? undefined : { document, root: resource.tokens, tokens };
}

/** The absolute location of a keyword in the documents, by that in the upgraded ones, which stays if there is none. */
export function originalLocation(uri, documents) {
  const found = originalAt(uri, documents);
  return found === undefined ? uri : withPointer(uri, found.tokens);
}
