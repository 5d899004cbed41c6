/** What stands in rewritten documents, in the words of the documents that they were. */
import { pointer, steps } from "./locations.js";
import { Document, originalAt } from "./resources.js";
import { fragmentOf, unquoted, withPointer } from "./uris.js";

const NAMES = "patternProperties";

/**
 * A keyword that became another, or a name: the tokens that it had, and what it became.
 *
 * @typedef {{ tokens: string[], change: import("./changes.js").Change, isName: boolean }} Place
 */

/**
 * Leads from rewritten documents, and what they are upgraded to, to what they were. `names` are those in
 * `patternProperties` that stand for others.
 */
export class Restoring {
  #given;
  #names;
  #places;
  // (Made when they are needed.)
  #documents;

  /**
   * @param {Map<number, { document: Document, places(): Map<string, Place> }>} documents those that were rewritten, by
   *     their numbers
   * @param {Map<string, string>} names
   */
  constructor(documents, names) {
    this.#given = documents;
    this.#names = names;
    this.#places = new Map(Array.from(documents, ([index, it]) => [index, it.places()])
      .filter(([, places]) => places.size > 0));
  }

  /** Puts the place of a refusal, which is one in a rewritten document, into words of the document. */
  refusal(refused) {
    if (!this.#places.has(refused.index) || !refused.place || refused.isUpgraded) return;
    const tokens = steps(refused.place);
    const found = this.#found(refused.index, tokens);
    if (found === undefined) return;
    const { length, place } = found;
    refused.place = pointer([...place.tokens, ...place.isName ? tokens.slice(length) : []]);
  }

  /** Units of an output at the keywords that there were. Those of what one keyword became are one. */
  errors(units) {
    if (this.#places.size === 0) return units;
    const found = new Once();
    for (const unit of units) {
      const { isMade, ...words } = this.#words(unit);
      found.add(unit.instanceLocation, words.keywordLocation, isMade, { ...unit, ...words });
    }
    return found.errors;
  }

  /** A tree of errors (the output `detailed`, parsed), with the same errors. */
  tree(node) {
    return this.#places.size === 0 ? node : this.#node(node);
  }

  /** The absolute location of a keyword. */
  location(uri) {
    return this.#places.size === 0 ? uri : this.#words({ absoluteKeywordLocation: uri }).absoluteKeywordLocation;
  }

  /** The absolute location of a schema. Undefined for one that the documents hadn't. */
  schema(uri) {
    const found = this.#places.size === 0 ? undefined : this.#change(uri);
    return found === undefined || found.place.isName ? this.#named(uri) : undefined;
  }

  /** The URI of a schema with the names that it leads through now; what it was if there is no such schema. */
  renamed(uri, names) {
    const made = withPointer(uri, renamed(steps(unquoted(fragmentOf(uri))), names));
    return originalAt(made, [...this.#walked().values()]) === undefined ? uri : made;
  }

  #node(node) {
    const { isMade, ...words } = this.#words(node);
    const made = { ...node, ...words };
    if (!isMade && node.error === undefined) delete made.error;
    // (What the keyword became isn't shown.)
    if (isMade) delete made.errors;
    if (made.errors === undefined) return made;
    const below = new Once();
    for (const child of node.errors) {
      const it = this.#node(child);
      below.add(it.instanceLocation, it.keywordLocation, it.keywordLocation !== child.keywordLocation, it);
    }
    return { ...made, errors: below.errors };
  }

  /** Where an error is, and what it says, in the words of the documents; and whether its keyword became several. */
  #words({ absoluteKeywordLocation: absolute, keywordLocation = "", error }) {
    const location = steps(keywordLocation);
    const found = this.#change(absolute);
    if (found === undefined || found.place.isName) {
      return { absoluteKeywordLocation: this.#named(absolute), keywordLocation: pointer(renamed(location, this.#names)),
        error, isMade: false };
    }
    const { length, place: { change } } = found;
    let uri = absolute;
    if (change.isMoved) {
      location.splice(-length, length, ...change.before);
      uri = withPointer(absolute, [...steps(unquoted(fragmentOf(absolute))).slice(0, -length), ...change.before]);
    }
    return { absoluteKeywordLocation: this.#named(uri), keywordLocation: pointer(renamed(location, this.#names)),
      error: change.message ?? error, isMade: change.isMoved };
  }

  /** The change that an absolute location is in, and how many of its last tokens are in it. */
  #change(uri) {
    const documents = this.#walked();
    const original = originalAt(uri, [...documents.values()]);
    if (original === undefined) return undefined;
    const [index] = [...documents].find(([, it]) => it === original.document);
    const tokens = [...original.root, ...original.tokens];
    const found = this.#found(index, tokens);
    return found && { length: tokens.length - found.length + found.place.change.now.length, place: found.place };
  }

  /** The documents as they are now. (Walked again, since names are others now.) */
  #walked() {
    this.#documents ??= new Map(Array.from(this.#given, ([index, { document }]) =>
      [index, new Document(document.uri, document.value, document.dialect)]));
    return this.#documents;
  }

  /** The innermost change that tokens lead into, and how many of them lead to it. */
  #found(index, tokens) {
    const places = this.#places.get(index);
    for (let length = places === undefined ? 0 : tokens.length; length > 0; length--) {
      const place = places.get(pointer(tokens.slice(0, length)));
      if (place !== undefined) return { length, place };
    }
    return undefined;
  }

  /** A URI with the names that there were. */
  #named(uri) {
    if (this.#names.size === 0 || !uri.includes(NAMES)) return uri;
    const tokens = steps(unquoted(fragmentOf(uri)));
    const made = renamed(tokens, this.#names);
    return made.every((it, index) => it === tokens[index]) ? uri : withPointer(uri, made);
  }
}

/** Tokens with other names in `patternProperties`. */
function renamed(tokens, names) {
  return tokens.map((token, index) => tokens[index - 1] === NAMES ? names.get(token) ?? token : token);
}

/** Errors, of which those at one place are one if the keyword there became several. */
class Once {
  errors = [];
  // Whether one of those at a place is of such a keyword.
  #seen = new Map();

  /** Takes an error, unless it is there. */
  add(instanceLocation, keywordLocation, isMade, error) {
    const place = JSON.stringify([instanceLocation, keywordLocation]);
    const seen = this.#seen.get(place);
    if (seen === undefined || !isMade && !seen) this.errors.push(error);
    this.#seen.set(place, isMade || seen === true);
  }
}
