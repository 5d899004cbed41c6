/** Schema documents: as they were passed in, and as the module gets them. */
import { LATEST } from "./dialects.js";
import { encoded } from "./engine.js";
import { Refused, ValidationError } from "./errors.js";
import { LARGEST_TEXT } from "./limits.js";
import { explain } from "./meanings.js";
import { parse } from "./outputs.js";
import { Originals, explainUpgraded, upgradeOf } from "./upgrading.js";
import { isWellFormed, textOf } from "./values.js";

/** The text of a document, by its absolute URI. */
/** @typedef {{ uri: string, bytes: Uint8Array }} Pair */

/** Documents that were passed in, what the module gets for them, and what leads back from there. */
export class Documents {
  #pairs;
  #rewriting;
  #originals;

  /**
   * @param {readonly Pair[]} pairs
   * @param {number} [assumed] the dialect of documents that name none; undefined where nothing is upgraded
   * @param {import("./rewriting.js").Rewriting} [rewriting]
   */
  constructor(pairs, assumed = undefined, rewriting = undefined) {
    this.#pairs = pairs;
    this.#rewriting = rewriting;
    this.#originals = new Originals(pairs, assumed);
    this.assumed = assumed;
    /** The documents that the module gets. @type {readonly Pair[]} */
    this.given = rewriting === undefined ? pairs : rewriting.texts(pairs, assumed ?? LATEST);
  }

  /** Documents by the options of `Schemas.create`. What rewrites them is loaded where it is asked for. */
  static async create(documents, options) {
    const { patterns, numbers } = options;
    const pairs = pairsOf(documents), assumed = upgradeOf(options, pairs);
    if (patterns === undefined && numbers === undefined) return new Documents(pairs, assumed);
    const { Rewriting } = await import("./rewriting.js");
    return new Documents(pairs, assumed, await Rewriting.create({ patterns, numbers }, pairs));
  }

  /** Whether numbers are rewritten, so that `-0` is 0. */
  get hasExactNumbers() {
    return this.#rewriting?.hasNumbers ?? false;
  }

  /**
   * The refusal of a document, in words of what was passed in.
   *
   * @param {Refused} refused @param {import("./engine.js").Engine} engine
   */
  refusal(refused, engine) {
    if (refused.index === undefined) return refused;
    const { uri, bytes } = this.#pairs[refused.index];
    this.#rewriting?.restoring.refusal(refused);
    return explain(refused.of(bytes, uri, engine), bytes, uri);
  }

  /** Puts the place of a refusal, which is one in the upgraded document, into words of what the module got. */
  explainUpgraded(refused) {
    if (refused.index !== undefined) explainUpgraded(refused, this.given[refused.index].bytes, this.assumed);
  }

  /** The URI that an entry has for the module. */
  entry(uri) {
    return this.#rewriting === undefined ? uri : this.#rewriting.entry(uri);
  }

  /** The text of an instance with its numbers rewritten: the same one where none is. */
  instance(text) {
    return this.#rewriting === undefined ? text : this.#rewriting.instance(text);
  }

  /** The errors in a `basic` output of an invalid instance, whose text says where its values stand. */
  errors(output, text) {
    const { errors } = parse(output);
    const units = this.#rewriting === undefined ? errors : this.#rewriting.restoring.errors(errors);
    text.expect(units.map((it) => it.instanceLocation));
    return units.map((it) => new ValidationError(it, text, this.#originals.location(it.absoluteKeywordLocation)));
  }

  /** The same errors as a tree: a `detailed` output, parsed. */
  tree(output) {
    const tree = parse(output);
    return this.#rewriting === undefined ? tree : this.#rewriting.restoring.tree(tree);
  }

  /** The absolute location of a keyword, by that in an output. */
  location(uri) {
    return this.#originals.location(this.#rewriting === undefined ? uri : this.#rewriting.restoring.location(uri));
  }

  /** The absolute location of a schema before it was rewritten; undefined for one that the documents didn't have. */
  writtenSchema(uri) {
    return this.#rewriting === undefined ? uri : this.#rewriting.restoring.schema(uri);
  }
}

/** Each document with its URI and its bytes. What is refused here is refused before the module is asked. */
export function pairsOf(documents) {
  const pairs = typeof documents[Symbol.iterator] === "function" ? [...documents] : Object.entries(documents);
  return pairs.map(([uri, document], index) => {
    if (typeof uri !== "string") throw new TypeError("the URI of a document is a string");
    const bytes = bytesOf(uri, document);
    if (!isUriText(uri)) throw new Refused("document", "BadUri", "", index).of(bytes, uri);
    if (bytes.length > LARGEST_TEXT) throw new Refused("input", "InputTooLarge", undefined, index).of(bytes, uri);
    return { uri, bytes };
  });
}

/** A document's bytes, which the caller can't change. */
function bytesOf(uri, document) {
  const text = typeof document === "string" || document instanceof Uint8Array ? textOf(document) : undefined;
  if (text === undefined) throw new TypeError(`the document ${uri} is a JSON text: a string or a Uint8Array`);
  return typeof text === "string" ? encoded(text) : text.slice();
}

/** Whether the module can be asked about a URI: it has no zero byte and no lone surrogate. */
export function isUriText(uri) {
  return isWellFormed(uri) && !uri.includes("\0");
}
