/** Schema documents, and what can be asked of them. */
import { Documents, isUriText } from "./documents.js";
import { FORMATS, load, sharedEngine } from "./engine.js";
import { Refused } from "./errors.js";
import { STANDARD_LIMITS, limitsOf } from "./limits.js";
import { explain } from "./meanings.js";
import { parse } from "./outputs.js";
import { Text } from "./positions.js";
import { uriOf } from "./upgrading.js";
import { textOf } from "./values.js";

/** Frees the handles of schemas that were forgotten. */
const forgotten = new FinalizationRegistry(({ instance, handle }) => {
  try {
    instance.free(handle);
  } catch {
    // The instance has stopped: its memory goes as a whole.
  }
});

/**
 * Schema documents that were read and checked, for as many instances as you like.
 *
 * Documents refer to one another by the URIs that they are registered under, or by their `$id`. Nothing is fetched. An
 * `entry` is the URI of the schema to apply: a document's, an `$id`, or one of these with a fragment.
 */
export class Schemas {
  #engine;
  /** @type {Documents | undefined} */
  #documents;
  #limits;
  #instance;
  #handle;
  #entries;

  /** Use `Schemas.create`. */
  constructor(engine, documents, limits = STANDARD_LIMITS) {
    this.#engine = engine;
    this.#documents = documents;
    this.#limits = limits;
    this.#begin();
  }

  /**
   * Reads and checks documents.
   *
   * @param {Record<string, string | Uint8Array> | Iterable<[string, string | Uint8Array]>} documents the text of each,
   *     by its absolute URI
   * @param {{ module?: unknown, applications?: number, nodes?: number, defaultDialect?: string, upgrade?: boolean,
   *     patterns?: "ecma", numbers?: "exact" | "texts" }} [options] the WebAssembly module, where it isn't the
   *     package's own file; how many schema applications may be nested, and how many nodes a result may have; the
   *     dialect of documents that name none; whether documents of older drafts are upgraded; and what is rewritten:
   *     with `ecma` patterns are those of ECMA-262, look-around too where it can be rewritten exactly, with `exact`
   *     schemas may have fractions, and `1.0` is the integer 1 (with `texts` fractions in annotations become texts)
   */
  static async create(documents, options = {}) {
    const limits = limitsOf(options);
    const engine = await (options.module === undefined ? sharedEngine() : load(options.module));
    return new Schemas(engine, await Documents.create(documents, options), limits);
  }

  /** The absolute location of every schema: what can be an entry, or be referred to. */
  places() {
    const handle = this.#open();
    return this.#instance.places(handle).map((it) => this.writtenSchema(it)).filter((it) => it !== undefined);
  }

  /** Whether an instance is valid. No output is made, so this is the quickest call. */
  isValid(entry, instance) {
    return this.#asked(entry, this.#textOf(instance), (handle, text) =>
      this.#instance.verdict(handle, this.#number(entry), text, "flag"));
  }

  /** The errors of the `basic` output, in its order; none for a valid instance. */
  errors(entry, instance) {
    const text = this.#textOf(instance);
    const { valid, output } = this.check(entry, text, "basic");
    return valid ? [] : this.errorsIn(output, text);
  }

  /** The errors that the `basic` output of an invalid instance has, in its order. */
  errorsIn(output, instance) {
    return this.#opened.errors(output, this.positions(instance));
  }

  /**
   * An absolute location of an output in the documents that were passed in. It is another one where these were
   * rewritten, or upgraded from an older draft; where nothing in them becomes the keyword, it stays.
   */
  originalLocation(absoluteKeywordLocation) {
    return this.#opened.location(absoluteKeywordLocation);
  }

  /**
   * The absolute location of a schema in an output as it was before it was rewritten, which is another one below
   * `patternProperties`. Undefined for a schema that the documents didn't have: a pattern became it.
   */
  writtenSchema(absoluteKeywordLocation) {
    return this.#opened.writtenSchema(absoluteKeywordLocation);
  }

  /** The errors of an instance as a tree: its `detailed` output, parsed, with the keywords of the documents. */
  tree(entry, instance) {
    return this.#opened.tree(this.outputText(entry, instance, "detailed"));
  }

  /** Where the values of an instance stand in its text. */
  positions(instance) {
    return new Text(this.#textOf(instance), this.#engine);
  }

  /** The output in a format, parsed. An integer beyond 2^53 in it is a bigint. */
  output(entry, instance, format = "basic") {
    return parse(this.outputText(entry, instance, format));
  }

  /** The output in a format as it was written: a JSON text with a line feed at its end. */
  outputText(entry, instance, format = "basic") {
    return this.check(entry, instance, format).output;
  }

  /** The verdict and the output in a format, by one check. */
  check(entry, instance, format = "basic") {
    if (!FORMATS.includes(format)) throw new RangeError(`no format ${format}: it is one of ${FORMATS.join(", ")}`);
    return this.#asked(entry, this.#textOf(instance), (handle, text) =>
      this.#instance.check(handle, this.#number(entry), text, format));
  }

  /** Frees what the schemas hold. Afterwards only `close` may be called. */
  close() {
    if (this.#documents === undefined) return;
    this.#documents = undefined;
    this.#release();
  }

  #release() {
    forgotten.unregister(this);
    this.#instance.free(this.#handle);
  }

  /** Puts the documents into the instance that is in use. */
  #begin() {
    const instance = this.#instance = this.#engine.instance;
    const handle = this.#handle = instance.newHandle();
    this.#entries = new Map();
    forgotten.register(this, { instance, handle }, this);
    let isUpgraded = false;
    try {
      instance.limit(handle, this.#limits);
      for (const { uri, bytes } of this.#documents.given) instance.add(handle, uri, bytes);
      if (this.#documents.assumed !== undefined) {
        instance.upgrade(handle, uriOf(this.#documents.assumed));
        isUpgraded = true;
      }
      instance.finish(handle);
    } catch (error) {
      this.#release();
      if (!(error instanceof Refused)) throw error;
      if (isUpgraded) this.#documents.explainUpgraded(error);
      throw this.#documents.refusal(error, this.#engine);
    }
  }

  /** The documents, until they are closed. */
  get #opened() {
    if (this.#documents === undefined) throw new TypeError("these Schemas are closed");
    return this.#documents;
  }

  /** The handle, in an instance that hasn't stopped. */
  #open() {
    if (this.#opened && this.#instance.hasStopped) {
      forgotten.unregister(this);
      this.#begin();
    }
    return this.#handle;
  }

  /** What the module returns about an instance. */
  #asked(entry, text, ask) {
    const handle = this.#open();
    try {
      return ask(handle, text);
    } catch (error) {
      if (!(error instanceof Refused)) throw error;
      return this.#askedAgain(error, entry, text, (given) => ask(handle, given));
    }
  }

  /** What it returns about one that was refused, with its numbers rewritten: then it may not be. */
  #askedAgain(refused, entry, text, ask) {
    const rewritten = this.#documents.instance(text);
    let last = refused;
    try {
      if (rewritten !== text) return ask(rewritten);
    } catch (error) {
      if (!(error instanceof Refused)) throw error;
      last = error;
    }
    const about = last.subject === "entry" ? last : last.of(text, undefined, this.#engine);
    throw explain(about, text, entry, this.#limits);
  }

  #textOf(instance) {
    return textOf(instance, this.#documents?.hasExactNumbers);
  }

  #number(entry) {
    let number = this.#entries.get(entry);
    if (number === undefined) {
      if (!isUriText(entry)) throw new Refused("entry", "BadUri");
      number = this.#instance.entry(this.#handle, this.#documents.entry(entry));
      this.#entries.set(entry, number);
    }
    return number;
  }
}

// (Node has it from 18.18 on; not yet every browser.)
if (Symbol.dispose !== undefined) {
  Object.defineProperty(Schemas.prototype, Symbol.dispose, { value: Schemas.prototype.close });
}
