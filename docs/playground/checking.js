/** Checks an instance, and says where each error stands in the texts. */
import { Refused } from "../../bindings/javascript/src/errors.js";
import { STANDARD_LIMITS } from "../../bindings/javascript/src/limits.js";
import { Schemas } from "../../bindings/javascript/src/schemas.js";
import { SchemaTexts, Values, isOfName } from "./places.js";

/** The most errors that are listed and underlined. */
export const MOST_ERRORS = 200;

/** The most nodes of a result that is shown as a tree. */
export const MOST_NODES = 20_000;

// What is checked in the page itself: so many characters, and a result with so many nodes.
const QUICK_CHARACTERS = 10_000, QUICK_NODES = 2000;

// An instance with more characters is asked for its errors only if it has some.
const LARGE_CHARACTERS = 1_000_000;

// A keyword that may have a regular expression. (A name may be written with escapes.)
const MAY_HAVE_PATTERN = /pattern|\\/;

/**
 * The answer to a request whose check takes a few milliseconds at most; undefined for another one, which is left to a
 * worker.
 *
 * @param {import("../../bindings/javascript/src/engine.js").Engine} engine
 */
export async function quickAnswer(engine, request) {
  const texts = request.documents.map(({ text }) => text);
  const length = texts.reduce((sum, { length }) => sum + length, request.instance.length);
  if (length > QUICK_CHARACTERS || texts.some((it) => MAY_HAVE_PATTERN.test(it))) return undefined;
  const checks = new Checks(engine, QUICK_NODES);
  const answer = await checks.answer(request);
  // (What it takes is freed once the answer is shown.)
  setTimeout(() => checks.close());
  const { fault } = answer;
  return fault === undefined || fault.name === "Refused" && fault.kind !== "TooLarge" ? answer : undefined;
}

/** The documents of the last request, read and checked; and read once more when a result is to be shown as a tree. */
export class Checks {
  #engine;
  #nodes;
  #documents;
  #places;
  #schemas;
  #forTrees;
  #texts;
  // The last instance that was judged, with its entry and what was said of it; and whether that was valid.
  #last;
  #wasValid = false;

  /**
   * @param {import("../../bindings/javascript/src/engine.js").Engine} engine
   * @param {number} [nodes] the most nodes of a result
   */
  constructor(engine, nodes = STANDARD_LIMITS.nodes) {
    this.#engine = engine;
    this.#nodes = nodes;
  }

  /**
   * The answer to a request: the verdict, the errors, the time, and what else was wanted. The first one about documents
   * has `places` too, the schemas that can be an entry.
   *
   * @param {{ documents: { uri: string, text: string }[], entry: string, instance: string, wanted: string[] }} request
   *     `wanted` has formats whose outputs are wanted too
   */
  async answer(request) {
    try {
      await this.#read(request.documents);
      const judged = this.#judge(request), outputs = await this.#outputs(request);
      const places = this.#places;
      this.#places = undefined;
      return { ...judged, places, outputs };
    } catch (error) {
      return { verdict: "none", fault: this.#described(error, request) };
    }
  }

  /** Frees what the documents take. */
  close() {
    this.#schemas?.close();
    this.#forTrees?.close();
    this.#documents = this.#schemas = this.#forTrees = this.#last = undefined;
  }

  async #read(documents) {
    if (this.#documents !== undefined && areSame(documents, this.#documents)) return;
    this.close();
    this.#texts = new SchemaTexts(documents, this.#engine);
    this.#schemas = await this.#created(documents, this.#nodes);
    this.#documents = documents;
    this.#places = this.#schemas.places();
  }

  #created(documents, nodes) {
    return Schemas.create(documents.map(({ uri, text }) => [uri, text]), { module: this.#engine, nodes });
  }

  /** The verdict and the errors. They are kept for the next request, which may want more about the same. */
  #judge({ entry, instance }) {
    if (this.#last?.entry !== entry || this.#last.instance !== instance) {
      this.#last = { entry, instance, judged: this.#judged(entry, instance) };
      this.#wasValid = this.#last.judged.verdict === "valid";
    }
    return this.#last.judged;
  }

  /**
   * The same by one check, which gives the errors too. Of a valid instance it gives annotations, which take long; so
   * after a valid instance the verdict of the next one is asked for alone, and so is that of a large one.
   */
  #judged(entry, instance) {
    const begin = performance.now(), { length } = instance;
    const isAlone = length > LARGE_CHARACTERS || this.#wasValid && length > QUICK_CHARACTERS;
    const { valid, output } = isAlone && this.#schemas.isValid(entry, instance) ? { valid: true }
      : this.#schemas.check(entry, instance, "basic");
    const milliseconds = performance.now() - begin;
    if (valid) return { verdict: "valid", milliseconds, errors: [], count: 0 };
    const found = this.#schemas.errorsIn(output, instance), shown = found.slice(0, MOST_ERRORS);
    const values = new Values(instance, this.#engine);
    values.expect(shown.map((it) => it.instanceLocation));
    this.#texts.expect(shown.map((it) => it.upgradedLocation));
    const errors = shown.map((it) => this.#placed(it, values));
    return { verdict: "invalid", milliseconds, errors, count: found.length };
  }

  /** An error with its places in the texts. */
  #placed(error, values) {
    const { message, keyword, instanceLocation, keywordLocation, absoluteKeywordLocation } = error;
    return {
      message, keyword, instanceLocation, keywordLocation, absoluteKeywordLocation,
      inInstance: values.ofValue(instanceLocation, isOfName(keywordLocation)),
      inSchema: this.#texts.find(error.upgradedLocation),
    };
  }

  /** The text of each output that is wanted. */
  async #outputs({ entry, instance, wanted }) {
    const outputs = {};
    if (wanted.length > 0) {
      this.#forTrees ??= await this.#created(this.#documents, Math.min(MOST_NODES, this.#nodes));
    }
    for (const format of wanted) {
      try {
        outputs[format] = this.#forTrees.outputText(entry, instance, format);
      } catch (error) {
        if (!(error instanceof Refused)) throw error;
        outputs[format] = undefined;
      }
    }
    return outputs;
  }

  /** What was thrown, with the place of what is refused. */
  #described(error, { instance }) {
    const { name, message, meaning, subject, kind, place, index } = error;
    const fault = { name, message, meaning, subject, kind };
    if (!(error instanceof Refused)) return fault;
    if (index !== undefined) fault.inSchema = this.#refusedIn(index, error, place);
    if (subject === "instance") fault.inInstance = this.#refusedAt(error, instance);
    return fault;
  }

  #refusedIn(document, error, place) {
    const begin = error.position?.offset ?? 0;
    return this.#texts.inDocument(document, place ?? "") ?? { document, begin, end: begin + 1 };
  }

  /** What to underline of a refused instance: the value, or the character from which on the text is no JSON. */
  #refusedAt({ kind, place, position }, instance) {
    if (kind !== "NotJson") return new Values(instance, this.#engine).ofValue(place ?? "");
    const begin = Math.min(position.offset, Math.max(instance.length - 1, 0));
    return { begin, end: begin + 1 };
  }
}

/** Whether two lists have the same documents. */
function areSame(some, others) {
  return some.length === others.length
    && some.every(({ uri, text }, index) => uri === others[index].uri && text === others[index].text);
}
