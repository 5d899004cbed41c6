/** What a schema's author would want to know of a schema. */
import { Documents, pairsOf } from "../documents.js";
import { load, sharedEngine } from "../engine.js";
import { Refused } from "../errors.js";
import { LARGEST_TEXT } from "../limits.js";
import { pointer } from "../locations.js";
import { explain } from "../meanings.js";
import * as ofPatterns from "../patterns/keywords.js";
import { Document } from "../resources.js";
import { Rewriting } from "../rewriting.js";
import { Schemas } from "../schemas.js";
import { Source } from "../sources.js";
import { upgradeOf } from "../upgrading.js";
import { nothing } from "./bounds.js";
import { ERROR, Finding, NOTE, RULES, WARNING } from "./finding.js";
import { formats, inactive, unknown } from "./keywords.js";
import { outside } from "./numbers.js";
import { partOf } from "./parts.js";
import { unread } from "./patterns.js";
import { Uses, unresolved, unused } from "./references.js";
import { valueOf } from "./values.js";

export { ERROR, Finding, NOTE, RULES, WARNING };

const OF_PATTERNS = ["BadPattern", "PatternTooLarge"];
// So many documents may be refused before each is asked for alone.
const FEW = 4;

/** The text of a schema, and the schemas in it. */
export class SchemaText {
  /** @param {string} uri @param {Source} source @param {Document} document */
  constructor(uri, source, document) {
    this.uri = uri;
    this.source = source;
    this.document = document;
  }
}

/** A schema that was read; undefined if its text isn't JSON, or is too large. */
export function schemaText(uri, source) {
  if (source.json.length > LARGEST_TEXT) return undefined;
  try {
    return new SchemaText(uri, source, new Document(uri, valueOf(source.text)));
  } catch (error) {
    // (The last is for schemas that nest too deep: the stack is exceeded.)
    if ([SyntaxError, TypeError, RangeError].some((it) => error instanceof it)) return undefined;
    throw error;
  }
}

/**
 * What is found in a schema document, in the order of the text.
 *
 * `others` are documents that it refers to, which aren't looked at. `patterns` and `numbers` are as for
 * `Schemas.create`: what is rewritten is no error.
 *
 * @param {string | Uint8Array} text @param {string} uri
 * @param {{ others?: import("../index.js").Documents, patterns?: "ecma", numbers?: "exact" | "texts",
 *     module?: unknown }} [options]
 * @returns {Promise<Finding[]>}
 */
export async function lint(text, uri, options = {}) {
  const [found] = await lintAll([[uri, text]], options);
  return found;
}

/**
 * The same of several documents, which may refer to one another.
 *
 * @param {import("../index.js").Documents} documents
 * @returns {Promise<Finding[][]>}
 */
export async function lintAll(documents, { others = {}, module, ...options } = {}) {
  const engine = await (module === undefined ? sharedEngine() : load(module));
  const sources = pairsOf(documents).map(({ uri, bytes }) => ({ uri, source: new Source(bytes) }));
  const texts = sources.map(({ uri, source }) => schemaText(uri, source));
  const beside = pairsOf(others).map(({ uri, bytes }) => schemaText(uri, new Source(bytes)));
  const isRead = (it) => it !== undefined;
  const found = new Lint(engine, options).findings(texts.filter(isRead), beside.filter(isRead)).values();
  return texts.map((it, index) => isRead(it) ? found.next().value : [broken(sources[index].source, engine)]);
}

/** That a text isn't JSON, and where; or that it is too large to be read. */
export function broken(source, engine) {
  let refused = new Refused("input", "InputTooLarge");
  if (source.json.length <= LARGEST_TEXT) {
    refused = new Refused("document", "NotJson", "");
    explain(refused, source.json, "");
  }
  return new Finding("not-json", ERROR, refused.meaning, "", source.positions(engine).refusal(refused));
}

/** Looks at schemas, with an engine that judges and finds places. */
export class Lint {
  #engine;
  #options;

  /**
   * @param {import("../engine.js").Engine} engine
   * @param {{ patterns?: "ecma", numbers?: "exact" | "texts" }} [options]
   */
  constructor(engine, { patterns, numbers } = {}) {
    this.#engine = engine;
    this.#options = { patterns, numbers };
    // (Throws for what isn't one of the options, also where there is nothing to look at.)
    this.#rewriting(this.#options);
  }

  /**
   * What is found in each of these schemas, in the order of its text. They may refer to one another, and to those
   * beside them, which aren't looked at.
   *
   * @param {readonly SchemaText[]} given @param {readonly SchemaText[]} [beside]
   * @returns {Finding[][]}
   */
  findings(given, beside = []) {
    const all = [...given, ...beside];
    const refusals = given.length > 0 ? this.#refusals(all) : new Map();
    const uses = new Uses(all.map((it) => it.document));
    return given.map((it) => this.#findingsIn(it, uses, refusals.get(it)));
  }

  /** The refusal of documents, if the validator refuses them. */
  #judged(documents, options = {}) {
    try {
      const pairs = pairsOf(documents);
      new Schemas(this.#engine, new Documents(pairs, upgradeOf({}, pairs), this.#rewriting(options))).close();
      return undefined;
    } catch (error) {
      if (error instanceof Refused) return error;
      throw error;
    }
  }

  #rewriting({ patterns, numbers }) {
    if (patterns === undefined && numbers === undefined) return undefined;
    return new Rewriting({ patterns, numbers }, ofPatterns);
  }

  /**
   * The first refusal of each document that the validator refuses. It names one document, so it is asked again without
   * that. Where more than a few are refused each is asked for alone, since each question takes all of them.
   */
  #refusals(all) {
    const refusals = new Map();
    for (let left = all; left.length > 0; left = left.filter((it) => !refusals.has(it))) {
      const refused = this.#judged(left.map(({ uri, source }) => [uri, source.json]), this.#options);
      if (refused === undefined) break;
      refusals.set(left[refused.index ?? 0], refused);
      // (What is refused for want of another document has its own rule, which looks at all of them.)
      for (const it of refusals.size === FEW ? left.filter((it) => !refusals.has(it)) : []) {
        const alone = this.#judged([[it.uri, it.source.json]], this.#options);
        if (alone !== undefined) refusals.set(it, alone);
      }
    }
    return refusals;
  }

  /** What the rules find, in the order of the text. */
  #findingsIn(given, uses, refused) {
    const found = [...this.#found(given, uses, refused !== undefined)];
    const positions = given.source.positions(this.#engine);
    positions.expect(found.map((it) => pointer(it.tokens)));
    const findings = found.map((it) => findingOf(given, it, positions));
    if (refused !== undefined && !isKnown(refused, found)) {
      const { meaning, kind, place = "" } = refused;
      findings.push(new Finding("refused", ERROR, `${meaning} (${kind})`, place, positions.refusal(refused)));
    }
    return findings.sort((one, other) => one.range.begin.offset - other.range.begin.offset);
  }

  *#found(given, uses, isRefused) {
    const { document } = given;
    yield* unknown(document);
    yield* inactive(document);
    yield* formats(document);
    yield* unused(document, uses);
    yield* nothing(document);
    if (!isRefused) return;
    // (What the validator accepts has none of these.)
    const { patterns, numbers } = this.#options;
    yield* unresolved(document, uses);
    yield* unread(document, patterns !== undefined, (schema) =>
      this.#judged([["https://a.example/patterns", JSON.stringify(schema)]]));
    yield* outside(given, numbers);
  }
}

/**
 * Whether a rule has found what the validator refuses. (References to a document that is itself refused lead
 * somewhere.)
 */
function isKnown(refused, found) {
  // (What a name became may be refused at another keyword.)
  if (OF_PATTERNS.includes(refused.kind)) return found.some((it) => it.rule === "pattern");
  return refused.kind === "Unresolved"
    || found.some((it) => it.severity === ERROR && pointer(it.tokens) === refused.place);
}

function findingOf({ source }, { rule, severity, tokens, isName, message, suggestion, part }, positions) {
  const place = pointer(tokens), whole = isName ? positions.name(place) : positions.value(place);
  const range = part === undefined ? whole : partOf(source, positions, whole, part);
  return new Finding(rule, severity, message, place, range, suggestion);
}
