/** The result of each file or instance: its status, and the problems that are reported. */
import { OutOfMemory, Refused, Stopped } from "../errors.js";
import { broken } from "../formats.js";
import { steps } from "../locations.js";
import { NotRegular } from "./files.js";
import { START, WHOLE } from "../sources.js";
import { NotRead } from "./sources.js";
import { reason } from "./writing.js";

/** The exit statuses, as the program `jschema` has them. */
export const STATUS = Object.freeze({ VALID: 0, INVALID: 1, MISUSE: 2, REFUSED: 3, FAILED: 4 });

/** The kinds of problems. */
export const ERROR = "error", WARNING = "warning", NOTE = "note", REFUSED = "refused", FAILED = "failed";

/**
 * A problem in a file: of a `kind`; its `rule` is the keyword, the rule of lint, or the name of the refusal; `range` is
 * what of the file is meant, with lines counted in the file; `pointer` leads to the value; `keywordUri` and
 * `keywordPlace` say where the keyword is, by its URI and in a file; `error` and `refused` are what the package has of
 * it; `suggestion` is the keyword that is probably meant.
 *
 * @typedef {{ kind: string, rule: string, message: string, range: import("../sources.js").Range, pointer: string,
 *     keywordUri?: string, keywordPlace?: { file: string, position: import("../sources.js").Position },
 *     error?: ValidationError, refused?: Refused, suggestion?: string }} Problem
 */

/** Checks instances against the schema that `entry` names. */
export class Checker {
  #schemas;
  #entry;
  #engine;
  #places;
  #output;
  #tree;
  #formats;

  /**
   * `engine` says where values stand in instances, and `places` where keywords do in schemas; `output` is the format of
   * the validator's output, where the report writes that, `tree` whether it shows the tree of the errors, and `formats`
   * whether warnings of broken formats are wanted.
   */
  constructor({ schemas, entry, engine, places, output, tree, formats }) {
    this.#schemas = schemas;
    this.#entry = entry;
    this.#engine = engine;
    this.#places = places;
    this.#output = output;
    this.#tree = tree;
    this.#formats = formats;
  }

  /** What comes of an instance. */
  result(input) {
    if (input.fault !== undefined) return failure(input, messageOf(input.fault));
    try {
      return this.#judged(input);
    } catch (error) {
      if (error instanceof Refused) return refusal(input, error, this.#engine);
      if (error instanceof OutOfMemory || error instanceof Stopped) return failure(input, messageOf(error));
      throw error;
    }
  }

  /** The result of an instance that has a verdict. */
  #judged(input) {
    const { json } = input.source;
    // (Most instances end without an output.)
    const { valid, output } = this.#output === undefined ? { valid: this.#schemas.isValid(this.#entry, json) }
      : this.#schemas.check(this.#entry, json, this.#output);
    if (valid) return { input, status: STATUS.VALID, problems: this.#formats ? this.#warnings(input) : [], output };
    if (output !== undefined) return { input, status: STATUS.INVALID, problems: [], output };
    const tree = this.#tree ? this.#schemas.tree(this.#entry, json) : undefined;
    return { input, status: STATUS.INVALID, problems: this.#errors(input), tree };
  }

  /** The formats that the values of a valid instance break. */
  #warnings(input) {
    const found = broken(this.#schemas.output(this.#entry, input.source.json, "basic"), input.source.value);
    const positions = input.source.positions(this.#engine);
    positions.expect(found.map((it) => it.instanceLocation));
    const uris = found.map((it) => this.#schemas.originalLocation(it.absoluteKeywordLocation));
    this.#places.expect(uris);
    return found.map(({ message, instanceLocation: pointer }, index) =>
      ({ kind: WARNING, rule: "format", message, range: inFile(input, positions.value(pointer)), pointer,
        keywordUri: uris[index], keywordPlace: this.#places.find(uris[index]) }));
  }

  /** The errors of an invalid instance, those deepest in it first: they say most precisely what to change. */
  #errors(input) {
    const errors = this.#schemas.errors(this.#entry, input.source.json);
    input.source.positions(this.#engine).expect(errors.map((it) => it.instanceLocation));
    this.#places.expect(errors.map((it) => it.absoluteKeywordLocation));
    return errors
      .map((error) => ({ error, depth: steps(error.instanceLocation).length }))
      .sort((a, b) => b.depth - a.depth)
      .map(({ error }) => this.#problem(input, error));
  }

  #problem(input, error) {
    const { message, instanceLocation: pointer, absoluteKeywordLocation: keywordUri } = error;
    const positions = input.source.positions(this.#engine);
    const where = error.isAboutName ? positions.name(pointer) : positions.value(pointer);
    return { kind: ERROR, rule: error.keyword, message, range: inFile(input, where), pointer, keywordUri,
      keywordPlace: this.#places.find(keywordUri), error };
  }
}

/** The result of what is refused. */
export function refusal(input, refused, engine) {
  const message = `${refused.meaning}${refused.isUpgraded ? ", in the upgraded document" : ""}`;
  const problem = { kind: REFUSED, rule: refused.kind, message, pointer: refused.place ?? "", refused,
    range: inFile(input, input.source.positions(engine).refusal(refused)) };
  return { input, status: STATUS.REFUSED, problems: [problem] };
}

/** The result of what failed. */
export function failure(input, message) {
  const start = { ...START, line: input.line };
  const range = input.line > 1 ? { begin: start, end: start } : WHOLE;
  return { input, status: STATUS.FAILED, problems: [{ kind: FAILED, rule: FAILED, message, range, pointer: "" }] };
}

/** What was thrown says, in one line. What the package doesn't throw itself is named. */
export function messageOf(error) {
  if (error?.syscall !== undefined) return reason(error);
  const text = String(error?.message ?? error).split(/\s+/).filter(Boolean).join(" ");
  const isOurs = [OutOfMemory, Stopped, NotRead, NotRegular].some((it) => error instanceof it);
  return error instanceof Error && !isOurs ? `${error.name}: ${text}` : text;
}

/** A part of an instance as a part of its file: of a line, which is a text of its own. */
function inFile({ line }, { begin, end }) {
  const moved = (position) => ({ ...position, line: position.line + line - 1 });
  return { begin: moved(begin), end: moved(end) };
}
