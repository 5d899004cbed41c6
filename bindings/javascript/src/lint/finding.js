/** What is found in a schema. */

/** The validator refuses the document for it; it isn't what the author means; it is good to know. */
export const ERROR = "error", WARNING = "warning", NOTE = "note";

/** Each rule, and what it finds. */
export const RULES = Object.freeze({
  "not-json": "the text isn't JSON, or isn't of its kind",
  refused: "the validator refuses the document, for what no other rule names",
  "unresolved-reference": "a reference leads nowhere",
  pattern: "a pattern isn't one that the validator reads",
  number: "a number has a fraction, an exponent or a minus before zero, or is beyond 64 bits",
  "unknown-keyword": "no dialect knows a keyword",
  "inactive-keyword": "a keyword can't act",
  format: "a format isn't asserted",
  "unused-definition": "nothing refers to a definition",
  "accepts-nothing": "a schema accepts nothing by its own bounds",
});

/**
 * What a rule finds, before its place in the text is looked up: the tokens of the keyword or the value, and whether it
 * is its name that is meant (`isName`); the keyword that is probably meant (`suggestion`); and as `part` from which
 * index of the name, or of the string, to which one it is meant, if that isn't all.
 *
 * @typedef {{ rule: string, severity: string, tokens: readonly string[], isName: boolean, message: string,
 *     suggestion?: string, part?: readonly [number, number] }} Found
 */

/** What is found in a schema, and where. */
export class Finding {
  /**
   * @param {string} rule one of `RULES`
   * @param {string} severity `error`, `warning` or `note`
   * @param {string} message
   * @param {string} place JSON Pointer to the keyword or the value
   * @param {import("../sources.js").Range} range what of the text is meant
   * @param {string} [suggestion] the keyword that is probably meant
   */
  constructor(rule, severity, message, place, range, suggestion = undefined) {
    this.rule = rule;
    this.severity = severity;
    this.message = message;
    this.place = place;
    this.range = range;
    this.suggestion = suggestion;
  }

  get line() {
    return this.range.begin.line;
  }

  get column() {
    return this.range.begin.column;
  }
}
