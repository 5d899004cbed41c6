/** The tables of the interface, which `tools/interface` writes from `interface.toml`. */

// interface: tables
/** The formats of the standard, and `merged`: `detailed` with each error once. */
export const FORMATS = Object.freeze(["flag", "basic", "detailed", "verbose", "merged"]);

/** What a call of the module returns. */
export const DONE = 0, INVALID = 1, REFUSED = 3, FAILED = 4;

/** What is refused, by its number, and whether the refusal has a place in it. */
export const SUBJECTS = Object.freeze({
  1: { name: "input", isPlaced: false },
  2: { name: "document", isPlaced: true },
  3: { name: "entry", isPlaced: false },
  4: { name: "instance", isPlaced: true },
  5: { name: "walk", isPlaced: false },
  6: { name: "suite", isPlaced: true },
});

/** Each kind of refusal, by its number. */
export const KINDS = Object.freeze({
  1: "NotJson",
  2: "NotWhole",
  3: "BadUri",
  4: "TooManyDocuments",
  5: "UriTooLong",
  6: "NotASchema",
  7: "BadKeyword",
  8: "BadPattern",
  9: "PatternTooLarge",
  10: "BadId",
  11: "BadAnchor",
  12: "UnknownDialect",
  13: "DuplicateUri",
  14: "DuplicateAnchor",
  15: "TooManyPlaces",
  16: "BadReference",
  17: "Unresolved",
  18: "InputTooLarge",
  19: "TooLarge",
  20: "BadSuite",
});

/** What each kind of refusal means. */
export const MEANINGS = Object.freeze({
  BadAnchor: "an anchor is an ASCII letter or _, then letters, digits, -, _ and .",
  BadId: "$id can't be joined with the base URI, or has a fragment",
  BadKeyword: "the keyword's value has the wrong form",
  BadPattern: "not a regular expression of the Rust crate regex",
  BadReference: "the reference isn't a URI, or its fragment isn't a JSON Pointer",
  BadSuite: "a member of the suite is missing or has the wrong type",
  BadUri: "not an absolute URI, or its fragment can't be used here",
  DuplicateAnchor: "another schema of this resource has the same anchor",
  DuplicateUri: "another schema has the same URI",
  InputTooLarge: "more than 16,777,216 bytes",
  NotASchema: "a schema is an object or a boolean",
  NotJson: "not a JSON text, or nested deeper than 127",
  NotWhole: "a number with a fraction, an exponent or a minus before zero, or beyond 64 bits",
  PatternTooLarge: "the regular expression takes too much memory",
  TooLarge: "more than 512 nested schema applications, or more than 1,000,000 nodes of the result",
  TooManyDocuments: "more than 1,000 schema documents",
  TooManyPlaces: "more than 100,000 schemas",
  UnknownDialect: "$schema isn't https://json-schema.org/draft/2020-12/schema",
  Unresolved: "no schema has this URI; give its document too",
  UriTooLong: "a URI of more than 65,536 bytes",
});

/**
 * What is rewritten for the validator: of each option the name of the argument, and words with their meanings. The
 * first is the default, and the last leaves everything to the validator.
 */
export const REWRITING = Object.freeze({
  patterns: {
    argument: "SYNTAX",
    words: {
      ecma: "patterns are those of ECMA-262, look-around too where it can be rewritten exactly",
      regex: "patterns are those of the validator, the crate regex",
    },
  },
  numbers: {
    argument: "RANGE",
    words: {
      exact: "schemas may have fractions, and 1.0 is the integer 1",
      texts: "the same, and fractions in the annotations of a schema become texts",
      whole: "numbers are those of the validator, whole ones from -2^63 to 2^64 - 1",
    },
  },
});
// interface: end
