/** A validator for JSON Schema 2020-12. */

declare global {
  interface SymbolConstructor {
    readonly dispose: unique symbol;
  }
}

/** The formats of the standard, and `merged`: `detailed` with each error once. */
export type Format = "flag" | "basic" | "detailed" | "verbose" | "merged";
export const FORMATS: readonly Format[];

/** A value of JSON. Integers beyond 2^53 are bigints. */
export type Value = null | boolean | number | bigint | string | readonly Value[] | { readonly [name: string]: Value };

/** A JSON text (a string or its bytes in UTF-8), or a value that isn't a string. */
export type Instance = string | Uint8Array | Exclude<Value, string>;

/** The text of each document, by its absolute URI. */
export type Documents =
  | Readonly<Record<string, string | Uint8Array>>
  | Iterable<readonly [string, string | Uint8Array]>;

/** The WebAssembly module, where it isn't the package's own file. */
export type Module = Source | PromiseLike<Source>;
type Source = WebAssembly.Module | BufferSource | Response;

/** Limits on a result. What needs more is refused (`TooLarge`). */
export interface Limits {
  /** How many schema applications may be nested, the entry's included: 1 to 512. Fewer take less stack. */
  readonly applications?: number;
  /** How many nodes a result may have: 0 to 1,000,000. Fewer take less memory and time. */
  readonly nodes?: number;
}

/** The name of a dialect, or its URI. */
export type Dialect = "draft-03" | "draft-04" | "draft-06" | "draft-07" | "2019-09" | "2020-12" | `http${string}`;

/** What becomes of documents of older drafts. */
export interface Upgrading {
  /** The dialect of each document that names none: 2020-12 without it. */
  readonly defaultDialect?: Dialect;
  /** Whether documents of draft-03 to 2019-09 are upgraded to 2020-12 (`true` without it), or refused. */
  readonly upgrade?: boolean;
}

/** The text of each document, upgraded to 2020-12, by its URI: they are upgraded together. Throws `Refused`. */
export function upgrade(
  documents: Documents, options?: { defaultDialect?: Dialect; module?: Module },
): Promise<Record<string, string>>;

/** What is rewritten before the validator gets it. That it says the same then is tested, and not proved. */
export interface Rewriting {
  /** With `ecma` patterns are those of ECMA-262, look-around too where it can be rewritten exactly. */
  readonly patterns?: "ecma";
  /** With `exact` schemas may have fractions, and `1.0` is the integer 1; with `texts` also those in annotations. */
  readonly numbers?: "exact" | "texts";
}

/** A place in a text: an index into the string; lines, and characters within the line, from 1. */
export interface Position {
  readonly offset: number;
  readonly line: number;
  readonly column: number;
}

/** A unit of an output. */
export interface Output {
  readonly valid: boolean;
  readonly keywordLocation?: string;
  readonly absoluteKeywordLocation?: string;
  readonly instanceLocation?: string;
  readonly error?: string;
  readonly annotation?: unknown;
  readonly errors?: readonly Output[];
  readonly annotations?: readonly Output[];
}

/** The verdict of a check, and the output: a JSON text with a line feed at its end. */
export interface Answer {
  readonly valid: boolean;
  readonly output: string;
}

/**
 * Schema documents that were read and checked, for as many instances as you like.
 *
 * Each call throws `Refused` for an input that has no verdict, `OutOfMemory`, `Stopped` if the module stopped in the
 * middle of it, and `TypeError` for a value that JSON doesn't have. After each of them the schemas can be used again.
 */
export class Schemas {
  private constructor();
  /** Reads and checks documents. Throws `RangeError` for limits and dialects that there can't be. */
  static create(documents: Documents, options?: { module?: Module } & Limits & Upgrading & Rewriting): Promise<Schemas>;
  /** The absolute location of every schema: what can be an entry, or be referred to. */
  places(): string[];
  /** Whether an instance is valid. This is the quickest call. */
  isValid(entry: string, instance: Instance): boolean;
  /** The errors of the `basic` output, in its order; none for a valid instance. */
  errors(entry: string, instance: Instance): ValidationError[];
  /** The errors that the `basic` output of an invalid instance has, in its order: where `check` has given that. */
  errorsIn(output: string, instance: Instance): ValidationError[];
  /** The output in a format (`basic` without one), parsed. */
  output(entry: string, instance: Instance, format?: Format): Output;
  /** The output as it was written. */
  outputText(entry: string, instance: Instance, format?: Format): string;
  /** The verdict and the output, by one check. */
  check(entry: string, instance: Instance, format?: Format): Answer;
  /** The errors as a tree: the `detailed` output, with the keywords of the documents where they were rewritten. */
  tree(entry: string, instance: Instance): Output;
  /** An absolute location of an output in the documents, which may have been rewritten, or upgraded. */
  originalLocation(absoluteKeywordLocation: string): string;
  /** That of a schema as it was before it was rewritten; undefined for one that the documents didn't have. */
  writtenSchema(absoluteKeywordLocation: string): string | undefined;
  /** Where the values of an instance stand in its text. */
  positions(instance: Instance): Text;
  /** Frees what the schemas hold. Afterwards only `close` may be called. */
  close(): void;
  [Symbol.dispose](): void;
}

/** One error of an instance: a unit of the `basic` output. */
export class ValidationError implements Position {
  private constructor();
  readonly message: string;
  /** JSON Pointer to the value that was validated. */
  readonly instanceLocation: string;
  /** JSON Pointer through the schemas, with references followed. */
  readonly keywordLocation: string;
  /** URI of the keyword, with a JSON Pointer as its fragment: in the document that was passed in. */
  readonly absoluteKeywordLocation: string;
  /** The same in the document that was validated with: of an older draft, the upgraded one. */
  readonly upgradedLocation: string;
  /** The keyword that isn't met; `false` for a schema `false` in a list or an object of schemas. */
  readonly keyword: string;
  /** Whether a member's name is wrong, and not its value: the error is of `propertyNames`. */
  readonly isAboutName: boolean;
  /** Where the value begins; for errors of `propertyNames`, where the member's name begins. */
  readonly position: Position;
  readonly offset: number;
  readonly line: number;
  readonly column: number;
  /** The instance location as names of members and indices. */
  readonly path: (string | number)[];
  toString(): string;
}

/** An input that has no verdict: it isn't JSON, has a number that isn't taken, or is a malformed schema. */
export class Refused extends Error {
  private constructor();
  readonly subject: "document" | "entry" | "instance" | "walk" | "input";
  /** The name of the refusal, such as `NotWhole`. */
  readonly kind: string;
  /** JSON Pointer into the document or the instance. */
  readonly place: string | undefined;
  /** The number of the document, in the order they were given, from 0. */
  readonly index: number | undefined;
  /** The URI that the document is registered under. */
  readonly document: string | undefined;
  /** What the kind means, for people. */
  readonly meaning: string;
  /** Whether the place is one in the upgraded document, and nothing in its text is it. */
  readonly isUpgraded: boolean;
  /** Where in the text; undefined for an entry, and for a place in an upgraded document. */
  readonly position: Position | undefined;
  readonly line: number | undefined;
  readonly column: number | undefined;
}

/** The memory can't grow any more. The schemas can still be used. */
export class OutOfMemory extends Error {
  private constructor();
}

/** The module stopped in the middle of a call, or a worker was ended at its time limit. */
export class Stopped extends Error {
  private constructor();
}

/** A JSON text, and where its values stand. Throws `RangeError` for a JSON Pointer to nothing. */
export class Text {
  private constructor();
  readonly string: string;
  /** Where the value at a JSON Pointer begins. */
  value(pointer: string): Position;
  /** Where the name of the member at a JSON Pointer begins; of an item, or the root, the value. */
  name(pointer: string): Position;
  /** Where the value at a JSON Pointer begins and ends, as indices into the string. */
  range(pointer: string): { readonly offset: number; readonly end: number };
  /** The same of the member's name; of an item, or the root, of the value. */
  nameRange(pointer: string): { readonly offset: number; readonly end: number };
  /** A JSON Pointer as names of members and indices. */
  path(pointer: string): (string | number)[];
  /** The line and column of an index into the string. */
  at(offset: number): Position;
}

/** The JSON text of an instance. */
export function textOf(instance: Instance): string | Uint8Array;

/** An error as ajv describes it. */
export interface AjvError {
  readonly instancePath: string;
  readonly schemaPath: string;
  readonly keyword: string;
  readonly message: string;
}

/** Says whether a value (a string is a string here) is valid, and leaves the errors. */
export interface Validate {
  (data: Value): boolean;
  errors: AjvError[] | null;
  readonly schema: boolean | object;
  readonly schemas: Schemas;
}

/** ajv's word: a function for a schema, with other documents by their URIs. */
export function compile(
  schema: boolean | object,
  options?: { schemas?: Readonly<Record<string, boolean | object>>; module?: Module } & Upgrading & Rewriting,
): Promise<Validate>;
