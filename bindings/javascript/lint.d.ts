import type { Documents, Module, Rewriting } from "./index.js";

/** The rules, and what each finds. */
export type Rule =
  | "not-json" | "refused" | "unresolved-reference" | "pattern" | "number" | "unknown-keyword" | "inactive-keyword"
  | "format" | "unused-definition" | "accepts-nothing";
export const RULES: Readonly<Record<Rule, string>>;

/** The validator refuses the document for it; it isn't what the author means; it is good to know. */
export type Severity = "error" | "warning" | "note";

/** A place in a text: the byte from 0; lines, and characters within the line, from 1. */
export interface BytePosition {
  readonly offset: number;
  readonly line: number;
  readonly column: number;
}

/** What is found in a schema, and where. */
export class Finding {
  private constructor();
  readonly rule: Rule;
  readonly severity: Severity;
  readonly message: string;
  /** JSON Pointer to the keyword or the value. */
  readonly place: string;
  /** What of the text is meant. */
  readonly range: { readonly begin: BytePosition; readonly end: BytePosition };
  /** The keyword that is probably meant. */
  readonly suggestion: string | undefined;
  readonly line: number;
  readonly column: number;
}

/** Documents that are referred to, which aren't looked at; and what is rewritten, which is no error then. */
export interface LintOptions extends Rewriting {
  readonly others?: Documents;
  readonly module?: Module;
}

/** What a schema's author would want to know of a schema document, in the order of the text. */
export function lint(text: string | Uint8Array, uri: string, options?: LintOptions): Promise<Finding[]>;

/** The same of several documents, which may refer to one another. */
export function lintAll(documents: Documents, options?: LintOptions): Promise<Finding[][]>;
