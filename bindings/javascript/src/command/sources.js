/** The kinds of texts, and what is read of each. */
import { extname } from "node:path";
import { LARGEST_TEXT } from "../limits.js";
import { Source } from "../sources.js";
import { readComments } from "./jsonc.js";

/** Each kind of texts, with the suffixes of its files. */
export const SUFFIXES = { json: [".json"], jsonc: [".jsonc"], yaml: [".yaml", ".yml"], toml: [".toml"] };
const NAMES = { yaml: "YAML", toml: "TOML" };

/** A text of a kind that this package doesn't read. */
export class NotRead extends Error {
  /** @param {"yaml" | "toml"} kind */
  constructor(kind) {
    super(`${NAMES[kind]} isn't read here: the command of the Python package reads it (--input json takes the JSON ` +
      "files of a folder alone)");
  }
}

/** The kind that the suffix of a file says, or undefined. */
export function suffixKind(path) {
  const suffix = extname(path).toLowerCase();
  return Object.keys(SUFFIXES).find((kind) => SUFFIXES[kind].includes(suffix));
}

/** The source of a text of a kind. One that is too large is left to the validator, which says so. Throws `NotRead`. */
export function sourceOf(data, kind) {
  if (data.length > LARGEST_TEXT || kind === "json") return new Source(data);
  if (kind !== "jsonc") throw new NotRead(kind);
  return new Source(data, readComments(data));
}
