/** The options of the commands: what each is for, and how it is taken. */
import { DRAFTS, dialectCalled } from "../dialects.js";
import { FORMATS, REWRITING } from "../interface.js";
import { CHOICES } from "./reports.js";
import { SUFFIXES } from "./sources.js";

const BOTH = ["validate", "lint"], VALIDATE = ["validate"];
const SHOWN = "text (the default): each problem with its line. short: a line for each. json: an array with an object " +
  "for each file. github: annotations in GitHub Actions. html: a page. sarif, junit: for code scanning and tests";

/** What is wrong with the value of an option. */
export class BadValue extends Error {}

/**
 * An option: its `name`, and that of its `argument` if it has one; the commands that have it; its `help`, by the
 * command; and `take`, which puts it into what is asked for, with its value.
 *
 * @typedef {{ name: string, argument?: string, commands: readonly string[], help: (command: string) => string,
 *     take: (given: import("./arguments.js").Arguments, value: string | undefined) => void }} Option
 */

/** @type {readonly Option[]} */
export const OPTIONS = Object.freeze([
  { name: "--schema", argument: "SCHEMA", commands: VALIDATE, take: (given, value) => given.schemas.push(value),
    help: () => "the file of the schema (default: the first file); its URI is its $id if that is absolute, else its " +
      "file's URL" },
  { name: "--ref", argument: "[URI=]FILE|FOLDER", commands: BOTH, take: (given, value) => given.refs.push(value),
    help: () => "a schema document that is referred to, with the URI to register it under (default: as for the " +
      "schema); or a folder, of which those are taken that are referred to. Repeat it for each" },
  flag("--ref-siblings", BOTH, { siblings: true },
    "look up the document of a relative reference beside the file that refers to it (the default)"),
  flag("--no-ref-siblings", BOTH, { siblings: false }, "don't look it up there"),
  { name: "--format", argument: "FORMAT", commands: BOTH,
    take: (given, value) => { given.format = chosen(value, CHOICES[given.command]); },
    help: (command) => command === "lint" ? SHOWN
      : `${SHOWN}. ${FORMATS.join(", ")}: the validator's output, a line for each instance` },
  { name: "--input", argument: "KIND", commands: BOTH,
    take: (given, value) => { given.input = chosen(value, Object.keys(SUFFIXES)); },
    help: () => "what the files are: json, or jsonc, JSON with comments (default: what the suffix says, else json)" },
  ...Object.keys(REWRITING).map(rewriting),
  flag("--formats", VALIDATE, { formats: true },
    "warn of values of a valid instance that break a `format`; the verdict stays"),
  flag("--lines", VALIDATE, { lines: true }, "each line of a file is an instance; empty lines don't count"),
  { name: "--default-dialect", argument: "DIALECT", commands: VALIDATE,
    take: (given, value) => { given.defaultDialect = dialectAt(value); },
    help: () => `the dialect of each schema document that names none: ${DRAFTS.slice(0, -1).join(", ")} or ` +
      `${DRAFTS.at(-1)} (the default), or the URI of one` },
  flag("--no-upgrade", VALIDATE, { upgrade: false }, `refuse schemas of older drafts, from ${DRAFTS[0]} to ` +
    `${DRAFTS.at(-2)}, which are upgraded to ${DRAFTS.at(-1)} otherwise`),
  { name: "--jobs", argument: "N", commands: VALIDATE, take: (given, value) => { given.jobs = jobsOf(value); },
    help: () => "taken as by the command of the Python package; the checks run one after another" },
  flag("--verbose", BOTH, { verbose: true }, "list the documents that were found for references"),
  flag("--version", BOTH, { version: true }, "show the versions of the package and of the module that checks"),
]);

/** An option without a value. */
function flag(name, commands, set, help) {
  return { name, commands, take: (given) => Object.assign(given, set), help: () => help };
}

/** An option of what is rewritten. */
function rewriting(name) {
  const { argument, words } = REWRITING[name];
  const [first, ...others] = Object.entries(words).map(([word, meaning]) => `${word}: ${meaning}`);
  return { name: `--${name}`, argument, commands: BOTH,
    take: (given, value) => { given.words[name] = chosen(value, Object.keys(words)); },
    help: () => [`${first} (the default)`, ...others].join("; ") };
}

function chosen(value, choices) {
  if (choices.includes(value)) return value;
  throw new BadValue(`invalid choice: '${value}' (choose from ${choices.map((it) => `'${it}'`).join(", ")})`);
}

function dialectAt(value) {
  try {
    dialectCalled(value);
  } catch (error) {
    throw new BadValue(error.message);
  }
  return value;
}

function jobsOf(value) {
  if (/^[0-9]+$/.test(value) && Number(value) >= 1 && Number(value) <= 256) return Number(value);
  throw new BadValue(`'${value}' isn't a number from 1 to 256`);
}

/** What words of `REWRITING` ask for, by the names of the options. Each has its default where there is none. */
export function optionsOf(words) {
  const asked = (name) => {
    const known = Object.keys(REWRITING[name].words);
    const word = words[name] ?? known[0];
    return word === known.at(-1) ? undefined : word;
  };
  return { patterns: asked("patterns"), numbers: asked("numbers") };
}
