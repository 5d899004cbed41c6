/** The arguments of the commands. */
import { Misuse } from "./files.js";
import { BadValue, OPTIONS, optionsOf } from "./options.js";

const COMMANDS = {
  validate: {
    about: "Validates JSON files against a JSON Schema, of draft 2020-12 or an older one.",
    usage: "[--ref [URI=]FILE|FOLDER]... [--format FORMAT] [--input KIND] [--formats] [--lines] [--jobs N] " +
      "[--default-dialect DIALECT | --no-upgrade] [--patterns SYNTAX] [--numbers RANGE] (SCHEMA | --schema SCHEMA) " +
      "INSTANCE...",
    example: "person.schema.json ada.json",
    files: ["INSTANCE", "a file; a folder, for the files in it, at any depth, whose suffix is of a kind (with " +
      "--lines .jsonl and .ndjson); or -, standard input"],
    statuses: "0 all are valid, 1 some are invalid, 2 the arguments are wrong, 3 an input is refused, 4 out of " +
      "memory, or a read or write failed",
  },
  lint: {
    about: "Shows what is wrong with JSON Schemas, and what is probably not meant.",
    usage: "[--ref [URI=]FILE|FOLDER]... [--format FORMAT] [--input KIND] [--patterns SYNTAX] [--numbers RANGE] " +
      "SCHEMA...",
    example: "person.schema.json",
    files: ["SCHEMA", "a file; a folder, for the files in it, at any depth, whose suffix is of a kind; or -, " +
      "standard input"],
    statuses: "0 nothing but notes, 1 a warning, 2 the arguments are wrong, 3 an error: the validator refuses the " +
      "schema, 4 out of memory, or a read or write failed",
  },
};
const ELSEWHERE = "YAML and TOML are read by the command of the Python package.";
const COLUMN = 22, WIDTH = 118;

/** What is asked for: `help`, a text to write; `version`; or a command on files. */
export class Arguments {
  help = undefined;
  version = false;
  /** The file of the schema; undefined for `lint`, whose files all are schemas. */
  schema = undefined;
  refs = [];
  siblings = true;
  format = "text";
  input = undefined;
  verbose = false;
  formats = false;
  lines = false;
  jobs = 1;
  /** The dialect of each schema document that names none; and whether those of older drafts are upgraded. */
  defaultDialect = undefined;
  upgrade = true;
  /** The files that are looked at: instances, or for `lint` schemas. */
  files = [];
  /** Each file that `--schema` named. */
  schemas = [];
  /** The words of the options for what is rewritten, by their names. */
  words = {};

  /** @param {"validate" | "lint"} command */
  constructor(command) {
    this.command = command;
  }

  /** What is rewritten, as options of `Schemas.create`. */
  get rewriting() {
    return optionsOf(this.words);
  }
}

/**
 * Reads the arguments, the first of which is the command. `name` is how that is called without it. Throws `Misuse`,
 * which says what to do.
 */
export function parse(words, name = "npx jschema") {
  const [command, ...rest] = words;
  if (command === "--version") return Object.assign(new Arguments("validate"), { version: true });
  if (command === "-h" || command === "--help") return parseOf("validate", [command], `${name} validate`);
  if (!Object.hasOwn(COMMANDS, command ?? "")) {
    throw wrong("validate", `${name} validate`, command === undefined ? "name the command: validate or lint"
      : `no command '${command}': there are validate and lint`);
  }
  return parseOf(command, rest, `${name} ${command}`);
}

/** Reads the arguments of a command that is called by a name. */
export function parseOf(command, words, name) {
  const given = new Arguments(command);
  try {
    for (let at = 0; at < words.length && !given.version; at++) {
      const word = words[at];
      if (word === "-h" || word === "--help") return Object.assign(given, { help: helpOf(command, name) });
      if (word === "--") {
        given.files.push(...words.slice(at + 1));
        break;
      }
      if (!word.startsWith("-") || word === "-") given.files.push(word);
      else at += take(given, word, words[at + 1]);
    }
    if (!given.version) check(given);
  } catch (error) {
    throw error instanceof BadValue ? wrong(command, name, error.message) : error;
  }
  return given;
}

/** Takes an option, `--name`, `--name VALUE` or `--name=VALUE`. Returns how many words follow the option. */
function take(given, word, next) {
  const [name, ...rest] = word.split("=");
  const option = OPTIONS.find((it) => it.name === name && it.commands.includes(given.command));
  const isJoined = rest.length > 0;
  if (option === undefined || option.argument === undefined && isJoined) {
    throw new BadValue(`unrecognized arguments: ${word}`);
  }
  const value = isJoined ? rest.join("=") : next;
  const isMissing = value === undefined || !isJoined && value.startsWith("-") && value !== "-";
  if (option.argument !== undefined && isMissing) throw new BadValue(`argument ${name}: expected one argument`);
  try {
    option.take(given, value);
  } catch (error) {
    throw error instanceof BadValue ? new BadValue(`argument ${name}: ${error.message}`) : error;
  }
  return option.argument === undefined || isJoined ? 0 : 1;
}

/** The first file is the schema unless one is named. Throws unless there is one, and at least one instance. */
function check(given) {
  const { command, schemas, files, lines, input } = given;
  if (command === "lint") {
    if (files.length === 0) throw new BadValue("the following arguments are required: SCHEMA");
    return;
  }
  if (schemas.length > 1) {
    throw new BadValue(`--schema is given ${schemas.length} times: it names one file, and --ref the others`);
  }
  given.schema = schemas.length === 0 ? files.shift() : schemas[0];
  if (files.length === 0) {
    const missing = given.schema === undefined ? "SCHEMA and INSTANCE" : "INSTANCE";
    throw new BadValue(`the following arguments are required: ${missing}`);
  }
  if (lines && input !== undefined && input !== "json") {
    throw new BadValue(`--lines is for JSON: no line of ${input} is a document`);
  }
  if (given.defaultDialect !== undefined && !given.upgrade) {
    throw new BadValue("--default-dialect says what to upgrade from, and --no-upgrade upgrades nothing");
  }
}

function wrong(command, name, message) {
  const { usage, example } = COMMANDS[command];
  return new Misuse(`${message}\nusage: ${name} ${usage}\nfor example: ${name} ${example}`);
}

function helpOf(command, name) {
  const { about, usage, files: [argument, ofFiles], statuses } = COMMANDS[command];
  const rows = OPTIONS.filter((it) => it.commands.includes(command)).map((it) =>
    [`${it.name}${it.argument === undefined ? "" : ` ${it.argument}`}`, it.help(command)]);
  const lines = [[argument, ofFiles], ["-h, --help", "show this text"], ...rows].flatMap(([begin, text]) =>
    row(begin, text));
  return [`usage: ${name} ${usage}`, "", about, ELSEWHERE, "", ...lines, "",
    ...wrapped(`exit status, the highest that applies: ${statuses}`, 0), ""].join("\n");
}

/** The lines of an argument and its meaning. */
function row(begin, text) {
  const lines = wrapped(text, COLUMN), head = `  ${begin}`;
  if (head.length >= COLUMN) return [head, ...lines];
  return [head.padEnd(COLUMN) + lines[0].slice(COLUMN), ...lines.slice(1)];
}

/** A text in lines, from a column on. */
function wrapped(text, column) {
  const lines = [" ".repeat(column)];
  for (const word of text.split(" ")) {
    const line = lines.at(-1), isBegun = line.length > column;
    if (isBegun && line.length + 1 + word.length > WIDTH) lines.push(" ".repeat(column) + word);
    else lines[lines.length - 1] = isBegun ? `${line} ${word}` : line + word;
  }
  return lines;
}
