/** The command that shows what is wrong with schemas, and what is probably not meant. */
import { LATEST } from "../dialects.js";
import { sharedEngine } from "../engine.js";
import { ERROR, Finding, Lint, NOTE, broken, schemaText } from "../lint/index.js";
import { referred } from "./documents.js";
import { STDIN, filesOf } from "./files.js";
import { inputs } from "./inputs.js";
import { SchemaFile } from "./lookup.js";
import { reportFor } from "./reports.js";
import { STATUS, failure, messageOf } from "./results.js";
import { Progress } from "./terminal.js";
import { reported } from "./validating.js";

/** Reports what is found in schemas. Returns the exit status. */
export async function lint(given) {
  const files = filesOf(given.files, given.input, false, "a SCHEMA");
  const report = reportFor(given.format, "lint");
  const engine = await sharedEngine();
  const results = resultsOf([...inputs(files, given.input)], given, engine);
  return reported(report, new Progress(files.length), results);
}

/** The result of each schema, in their order. */
function resultsOf(read, given, engine) {
  const files = read.map((input) => input.fault === undefined ? schemaFile(input) : undefined);
  const texts = files.map((it) => it && schemaText(it.uri, it.source));
  const isRead = (it) => it !== undefined;
  const beside = referred(files.filter((_, index) => isRead(texts[index])), given)
    .map((it) => schemaText(it.uri, it.source)).filter(isRead);
  const found = new Lint(engine, given.rewriting).findings(texts.filter(isRead), beside).values();
  return read.map((input, index) => {
    if (input.fault !== undefined) return failure(input, messageOf(input.fault));
    return resultOf(input, isRead(texts[index]) ? found.next().value : [broken(input.source, engine)]);
  });
}

/** A schema under its `$id`, or else under its file's URL. */
function schemaFile({ file, source }) {
  return new SchemaFile(file, "", source, LATEST, file === "<stdin>" ? STDIN : file);
}

/**
 * The result of a schema: refused by the validator where there is an error.
 *
 * @param {readonly Finding[]} found
 */
function resultOf(input, found) {
  const severities = new Set(found.map((it) => it.severity));
  const isClean = [...severities].every((it) => it === NOTE);
  const status = severities.has(ERROR) ? STATUS.REFUSED : isClean ? STATUS.VALID : STATUS.INVALID;
  const problems = found.map(({ severity, rule, message, range, place, suggestion }) =>
    ({ kind: severity, rule, message, range, pointer: place, suggestion }));
  return { input, status, problems };
}
