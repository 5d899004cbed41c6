/** The validator's output, and a report in JSON. */
import { Report, complain } from "./report.js";
import { ERROR, FAILED, REFUSED, STATUS, WARNING } from "./results.js";
import { writeOutput } from "./writing.js";

/**
 * The validator's output in a format, a line for each instance; of one that is refused or fails, an object that says
 * so. Refusals, failures and warnings go to standard error too.
 */
export class OutputReport extends Report {
  output = this.format;

  writeResult(result) {
    complain(result);
    writeOutput(result.output ?? `${JSON.stringify(asJson(result))}\n`);
  }

  refusedSchema(result) {
    complain(result);
  }
}

/** One array, with an object for each file or instance. */
export class JsonReport extends Report {
  #separator = "[\n";

  writeResult(result) {
    const shown = this.command === "lint" ? findingsAsJson(result) : asJson(result);
    writeOutput(this.#separator + JSON.stringify(shown));
    this.#separator = ",\n";
  }

  refusedSchema(result) {
    complain(result);
    super.refusedSchema(result);
  }

  end(_withSummary = true) {
    writeOutput(this.#separator === "[\n" ? "[]\n" : "\n]\n");
  }
}

/** The result of an instance as the report in JSON has it. */
function asJson({ input, status, problems }) {
  const valid = { [STATUS.VALID]: true, [STATUS.INVALID]: false }[status] ?? null;
  const about = { file: input.file, line: input.line, valid };
  const [first] = problems;
  if (first?.kind === FAILED) return { ...about, failed: first.message };
  if (first?.kind === REFUSED) {
    const { subject, kind, place = null, meaning: message } = first.refused;
    return { ...about, refused: { ...placeOf(first.range.begin), subject, kind, place, message } };
  }
  const errors = problems.filter((it) => it.kind === ERROR).map(errorAsJson);
  const warnings = problems.filter((it) => it.kind === WARNING).map(warningAsJson);
  return { ...about, errors, ...warnings.length > 0 && { warnings } };
}

/** The findings in a schema as the report in JSON has them. */
function findingsAsJson({ input: { file }, status, problems }) {
  if (status === STATUS.FAILED) return { file, failed: problems[0].message };
  return { file, findings: problems.map(({ kind, rule, message, range, pointer, suggestion = null }) =>
    ({ rule, severity: kind, ...rangeOf(range), message, place: pointer, suggestion })) };
}

function errorAsJson(problem) {
  const { message, range, pointer, keywordUri, error } = problem;
  return { ...rangeOf(range), error: message, instanceLocation: pointer, keywordLocation: error.keywordLocation,
    absoluteKeywordLocation: keywordUri, ...upgraded(error), ...schemaOf(problem) };
}

function warningAsJson(problem) {
  const { message, range, pointer, keywordUri } = problem;
  return { ...rangeOf(range), warning: message, instanceLocation: pointer, absoluteKeywordLocation: keywordUri,
    ...schemaOf(problem) };
}

/** Where the keyword stands in a file. */
function schemaOf({ keywordPlace: place }) {
  return place && { schema: { file: place.file, ...placeOf(place.position) } };
}

/** Where the keyword of an error stands in an upgraded schema, if that is another place. */
export function upgraded({ absoluteKeywordLocation, upgradedLocation }) {
  return upgradedLocation === absoluteKeywordLocation ? {} : { upgradedLocation };
}

function rangeOf({ begin, end }) {
  return { ...placeOf(begin), endLine: end.line, endColumn: end.column };
}

function placeOf({ line, column }) {
  return { line, column };
}
