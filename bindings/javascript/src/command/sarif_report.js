/** A report in SARIF 2.1.0 (OASIS), which code scanning reads. */
import { isAbsolute } from "node:path";
import { RULES } from "../lint/finding.js";
import { fileUrl } from "./lookup.js";
import { upgraded } from "./machine_reports.js";
import { Report, complain } from "./report.js";
import { FAILED, NOTE, REFUSED, STATUS, WARNING } from "./results.js";
import { packageVersion } from "./versions.js";
import { writeOutput } from "./writing.js";

const SCHEMA = "https://docs.oasis-open.org/sarif/sarif/v2.1.0/errata01/os/schemas/sarif-schema-2.1.0.json";

/** One run, with a result for each problem. What fails is a notification of the tool. */
export class SarifReport extends Report {
  #separator = "\n";
  // The rules in the order in which they are met, each with its description.
  #rules = new Map();
  #notifications = [];

  constructor(format, command) {
    super(format, command);
    writeOutput(`{"$schema":"${SCHEMA}","version":"2.1.0","runs":[{"columnKind":"unicodeCodePoints","results":[`);
  }

  writeResult({ input: { file }, problems }) {
    for (const problem of problems) {
      if (problem.kind === FAILED) {
        this.#notifications.push({ level: "error", message: { text: problem.message },
          locations: [{ physicalLocation: { artifactLocation: artifact(file) } }] });
      } else {
        writeOutput(this.#separator + JSON.stringify(this.#result(file, problem)));
        this.#separator = ",\n";
      }
    }
  }

  refusedSchema(result) {
    complain(result);
    super.refusedSchema(result);
  }

  end(_withSummary = true) {
    const rules = [...this.#rules].map(([id, text]) => ({ id, shortDescription: { text } }));
    const tool = { driver: { name: "jschema", version: packageVersion(), rules } };
    const invocation = { executionSuccessful: this.count(STATUS.FAILED) === 0,
      toolExecutionNotifications: this.#notifications };
    writeOutput(`\n],"tool":${JSON.stringify(tool)},"invocations":[${JSON.stringify(invocation)}]}]}\n`);
  }

  #result(file, problem) {
    const { kind, message, pointer, keywordUri, keywordPlace, error } = problem;
    const rule = kind === REFUSED ? `refused/${problem.rule}` : problem.rule;
    if (!this.#rules.has(rule)) this.#rules.set(rule, this.#description(rule, kind));
    const name = pointer || "root";
    return {
      ruleId: rule, ruleIndex: [...this.#rules.keys()].indexOf(rule), message: { text: message },
      level: kind === WARNING || kind === NOTE ? kind : "error",
      locations: [{ physicalLocation: placeOf(file, problem),
        logicalLocations: [{ name, fullyQualifiedName: name }] }],
      ...keywordPlace && { relatedLocations: [related(problem)] },
      ...error && { properties: { keywordLocation: error.keywordLocation, absoluteKeywordLocation: keywordUri,
        ...upgraded(error) } },
    };
  }

  #description(rule, kind) {
    if (kind === REFUSED) return "the validator has no verdict on this input";
    return this.command === "lint" ? RULES[rule] ?? rule : `the keyword ${rule} of JSON Schema`;
  }
}

/** Where the keyword stands. */
function related({ rule, keywordPlace: { file, position } }) {
  return { message: { text: `the keyword ${rule}` }, physicalLocation: { artifactLocation: artifact(file),
    region: { startLine: position.line, startColumn: position.column } } };
}

function placeOf(file, { range: { begin, end } }) {
  const region = { startLine: begin.line, startColumn: begin.column };
  if (end.offset > begin.offset) Object.assign(region, { endLine: end.line, endColumn: end.column });
  return { artifactLocation: artifact(file), region };
}

/** The URI of a file: relative as its name is, or a URL. */
function artifact(file) {
  const escaped = (part) => encodeURIComponent(part).replace(/[!'()*]/g, (it) => `%${it.charCodeAt(0).toString(16)}`);
  return { uri: isAbsolute(file) ? fileUrl(file) : file.split("/").map(escaped).join("/") };
}
