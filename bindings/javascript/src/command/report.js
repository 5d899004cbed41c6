/** What all reports share. */
import { ERROR, FAILED, NOTE, REFUSED, STATUS, WARNING } from "./results.js";
import { writeError } from "./writing.js";

const CONTROL = /[\x00-\x1f\x7f-\x9f\u2028\u2029]/g;

/** A report on the files of a run, which is written as the results come. */
export class Report {
  /** The format of the validator's output that is written, if that is. */
  output = undefined;
  /** Whether the tree of the errors is shown. */
  tree = false;
  // How many results have each status, and how many problems are of each kind.
  #statuses = [0, 0, 0, 0, 0];
  #kinds = { [ERROR]: 0, [WARNING]: 0, [NOTE]: 0, [REFUSED]: 0, [FAILED]: 0 };

  /** @param {string} format @param {"validate" | "lint"} command */
  constructor(format, command) {
    this.format = format;
    this.command = command;
  }

  /** Whether there is anything to write of a result. */
  writes(_result) {
    return true;
  }

  /** Writes a result. */
  result(result) {
    this.#statuses[result.status] += 1;
    for (const { kind } of result.problems) this.#kinds[kind] += 1;
    this.writeResult(result);
  }

  /** Writes a result that is counted. */
  writeResult(_result) {
    throw new Error("a report writes its results");
  }

  /** Says that a schema document, which is the input of this result, is refused, and ends the report. */
  refusedSchema(result) {
    this.result(result);
    this.end(false);
  }

  /** After the last result. */
  end(_withSummary = true) {}

  /** How many results have a status. */
  count(status) {
    return this.#statuses[status];
  }

  /** How many instances came to what; of lint, how much was found. */
  summary() {
    const { [ERROR]: errors, [WARNING]: warnings } = this.#kinds;
    const isLint = this.command === "lint";
    const parts = isLint ? [ERROR, WARNING, NOTE].map((kind) => counted(this.#kinds[kind], kind))
      : [`${this.count(STATUS.VALID)} valid`,
        `${this.count(STATUS.INVALID)} invalid${errors > 0 ? ` (${counted(errors, "error")})` : ""}`];
    if (!isLint && this.count(STATUS.REFUSED) > 0) parts.push(`${this.count(STATUS.REFUSED)} refused`);
    if (this.count(STATUS.FAILED) > 0) parts.push(`${this.count(STATUS.FAILED)} failed`);
    if (!isLint && warnings > 0) parts.push(counted(warnings, "warning"));
    return parts.join(", ");
  }
}

/** A number of things. */
export function counted(count, what) {
  return `${count} ${what}${count === 1 ? "" : "s"}`;
}

/** Says on standard error why an instance has no verdict, and what else a report leaves out. */
export function complain({ input, problems }) {
  for (const problem of problems) {
    if ([REFUSED, FAILED, WARNING].includes(problem.kind)) writeError(`${complaint(input.file, problem)}\n`);
  }
}

/** The line that says what is wrong with a file. */
function complaint(file, { kind, rule, message, range, pointer }) {
  if (kind === FAILED) return `${printable(file)}: failed: ${message}`;
  const { line, column } = range.begin;
  return `${printable(file)}:${line}:${column}: ${kind}: ${printable(message)} ` +
    `(${printable(pointer) || "root"}; ${rule})`;
}

/** A text without control characters, which a terminal would obey. */
export function printable(text) {
  return text.replace(CONTROL, (found) => `\\u${found.charCodeAt(0).toString(16).padStart(4, "0")}`);
}
