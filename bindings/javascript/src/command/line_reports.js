/** Reports of a line for each problem. */
import { Report, complain, printable } from "./report.js";
import { ERROR, FAILED, NOTE, REFUSED, WARNING } from "./results.js";
import { hasColours, painted } from "./terminal.js";
import { STDOUT, writeError, writeOutput } from "./writing.js";

/** The colour of each kind of problems. */
export const COLOURS = Object.freeze({ [ERROR]: "red", [WARNING]: "yellow", [NOTE]: "blue", [REFUSED]: "red",
  [FAILED]: "red" });

/** A line for each problem, and a summary on standard error. */
export class ShortReport extends Report {
  colours = hasColours(STDOUT);

  writes({ problems }) {
    return problems.length > 0;
  }

  writeResult(result) {
    const shown = result.problems.filter((it) => this.shows(it));
    // (What the report itself doesn't say.)
    if (shown.length < result.problems.length) complain(result);
    writeOutput(shown.map((it) => this.line(result.input.file, it)).join(""));
  }

  /** Whether a problem is written; else it goes to standard error. */
  shows({ kind }) {
    return kind !== REFUSED && kind !== FAILED && (kind !== WARNING || this.command === "lint");
  }

  /** The line for a problem. */
  line(file, { kind, rule, message, range: { begin }, pointer, keywordUri }) {
    const where = painted(`${printable(file)}:${begin.line}:${begin.column}:`, "bold", this.colours);
    const said = painted(printable(message), COLOURS[kind], this.colours);
    const details = keywordUri ? `${printable(rule)}, ${printable(keywordUri)}` : rule;
    const at = painted(`(${printable(pointer) || "root"}; ${details})`, "dim", this.colours);
    return `${where} ${keywordUri ? said : `${kind}: ${said}`} ${at}\n`;
  }

  end(withSummary = true) {
    if (withSummary) writeError(`${this.summary()}\n`);
  }
}

/** Workflow commands, which GitHub Actions shows beside the lines of a change. */
export class GithubReport extends ShortReport {
  writeResult(result) {
    complain(result);
    writeOutput(result.problems.map((it) => this.line(result.input.file, it)).join(""));
  }

  line(file, { kind, rule, message, range: { begin }, pointer, keywordUri, refused }) {
    let text = message;
    if (kind === REFUSED) text = refused.message;
    else if (kind !== FAILED) text += ` (${pointer || "root"}; ${keywordUri ?? rule})`;
    const level = { [WARNING]: "warning", [NOTE]: "notice" }[kind] ?? "error";
    const name = escaped(file).replaceAll(":", "%3A").replaceAll(",", "%2C");
    return `::${level} file=${name},line=${begin.line},col=${begin.column}::${escaped(text)}\n`;
  }
}

function escaped(text) {
  return text.replaceAll("%", "%25").replaceAll("\r", "%0D").replaceAll("\n", "%0A");
}
