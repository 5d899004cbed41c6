/** The report for people: each problem with the line where it is. */
import { COLOURS, ShortReport } from "./line_reports.js";
import { printable } from "./report.js";
import { FAILED } from "./results.js";
import { snippet } from "./snippets.js";
import { hasColours, painted } from "./terminal.js";
import { width } from "./width.js";
import { STDERR, writeError, writeOutput } from "./writing.js";

/**
 * Each problem with its line, what is meant in it underlined, and where the keyword stands in the schema. Refusals and
 * failures go to standard error.
 */
export class TextReport extends ShortReport {
  writeResult({ input, problems }) {
    for (const problem of problems) {
      if (this.shows(problem)) writeOutput(shown(input, problem, this.colours));
      else writeError(shown(input, problem, hasColours(STDERR)));
    }
  }
}

/** A problem as it is shown to people. */
function shown({ file: name, source }, problem, colours) {
  const { kind, rule, message, range, pointer } = problem;
  const file = printable(name), colour = COLOURS[kind];
  if (kind === FAILED) return `${painted("failed", colour, colours)}: ${file}: ${printable(message)}\n\n`;
  const number = String(range.begin.line);
  const margin = " ".repeat(number.length);
  const blue = (text) => painted(text, "blue", colours);
  const { before, meant, after } = snippet(source.data, range);
  const mark = painted("^".repeat(Math.max(1, width(meant))), colour, colours);
  const lines = [
    `${painted(`${kind}[${printable(rule)}]`, colour, colours)}: ${painted(printable(message), "bold", colours)}`,
    `${margin}${blue("-->")} ${file}:${number}:${range.begin.column}`,
    `${margin} ${blue("|")}`,
    `${blue(number)} ${blue("|")} ${`${before}${meant}${after}`.trimEnd()}`.trimEnd(),
    `${margin} ${blue("|")} ${" ".repeat(width(before))}${mark} ${printable(pointer) || "root"}`,
    ...notes(problem).map((it) => `${margin} ${blue("=")} ${it}`),
  ];
  return `${lines.join("\n")}\n\n`;
}

/** What is said below the line: where the keyword stands in the schema. */
function notes({ rule, keywordUri, keywordPlace }) {
  const found = [];
  if (keywordPlace !== undefined) {
    const { file, position: { line, column } } = keywordPlace;
    found.push(`${printable(file)}:${line}:${column}: ${printable(rule)}`);
  }
  if (keywordUri !== undefined) found.push(printable(keywordUri));
  return found;
}
