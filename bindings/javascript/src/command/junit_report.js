/** A report in the XML that JUnit's readers take: a test case for each file or instance. */
import { Report, complain } from "./report.js";
import { FAILED, STATUS } from "./results.js";
import { writeOutput } from "./writing.js";

// What XML 1.0 can't have.
const NO_XML = /[^\t\n\r -\ud7ff\ue000-\ufffd\u{10000}-\u{10ffff}]/gu;
const ESCAPES = { "&": "&amp;", "<": "&lt;", ">": "&gt;" };
const MORE_ESCAPES = { '"': "&quot;", "'": "&#x27;", "\t": "&#9;", "\n": "&#10;", "\r": "&#13;" };

/** One suite. Its counts stand at its beginning, so all is written at the end. */
export class JunitReport extends Report {
  #cases = [];
  #suite = attribute(`jschema ${this.command}`);

  writeResult(result) {
    const { file, line } = result.input;
    const name = line === 1 ? file : `${file}:${line}`;
    const about = `classname=${this.#suite} name=${attribute(name)} file=${attribute(file)} line="${line}"`;
    this.#cases.push(`  <testcase ${about}>\n${problemsOf(result)}  </testcase>\n`);
  }

  refusedSchema(result) {
    complain(result);
    super.refusedSchema(result);
  }

  end(_withSummary = true) {
    const errors = this.count(STATUS.FAILED) + this.count(STATUS.REFUSED);
    const counts = `tests="${this.#cases.length}" failures="${this.count(STATUS.INVALID)}" errors="${errors}"`;
    writeOutput(`<?xml version="1.0" encoding="UTF-8"?>\n<testsuites ${counts}>\n` +
      `<testsuite name=${this.#suite} ${counts}>\n${this.#cases.join("")}</testsuite>\n</testsuites>\n`);
  }
}

/** What is wrong with a file or an instance. (Readers take the first failure of a test case, so there is one.) */
function problemsOf({ input, status, problems }) {
  if (problems.length === 0) return "";
  const texts = problems.map((it) => lineOf(input.file, it)).join("");
  if (status === STATUS.VALID) return `    <system-out>${text(texts)}</system-out>\n`;
  const element = status === STATUS.INVALID ? "failure" : "error";
  const [{ rule, message }] = problems;
  return `    <${element} type=${attribute(rule)} message=${attribute(message)}>${text(texts)}</${element}>\n`;
}

function lineOf(file, { kind, rule, message, range: { begin }, pointer, keywordUri }) {
  const where = kind === FAILED ? file : `${file}:${begin.line}:${begin.column}`;
  return `${where}: ${kind}: ${message} (${pointer || "root"}; ${rule}${keywordUri ? `; ${keywordUri}` : ""})\n`;
}

function text(given) {
  return given.replace(NO_XML, "\ufffd").replace(/[&<>]/g, (it) => ESCAPES[it]);
}

function attribute(given) {
  return `"${text(given).replace(/["'\t\n\r]/g, (it) => MORE_ESCAPES[it])}"`;
}
