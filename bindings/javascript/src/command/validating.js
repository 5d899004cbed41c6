/** The command that validates. */
import { DRAFTS, LATEST } from "../dialects.js";
import { sharedEngine } from "../engine.js";
import { Refused } from "../errors.js";
import { Schemas } from "../schemas.js";
import { mayBeOlder } from "../upgrading.js";
import { documentsOf } from "./documents.js";
import { filesOf } from "./files.js";
import { inputs } from "./inputs.js";
import { Places } from "./places.js";
import { reportFor } from "./reports.js";
import { Checker, STATUS, refusal } from "./results.js";
import { Progress } from "./terminal.js";
import { writeError } from "./writing.js";

/** Validates files, and reports what is wrong with them. Returns the exit status. */
export async function validate(given) {
  const files = filesOf(given.files, given.input, given.lines);
  const report = reportFor(given.format, "validate");
  const documents = documentsOf(given);
  const engine = await sharedEngine();
  let schemas;
  try {
    const { defaultDialect, upgrade, rewriting } = given;
    schemas = await Schemas.create(documents.map((it) => [it.uri, it.source.json]),
      { defaultDialect, upgrade, ...rewriting });
  } catch (error) {
    if (!(error instanceof Refused)) throw error;
    report.refusedSchema(refusedSchema(documents, error, engine));
    return STATUS.REFUSED;
  }
  noteUpgrade(documents);
  const places = new Places(documents, engine);
  const { output, tree } = report;
  const { formats } = given;
  const checker = new Checker({ schemas, entry: documents[0].uri, engine, places, output, tree, formats });
  const progress = new Progress(given.lines ? undefined : files.length);
  return reported(report, progress, resultsOf(checker, inputs(files, given.input, given.lines)));
}

function* resultsOf(checker, given) {
  for (const input of given) yield checker.result(input);
}

/** Says once that documents of older drafts were upgraded. */
function noteUpgrade(documents) {
  const isOlder = ({ source, assumed, document }) =>
    document !== undefined && document.dialect !== LATEST && mayBeOlder(source.json, assumed);
  const [first, ...others] = documents.filter(isOlder);
  if (first === undefined) return;
  const more = others.length === 0 ? "" : ` (and ${others.length} other document${others.length > 1 ? "s" : ""})`;
  writeError(`note: ${first.path}: upgraded from ${DRAFTS[first.document.dialect]}${more}\n`);
}

/** Which of the schema documents is refused, and where. What is about all of them is at the first. */
function refusedSchema(documents, refused, engine) {
  const { path: file, source } = documents[refused.index ?? 0];
  return refusal({ file, line: 1, source }, refused, engine);
}

/** Reports each result as it comes. The worst of them makes the exit status. */
export function reported(report, progress, results) {
  let status = STATUS.VALID, count = 0;
  for (const result of results) {
    if (report.writes(result)) progress.clear();
    report.result(result);
    count += 1;
    progress.show(count);
    status = Math.max(status, result.status);
  }
  progress.clear();
  report.end();
  return status;
}
