/** A report as one page, which needs nothing else: the tree of the errors, folded, each error beside its line. */
import { schemaSteps } from "../locations.js";
import { Report, complain, counted, printable } from "./report.js";
import { FAILED, STATUS } from "./results.js";
import { snippet } from "./snippets.js";
import { writeOutput } from "./writing.js";

// Up to how many problems of a file are unfolded.
const MANY = 20;
const TITLES = { validate: "Validation", lint: "Lint" };
const WORDS = {
  validate: {
    [STATUS.VALID]: "valid", [STATUS.INVALID]: "invalid", [STATUS.REFUSED]: "refused", [STATUS.FAILED]: "failed",
  },
  lint: {
    [STATUS.VALID]: "clean", [STATUS.INVALID]: "warnings", [STATUS.REFUSED]: "refused", [STATUS.FAILED]: "failed",
  },
};
const ESCAPES = { "&": "&amp;", "<": "&lt;", ">": "&gt;", '"': "&quot;", "'": "&#x27;" };

// What counts the results stands first on the page, and last in the text: it is known at the end.
const head = (title) => `<!DOCTYPE html>
<html lang="en">
<head>
<meta charset="utf-8">
<meta name="viewport" content="width=device-width, initial-scale=1">
<title>${title} by jschema</title>
<style>
:root { color-scheme: light dark; --red: light-dark(#b3261e, #f2b8b5); --green: light-dark(#1e6b33, #9bd4a8);
  --blue: light-dark(#1a4f8b, #a8c7fa); --amber: light-dark(#7a4d00, #f5c26b);
  --line: light-dark(#d8d8dc, #3c3c42); --soft: light-dark(#f5f5f7, #1f1f23); }
body { display: flex; flex-direction: column; max-width: 72rem; margin: 2rem auto; padding: 0 1rem;
  font: 16px/1.5 system-ui, sans-serif; }
header { order: -1; }
h1 { margin: 0 0 .25rem; font-size: 1.5rem; }
details { margin: .35rem 0; }
details.file { border: 1px solid var(--line); border-radius: .5rem; padding: .5rem 1rem; }
summary { cursor: pointer; }
ul { list-style: none; margin: 0; padding-left: 1.25rem; border-left: 2px solid var(--line); }
code, pre { font: 14px/1.45 ui-monospace, monospace; }
pre { overflow-x: auto; margin: .35rem 0; padding: .5rem .75rem; border-radius: .35rem; background: var(--soft); }
mark { color: inherit; background: none; text-decoration: underline wavy var(--red); }
.number { color: var(--blue); user-select: none; }
.keyword { font-weight: 600; }
.valid, .clean { color: var(--green); }
.invalid, .refused, .failed, .error { color: var(--red); }
.warnings, .warning { color: var(--amber); }
.note { color: var(--blue); }
.where { opacity: .75; font-size: .875rem; overflow-wrap: anywhere; }
</style>
</head>
<body>
`;

/** A page with a part for each file or instance. */
export class HtmlReport extends Report {
  tree = true;

  constructor(format, command) {
    super(format, command);
    writeOutput(head(TITLES[command]));
  }

  writeResult(result) {
    const { input: { file, line }, status, problems, tree } = result;
    const word = WORDS[this.command][status];
    const name = `${shown(file)}${line > 1 ? `:${line}` : ""}`;
    const what = status === STATUS.VALID && this.command !== "lint" ? "warning" : "problem";
    const count = problems.length === 0 ? "" : `, ${counted(problems.length, what)}`;
    writeOutput(`<details class="file"${problems.length > 0 ? " open" : ""}><summary><code>${name}</code> ` +
      `<span class="${word}">${word}</span>${count}</summary>\n`);
    if (tree !== undefined) writeOutput(branch(result, tree, byPlaces(problems), 0));
    else if (problems.length > 0) writeOutput(`<ul>${problems.map((it) => leaf(result, it, "")).join("")}</ul>\n`);
    writeOutput("</details>\n");
  }

  refusedSchema(result) {
    complain(result);
    super.refusedSchema(result);
  }

  end(_withSummary = true) {
    const title = TITLES[this.command];
    writeOutput(`<header><h1>${title}</h1><p>${escaped(this.summary())}</p></header>\n</body>\n</html>\n`);
  }
}

/** The problems by the places of their keywords and values. */
function byPlaces(problems) {
  return new Map(problems.map((it) => [key(it.error.keywordLocation, it.pointer), it]));
}

function key(keywordLocation, instanceLocation) {
  return JSON.stringify([keywordLocation, instanceLocation]);
}

/** A node of the tree, with those below it. */
function branch(result, node, problems, depth) {
  const below = (node.errors ?? []).map((it) => branch(result, it, problems, depth + 1)).join("");
  const children = below === "" ? "" : `<ul>${below}</ul>`;
  const { keywordLocation, instanceLocation } = node;
  const problem = problems.get(key(keywordLocation, instanceLocation));
  if (problem !== undefined) return leaf(result, problem, children);
  if (depth === 0) return `${children}\n`;
  const keywords = schemaSteps(keywordLocation).slice(-2).filter((it) => it.isKeyword).map((it) => it.token);
  return `<li><details open><summary><span class="keyword">${shown(keywords.join("/") || "schema")}</span> ` +
    `at <code>${shown(instanceLocation) || "root"}</code></summary>${children}</details></li>`;
}

/** A problem beside its line, with those that led to it. Where a file has many, they are folded. */
function leaf(result, problem, children) {
  const { kind, rule, message, pointer, range: { begin } } = problem;
  const isOpen = result.problems.length <= MANY ? " open" : "";
  const line = kind === FAILED ? "" : `<pre>${lineOf(result, problem)}</pre>`;
  return `<li><details${isOpen}><summary><span class="keyword">${shown(rule)}</span> ` +
    `<span class="${kind}">${shown(message)}</span> at <code>${shown(pointer) || "root"}</code></summary>${line}` +
    `<div class="where"><code>${shown(result.input.file)}:${begin.line}:${begin.column}</code>` +
    `${schemaOf(problem)}</div>${children}</details></li>\n`;
}

/** The line of a problem, with what is meant marked. */
function lineOf({ input }, { range }) {
  const { before, meant, after } = snippet(input.source.data, range);
  return `<span class="number">${range.begin.line} | </span>${escaped(before)}<mark>${escaped(meant) || " "}</mark>` +
    escaped(after);
}

/** Where the keyword stands in the schema. */
function schemaOf({ keywordUri, keywordPlace }) {
  const uri = keywordUri ? ` · ${shown(keywordUri)}` : "";
  if (keywordPlace === undefined) return uri;
  const { file, position: { line, column } } = keywordPlace;
  return ` · <code>${shown(file)}:${line}:${column}</code>${uri}`;
}

/** A text as it is shown, without control characters. */
function shown(text) {
  return escaped(printable(text));
}

function escaped(text) {
  return text.replace(/[&<>"']/g, (it) => ESCAPES[it]);
}
