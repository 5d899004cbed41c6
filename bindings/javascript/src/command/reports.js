/** How results are written: for people, for other programs, or as the validator's output. */
import { FORMATS } from "../engine.js";
import { HtmlReport } from "./html_report.js";
import { GithubReport, ShortReport } from "./line_reports.js";
import { JunitReport } from "./junit_report.js";
import { JsonReport, OutputReport } from "./machine_reports.js";
import { SarifReport } from "./sarif_report.js";
import { TextReport } from "./text_report.js";

const REPORTS = {
  text: TextReport, short: ShortReport, json: JsonReport, github: GithubReport, html: HtmlReport, sarif: SarifReport,
  junit: JunitReport,
};

/** What `--format` may name, of each command. */
export const CHOICES = Object.freeze({ lint: Object.keys(REPORTS), validate: [...Object.keys(REPORTS), ...FORMATS] });

/** The report of a command in a format. */
export function reportFor(format, command) {
  return new (REPORTS[format] ?? OutputReport)(format, command);
}
