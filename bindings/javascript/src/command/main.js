/** The commands `npx jschema validate` and `npx jschema lint`, which are also `jschema-validate` and `jschema-lint`. */
import { parse, parseOf } from "./arguments.js";
import { Misuse } from "./files.js";
import { STATUS, messageOf } from "./results.js";
import { validate } from "./validating.js";
import { versions } from "./versions.js";
import { reason, writeError, writeOutput } from "./writing.js";

/** Runs the command that the first argument names, and returns its exit status. */
export async function main(words) {
  return run(() => parse(words));
}

/** Runs one command with these arguments. */
export async function mainOf(command, words) {
  return run(() => parseOf(command, words, `jschema-${command}`));
}

async function run(read) {
  try {
    const given = read();
    if (given.help !== undefined || given.version) {
      writeOutput(given.help ?? await versions());
      return STATUS.VALID;
    }
    if (given.command === "validate") return await validate(given);
    // (Loaded where it is needed, so that a validation starts sooner.)
    const { lint } = await import("./linting.js");
    return await lint(given);
  } catch (error) {
    return failure(error);
  }
}

/** The status for whatever was thrown, which standard error describes. It is never that of an invalid instance. */
function failure(error) {
  try {
    const said = description(error);
    if (said !== undefined) writeError(`jschema: ${said}\n`);
  } catch {
    // Standard error can't be written to either: the status says it.
  }
  return error instanceof Misuse ? STATUS.MISUSE : STATUS.FAILED;
}

function description(error) {
  if (error instanceof Misuse) return error.message;
  // Nothing more can be written to a pipe that was closed.
  if (error?.code === "EPIPE") return undefined;
  if (error?.code !== undefined && error.syscall !== undefined) {
    return `${error.path ?? "standard output"}: ${reason(error)}`;
  }
  return messageOf(error);
}
