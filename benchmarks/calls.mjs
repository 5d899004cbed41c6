/**
 * Times calls in Node, as benchmarks/calls asks: JSON on standard input and on standard output.
 *
 * `documents` by their URIs, `entry` and `instance` are what is checked, as texts; `call` names one of CALLS, and
 * `seconds` is how long it is made. ajv reads `olderDocuments`, of a draft that it has. The answer has the least and
 * the median microseconds, or `missing`.
 */
import { readFileSync } from "node:fs";
import { createRequire } from "node:module";
import { Schemas } from "../bindings/javascript/src/index.js";

const MOST_CALLS = 1_000_000;

const { documents, olderDocuments, entry, instance, call, seconds } = JSON.parse(readFileSync(0, "utf8"));
const value = JSON.parse(instance);

/** What is timed, by its name; each returns the verdict, but for `output`. */
const CALLS = {
  "output flag": async () => outputIn("flag"),
  "output basic": async () => outputIn("basic"),
  "isValid of a text": async () => {
    const schemas = await Schemas.create(documents);
    return () => schemas.isValid(entry, instance);
  },
  "isValid of a value": async () => {
    const schemas = await Schemas.create(documents);
    return () => schemas.isValid(entry, value);
  },
  "ajv of a value": async () => {
    const validate = ajvFunction();
    return () => validate(value);
  },
};

async function outputIn(format) {
  const schemas = await Schemas.create(documents);
  return () => schemas.outputText(entry, instance, format);
}

function ajvFunction() {
  const Ajv = createRequire(import.meta.url)("ajv");
  const ajv = new Ajv({ unknownFormats: "ignore", logger: false });
  // ajv resolves a reference against the `$id` alone, not against the URI under which a schema is added.
  for (const [uri, text] of Object.entries(olderDocuments)) ajv.addSchema({ $id: uri, ...JSON.parse(text) }, uri);
  return ajv.getSchema(entry);
}

/** The least and the median microseconds of a call, over as many as there is time for. */
function timed(act) {
  const times = [];
  const end = process.hrtime.bigint() + BigInt(Math.round(seconds * 1e9));
  for (let now = process.hrtime.bigint(); times.length === 0 || now < end && times.length < MOST_CALLS;) {
    const before = now;
    act();
    now = process.hrtime.bigint();
    times.push(Number(now - before) / 1000);
  }
  times.sort((one, other) => one - other);
  return [times[0], times[times.length >> 1]];
}

/** The verdict, times, or what isn't installed. */
async function answer() {
  let act;
  try {
    act = await CALLS[call]();
  } catch (error) {
    if (error.code === "MODULE_NOT_FOUND" || error.code === "ENOENT") return { missing: error.message.split("\n")[0] };
    throw error;
  }
  const said = act();
  return { valid: typeof said === "string" ? undefined : said, times: timed(act) };
}

console.log(JSON.stringify(await answer()));
