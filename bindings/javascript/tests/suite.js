/**
 * Checks that are asked for on standard input, a line of JSON each: `documents` (pairs of a URI and a text), `entry`
 * and `instances` (texts). Answers with a line: for each instance whether it is valid, or the refusal. Where there is a
 * verdict and `compile`, with ajv's words, comes to another, it is a refusal of the subject `compile`.
 */
import { createInterface } from "node:readline";
import { Refused, Schemas, compile } from "jschema";
import { parse } from "../src/outputs.js";

function refusal({ subject, index, kind }) {
  return { subject, index, kind };
}

/** What a call returns, or the refusal that it throws. */
function told(call) {
  try {
    return call();
  } catch (error) {
    if (error instanceof Refused) return refusal(error);
    throw error;
  }
}

async function answers({ documents, entry, instances }) {
  let schemas;
  try {
    schemas = await Schemas.create(documents, { upgrade: false });
  } catch (error) {
    if (!(error instanceof Refused)) throw error;
    return instances.map(() => refusal(error));
  }
  const answered = instances.map((instance) => told(() => schemas.isValid(entry, instance)));
  schemas.close();
  if (!answered.some((it) => typeof it === "boolean")) return answered;
  try {
    return await compared({ documents, entry, instances }, answered);
  } catch (error) {
    return instances.map(() => refusal({ subject: "compile", index: null, kind: String(error) }));
  }
}

/** The same, with what differs where `compile` comes to another verdict by the values. */
async function compared({ documents, entry, instances }, answered) {
  const values = new Map(documents.map(([uri, text]) => [uri, parse(text)]));
  const schema = values.get(entry);
  values.delete(entry);
  const validate = await compile(schema, { schemas: Object.fromEntries(values), upgrade: false });
  const verdict = (instance) => {
    try {
      const valid = validate(parse(instance));
      const isDescribed = valid ? validate.errors === null : validate.errors.length > 0;
      return isDescribed ? valid : `${valid}, with other errors`;
    } catch (error) {
      return String(error);
    }
  };
  const results = instances.map((instance, index) => {
    if (typeof answered[index] !== "boolean") return answered[index];
    const valid = verdict(instance);
    if (valid === answered[index]) return valid;
    return refusal({ subject: "compile", index: null, kind: JSON.stringify(valid) });
  });
  validate.schemas.close();
  return results;
}

for await (const line of createInterface({ input: process.stdin })) {
  console.log(JSON.stringify(await answers(JSON.parse(line))));
}
