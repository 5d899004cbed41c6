/** Every worked row that is a check, in every format: the file that JSCHEMA_CASES names, a line of JSON for each. */
import assert from "node:assert/strict";
import { createHash } from "node:crypto";
import { readFileSync } from "node:fs";
import { test } from "node:test";
import { Refused, Schemas } from "jschema";

const file = process.env.JSCHEMA_CASES;

function bytes(text) {
  return new Uint8Array(Buffer.from(text, "base64"));
}

/** The program's line for a refusal. */
function refusalLine({ subject, index, place, kind }) {
  const what = index === undefined ? subject : `${subject} ${index}`;
  return `refused: ${what}${place === undefined ? "" : ` at ${JSON.stringify(place)}`}: ${kind}\n`;
}

/** The status and the text, or the line of a refusal. */
async function answer({ documents, entry, instance }, format) {
  let schemas;
  try {
    // (The rows are of the program, which upgrades nothing.)
    schemas = await Schemas.create(documents.map(([uri, text]) => [uri, bytes(text)]), { upgrade: false });
    const { valid, output } = schemas.check(entry, bytes(instance), format);
    assert.equal(schemas.isValid(entry, bytes(instance)), valid);
    return [valid ? 0 : 1, output];
  } catch (error) {
    if (!(error instanceof Refused)) throw error;
    if (error.subject === "document") assert.equal(error.document, documents[error.index][0]);
    return [3, refusalLine(error)];
  } finally {
    schemas?.close();
  }
}

if (file === undefined) {
  test("rows", { skip: "JSCHEMA_CASES names no file of cases" }, () => {});
} else {
  for (const line of readFileSync(file, "utf8").split("\n").slice(0, -1)) {
    const asked = JSON.parse(line);
    for (const [format, status, text] of asked.expected) {
      test(`${asked.name}, ${format}`, async () => {
        const [got, said] = await answer(asked, format);
        const digest = createHash("sha256").update(said).digest("hex");
        assert.deepEqual([got, digest], [status, text], said.slice(0, 1000));
      });
    }
  }
}
