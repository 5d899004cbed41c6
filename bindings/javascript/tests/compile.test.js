/** ajv's words. */
import assert from "node:assert/strict";
import { readFileSync } from "node:fs";
import { test } from "node:test";
import { compile } from "jschema";

test("a function for a schema, with its errors", async () => {
  const validate = await compile({
    type: "object",
    properties: { a: { $ref: "#/$defs/text" }, b: false },
    $defs: { text: { type: "string" } },
  });
  assert.equal(validate.errors, null);
  assert.equal(validate({ a: "x" }), true);
  assert.equal(validate.errors, null);
  assert.equal(validate({ a: 1, b: 2 }), false);
  assert.deepEqual(validate.errors, [
    { instancePath: "/a", schemaPath: "#/$defs/text/type", keyword: "type", message: "type is integer" },
    { instancePath: "/b", schemaPath: "#/properties/b", keyword: "false schema", message: "false schema" },
  ]);
  assert.equal(validate({}), true);
  assert.equal(validate.errors, null);
});

test("the example of docs/MIGRATING.md says what is written there", async () => {
  const page = readFileSync(new URL("../../../docs/MIGRATING.md", import.meta.url), "utf8");
  const [, given] = page.match(/^const validate = await compile\((.*)\);$/m);
  const [, written] = page.match(/^validate\.errors; +\/\/ (.*)$/m);
  const value = (code) => new Function(`return ${code};`)();
  const validate = await compile(value(given));
  assert.equal(validate({}), false);
  assert.deepEqual(validate.errors, value(written));
  assert.equal(written.includes("instancePath"), true);
});

test("a string is a string", async () => {
  const validate = await compile({ type: "string" });
  assert.equal(validate("1"), true);
  assert.equal(validate(1), false);
});

test("other schemas by their URIs, and an $id", async () => {
  const validate = await compile({ $id: "https://example.com/a", items: { $ref: "b" } },
    { schemas: { "https://example.com/b": { minimum: 3 } } });
  assert.equal(validate([2]), false);
  assert.equal(validate.errors[0].schemaPath, "https://example.com/b#/minimum");
  assert.equal((await compile(false))(1), false);
});
