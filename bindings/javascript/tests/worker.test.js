/** Schemas in a worker. */
import assert from "node:assert/strict";
import { test } from "node:test";
import { Refused, Stopped } from "jschema";
import { WorkerSchemas } from "jschema/worker";

const URI = "https://example.com/list";
const SCHEMA = '{"items": {"minimum": 0}, "uniqueItems": true}';

test("a worker answers as the schemas do", async () => {
  const schemas = await WorkerSchemas.create({ [URI]: SCHEMA });
  assert.deepEqual(await schemas.places(), [`${URI}#`, `${URI}#/items`]);
  assert.deepEqual(await Promise.all([schemas.isValid(URI, [1]), schemas.isValid(URI, "[-1]")]), [true, false]);
  const [error] = await schemas.errors(URI, "[1,\n -1]");
  assert.deepEqual([error.line, error.column, error.message], [2, 2, "less than 0"]);
  assert.deepEqual(await schemas.output(URI, [1], "flag"), { valid: true });
  assert.deepEqual(await schemas.check(URI, [1], "flag"), { valid: true, output: '{"valid":true}\n' });
  await assert.rejects(schemas.check(URI, [1], "xml"), RangeError);
  assert.deepEqual((await schemas.positions("[1,\n -1]")).value("/1"), { offset: 5, line: 2, column: 2 });
  assert.equal(await schemas.originalLocation(`${URI}#/items`), `${URI}#/items`);
  await assert.rejects(schemas.isValid(URI, "[0.5]"), (it) => it instanceof Refused && it.column === 2);
  await assert.rejects(schemas.isValid(URI, [undefined]), TypeError);
  schemas.close();
  await assert.rejects(schemas.isValid(URI, "1"), /closed/);
});

test("at the time limit a call is Stopped, and the next one has a new worker", async () => {
  const numbers = (count) => Array.from({ length: count }, (_, index) => index);
  // No name matches any pattern: 100,000,000 searches, which take many times the limit on any machine.
  const patterns = Object.fromEntries(numbers(1000).map((it) => [`^x${it}$`, false]));
  const names = Object.fromEntries(numbers(100_000).map((it) => [`y${it}`, 0]));
  const schema = JSON.stringify({ patternProperties: patterns });
  const schemas = await WorkerSchemas.create({ [URI]: schema }, { seconds: 1 });
  await assert.rejects(schemas.isValid(URI, JSON.stringify(names)),
    (it) => it instanceof Stopped && it.message === "no answer after 1 s");
  assert.equal(await schemas.isValid(URI, '{"x7": 0}'), false);
  schemas.close();
});

test("a caller's limits hold in a worker", async () => {
  const schemas = await WorkerSchemas.create({ [URI]: SCHEMA }, { applications: 1 });
  assert.equal(await schemas.isValid(URI, "[]"), true);
  await assert.rejects(schemas.isValid(URI, "[1]"), (it) => it instanceof Refused && it.kind === "TooLarge"
    && it.meaning.startsWith("more than 1 nested schema applications"));
  schemas.close();
  await assert.rejects(WorkerSchemas.create({ [URI]: SCHEMA }, { nodes: Infinity }), RangeError);
});

test("a refused document", async () => {
  await assert.rejects(WorkerSchemas.create({ [URI]: '{"type": 1}' }),
    (it) => it instanceof Refused && it.document === URI && it.column === 10);
});
