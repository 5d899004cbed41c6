/** What is rewritten where that is asked for: options, values, errors, and the same in a worker and by `compile`. */
import assert from "node:assert/strict";
import { test } from "node:test";
import { Refused, Schemas, compile } from "jschema";
import { lint, lintAll } from "jschema/lint";
import { WorkerSchemas } from "jschema/worker";

const URI = "https://example.com/s";
const EXACT = { patterns: "ecma", numbers: "exact" };
const SCHEMA = {
  properties: { name: { pattern: "^(?!aws:)(?!.*:$)[\\w:]+$" }, size: { minimum: 0.5 } },
  patternProperties: { "^\\d+$": { type: "string" } },
};
const INSTANCE = '{"name": "aws:",\n "size": 0.0, "12": 1e0}';
const FOUND = [
  ["no match", "/name", "/properties/name/pattern", 1, 10],
  ["less than 0.5", "/size", "/properties/size/minimum", 2, 10],
  ["type is integer", "/12", "/patternProperties/^\\d+$/type", 2, 21],
];

async function refusal(action) {
  const error = await Promise.resolve().then(action).then(() => undefined, (it) => it);
  assert.ok(error instanceof Refused, error);
  return [error.kind, error.place];
}

/** The error of a promise. Schemas that it gives are closed: a worker would keep the test from ending. */
async function errorOf(promise) {
  try {
    (await promise).close();
  } catch (error) {
    return error;
  }
  return undefined;
}

function about(errors) {
  return errors.map((it) => [it.message, it.instanceLocation, it.keywordLocation, it.line, it.column]).sort();
}

test("errors are at the keywords of the schema, and at the lines of the instance", async (t) => {
  for (const create of [Schemas.create, WorkerSchemas.create]) {
    const schemas = await create({ [URI]: JSON.stringify(SCHEMA) }, EXACT);
    t.after(() => schemas.close());
    assert.equal(await schemas.isValid(URI, '{"name": "a:b", "size": 1.0, "12": "x"}'), true);
    for (const instance of [INSTANCE, new TextEncoder().encode(INSTANCE)]) {
      assert.deepEqual(about(await schemas.errors(URI, instance)), [...FOUND].sort());
    }
    assert.deepEqual(await schemas.places(), ["", "/patternProperties/%5E%5Cd+$", "/properties/name",
      "/properties/size"].map((it) => `${URI}#${it}`));
    assert.equal(await schemas.isValid(`${URI}#/patternProperties/%5E%5Cd+$`, '"x"'), true);
  }
});

test("outputs have the keywords that the validator got, and the tree those of the schema", async () => {
  const schemas = await Schemas.create({ [URI]: JSON.stringify(SCHEMA) }, EXACT);
  const output = schemas.output(URI, '{"name": "aws:"}', "basic");
  const [{ absoluteKeywordLocation: location }] = output.errors.filter((it) => it.error !== undefined);
  assert.ok(location.startsWith(`${URI}#/properties/name/allOf/`), location);
  assert.equal(schemas.originalLocation(location), `${URI}#/properties/name/pattern`);
  assert.equal(schemas.writtenSchema(`${URI}#/properties/name/allOf/0`), undefined);
  assert.equal(schemas.writtenSchema(`${URI}#/patternProperties/%5E[0-9]+$`), `${URI}#/patternProperties/%5E%5Cd+$`);
  const leaves = (node) => node.errors?.flatMap(leaves) ?? [[node.error, node.keywordLocation]];
  assert.deepEqual(leaves(schemas.tree(URI, '{"name": "aws:"}')), [["no match", "/properties/name/pattern"]]);
});

test("nothing is rewritten unless that is asked for", async () => {
  assert.deepEqual(await refusal(() => Schemas.create({ [URI]: '{"minimum": 0.5}' })), ["NotWhole", "/minimum"]);
  assert.deepEqual(await refusal(() => Schemas.create({ [URI]: '{"pattern": "(?!a)b"}' })), ["BadPattern", "/pattern"]);
  const schemas = await Schemas.create({ [URI]: '{"pattern": "^\\\\d$"}' });
  assert.equal(schemas.isValid(URI, '"٣"'), true);
  assert.deepEqual(await refusal(() => schemas.isValid(URI, "1.0")), ["NotWhole", ""]);
  const ofPatterns = await Schemas.create({ [URI]: '{"pattern": "^\\\\d$"}' }, { patterns: "ecma" });
  assert.equal(ofPatterns.isValid(URI, '"٣"'), false);
  assert.deepEqual(await refusal(() => ofPatterns.isValid(URI, "1.0")), ["NotWhole", ""]);
});

test("options that have no meaning", async () => {
  for (const options of [{ patterns: "perl" }, { numbers: "all" }, { patterns: "regex" }, { numbers: "whole" },
    { numbers: null }]) {
    for (const create of [Schemas.create, WorkerSchemas.create]) {
      assert.ok(await errorOf(create({ [URI]: "true" }, options)) instanceof RangeError);
    }
    await assert.rejects(lint("true", URI, options), RangeError);
  }
});

test("values: -0 is 0, and fractions stay refused", async () => {
  const schemas = await Schemas.create({ [URI]: '{"minimum": 0, "maximum": 0.5}' }, { numbers: "exact" });
  assert.equal(schemas.isValid(URI, -0), true);
  assert.equal(schemas.isValid(URI, 1), false);
  assert.deepEqual(await refusal(() => schemas.isValid(URI, [0.5])), ["NotWhole", "/0"]);
  assert.throws(() => schemas.isValid(URI, NaN), TypeError);
  assert.throws(() => schemas.isValid(URI, 1e300), TypeError);
  assert.deepEqual(await refusal(() => schemas.isValid(URI, "[1.0, 0.5]")), ["NotWhole", "/1"]);
});

test("documents that are values", async () => {
  const validate = await compile({ minimum: 0.5, multipleOf: 1e-7, items: { pattern: "^(?!a)" } }, EXACT);
  assert.equal(validate(1), true);
  assert.equal(validate(0), false);
  assert.deepEqual(validate.errors, [{ instancePath: "", schemaPath: "#/minimum", keyword: "minimum",
    message: "less than 0.5" }]);
  assert.equal(validate(["ab"]), false);
  assert.deepEqual([validate.errors[0].keyword, validate.errors[0].schemaPath], ["pattern", "#/items/pattern"]);
  await assert.rejects(compile({ minimum: 0.5 }), Refused);
  await assert.rejects(compile({ minimum: NaN }, EXACT), TypeError);
});

test("a document is refused at its own place", async () => {
  const document = '{"patternProperties": {"\\\\d": {"pattern": "(a)\\\\1"}}}';
  for (const create of [Schemas.create, WorkerSchemas.create]) {
    const error = await errorOf(create({ "urn:x": "true", [URI]: document }, EXACT));
    assert.deepEqual([error.kind, error.place, error.index, error.document, error.column],
      ["BadPattern", "/patternProperties/\\d/pattern", 1, URI, document.indexOf('"(a)') + 1]);
    const upgraded = await errorOf(create({ [URI]: '{"items": [{"pattern": "^(?!\\\\p{L}{9999}\\\\s)\\\\w+$"}]}' },
      { ...EXACT, defaultDialect: "draft-07" }));
    assert.deepEqual([upgraded.kind, upgraded.place], ["PatternTooLarge", "/items/0/pattern"]);
  }
});

test("a document that nests too deep is refused as without this", async () => {
  for (const value of ["[".repeat(200_000) + "]".repeat(200_000), "[".repeat(200) + "]".repeat(200)]) {
    for (const schema of [`{"pattern": "\\d", "enum": [${value}]}`, `{"minimum": 0.5, "enum": [${value}]}`,
      `{"$schema": "http://json-schema.org/draft-04/schema#", "type": "integer", "enum": [${value}]}`]) {
      assert.deepEqual(await refusal(() => Schemas.create({ [URI]: schema }, EXACT)), ["NotJson", ""]);
      assert.ok((await lint(schema, URI, EXACT)).some((it) => it.message.startsWith("not a JSON text")));
    }
  }
});

test("names that aren't those of a plain object", async () => {
  const schema = '{"patternProperties": {"__proto__": {"minimum": 1.5},' +
    ' "\\\\d": {"properties": {"__proto__": false}}}}';
  const schemas = await Schemas.create({ [URI]: schema }, EXACT);
  assert.equal(schemas.isValid(URI, '{"__proto__": 2}'), true);
  const [error] = schemas.errors(URI, '{"__proto__": 1}');
  assert.deepEqual([error.message, error.keywordLocation], ["less than 1.5", "/patternProperties/__proto__/minimum"]);
  assert.equal(schemas.isValid(URI, '{"1": {"__proto__": 1}}'), false);
});

test("lint says what the validator refuses, and what isn't meant", async () => {
  const text = '{\n "requierd": ["a"], "maximum": 1.5, "$ref": "t"}';
  const others = { "https://example.com/t": "true" };
  const found = await lint(text, URI, { others });
  assert.deepEqual(found.map((it) => [it.rule, it.severity, it.place, it.line, it.column, it.suggestion]), [
    ["unknown-keyword", "warning", "/requierd", 2, 2, "required"],
    ["number", "error", "/maximum", 2, 32, undefined],
  ]);
  const { begin, end } = found[0].range;
  assert.equal(text.slice(begin.offset, end.offset), '"requierd"');
  assert.deepEqual((await lint(text, URI, { others, ...EXACT })).map((it) => it.rule), ["unknown-keyword"]);
  const all = await lintAll({ "urn:a": '{"$ref": "urn:b"}', "urn:b": '{"type": 1}', "urn:c": "{" });
  assert.deepEqual(all.map((it) => it.map(({ rule }) => rule)), [[], ["refused"], ["not-json"]]);
});
