/** Schemas of older drafts: the verdicts of their drafts, options and refusals. */
import assert from "node:assert/strict";
import { test } from "node:test";
import { Refused, Schemas, compile, upgrade } from "jschema";
import { WorkerSchemas } from "jschema/worker";
import { DRAFTS } from "../src/dialects.js";
import { steps } from "../src/locations.js";
import { originalOf } from "../src/originals.js";
import { explainUpgraded } from "../src/upgrading.js";

const URI = "https://example.com/s", OTHER = "https://example.com/t";
const SEVEN = "http://json-schema.org/draft-07/schema#";
const LATEST = "https://json-schema.org/draft/2020-12/schema";
// Of each draft: a schema, and instances that are valid and invalid by it.
const VERDICTS = {
  // 5.7, 5.24, 5.1
  "draft-03": [{ properties: { a: { required: true, divisibleBy: 3, type: ["integer", { enum: ["x"] }] } } },
    [{ a: 3 }, { a: "x" }], [{}, { a: 4 }, { a: "y" }]],
  // Validation 5.1.3; `const` is no keyword yet
  "draft-04": [{ minimum: 3, exclusiveMinimum: true, const: 1 }, [4], [3]],
  // Validation 6.5; `if` is no keyword yet
  "draft-06": [{ exclusiveMinimum: 3, if: true, then: false }, [4], [3]],
  // Core 8.3: what stands beside a reference is ignored
  "draft-07": [{ $ref: "#/definitions/a", maximum: 1, definitions: { a: { minimum: 1 } } }, [1, 5], [0]],
  // 9.3.1.1; `dependencies` is no keyword any more
  "2019-09": [{ items: [{}], additionalItems: { type: "null" }, dependencies: { a: ["b"] } },
    [[1, null], { a: 1 }], [[1, 2]]],
};

function uriOf(draft) {
  return draft.startsWith("draft") ? `http://json-schema.org/${draft}/schema#`
    : `https://json-schema.org/draft/${draft}/schema`;
}

async function refusal(promise) {
  const error = await promise.then(() => undefined, (it) => it);
  assert.ok(error instanceof Refused, error);
  return error;
}

test("each draft by $schema, by its name and by its URI", async () => {
  for (const [draft, [schema, valid, invalid]] of Object.entries(VERDICTS)) {
    const uri = uriOf(draft);
    for (const [document, options] of [[{ $schema: uri, ...schema }, {}], [schema, { defaultDialect: draft }],
      [schema, { defaultDialect: uri }]]) {
      const schemas = await Schemas.create({ [URI]: JSON.stringify(document) }, options);
      const validate = await compile(document, options);
      for (const [instances, wanted] of [[valid, true], [invalid, false]]) {
        for (const it of instances) {
          assert.equal(schemas.isValid(URI, JSON.stringify(it)), wanted, `${draft}: ${JSON.stringify(it)}`);
          assert.equal(validate(it), wanted, `compile, ${draft}: ${JSON.stringify(it)}`);
        }
      }
    }
  }
});

test("a document of 2020-12 stays, beside one of an older draft too", async () => {
  const document = JSON.stringify({ $ref: "#/$defs/a", maximum: 5, $comment: SEVEN, $defs: { a: { minimum: 1 } } });
  for (const documents of [{ [URI]: document }, { [URI]: document, [OTHER]: `{"$schema": "${SEVEN}"}` }]) {
    const schemas = await Schemas.create(documents);
    assert.deepEqual([0, 1, 5, 6].map((it) => schemas.isValid(URI, it)), [false, true, true, false]);
  }
});

test("documents refer to one another, whatever their drafts are, and escape their slashes", async () => {
  const schemas = await Schemas.create({
    [URI]: JSON.stringify({ $schema: LATEST, items: { $ref: "t#/definitions/a/items/0" } }),
    [OTHER]: JSON.stringify({ $schema: SEVEN, definitions: { a: { items: [{ type: "null" }] } } })
      .replaceAll("draft-07/", "draft-07\\/"),
  });
  assert.equal(schemas.isValid(URI, [null]), true);
  assert.equal(schemas.isValid(URI, [1]), false);
  assert.ok(schemas.places().includes(`${OTHER}#/$defs/a/prefixItems/0`));
});

test("options that have no meaning", async () => {
  for (const name of ["draft-05", "", "https://example.com/dialect"]) {
    await assert.rejects(Schemas.create({ [URI]: "true" }, { defaultDialect: name }), RangeError);
  }
  await assert.rejects(Schemas.create({ [URI]: "true" }, { defaultDialect: "draft-07", upgrade: false }), RangeError);
});

test("without an upgrade an older draft is refused", async () => {
  const text = `{\n"$schema": "${SEVEN}"}`;
  for (const create of [Schemas.create, WorkerSchemas.create]) {
    const { kind, place, line, isUpgraded } = await refusal(create({ [URI]: text }, { upgrade: false }));
    assert.deepEqual([kind, place, line, isUpgraded], ["UnknownDialect", "/$schema", 2, false]);
  }
});

test("what is refused has the place in the text, also where the keyword has moved", async () => {
  const older = `{"$schema": "${SEVEN}",\n"definitions": {"a": {"items": [{"pattern": "("}]}}}`;
  const unresolved = `{"$schema": "${SEVEN}",\n"not": {"$ref": "#/definitions/a"}}`;
  const latest = '{"not":\n {"type": 1}}';
  for (const create of [Schemas.create, WorkerSchemas.create]) {
    const about = async (document) => {
      const { kind, place, index, line, isUpgraded } = await refusal(create([[OTHER, older.replace("(", "a")],
        [URI, document]]));
      return [kind, place, index, line, isUpgraded];
    };
    assert.deepEqual(await about(unresolved), ["Unresolved", "/not/$ref", 1, 2, false]);
    assert.deepEqual(await about(older), ["BadPattern", "/definitions/a/items/0/pattern", 1, 2, false]);
    assert.deepEqual(await about(latest), ["BadKeyword", "/not/type", 1, 2, false]);
    assert.deepEqual(await about(`{"$schema": "${SEVEN}",\n"dependencies": {"b": {"not": {"type": 1}}}}`),
      ["BadKeyword", "/dependencies/b/not/type", 1, 2, false]);
  }
});

test("errors name the keyword as its author wrote it, and the upgraded one beside it", async () => {
  const document = { $schema: SEVEN, definitions: { "a b": { items: [{ type: "null" }] } }, $ref: "#/definitions/a b" };
  const schemas = await Schemas.create({ [URI]: JSON.stringify(document) });
  const worker = await WorkerSchemas.create({ [URI]: JSON.stringify(document) });
  const ours = `${URI}#/definitions/a%20b/items/0/type`, upgraded = `${URI}#/$defs/a%20b/prefixItems/0/type`;
  for (const [error] of [schemas.errors(URI, [1]), await worker.errors(URI, [1])]) {
    assert.deepEqual([error.absoluteKeywordLocation, error.upgradedLocation], [ours, upgraded]);
  }
  worker.close();
  assert.equal(schemas.output(URI, [1], "basic").errors[0].absoluteKeywordLocation, upgraded);
  assert.deepEqual([upgraded, `${URI}#/made`, "urn:other#"].map((it) => schemas.originalLocation(it)),
    [ours, `${URI}#/made`, "urn:other#"]);
});

test("a place that the text doesn't have is one in the upgraded document", () => {
  const refused = new Refused("document", "BadKeyword", "/anyOf/1/made", 0);
  const text = `{"$schema": "${SEVEN}"}`;
  explainUpgraded(refused, new TextEncoder().encode(text), DRAFTS.indexOf("2020-12"));
  refused.of(text, URI);
  assert.deepEqual([refused.isUpgraded, refused.position], [true, undefined]);
  assert.ok(refused.message.startsWith(`document ${URI} at /anyOf/1/made in the upgraded document: BadKeyword`));
});

// Of a schema of a draft, places in the upgraded one, and what they come from.
const ORIGINALS = [
  ["draft-07", {
    definitions: { a: { $id: "#b", items: [{ definitions: { items: {} } }], additionalItems: {} } },
    properties: { definitions: { $ref: "#/definitions/a" } }, const: { definitions: 1 },
    dependencies: { c: ["d"], e: { items: { type: "null" } } },
  }, {
    "": "", "/$defs/a": "/definitions/a", "/$defs/a/$anchor": "/definitions/a/$id",
    "/$defs/a/prefixItems/0/$defs/items": "/definitions/a/items/0/definitions/items",
    "/$defs/a/items": "/definitions/a/additionalItems", "/$defs/a/prefixItems/1": undefined,
    "/properties/definitions/$ref": "/properties/definitions/$ref", "/const/definitions": "/const/definitions",
    "/dependentRequired": "/dependencies", "/dependentRequired/c/0": "/dependencies/c",
    "/dependentSchemas/e/items/type": "/dependencies/e/items/type", "/$schema": undefined, "/required": undefined,
  }],
  ["draft-03", {
    type: ["string", { divisibleBy: 2 }], extends: { disallow: { type: "null" } },
    properties: { a: { required: true, disallow: "string" } }, maximum: 3, exclusiveMaximum: true,
  }, {
    "/anyOf": "/type", "/anyOf/0/type": "/type/0", "/anyOf/1/multipleOf": "/type/1/divisibleBy",
    "/allOf/0/not": "/extends/disallow", "/allOf/0/not/anyOf/0/type": "/extends/disallow/type",
    "/required": "/properties", "/properties/a/not/type": "/properties/a/disallow", "/exclusiveMaximum": "/maximum",
  }],
  // `contains` stands with its limits behind two `not`s (2019-09 Core 9.3.1.4), recursive references are dynamic ones.
  ["2019-09", {
    $recursiveAnchor: true, contains: { type: "null" }, minContains: 2,
    items: { allOf: [{ $recursiveRef: "#" }], contains: { allOf: [true] } },
  }, {
    "/allOf": "/contains", "/allOf/0/not": "/contains", "/allOf/0/not/not/contains/type": "/contains/type",
    "/allOf/0/not/not/minContains": "/minContains", "/allOf/0/not/not/maxContains": undefined,
    "/anyOf/0": undefined, "/$dynamicAnchor": "/$recursiveAnchor",
    "/items/allOf/0/$dynamicRef": "/items/allOf/0/$recursiveRef", "/items/anyOf/0/not": "/items/contains",
    "/items/anyOf/0/not/not/contains/allOf/0": "/items/contains/allOf/0",
  }],
  // What stands apart is copied: under its name in `$defs`, or its JSON Pointer (crates/js_upgrade/specs/CopyName).
  ["draft-06", { $defs: { a: { items: [{}] }, b: {} }, definitions: { b: {} }, x: { y: { items: [{}] } } }, {
    "/$defs/a/prefixItems/0": "/$defs/a/items/0", "/$defs/b": "/definitions/b", "/$defs/c": undefined,
    "/$defs/~1x~1y/prefixItems/0": "/x/y/items/0", "/$defs/~1$defs~1b": "/$defs/b", "/$defs/~1x~1z": undefined,
  }],
  // Below the root `$schema` counts beside an identifier of its dialect (2019-09 Core 8.1.1).
  ["2020-12", {
    items: { $id: "https://example.com/a", items: [{}], $schema: SEVEN }, not: { items: [{}], $schema: SEVEN },
  }, { "/items/prefixItems/0": "/items/items/0", "/not/prefixItems/0": undefined, "/items": "/items" }],
];

test("what a keyword of an upgraded schema comes from", () => {
  for (const [draft, schema, places] of ORIGINALS) {
    for (const [upgraded, place] of Object.entries(places)) {
      const found = originalOf(schema, steps(upgraded), DRAFTS.indexOf(draft));
      assert.equal(found && found.map((it) => `/${it}`).join(""), place, `${draft}: ${upgraded}`);
    }
  }
});

test("in draft-04 a schema's URI is its id", async () => {
  const validate = await compile({ $schema: "http://json-schema.org/draft-04/schema#", id: "https://example.com/a#",
    properties: { b: { $ref: "c" } } }, { schemas: { "https://example.com/c": { type: "null" } } });
  assert.equal(validate({ b: 1 }), false);
  assert.equal(validate.errors[0].schemaPath, "https://example.com/c#/type");
});

test("in a worker", async () => {
  const schemas = await WorkerSchemas.create({ [URI]: '{"minimum": 1, "exclusiveMinimum": true}' },
    { defaultDialect: "draft-04", seconds: 100 });
  assert.equal(await schemas.isValid(URI, "1"), false);
  assert.equal(await schemas.isValid(URI, "2"), true);
  schemas.close();
});

test("the upgraded documents", async () => {
  const four = { $schema: "http://json-schema.org/draft-04/schema#",
    definitions: { a: { minimum: 3, exclusiveMinimum: true } } };
  const found = await upgrade([[OTHER, JSON.stringify({ $schema: SEVEN, items: [{ $ref: "s#/definitions/a" }] })],
    [URI, JSON.stringify(four)]]);
  assert.deepEqual(Object.keys(found), [OTHER, URI]);
  assert.deepEqual(JSON.parse(found[OTHER]), { $schema: LATEST, prefixItems: [{ $ref: "s#/$defs/a" }] });
  assert.deepEqual(JSON.parse(found[URI]), { $schema: LATEST, $defs: { a: { exclusiveMinimum: 3 } } });
  assert.deepEqual(await upgrade(found), found);
  assert.deepEqual(await upgrade({ [URI]: "true", [OTHER]: " {} " }), { [URI]: "true\n", [OTHER]: "{}\n" });
  assert.deepEqual(await upgrade({}), {});
  assert.deepEqual(await upgrade({ [URI]: '{"divisibleBy":2}' }, { defaultDialect: "draft-03" }),
    { [URI]: `{"$schema":"${LATEST}","multipleOf":2}\n` });
  const refused = await refusal(upgrade({ [OTHER]: "true", [URI]: `{"$schema": "${SEVEN}", "items": {"$ref": 1}}` }));
  assert.deepEqual([refused.kind, refused.place, refused.document], ["BadKeyword", "/items/$ref", URI]);
});
