/** What a refusal says beside its kind, and what is refused before the module is asked. */
import assert from "node:assert/strict";
import { test } from "node:test";
import { Refused, Schemas } from "jschema";
import { WorkerSchemas } from "jschema/worker";

const URI = "https://example.com/dir/s", LARGEST = 2 ** 24;
const BOM = "begins with a byte order mark; a JSON text is UTF-8 without one";
const UTF_16 = "is UTF-16 or UTF-32; a JSON text is UTF-8";
const NONE = "not a JSON text, or nested deeper than 127";
const bytes = (...each) => Uint8Array.from(each);
const TEXTS = [
  ["\ufeff{}", BOM], [bytes(0xef, 0xbb, 0xbf, 0x31), BOM], [bytes(0xef, 0xbb, 0xbf), BOM],
  [bytes(0xff, 0xfe, 0x31, 0), UTF_16], [bytes(0xfe, 0xff, 0, 0x31), UTF_16], [bytes(0x31, 0), UTF_16],
  [bytes(0, 0x31), UTF_16], [bytes(0xff, 0xfe, 0, 0, 0x31, 0, 0, 0), UTF_16], [bytes(0, 0, 0, 0x31), UTF_16],
  ["{", NONE], ["", NONE], [bytes(0xff), NONE],
];
// A document, and the URI that isn't found.
const UNRESOLVED = [
  [{ $ref: "t" }, "https://example.com/dir/t"],
  [{ $ref: "../t#/x" }, "https://example.com/t#/x"],
  [{ $ref: "#/$defs/x" }, `${URI}#/$defs/x`],
  [{ $ref: "#anchor" }, `${URI}#anchor`],
  [{ $dynamicRef: "#anchor" }, `${URI}#anchor`],
  [{ $ref: "urn:x:y" }, "urn:x:y"],
  [{ $ref: "//other.example/x" }, "https://other.example/x"],
  [{ $id: "https://a.example/b/c", $ref: "d" }, "https://a.example/b/d"],
  [{ $id: "other/", items: { $id: "more", not: { $ref: "d" } } }, "https://example.com/dir/other/d"],
  [{ properties: { $id: { $ref: "d" } } }, "https://example.com/dir/d"],
  [{ $defs: { "a/b~": { allOf: [true, { $ref: "d" }] } } }, "https://example.com/dir/d"],
  [{ $id: "urn:a:b", $ref: "#x" }, "urn:a:b#x"],
];

/** The refusal that an action ends with. */
async function refusal(action) {
  try {
    await action();
  } catch (error) {
    assert.ok(error instanceof Refused, error);
    return error;
  }
  return assert.fail("nothing is refused");
}

test("a mark and another encoding are named, of instances and of documents", async () => {
  const schemas = await Schemas.create({ [URI]: "true" });
  for (const [text, meaning] of TEXTS) {
    for (const action of [() => schemas.isValid(URI, text), () => schemas.errors(URI, text),
      () => Schemas.create({ [URI]: text })]) {
      const refused = await refusal(action);
      assert.deepEqual([refused.kind, refused.meaning], ["NotJson", meaning]);
      assert.ok(refused.message.endsWith(`: NotJson: ${meaning}`));
    }
  }
});

test("a reference that leads nowhere is named with its URI", async () => {
  for (const [document, uri] of UNRESOLVED) {
    const { kind, meaning, index } = await refusal(() => Schemas.create({ "a:b": "true",
      [URI]: JSON.stringify(document) }));
    assert.deepEqual([kind, meaning, index], ["Unresolved", `no schema has the URI ${uri}; give its document too`, 1]);
  }
});

test("so is an entry, also in a worker", async () => {
  const schemas = await Schemas.create({ [URI]: "true" });
  const worker = await WorkerSchemas.create({ [URI]: "true" }, { seconds: 100 });
  for (const each of [schemas, worker]) {
    const { subject, meaning } = await refusal(async () => each.isValid(`${URI}#/x`, "1"));
    assert.deepEqual([subject, meaning], ["entry", `no schema has the URI ${URI}#/x; give its document too`]);
    assert.equal((await refusal(async () => each.isValid(URI, "\ufeff1"))).meaning, BOM);
  }
  worker.close();
});

test("documents, URIs and instances that go too far are refused", async () => {
  const padded = (length) => `true${" ".repeat(length - 4)}`;
  const outcome = async (documents, entry, instance) => {
    try {
      return (await Schemas.create(documents)).isValid(entry, instance);
    } catch (error) {
      if (!(error instanceof Refused)) throw error;
      return [error.subject, error.kind, error.place, error.index, error.document];
    }
  };
  const tooLarge = ["input", "InputTooLarge", undefined];
  for (const [documents, entry, instance, expected] of [
    [{ [URI]: padded(LARGEST) }, URI, "1", true],
    [{ [URI]: padded(LARGEST + 1) }, URI, "1", [...tooLarge, 0, URI]],
    [{ [URI]: "1.5", "a:b": padded(LARGEST + 1) }, URI, "1", [...tooLarge, 1, "a:b"]],
    [{ [URI]: "true" }, URI, padded(LARGEST), true],
    [{ [URI]: "true" }, URI, padded(LARGEST + 1), [...tooLarge, undefined, undefined]],
    [{ "a:\0": "true" }, "a:\0", "1", ["document", "BadUri", "", 0, "a:\0"]],
    [{ "a:b": "1.5", "a:\ud800": "true" }, "a:b", "1", ["document", "BadUri", "", 1, "a:\ud800"]],
    [{ [URI]: "true" }, `${URI}\0`, "1", ["entry", "BadUri", undefined, undefined, undefined]],
    [{ [URI]: "true" }, `${URI}\ud800`, "1", ["entry", "BadUri", undefined, undefined, undefined]],
  ]) {
    assert.deepEqual(await outcome(documents, entry, instance), expected);
  }
});

test("a refusal without a place is at the beginning", async () => {
  const schemas = await Schemas.create({ [URI]: "true" });
  const { position } = await refusal(() => schemas.isValid(URI, " ".repeat(LARGEST + 1)));
  assert.deepEqual(position, { offset: 0, line: 1, column: 1 });
  const { message } = await refusal(() => Schemas.create({ [URI]: " ".repeat(LARGEST + 1) }));
  assert.equal(message, "input: InputTooLarge: more than 16,777,216 bytes");
});
