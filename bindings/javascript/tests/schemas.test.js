/** What Schemas returns and throws, and how it goes on after a fault. */
import assert from "node:assert/strict";
import { readFileSync } from "node:fs";
import { test } from "node:test";
import { setFlagsFromString } from "node:v8";
import { runInNewContext } from "node:vm";
import { OutOfMemory, Refused, Schemas, Stopped } from "jschema";
import { Documents } from "../src/documents.js";
import { Engine } from "../src/engine.js";
import { modulePath, withMaximum } from "./module.js";

const URI = "https://example.com/person";
const SCHEMA = `{
  "properties": {"name": {"type": "string"}, "age": {"minimum": 0}, "id": {"const": 9007199254740993},
                 "list": {"uniqueItems": true}},
  "propertyNames": {"pattern": "^[a-z]"}
}`;

test("an error has its place in the text, and the words of the output", async () => {
  const schemas = await Schemas.create({ [URI]: SCHEMA });
  const errors = schemas.errors(URI, '{"name": "😀",\n "😀": 1, "age": -1}');
  assert.deepEqual(errors.map((it) => [it.line, it.column, it.keyword, it.instanceLocation, it.path]),
    [[2, 17, "minimum", "/age", ["age"]], [2, 2, "pattern", "/😀", ["😀"]]]);
  assert.equal(errors[0].message, "less than 0");
  assert.equal(errors[0].keywordLocation, "/properties/age/minimum");
  assert.equal(errors[0].absoluteKeywordLocation, `${URI}#/properties/age/minimum`);
  assert.equal(String(errors[0]), `less than 0 (at /age; ${URI}#/properties/age/minimum)`);
  assert.deepEqual(schemas.errors(URI, "{}"), []);
  const text = '{"age": -1}', { valid, output } = schemas.check(URI, text);
  assert.equal(valid, false);
  assert.deepEqual(schemas.errorsIn(output, text).map(String), schemas.errors(URI, text).map(String));
});

test("texts, bytes and values are judged alike", async () => {
  const schemas = await Schemas.create(new Map([[URI, new TextEncoder().encode(SCHEMA)]]));
  for (const [age, valid] of [[1, true], [-1, false]]) {
    const text = `{"age": ${age}}`;
    assert.equal(schemas.isValid(URI, text), valid);
    assert.equal(schemas.isValid(URI, new TextEncoder().encode(text)), valid);
    assert.equal(schemas.isValid(URI, { age }), valid);
  }
  assert.equal(schemas.isValid(URI, { id: 9007199254740993n }), true);
  assert.equal(schemas.isValid(URI, { id: 9007199254740992n }), false);
});

test("an output is parsed without rounding", async () => {
  const schemas = await Schemas.create({ [URI]: '{"default": [9007199254740993, {"__proto__": -1}]}' });
  const output = schemas.output(URI, "1", "verbose");
  assert.equal(output.annotations[0].annotation[0], 9007199254740993n);
  assert.equal(Object.getOwnPropertyDescriptor(output.annotations[0].annotation[1], "__proto__").value, -1);
  assert.equal(schemas.outputText(URI, "1", "flag"), '{"valid":true}\n');
});

test("a refusal says what, why and where", async () => {
  const schemas = await Schemas.create({ [URI]: SCHEMA });
  const about = (it) => [it.subject, it.kind, it.place, it.index, it.document, it.line, it.column];
  const refused = (act) => {
    try {
      act();
    } catch (error) {
      assert.ok(error instanceof Refused && error instanceof Error, error);
      return about(error);
    }
    return undefined;
  };
  assert.deepEqual(refused(() => schemas.isValid(URI, '{\n"age": 0.5}')),
    ["instance", "NotWhole", "/age", undefined, undefined, 2, 8]);
  assert.deepEqual(refused(() => schemas.isValid(URI, '{"a": 1,\n  }')).slice(0, 3), ["instance", "NotJson", ""]);
  assert.deepEqual(refused(() => schemas.isValid(URI, '{"a": 1,\n  }')).slice(5), [2, 3]);
  assert.deepEqual(refused(() => schemas.isValid(URI, new Uint8Array([0x22, 0x0a, 0xff, 0x22]))).slice(5), [2, 1]);
  assert.deepEqual(refused(() => schemas.isValid("urn:other", "1")).slice(0, 2), ["entry", "Unresolved"]);
  const documents = [[URI, "{}"], ["urn:b", '{"allOf": [true,\n{"type": 1}]}']];
  const error = await Schemas.create(documents).catch((it) => it);
  assert.deepEqual(about(error), ["document", "BadKeyword", "/allOf/1/type", 1, "urn:b", 2, 10]);
  assert.equal(error.message, "document urn:b at /allOf/1/type: BadKeyword: the keyword's value has the wrong form");
  assert.equal(error.name, "Refused");
});

test("what has no meaning is thrown as such", async () => {
  const schemas = await Schemas.create({ [URI]: SCHEMA });
  assert.throws(() => schemas.output(URI, "1", "xml"), RangeError);
  schemas.close();
  schemas.close();
  assert.throws(() => schemas.isValid(URI, "1"), /closed/);
  await assert.rejects(Schemas.create({ [URI]: { type: "string" } }), TypeError);
  const disposed = await Schemas.create({ [URI]: SCHEMA });
  disposed[Symbol.dispose]();
  assert.throws(() => disposed.places(), /closed/);
});

test("a caller's limits hold for each check", async () => {
  const documents = { [URI]: '{"items": {"$ref": "#"}}', "urn:flat": '{"items": {"type": "null"}}' };
  const limits = async (options) => {
    const schemas = await Schemas.create(documents, options);
    const answer = (entry, instance) => {
      try {
        return schemas.isValid(entry, instance);
      } catch (error) {
        assert.ok(error instanceof Refused && error.subject === "walk" && error.kind === "TooLarge", error);
        return error.meaning;
      }
    };
    return [answer(URI, "[[]]"), answer(URI, "[[[]]]"), answer("urn:flat", "[null]"), answer("urn:flat", "[0, 0]")];
  };
  const beyond = (applications, nodes) =>
    `more than ${applications} nested schema applications, or more than ${nodes} nodes of the result`;
  assert.deepEqual(await limits({}), [true, true, true, false]);
  // Of an array in an array the entry, an item's schema and its reference are applied: two more for each array.
  assert.deepEqual(await limits({ applications: 3 }), [true, beyond(3, "1,000,000"), true, false]);
  // The root, `items`, and for each item its schema and `type`: 4 nodes of the first, 6 of the second.
  assert.deepEqual((await limits({ nodes: 4 })).slice(2), [true, beyond(512, 4)]);
  assert.deepEqual((await limits({ nodes: 6 })).slice(2), [true, false]);
  for (const bad of [{ applications: 0 }, { applications: 513 }, { applications: 1.5 }, { nodes: -1 },
    { nodes: 1_000_001 }, { nodes: "9" }, { applications: null }]) {
    await assert.rejects(Schemas.create(documents, bad), RangeError);
  }
});

/** Runs an action while new instances of a module are of another class. */
function withInstances(Other, action) {
  const own = WebAssembly.Instance;
  WebAssembly.Instance = Other;
  try {
    return action();
  } finally {
    WebAssembly.Instance = own;
  }
}

test("schemas survive an instance of the module that has stopped", async () => {
  class Trapping extends WebAssembly.Instance {
    get exports() {
      const check = () => {
        throw new WebAssembly.RuntimeError("unreachable");
      };
      return { ...super.exports, jschema_check: check };
    }
  }
  const engine = new Engine(await WebAssembly.compile(readFileSync(modulePath())));
  const of = (uri, text) => new Schemas(engine, new Documents([{ uri, bytes: new TextEncoder().encode(text) }]));
  const first = withInstances(Trapping, () => engine.instance);
  const schemas = of(URI, SCHEMA), others = of("urn:other", '{"type": "null"}');
  assert.throws(() => schemas.isValid(URI, "1"), (it) => it instanceof Stopped && /jschema_check/.test(it.message));
  assert.ok(first.hasStopped && engine.instance !== first);
  assert.throws(() => first.places(0), Stopped);
  assert.equal(schemas.isValid(URI, '{"age": -1}'), false);
  assert.equal(others.isValid("urn:other", "null"), true);
  assert.deepEqual(others.places(), ["urn:other#"]);
});

test("want of memory is OutOfMemory, and the schemas go on", async () => {
  const module = withMaximum(readFileSync(modulePath()), 64);
  const schemas = await Schemas.create({ [URI]: '{"items": {"type": "string", "title": "t"}}' }, { module });
  const many = JSON.stringify(Array.from({ length: 20000 }, () => ""));
  for (let round = 0; round < 3; round++) {
    assert.throws(() => schemas.outputText(URI, many, "verbose"), OutOfMemory);
    assert.equal(schemas.isValid(URI, '["a"]'), true);
    assert.equal(schemas.isValid(URI, "[1]"), false);
  }
  await assert.rejects(Schemas.create({ [URI]: `"${"a".repeat(1 << 22)}"` }, { module }), OutOfMemory);
});

test("memory stays the same over many checks and many schemas", async () => {
  const module = await WebAssembly.compile(readFileSync(modulePath()));
  const memories = [];
  class Watched extends WebAssembly.Instance {
    constructor(...words) {
      super(...words);
      memories.push(this.exports.memory);
    }
  }
  const engine = new Engine(module);
  assert.ok(withInstances(Watched, () => engine.instance));
  const pairs = [{ uri: URI, bytes: new TextEncoder().encode(SCHEMA) }];
  const round = (count) => {
    for (let number = 0; number < count; number++) {
      const schemas = new Schemas(engine, new Documents(pairs));
      for (let check = 0; check < 20; check++) schemas.outputText(URI, `{"age": ${check - 10}}`, "detailed");
      assert.throws(() => schemas.isValid(URI, "[0.5]"), Refused);
      schemas.close();
    }
    return memories[0].buffer.byteLength;
  };
  const first = round(20);
  assert.equal(round(180), first);
  assert.equal(memories.length, 1);
});

test("schemas that were forgotten are freed", async () => {
  setFlagsFromString("--expose-gc");
  const collect = runInNewContext("gc");
  const engine = new Engine(await WebAssembly.compile(readFileSync(modulePath())));
  const pairs = [{ uri: URI, bytes: new TextEncoder().encode(SCHEMA) }];
  let freed = 0;
  const { instance } = engine;
  const free = instance.free.bind(instance);
  instance.free = (handle) => {
    freed += 1;
    free(handle);
  };
  for (let number = 0; number < 20; number++) new Schemas(engine, new Documents(pairs));
  for (let round = 0; round < 50 && freed < 20; round++) {
    collect();
    await new Promise((resolve) => setTimeout(resolve, 10));
  }
  assert.ok(freed >= 19, `${freed} of 20 were freed`);
});
