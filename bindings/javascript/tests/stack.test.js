/** Where a stack ends: the engine's, and the module's own. */
import assert from "node:assert/strict";
import { readFileSync } from "node:fs";
import { test } from "node:test";
import { Schemas, Stopped } from "jschema";
import { modulePath, withStack } from "./module.js";

const bytes = readFileSync(modulePath());
const URI = "urn:nested";
const SCHEMA = '{"items": {"$ref": "#"}, "uniqueItems": true}';
const FLAT = "[1, 2]";
const DEEP = `${"[".repeat(127)}${"]".repeat(127)}`;

/** The verdict of an instance, or why the module stopped. */
function answer(schemas, instance) {
  try {
    return schemas.isValid(URI, instance);
  } catch (error) {
    if (error instanceof Stopped) return error.message;
    throw error;
  }
}

/** What an action answers below so many calls. */
function below(depth, action) {
  const answered = depth === 0 ? action() : below(depth - 1, action);
  return answered;
}

/** How many calls the engine's stack has room for. */
function deepest() {
  let depth = 0;
  const further = () => {
    depth += 1;
    further();
  };
  assert.throws(further, RangeError);
  return depth;
}

test("what is within the limits has enough of both stacks", async () => {
  const schemas = await Schemas.create({ [URI]: SCHEMA }, { module: bytes });
  assert.deepEqual([FLAT, DEEP, FLAT].map((it) => answer(schemas, it)), [true, true, true]);
});

test("at the end of the engine's stack the instance stops, and the schemas go on in another", async () => {
  const schemas = await Schemas.create({ [URI]: SCHEMA }, { module: bytes });
  const most = deepest();
  let said = true;
  // (How large a call's frame is depends on how the engine has compiled it.)
  for (let tenths = 5; said === true; tenths += 0.5) {
    assert.ok(tenths < 10, "the deep instance never reached the end of the stack");
    const depth = Math.floor(most * tenths / 10);
    said = below(depth, () => answer(schemas, DEEP));
    assert.equal(below(depth, () => answer(schemas, FLAT)), true);
  }
  assert.match(said, /^the module stopped in jschema_check: Maximum call stack size exceeded/);
  assert.deepEqual([DEEP, FLAT].map((it) => answer(schemas, it)), [true, true]);
});

test("at the end of the module's own stack it traps, and the schemas go on in another instance", async () => {
  const schemas = await Schemas.create({ [URI]: SCHEMA }, { module: withStack(bytes, 24 * 1024) });
  const said = [FLAT, DEEP, FLAT, DEEP, FLAT].map((it) => answer(schemas, it));
  assert.deepEqual(said, [true, said[1], true, said[1], true]);
  assert.match(said[1], /^the module stopped in jschema_check: memory access out of bounds/);
});
