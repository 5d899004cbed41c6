/** What the playground shows: condensing, the places of errors, links, examples. Rows are those of rows.test.js. */
import assert from "node:assert/strict";
import { readFileSync } from "node:fs";
import { test } from "node:test";
import { Refused, Schemas } from "jschema";
import { Engine, Instance } from "../src/engine.js";
import { Checker } from "../../../docs/playground/checker.js";
import { Checks, MOST_NODES, quickAnswer } from "../../../docs/playground/checking.js";
import { DROP, MERGE, REPLACE, after, normalForm, possibleSteps } from "../../../docs/playground/condensing.js";
import { movedMarks } from "../../../docs/playground/editor.js";
import { counted, withCommas } from "../../../docs/playground/elements.js";
import { EXAMPLES, stateOfExample } from "../../../docs/playground/examples.js";
import { indented } from "../../../docs/playground/indenting.js";
import { SchemaTexts, Values } from "../../../docs/playground/places.js";
import { nodesOf, pruned, textOf, treeOf } from "../../../docs/playground/result_tree.js";
import { fragmentOf, stateOf } from "../../../docs/playground/sharing.js";
import { modulePath } from "./module.js";

const module = await WebAssembly.compile(readFileSync(modulePath()));
const engine = new Engine(module);
const file = process.env.JSCHEMA_CASES;

// Larger outputs are left out: each of their steps would be tried.
const MOST_CHARACTERS = 200_000;

/** Rows and examples: documents, an entry, an instance. */
function cases() {
  const rows = file === undefined ? [] : readFileSync(file, "utf8").split("\n").slice(0, -1).map(JSON.parse);
  const bytes = (text) => new Uint8Array(Buffer.from(text, "base64"));
  return [
    ...rows.map(({ name, documents, entry, instance }) => ({
      name, entry, instance: bytes(instance), documents: documents.map(([uri, text]) => [uri, bytes(text)]),
    })),
    ...EXAMPLES.map(({ name, documents, entry, instance }) =>
      ({ name, entry, instance, documents: documents.map(({ uri, text }) => [uri, text]) })),
  ];
}

/** The outputs of a case by format; undefined where it is refused, or too large to try each step. */
async function outputsOf({ documents, entry, instance }) {
  let schemas;
  try {
    schemas = await Schemas.create(documents, { module });
    const outputs = {};
    for (const format of ["basic", "detailed", "merged"]) outputs[format] = schemas.outputText(entry, instance, format);
    if (outputs.detailed.length > MOST_CHARACTERS) return undefined;
    outputs.verbose = schemas.outputText(entry, instance, "verbose");
    return outputs.verbose.length > MOST_CHARACTERS ? undefined : outputs;
  } catch (error) {
    if (!(error instanceof Refused)) throw error;
    return undefined;
  } finally {
    schemas?.close();
  }
}

/** Takes steps while there are any: of those that are possible the one that is chosen. */
function run(root, isMerging, choose) {
  let steps = possibleSteps(root, isMerging);
  for (; steps.length > 0; steps = possibleSteps(root, isMerging)) {
    const next = after(root, choose(steps));
    assert.ok([...nodesOf(next)].length < [...nodesOf(root)].length);
    root = next;
  }
  return root;
}

// The first step, the last one, and one in between by turns.
let turn = 0;
const ORDERS = [(steps) => steps[0], (steps) => steps.at(-1), (steps) => steps[turn++ % steps.length]];

test("each order of steps ends in the validator's outputs, byte for byte", async () => {
  let tried = 0;
  for (const it of cases()) {
    const outputs = await outputsOf(it);
    if (outputs === undefined) continue;
    const whole = treeOf(outputs.verbose);
    assert.equal(textOf(whole), outputs.verbose, it.name);
    const root = pruned(whole);
    for (const choose of ORDERS) {
      assert.equal(textOf(run(root, false, choose)), outputs.detailed, it.name);
      assert.equal(textOf(run(root, true, choose)), outputs.merged, it.name);
    }
    assert.equal(textOf(normalForm(root, false)), outputs.detailed, it.name);
    assert.equal(textOf(normalForm(root, true)), outputs.merged, it.name);
    const notes = [...nodesOf(root)].filter((node) => node.note !== undefined).map((node) => node.keyword);
    const basic = JSON.parse(outputs.basic);
    assert.deepEqual(notes, (basic.errors ?? basic.annotations).map((unit) => unit.keywordLocation), it.name);
    tried += 1;
  }
  assert.ok(tried >= (file === undefined ? 8 : 200), `${tried} results`);
});

const unit = (valid, keyword, more) =>
  ({ valid, keywordLocation: keyword, absoluteKeywordLocation: "urn:x#", instanceLocation: "", ...more });

test("the two rules, and the third", () => {
  const error = { error: "no" };
  const text = JSON.stringify(unit(false, "", {
    errors: [unit(false, "/a"), unit(false, "/b", { errors: [unit(false, "/b/c", error)] }), unit(false, "/d", error),
      unit(true, "/e", { annotations: [unit(true, "/e/f", { annotation: 1 })] })],
  }));
  const root = pruned(treeOf(text));
  assert.deepEqual([...nodesOf(root)].map((it) => it.keyword), ["", "/a", "/b", "/b/c", "/d"]);
  const found = (tree, isMerging) =>
    possibleSteps(tree, isMerging).map(({ rule, node, stays }) => [rule, node.keyword, stays?.keyword]);
  assert.deepEqual(found(root, false), [[DROP, "/a", undefined], [REPLACE, "/b", "/b/c"]]);
  const condensed = normalForm(root, false);
  assert.deepEqual(found(condensed, false), []);
  assert.deepEqual(found(condensed, true), [[MERGE, "/d", "/b/c"]]);
  assert.deepEqual([...nodesOf(normalForm(root, true))].map((it) => it.keyword), ["", "/b/c"]);
});

test("the examples have the verdicts that the standard gives them", async () => {
  const checks = new Checks(engine);
  const said = [];
  for (const example of EXAMPLES) {
    const { documents, entry, instance } = stateOfExample(example);
    const { verdict, errors, fault } = await checks.answer({ documents, entry, instance, wanted: [] });
    said.push([verdict, fault?.kind ?? errors.map((it) => `${it.instanceLocation} ${it.keyword}`)]);
  }
  assert.deepEqual(said, [
    ["invalid", ["/age minimum"]],
    ["invalid", ["/folders/0/folders/1/name minLength", "/folders/1 required"]],
    // (`$ref` fails at the root, and a failing keyword evaluates nothing.)
    ["invalid", ["/children/0/daat unevaluatedProperties", "/children unevaluatedProperties"]],
    ["invalid", ["/company unevaluatedProperties"]],
    ["invalid", [" anyOf", "/mail pattern", "/telephone type"]],
    ["invalid", ["/from required", "/from required", "/from required", "/to required"]],
    ["none", "TooLarge"],
    ["invalid", [" pattern"]],
    ["invalid", [" const"]],
  ]);
});

test("errors are underlined at the value and at the keyword", async () => {
  const documents = [
    { uri: "https://example.com/a",
      text: '{"$ref": "b",\n "$defs": {"c": {"$id": "d/e",\n "items": {"type": "null"}}}}' },
    { uri: "https://example.com/b", text: '{"$id": "https://other.example/x",\n "propertyNames": {"maxLength": 1},' +
      '\n "additionalProperties": {"$ref": "https://example.com/d/e"}}' },
  ];
  const instance = '{"ab": [null, {\n}]}';
  const request = { documents, entry: "https://example.com/a", instance, wanted: ["flag"] };
  const { errors, outputs, places } = await new Checks(engine).answer(request);
  const stretches = errors.map(({ inInstance, inSchema }) => [instance.slice(inInstance.begin, inInstance.end),
    inSchema.document, documents[inSchema.document].text.slice(inSchema.begin, inSchema.end)]);
  assert.deepEqual(stretches.sort(), [['"ab"', 1, '"maxLength": 1'], ["{", 0, '"type": "null"']]);
  assert.deepEqual(outputs, { flag: '{"valid":false}\n' });
  assert.ok(places.includes("https://example.com/d/e#/items"));
});

test("of an older draft what its author wrote is underlined", async () => {
  const text = '{"$schema": "http://json-schema.org/draft-07/schema#",\n' +
    '"definitions": {"a": {"items": [{"type": "null"}]}},\n"$ref": "#/definitions/a"}';
  const request = { documents: [{ uri: "urn:x", text }], entry: "urn:x", instance: "[1]", wanted: [] };
  const { errors: [{ inSchema: { begin, end } }] } = await new Checks(engine).answer(request);
  assert.equal(text.slice(begin, end), '"type": "null"');
  const refused = { ...request, documents: [{ uri: "urn:x", text: text.replace('"null"', "1") }] };
  const { fault: { inSchema } } = await new Checks(engine).answer(refused);
  assert.equal(refused.documents[0].text.slice(inSchema.begin, inSchema.end), '"type": 1');
});

test("what is refused is underlined", async () => {
  const uri = "urn:x";
  const refused = async (text, instance) => {
    const request = { documents: [{ uri, text }], entry: uri, instance, wanted: ["verbose"] };
    const { verdict, fault } = await new Checks(engine).answer(request);
    assert.equal(verdict, "none");
    const stretch = fault.inSchema ?? fault.inInstance;
    return [fault.kind, stretch && (fault.inSchema ? text : instance).slice(stretch.begin, stretch.end)];
  };
  assert.deepEqual(await refused("{}", '{"a": [1,\n 0.5]}'), ["NotWhole", "0.5"]);
  assert.deepEqual(await refused("{}", '{"a": [1,\n ]}'), ["NotJson", "]"]);
  assert.deepEqual(await refused("{}", ""), ["NotJson", ""]);
  assert.deepEqual(await refused('{"items": {"type": 1}}', "1"), ["BadKeyword", '"type": 1']);
  assert.deepEqual(await refused('{"items": [', "1"), ["NotJson", ""]);
  assert.deepEqual(await refused('{"$ref": "#"}', "1"), ["TooLarge", undefined]);
});

test("a result that is too large for the page is judged, and not shown as a tree", async () => {
  const documents = [{ uri: "urn:x", text: '{"items": {"title": "t"}}' }];
  const instance = JSON.stringify(Array(MOST_NODES).fill(0));
  const request = { documents, entry: "urn:x", instance, wanted: ["verbose"] };
  const { verdict, outputs } = await new Checks(engine).answer(request);
  assert.deepEqual([verdict, outputs], ["valid", { verbose: undefined }]);
});

test("the schemas that can be an entry are said once for the same documents", async () => {
  const request = { documents: [{ uri: "urn:x", text: '{"items": {}}' }], entry: "urn:x", instance: "1", wanted: [] };
  const checks = new Checks(engine);
  const places = async (change) => (await checks.answer({ ...request, ...change })).places;
  assert.equal(await places({ instance: "" }), undefined);
  assert.deepEqual(await places({}), ["urn:x#", "urn:x#/items"]);
  assert.equal(await places({ documents: request.documents.map((it) => ({ ...it })), instance: "2" }), undefined);
  assert.deepEqual(await places({ documents: [{ uri: "urn:x", text: "{}" }] }), ["urn:x#"]);
  checks.close();
});

test("an instance is checked once, and once more for each output that is wanted", async () => {
  const { verdict } = Instance.prototype, formats = [];
  Instance.prototype.verdict = function (...words) {
    formats.push(words.at(-1));
    return verdict.apply(this, words);
  };
  try {
    const checks = new Checks(engine);
    const asked = async (instance, wanted = [], text = '{"items": {"minimum": 0}}') => {
      formats.length = 0;
      const request = { documents: [{ uri: "urn:x", text }], entry: "urn:x", instance, wanted };
      const answer = await checks.answer(request);
      return [answer.verdict, answer.errors.length, answer.count, ...formats];
    };
    const many = (last, count = 5000) => JSON.stringify([...Array(count).fill(10), last]);
    assert.deepEqual(await asked("[-1]"), ["invalid", 1, 1, "basic"]);
    assert.deepEqual(await asked("[-1]", ["verbose"]), ["invalid", 1, 1, "verbose"]);
    assert.deepEqual(await asked("[1]", ["verbose", "detailed"]), ["valid", 0, 0, "basic", "verbose", "detailed"]);
    assert.deepEqual(await asked("[-2, 1, -3]"), ["invalid", 2, 2, "basic"]);
    assert.deepEqual(await asked(many(-1)), ["invalid", 1, 1, "basic"]);
    // (After a valid instance the errors of the next one aren't asked for, until it has some.)
    assert.deepEqual(await asked(many(1)), ["valid", 0, 0, "basic"]);
    assert.deepEqual(await asked(many(2)), ["valid", 0, 0, "flag"]);
    assert.deepEqual(await asked(many(2), [], '{"items": {"minimum": 1}}'), ["valid", 0, 0, "flag"]);
    assert.deepEqual(await asked(many(-2)), ["invalid", 1, 1, "flag", "basic"]);
    assert.deepEqual(await asked(many(1, 400_000)), ["valid", 0, 0, "flag"]);
    checks.close();
  } finally {
    Instance.prototype.verdict = verdict;
  }
});

test("what is quick is checked in the page, as a worker does it", async () => {
  const quick = [];
  for (const example of EXAMPLES) {
    const { documents, entry, instance } = stateOfExample(example);
    const request = { documents, entry, instance, wanted: ["verbose"] };
    const answer = await quickAnswer(engine, request);
    if (answer === undefined) continue;
    quick.push(example.name);
    const expected = await new Checks(engine).answer(request);
    assert.deepEqual({ ...answer, milliseconds: 0 }, { ...expected, milliseconds: 0 });
  }
  assert.equal(quick[0], EXAMPLES[0].name);
  assert.ok(!quick.some((it) => /pattern|condensed|without end/.test(it)), quick);
  const left = [
    ['{"propertyNames": {"pattern": "a"}}', "1"], ['{"p\\u0061ttern": "a"}', "1"], ["{}", `"${"a".repeat(10_000)}"`],
    ['{"items": {"title": "t"}}', JSON.stringify(Array(2000).fill(0))], ['{"$ref": "#"}', "1"],
  ];
  for (const [text, instance] of left) {
    const request = { documents: [{ uri: "urn:x", text }], entry: "urn:x", instance, wanted: [] };
    assert.equal(await quickAnswer(engine, request), undefined, text);
  }
});

test("marks move with the text", () => {
  const moved = (before, after, ...marks) =>
    movedMarks(marks.map(([begin, end]) => ({ begin, end })), before, after).map(({ begin, end }) => [begin, end]);
  assert.deepEqual(moved("[1, 2]", "\n[1, 2]", [1, 2], [4, 5]), [[2, 3], [5, 6]]);
  // (What is typed at the edge of a mark belongs to it.)
  assert.deepEqual(moved("[1, 2]", "[ 1, 2]", [1, 2], [4, 5]), [[1, 3], [5, 6]]);
  assert.deepEqual(moved("[1, 2]", "[1, 2, 3]", [1, 2], [4, 5]), [[1, 2], [4, 5]]);
  assert.deepEqual(moved("[1, 22, 3]", "[1, 3]", [1, 2], [4, 6], [8, 9]), [[1, 2], [4, 5]]);
  assert.deepEqual(moved("aaaa", "aaaaa", [0, 2]), [[0, 2]]);
  assert.deepEqual(moved("[1]", "", [1, 2]), []);
  assert.deepEqual(moved("[1]", "[1]", [1, 2]), [[1, 2]]);
});

test("the page names each module that it needs at first", () => {
  const page = new URL("../../../docs/playground/index.html", import.meta.url);
  const imported = /^(?:import|export)\b[^;]*?\bfrom "(\.[^"]+)";/gm;
  const needed = new Set();
  const visit = (url) => {
    if (needed.has(url.href)) return;
    needed.add(url.href);
    for (const [, name] of readFileSync(url, "utf8").matchAll(imported)) visit(new URL(name, url));
  };
  visit(new URL("main.js", page));
  const links = readFileSync(page, "utf8").matchAll(/<link rel="modulepreload" href="([^"]*)">/g);
  const named = Array.from(links, ([, href]) => new URL(href, page).href);
  assert.deepEqual([new URL("main.js", page).href, ...named].sort(), [...needed].sort());
});

/** A worker that is ready after a while, and answers a request with its text, unless that is `never`. */
class Echo extends EventTarget {
  static started = 0;
  static delay = 0;
  static asked = [];

  constructor() {
    super();
    Echo.started += 1;
    setTimeout(() => this.#answer({ isReady: true }), Echo.delay);
  }

  postMessage({ number, request }) {
    if (number === undefined) return;
    Echo.asked.push(request);
    if (request !== "never") setTimeout(() => this.#answer({ number, answer: `${request}!` }), 5);
  }

  #answer(data) {
    if (!this.isEnded) this.dispatchEvent(Object.assign(new Event("message"), { data }));
  }

  terminate() {
    this.isEnded = true;
  }
}

test("of the requests that wait only the newest is asked, and a slow worker is ended", async () => {
  const answers = [];
  let told = () => undefined;
  const tell = (answer, request) => {
    answers.push([request, answer.fault?.message ?? answer]);
    told();
  };
  const wait = () => new Promise((resolve) => {
    told = resolve;
  });
  const checker = new Checker({ start: () => new Echo(), module, tell, milliseconds: 1000 });
  for (const it of ["a", "b", "c", "never"]) checker.ask(it);
  await wait();
  assert.deepEqual([Echo.asked, Echo.started], [["a", "never"], 1]);
  checker.ask("d");
  await wait();
  assert.equal(Echo.started, 2);
  await wait();
  assert.deepEqual(answers, [["a", "a!"], ["never", "no answer after 1 s"], ["d", "d!"]]);
});

test("the time for an answer begins when the worker is ready", async () => {
  Echo.delay = 100;
  const order = [];
  await new Promise((resolve) => {
    const start = () => {
      const worker = new Echo();
      worker.addEventListener("message", ({ data }) => data.isReady && order.push("ready"));
      return worker;
    };
    const tell = ({ fault }) => resolve(order.push(fault.message));
    new Checker({ start, module, tell, milliseconds: 50 }).ask("never");
  });
  assert.deepEqual(order, ["ready", "no answer after 0.05 s"]);
});

test("a link holds the whole state", async () => {
  for (const example of EXAMPLES) {
    const changed = { panel: "output", format: "merged", isMerging: true, instance: "\u{1f600}" };
    const state = { ...stateOfExample(example), ...changed };
    assert.deepEqual(await stateOf(await fragmentOf(state)), state);
  }
  assert.match(await fragmentOf(stateOfExample(EXAMPLES[0])), /^#1\.[\w-]+$/);
  assert.equal(await stateOf(""), undefined);
  for (const bad of ["#x", "#1.", "#1.AAAA", await fragmentOf({}), await fragmentOf({ documents: [] })]) {
    await assert.rejects(stateOf(bad), bad);
  }
});

test("an output is indented without a change of its tokens", () => {
  const text = '{"a":[],"b":{"c":[1,{"d":"[,]\\""}]},"e":{}}\n';
  assert.equal(indented(text), JSON.stringify(JSON.parse(text), null, 2));
  assert.equal(indented('{"a":[1'), '{\n  "a": [\n    1');
});

test("a count has a comma before each three digits", () => {
  for (const count of [0, 7, 999, 1000, 20_000, 112_982, 1_000_000, 1_234_567_890]) {
    assert.equal(withCommas(count), count.toLocaleString("en"));
  }
  assert.deepEqual([0, 1, 1000].map((it) => counted(it, "node")), ["0 nodes", "1 node", "1,000 nodes"]);
});

test("places of what isn't there, and of documents that aren't JSON", () => {
  const texts = new SchemaTexts([{ uri: "urn:x", text: "{" }, { uri: "no URI", text: '{"type": "null"}' }], engine);
  assert.equal(texts.find("urn:x#/type"), undefined);
  assert.deepEqual(texts.find("no URI#/type"), { document: 1, begin: 1, end: 15 });
  assert.equal(texts.find("urn:y#"), undefined);
  assert.equal(new Values("[1]", engine).ofValue("/1"), undefined);
  assert.equal(new Values("[1", engine).ofValue("/0"), undefined);
  assert.deepEqual(new Values("[1]", engine).ofValue("/0"), { begin: 1, end: 2 });
});
