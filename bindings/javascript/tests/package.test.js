/** What the package's files say of it: its types, its dependencies, and what is trusted. */
import assert from "node:assert/strict";
import { accessSync, constants, readFileSync } from "node:fs";
import { test } from "node:test";

const home = new URL("../", import.meta.url);
const textOf = (path) => readFileSync(new URL(path, home), "utf8");
const { exports: entries, bin, files, type, ...description } = JSON.parse(textOf("package.json"));

/** The body of a class in the types. */
function bodyOf(types, name) {
  return types.match(new RegExp(`^export class ${name}\\b[^{]*\\{\\n(.*?)^\\}$`, "ms"))?.[1];
}

/** The methods that the types give a class. */
function methodsOf(body) {
  return Array.from(body.matchAll(/^ {2}(?:static )?(\w+)\(/gm), ([, name]) => name);
}

test("it is an ES module without dependencies, and its files are there", () => {
  assert.equal(type, "module");
  assert.deepEqual(Object.keys(description).filter((it) => /dependencies$/i.test(it)), []);
  for (const { types, default: script } of Object.values(entries).filter((it) => typeof it !== "string")) {
    for (const path of [types, script]) assert.ok(files.some((it) => path.slice(2).startsWith(it)) && textOf(path));
  }
  for (const path of Object.values(bin)) accessSync(new URL(path, home), constants.X_OK);
});

test("the types name what the modules export, and the calls of its classes", async () => {
  for (const [entry, { types, default: script }] of Object.entries(entries)) {
    if (types === undefined) continue;
    const said = textOf(types), module = await import(new URL(script, home));
    const names = Array.from(said.matchAll(/^export (?:class|function|const) (\w+)/gm), ([, name]) => name);
    assert.ok(names.length > 0 && names.every((it) => it in module), entry);
    // (Of `lint` its command has more.)
    if (entry !== "./lint") assert.deepEqual(names.sort(), Object.keys(module).sort(), entry);
    for (const name of names.filter((it) => bodyOf(said, it) !== undefined)) {
      const { prototype } = module[name], methods = methodsOf(bodyOf(said, name));
      for (const it of methods) {
        assert.ok(typeof (prototype[it] ?? module[name][it]) === "function", `${name}.${it}`);
      }
      if (!name.endsWith("Schemas")) continue;
      const made = Object.getOwnPropertyNames(prototype).filter((it) => it !== "constructor");
      assert.deepEqual(made.concat("create").sort(), methods.sort(), name);
    }
  }
});

test("each call has a comment in the types, and each thing that is exported has one in its module", () => {
  const body = bodyOf(textOf("index.d.ts"), "Schemas");
  const without = body.matchAll(/(?<!\*\/\n) {2}(?:static )?(?!constructor)\b(\w+)\(/g);
  assert.deepEqual(Array.from(without, ([, name]) => name).filter((it) => methodsOf(body).includes(it)), []);
  for (const [, path] of textOf("src/index.js").matchAll(/from "\.\/(\w+\.js)"/g)) {
    const module = textOf(`src/${path}`);
    const exported = module.match(/^export (?:async )?(?:class|function) \w+/gm) ?? [];
    for (const it of exported) assert.match(module.slice(0, module.indexOf(it)), /\*\/\n$/, `${path}: ${it}`);
  }
});

test("its page says what is trusted: each C file with the count of lines, and each script of the build", () => {
  const trusted = textOf("README.md").match(/^## What is trusted\n(.*?)^## /ms)[1];
  const build = textOf("../../tools/build-wasm");
  const scripts = Array.from(build.matchAll(/\$sources\/(\w+\.py)/g), ([, name]) => name);
  const sources = Array.from(build.matchAll(/compile_c (\w+)/g), ([, name]) => `${name}.c`);
  assert.ok(scripts.length >= 4 && sources.length >= 4);
  for (const name of [...scripts, ...sources]) assert.ok(trusted.includes(`\`wasm/${name}\``), name);
  const lines = [...new Set(sources)].reduce((sum, it) => sum + textOf(`wasm/${it}`).split("\n").length - 1, 0);
  assert.ok(trusted.includes(`${Math.round(lines / 10) * 10} lines of C`), `${lines} lines`);
});
