/**
 * Runs the command in this process as often as standard input asks for it, a line of JSON each: so Node starts once.
 * `{ words, folder, given }`: the command's arguments, where it runs, and its standard input; the reply is a line with
 * what it wrote to both streams, and its status. `{ module, expression, given }`: the value of an expression in which
 * `it` is a module of the command, and `given` this value.
 */
import fs from "node:fs";
import { syncBuiltinESMExports } from "node:module";
import { createInterface } from "node:readline";

const { readSync, writeSync } = fs;
const STDIN = 0;

/** What the command reads, and what it has written to standard output and standard error. */
let input = Buffer.alloc(0);
const written = new Map();

fs.readSync = (descriptor, block, ...rest) => {
  if (descriptor !== STDIN) return readSync(descriptor, block, ...rest);
  const count = input.copy(block);
  input = input.subarray(count);
  return count;
};
fs.writeSync = (descriptor, bytes, at, ...rest) => {
  if (!written.has(descriptor)) return writeSync(descriptor, bytes, at, ...rest);
  written.get(descriptor).push(Buffer.from(bytes.subarray(at)));
  return bytes.length - at;
};
syncBuiltinESMExports();

const { main } = await import("../src/command/main.js");
const { STDERR, STDOUT } = await import("../src/command/writing.js");

async function run({ words, folder, given }) {
  process.chdir(folder);
  input = Buffer.from(given);
  for (const descriptor of [STDOUT, STDERR]) written.set(descriptor, []);
  const status = await main(words);
  const texts = [...written.values()].map((it) => Buffer.concat(it).toString());
  written.clear();
  return [...texts, status];
}

async function evaluate({ module, expression, given }) {
  const it = await import(new URL(`../src/command/${module}`, import.meta.url));
  return new Function("it", "given", `return ${expression};`)(it, given);
}

for await (const line of createInterface({ input: process.stdin })) {
  const asked = JSON.parse(line);
  console.log(JSON.stringify(await (asked.words === undefined ? evaluate(asked) : run(asked))));
}
