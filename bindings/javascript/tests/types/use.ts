// What the types allow and refuse: compiled by `tsc`, never run.
import { FORMATS, OutOfMemory, Refused, Schemas, Stopped, Text, compile, textOf, upgrade } from "jschema";
import type { AjvError, Format, Output, Position, ValidationError } from "jschema";
import { lint, RULES } from "jschema/lint";
import type { Rule } from "jschema/lint";
import { WorkerSchemas } from "jschema/worker";

export async function use(bytes: Uint8Array): Promise<void> {
  const schemas: Schemas = await Schemas.create({ "https://example.com/config": "{}" });
  const module = fetch("jschema.wasm");
  const others: Schemas = await Schemas.create(new Map([["urn:x", bytes]]), { module, nodes: 1000 });
  const valid: boolean = schemas.isValid("urn:x", { a: [1, 2n, null, { b: true }] });
  const errors: ValidationError[] = others.errors("urn:x", bytes);
  const places: [number, number, string, string][] =
    errors.map((it) => [it.line, it.column, it.message, it.instanceLocation]);
  const output: Output = schemas.output("urn:x", "1", "detailed");
  const text: string = schemas.outputText("urn:x", "1");
  const format: Format = FORMATS[0];
  const positions: Text = schemas.positions("{}");
  const position: Position = positions.value("");
  const end: number = positions.range("").end;
  schemas[Symbol.dispose]();
  others.close();
  const validate = await compile({ type: "object" });
  const found: AjvError[] | null = validate({}) ? null : validate.errors;
  const older = await compile({ items: [{}] }, { defaultDialect: "draft-07" });
  const refusing = await Schemas.create({ "urn:x": "true" }, { upgrade: false });
  const worker = await WorkerSchemas.create({ "urn:x": "true" }, { seconds: 1, applications: 8 });
  const upgraded: Record<string, string> = await upgrade({ "urn:x": "true" }, { defaultDialect: "draft-07" });
  const exact = await Schemas.create({ "urn:x": "true" }, { patterns: "ecma", numbers: "texts" });
  const written: string | undefined = exact.writtenSchema("urn:x#");
  const tree: Output = exact.tree("urn:x", "1");
  const findings = await lint("{}", "urn:x", { others: { "urn:y": "true" }, numbers: "exact" });
  const about: [Rule, string, number, string | undefined][] =
    findings.map((it) => [it.rule, RULES[it.rule], it.range.begin.line, it.suggestion]);
  const inWorker: Promise<boolean> = worker.isValid("urn:x", "1");
  console.log(valid, places, output, text, format, position, end, found, inWorker, textOf(1n), older, refusing);
  console.log(written, tree, about, upgraded);

  // @ts-expect-error: no such format
  schemas.output("urn:x", "1", "xml");
  // @ts-expect-error: JSON has no undefined
  schemas.isValid("urn:x", undefined);
  // @ts-expect-error: JSON has no Date
  schemas.isValid("urn:x", { at: new Date() });
  // @ts-expect-error: documents are texts
  await Schemas.create({ "urn:x": {} });
  // @ts-expect-error: a limit is a number
  await Schemas.create({}, { nodes: "1000" });
  // @ts-expect-error: no such dialect
  await Schemas.create({}, { defaultDialect: "draft-05" });
  // @ts-expect-error: no such patterns
  await Schemas.create({}, { patterns: "regex" });
  // @ts-expect-error: no such numbers
  await lint("{}", "urn:x", { numbers: "whole" });
  // @ts-expect-error: `create` makes schemas
  new Schemas();
  // @ts-expect-error: `positions` makes texts
  new Text("{}");
  // @ts-expect-error: a string in a list is a value, the entry is missing
  schemas.isValid(["1"]);
}

export function said(error: unknown): string | undefined {
  if (error instanceof Refused) return `${error.kind} ${error.place} ${error.line}:${error.column} ${error.document}`;
  if (error instanceof OutOfMemory || error instanceof Stopped) return error.message;
  // @ts-expect-error: not narrowed to a class with a kind
  return error.kind;
}
