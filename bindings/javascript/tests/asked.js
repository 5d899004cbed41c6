/**
 * Calls of the package that are asked for on standard input, a line of JSON each: the name of a call and its arguments.
 * The reply is a line: what the call returns (`answer`), or what it throws (`thrown`).
 */
import { createInterface } from "node:readline";
import { Refused, Schemas } from "jschema";
import { lintAll } from "jschema/lint";
import { CHECKS, holds } from "../src/formats.js";
import { KEYWORDS } from "../src/keywords.js";
import { nothing } from "../src/lint/bounds.js";
import { RULES } from "../src/lint/finding.js";
import { schemaText } from "../src/lint/index.js";
import { formats, inactive, unknown } from "../src/lint/keywords.js";
import { outside } from "../src/lint/numbers.js";
import { Uses, unresolved, unused } from "../src/lint/references.js";
import { Decimal, exactText, number } from "../src/numbers.js";
import { read, readSingle, schemaOf } from "../src/patterns/index.js";
import * as ofPatterns from "../src/patterns/keywords.js";
import { Rewriting } from "../src/rewriting.js";
import { Source } from "../src/sources.js";

const encoder = new TextEncoder(), decoder = new TextDecoder();
const bytes = (text) => Uint8Array.from(Buffer.from(text, "base64"));
/** Schemas that were made, by their numbers. */
const made = [];

const CALLS = {
  tables: () => ({ keywords: Object.fromEntries(KEYWORDS), rules: RULES, formats: [...CHECKS.keys()] }),
  numbers: (texts) => texts.map(numberOf),
  exactText: (text, hasFractions) => exactText(text, hasFractions),
  patterns: (patterns) => patterns.map((it) => [read(it), readSingle(it)].map((found) => found && schemaOf(found))),
  rewritten: (documents, options, assumed, units) => rewritten(documents, options, assumed, units),
  found: (documents, numbers) => foundIn(documents, numbers),
  holds: (format, texts) => texts.map((it) => holds(format, it)),
  async create(documents, options) {
    const texts = documents.map(([uri, text]) => [uri, bytes(text)]);
    return made.push(await Schemas.create(texts, options)) - 1;
  },
  isValid: (index, entry, instance) => made[index].isValid(entry, bytes(instance)),
  places: (index) => made[index].places(),
  close: (index) => made[index].close(),
  errors: (index, entry, instance) => made[index].errors(entry, bytes(instance)).map((it) => ({
    message: it.message, instanceLocation: it.instanceLocation, keywordLocation: it.keywordLocation,
    absoluteKeywordLocation: it.absoluteKeywordLocation, upgradedLocation: it.upgradedLocation,
  })),
  async lint(documents, others, options) {
    const texts = (pairs) => pairs.map(([uri, text]) => [uri, bytes(text)]);
    return lintAll(texts(documents), { others: texts(others), ...options });
  },
};

/** An integer as its digits; of another number what is below and above it. */
function numberOf(text) {
  const found = number(text);
  return found instanceof Decimal ? [found.floor(), found.ceiling()].map(String) : String(found);
}

/** The rewritten documents, and what leads back from there for units of an output. */
function rewritten(documents, options, assumed, units) {
  const rewriting = new Rewriting(options, ofPatterns);
  const given = documents.map(([uri, text]) => ({ uri, bytes: encoder.encode(text) }));
  const texts = rewriting.texts(given, assumed).map((it) => decoder.decode(it.bytes));
  const uris = units.map((it) => it.absoluteKeywordLocation);
  return { texts, errors: rewriting.restoring.errors(units), entries: uris.map((it) => rewriting.entry(it)),
    schemas: uris.map((it) => rewriting.restoring.schema(it) ?? null) };
}

/** What rules find in each document, for which no validator is asked. */
function foundIn(documents, numbers) {
  const texts = documents.map(([uri, text]) => schemaText(uri, new Source(encoder.encode(text))));
  const uses = new Uses(texts.map((it) => it.document));
  return texts.map((given) => {
    const { document } = given;
    const found = [unknown(document), inactive(document), formats(document), unused(document, uses), nothing(document),
      unresolved(document, uses), outside(given, numbers ?? undefined)];
    return found.flatMap((it) => [...it]).map(({ rule, severity, tokens, isName, message, suggestion = null }) =>
      [rule, severity, tokens, isName, message, suggestion]);
  });
}

async function answerTo([name, ...given]) {
  try {
    return { answer: await CALLS[name](...given) ?? null };
  } catch (error) {
    const { name: thrown, message, subject, kind, place, index, isUpgraded } = error;
    return error instanceof Refused ? { thrown, subject, kind, place, index, isUpgraded } : { thrown, message };
  }
}

for await (const line of createInterface({ input: process.stdin })) {
  console.log(JSON.stringify(await answerTo(JSON.parse(line))));
}
