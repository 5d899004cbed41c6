/** Where the values and the keywords that an output names stand in the texts. */
import { pointer, schemaSteps } from "../../bindings/javascript/src/locations.js";
import { Text } from "../../bindings/javascript/src/positions.js";
import { Document, originalAt } from "../../bindings/javascript/src/resources.js";
import { NotJson } from "../../bindings/javascript/src/scanner.js";

/** A stretch of a text: the indices of its first character and of the one after it. */
/** @typedef {{ begin: number, end: number }} Stretch */

/** The values of a JSON text. Of one that isn't JSON there are none. */
export class Values {
  #string;
  #text;

  /** @param {string} text @param {import("../../bindings/javascript/src/engine.js").Engine} engine */
  constructor(text, engine) {
    this.#string = text;
    this.#text = new Text(text, engine);
  }

  /** Says which values will be asked for. They are then found together. */
  expect(pointers) {
    this.#text.expect(pointers);
  }

  /** What to underline for an error of the value at a pointer: the value, or its first line. */
  ofValue(pointer, isName = false) {
    const found = this.#found(pointer);
    return isName && found?.name !== undefined ? found.name : found && this.#firstLine(found.value);
  }

  /** What to underline for a keyword, or a schema: its name with its value, if that is on the same line. */
  ofKeyword(pointer) {
    const found = this.#found(pointer);
    if (found?.name === undefined) return found && this.#firstLine(found.value);
    const whole = { begin: found.name.begin, end: found.value.end };
    return this.#string.slice(whole.begin, whole.end).includes("\n") ? found.name : whole;
  }

  /** The stretches of a value, and of the name of the member that it is; undefined where there is none. */
  #found(pointer) {
    try {
      const { name } = this.#text.located(pointer);
      return { value: stretch(this.#text.range(pointer)), name: name && stretch(this.#text.nameRange(pointer)) };
    } catch (error) {
      if (error instanceof RangeError || error instanceof NotJson) return undefined;
      throw error;
    }
  }

  #firstLine({ begin, end }) {
    const line = this.#string.indexOf("\n", begin);
    return { begin, end: line >= 0 && line < end ? line : end };
  }
}

function stretch({ offset, end }) {
  return { begin: offset, end };
}

/** Whether an error is one of a member's name: `propertyNames` applies its schema to that. */
export function isOfName(keywordLocation) {
  return schemaSteps(keywordLocation).some((it) => it.isKeyword && it.token === "propertyNames");
}

/** The schema documents: which of them has the keyword at an absolute location, and where. */
export class SchemaTexts {
  #values;
  #texts;
  #read;

  /** @param {readonly { uri: string, text: string }[]} documents */
  constructor(documents, engine) {
    this.#values = documents.map(({ text }) => new Values(text, engine));
    this.#texts = documents;
  }

  /** What was read of the documents that are JSON, when the first keyword is looked for. */
  get #documents() {
    this.#read ??= this.#texts.map(({ uri, text }) => read(uri, text));
    return this.#read;
  }

  /** Says which keywords will be looked for. */
  expect(absoluteLocations) {
    for (const location of absoluteLocations) {
      const found = this.#original(location);
      if (found !== undefined) this.#values[found.document].expect([found.pointer]);
    }
  }

  /** The document's number, and what to underline in it; undefined if there is no such place. */
  find(absoluteLocation) {
    const found = this.#original(absoluteLocation);
    return found && this.inDocument(found.document, found.pointer);
  }

  /** The same for a pointer into a document. */
  inDocument(document, pointer) {
    const found = this.#values[document]?.ofKeyword(pointer);
    return found && { document, ...found };
  }

  /** The document and the pointer that what stands at a location of the upgraded schemas comes from. */
  #original(absoluteLocation) {
    const found = originalAt(absoluteLocation, this.#documents.filter((it) => it !== undefined));
    return found && { document: this.#documents.indexOf(found.document),
      pointer: pointer([...found.root, ...found.tokens]) };
  }
}

/** A document; undefined for a text that isn't JSON. */
function read(uri, text) {
  try {
    return new Document(uri, JSON.parse(text));
  } catch (error) {
    if (error instanceof SyntaxError) return undefined;
    throw error;
  }
}
