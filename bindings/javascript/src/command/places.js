/** Where keywords stand in the files of the schemas. */
import { pointer } from "../locations.js";
import { Targets } from "../resources.js";

const MOST = 10_000;

/** The files of the schemas. They are walked when the first keyword is looked for. */
export class Places {
  #files;
  #engine;
  // What URIs name in the files, and the file of each document, once they are walked.
  #targets;
  #fileOf;
  #found = new Map();

  /** @param {readonly import("./lookup.js").SchemaFile[]} files @param {import("../engine.js").Engine} engine */
  constructor(files, engine) {
    this.#files = files;
    this.#engine = engine;
  }

  /** Says which keywords will be looked for. Those of a file are then found together. */
  expect(keywordUris) {
    for (const uri of new Set(keywordUris)) {
      const { file, place } = this.#target(uri) ?? {};
      file?.source.positions(this.#engine).expect([place]);
    }
  }

  /** The file and the position of a keyword with an absolute location; undefined if it is in none of the files. */
  find(keywordUri) {
    const { file, place } = this.#target(keywordUri) ?? {};
    if (file === undefined) return undefined;
    try {
      return { file: file.path, position: file.source.positions(this.#engine).name(place).begin };
    } catch (error) {
      if (error instanceof RangeError) return undefined;
      throw error;
    }
  }

  /** The file, and the pointer to the keyword in it. */
  #target(keywordUri) {
    if (!this.#found.has(keywordUri)) {
      if (this.#found.size >= MOST) this.#found.clear();
      if (this.#targets === undefined) {
        const files = this.#files.filter((it) => it.document !== undefined);
        this.#fileOf = new Map(files.map((it) => [it.document, it]));
        this.#targets = new Targets(this.#fileOf.keys());
      }
      const found = this.#targets.target(keywordUri);
      this.#found.set(keywordUri, found && { file: this.#fileOf.get(found.document), place: pointer(found.tokens) });
    }
    return this.#found.get(keywordUri);
  }
}
