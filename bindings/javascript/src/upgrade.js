/** Documents of older drafts as documents of 2020-12, to keep them. */
import { LATEST, URIS } from "./dialects.js";
import { Documents } from "./documents.js";
import { load, sharedEngine } from "./engine.js";
import { Refused } from "./errors.js";
import { uriOf } from "./upgrading.js";

/**
 * The text of each document, upgraded to 2020-12, by its URI. They are upgraded together, since a reference may lead
 * into another document.
 *
 * @param {Record<string, string | Uint8Array> | Iterable<[string, string | Uint8Array]>} documents
 * @param {{ defaultDialect?: string, module?: unknown }} [options] the dialect of documents that name none
 * @returns {Promise<Record<string, string>>}
 */
export async function upgrade(documents, { defaultDialect = URIS[LATEST], module } = {}) {
  const engine = await (module === undefined ? sharedEngine() : load(module));
  const given = await Documents.create(documents, { defaultDialect });
  const { instance } = engine, handle = instance.newHandle();
  try {
    return upgraded(given, instance, handle);
  } catch (error) {
    if (!(error instanceof Refused)) throw error;
    throw given.refusal(error, engine);
  } finally {
    instance.free(handle);
  }
}

function upgraded(documents, instance, handle) {
  for (const { uri, bytes } of documents.given) instance.add(handle, uri, bytes);
  instance.upgrade(handle, uriOf(documents.assumed));
  return Object.fromEntries(documents.given.map(({ uri }, number) => [uri, instance.document(handle, number)]));
}
