/** The words of ajv, where they mean the same. */
import { Schemas } from "./schemas.js";
import { identifierOf } from "./upgrading.js";
import { written } from "./values.js";

// The URI of a schema that has no absolute $id.
const UNNAMED = "https://schema.invalid/";
const ABSOLUTE = /^[A-Za-z][A-Za-z0-9+.-]*:[^#]*#?$/;

/**
 * A function that says whether a value is valid, and leaves `errors` as ajv does.
 *
 * @param {boolean | object} schema a schema as a value
 * @param {{ schemas?: Record<string, boolean | object>, module?: unknown, defaultDialect?: string, upgrade?: boolean,
 *     patterns?: "ecma", numbers?: "exact" | "texts" }} [options] other documents by their URIs, and options of
 *     `Schemas.create`
 */
export async function compile(schema, options = {}) {
  const name = identifierOf(schema, options.defaultDialect);
  const uri = typeof name === "string" && ABSOLUTE.test(name) ? name.replace(/#$/, "") : UNNAMED;
  const isExact = options.numbers !== undefined, how = { isExact, hasFractions: isExact };
  const documents = new Map([[uri, written(schema, how)]]);
  for (const [name, other] of Object.entries(options.schemas ?? {})) documents.set(name, written(other, how));
  const schemas = await Schemas.create(documents, options);
  const validate = (data) => {
    const errors = schemas.errors(uri, written(data, { isExact }));
    validate.errors = errors.length === 0 ? null : errors.map((error) => asAjv(error, uri));
    return errors.length === 0;
  };
  return Object.assign(validate, { schema, schemas, errors: null });
}

function asAjv(error, uri) {
  const location = error.absoluteKeywordLocation;
  return {
    instancePath: error.instanceLocation,
    schemaPath: location.startsWith(`${uri}#`) ? location.slice(uri.length) : location,
    keyword: error.keyword === "false" ? "false schema" : error.keyword,
    message: error.message,
  };
}
