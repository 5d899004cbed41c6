/** A validator for JSON Schema 2020-12: schema documents that are checked once, and instances checked against them. */
export { compile } from "./compile.js";
export { FORMATS } from "./engine.js";
export { OutOfMemory, Refused, Stopped, ValidationError } from "./errors.js";
export { Text } from "./positions.js";
export { Schemas } from "./schemas.js";
export { upgrade } from "./upgrade.js";
export { textOf } from "./values.js";
