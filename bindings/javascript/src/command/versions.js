/** What `--version` says. */
import { readFileSync } from "node:fs";
import { sharedEngine } from "../engine.js";

/** The version of the package. */
export function packageVersion() {
  return JSON.parse(readFileSync(new URL("../../package.json", import.meta.url), "utf8")).version;
}

/** That, and the version of the module, which checks. */
export async function versions() {
  const { instance } = await sharedEngine();
  return `jschema ${packageVersion()}\nengine: the WebAssembly module, version ${instance.version}\n`;
}
