/** What the package's page shows. */
import assert from "node:assert/strict";
import { execFileSync } from "node:child_process";
import { test } from "node:test";
import { fileURLToPath } from "node:url";

test("the first example", () => {
  const file = fileURLToPath(new URL("usage.js", import.meta.url));
  const said = execFileSync(process.execPath, [file], { encoding: "utf8" });
  assert.equal(said, "true\n1 9 less than 0 /age\n{ valid: false }\n");
});
