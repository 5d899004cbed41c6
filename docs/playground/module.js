/**
 * Begins to load the validator's module while the page is still read: a classic script, which runs before the others.
 * They find the compiled module here.
 */
globalThis.compiledModule = fetch(document.currentScript.dataset.module).then(async (response) => {
  if (!response.ok) throw new Error(`${response.url}: ${response.status}: tools/build-wasm makes the module`);
  // (Not every server says that it is one.)
  const isTyped = response.headers.get("Content-Type") === "application/wasm";
  return isTyped ? WebAssembly.compileStreaming(response) : WebAssembly.compile(await response.arrayBuffer());
});
// (The page says what went wrong, once it waits for the module.)
globalThis.compiledModule.catch(() => undefined);
