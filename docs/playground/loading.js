/** Where the module and the worker come from: files beside the page, or the page itself (tools/build-playground). */

/** The compiled module: that which module.js loads, or the one that is in the page. */
export function loadModule() {
  const embedded = document.getElementById("embedded-module");
  return embedded === null ? globalThis.compiledModule : WebAssembly.compileStreaming(unpacked(embedded.textContent));
}

/** A response with the module that is in the page, gzipped and in base64. */
function unpacked(text) {
  const stream = new Blob([bytesOf(text)]).stream().pipeThrough(new DecompressionStream("gzip"));
  return new Response(stream, { headers: { "Content-Type": "application/wasm" } });
}

// (Not every browser has `fromBase64`.)
function bytesOf(text) {
  if (Uint8Array.fromBase64 !== undefined) return Uint8Array.fromBase64(text);
  const decoded = atob(text), bytes = new Uint8Array(decoded.length);
  for (let at = 0; at < bytes.length; at++) bytes[at] = decoded.charCodeAt(at);
  return bytes;
}

/** Forbids every connection from now on, to this page's own server too: what is typed can't be sent anywhere. */
export function forbidConnections() {
  const policy = document.createElement("meta");
  policy.httpEquiv = "Content-Security-Policy";
  policy.content = "connect-src 'none'";
  document.head.append(policy);
}

// (A worker of a blob has the policy of the page. From a disk it can't be a module.)
let worker;

/** A new worker. */
export function startWorker() {
  worker ??= workerSource();
  return new Worker(worker.url, { type: worker.type });
}

function workerSource() {
  const embedded = document.getElementById("embedded-worker");
  const text = embedded?.textContent ?? `import ${JSON.stringify(new URL("worker.js", import.meta.url).href)};`;
  const url = URL.createObjectURL(new Blob([text], { type: "text/javascript" }));
  return { url, type: embedded === null ? "module" : "classic" };
}
