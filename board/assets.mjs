// Files that belong to the page: beside it, or in it where it is one file.

/** The bytes of such a file. */
export async function assetBytes(path) {
  const inlined = globalThis.bahrufazAssets?.[path];
  if (inlined !== undefined) return Uint8Array.from(atob(inlined), (c) => c.charCodeAt(0));
  const response = await fetch(new URL(path, document.baseURI));
  if (!response.ok) throw new Error(`${path} cannot be had: ${response.status}`);
  return new Uint8Array(await response.arrayBuffer());
}

/** A worker that makes the calls. */
export function startWorker() {
  const inlined = globalThis.bahrufazWorker;
  if (inlined) return new Worker(URL.createObjectURL(new Blob([inlined], { type: 'text/javascript' })));
  return new Worker(new URL('board/worker.mjs', document.baseURI), { type: 'module' });
}
