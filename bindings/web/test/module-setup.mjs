// The functions and values that the tests of jcobs.js share.
import { rmSync } from "node:fs";
import { copyFile, mkdir, mkdtemp, readFile, writeFile } from "node:fs/promises";
import { tmpdir } from "node:os";
import { join } from "node:path";
import { pathToFileURL } from "node:url";

export const wasm = await readFile(process.argv[2]);
export const bytes = (...values) => Uint8Array.from(values);
export const FRAME = bytes(3, 10, 11, 2, 12);
export const MESSAGE = bytes(10, 11, 0, 12);

const copies = await mkdtemp(join(tmpdir(), "jcobs-copies-"));
process.on("exit", () => rmSync(copies, { recursive: true }));
let count = 0;

/** Imports a copy of jcobs.js, in which no module is loaded. */
export async function fresh() {
  const folder = join(copies, String(count++));
  await mkdir(folder);
  await writeFile(join(folder, "package.json"), '{ "type": "module" }');
  for (const name of ["jcobs.js", "machine.js", "cobs.wasm"]) await copyFile(new URL(`../${name}`, import.meta.url), join(folder, name));
  return import(pathToFileURL(join(folder, "jcobs.js")));
}

/** Returns the same bytes in each run. */
export function randomBytes(length, zeros, seed) {
  let state = seed;
  return Uint8Array.from({ length }, () => {
    state = (Math.imul(state, 1664525) + 1013904223) >>> 0;
    const byte = state >>> 24;
    return (state >>> 8) % 1000 < zeros * 1000 ? 0 : byte || 1;
  });
}

export function source(chunks) {
  return new ReadableStream({
    start(controller) {
      for (const chunk of chunks) controller.enqueue(chunk);
      controller.close();
    },
  });
}

export async function all(stream) {
  const taken = [];
  const reader = stream.getReader();
  for (let next = await reader.read(); !next.done; next = await reader.read()) taken.push(next.value);
  return taken;
}
