// Runs the cases of conformance/ in Node: node vectors.mjs COBS.WASM CASES
import { readFile, readdir } from "node:fs/promises";
import { join } from "node:path";
import { runCases } from "./cases.js";

const [, , wasm, folder] = process.argv;
const names = (await readdir(folder)).filter((name) => name.endsWith(".txt")).sort();
const texts = await Promise.all(names.map((name) => readFile(join(folder, name), "utf8")));
const { cases, differ, said } = await runCases(await WebAssembly.compile(await readFile(wasm)), texts);
for (const line of said) console.log(line);
console.log(`vectors: ${cases - differ} passed, ${differ} failed`);
process.exitCode = differ === 0 && cases > 0 ? 0 : 1;
