// Runs main.c in WebAssembly, with the clock of Node: wasm.mjs MODULE. It prints the figures.
import { readFile } from "node:fs/promises";

const figures = [];
const fail = () => {
  throw new Error("a wrong result");
};
const env = { now: () => performance.now() * 1e6, put: (nanoseconds) => figures.push(nanoseconds), fail };
const { instance } = await WebAssembly.instantiate(await readFile(process.argv[2]), { env });
instance.exports.start();
console.log(figures.map((figure) => figure.toFixed(2)).join("\n"));
