// Draws the pictures of docs/FORMAT.md: node figures.mjs FOLDER
//
// The proved module makes the frames, and the page's drawing code draws them.
import { readFile, writeFile } from "node:fs/promises";
import { join } from "node:path";
import { figure } from "./draw.js";
import { encode, load } from "./jcobs.js";

const folder = process.argv[2];
if (!folder) {
  console.error("usage: node figures.mjs FOLDER");
  process.exit(2);
}
await load(await readFile(new URL("cobs.wasm", import.meta.url)));

const run = (length, first) => Uint8Array.from({ length }, (_, i) => ((first + i - 1) % 255) + 1);
const ones = new Uint8Array(254).fill(1);
const longer = Uint8Array.of(...encode(ones), 1);
const stream = [[10, 11, 0, 12], [7, 0, 9], [5, 6]].map((message) => encode(Uint8Array.from(message)));
const damaged = [stream[0], Uint8Array.from(stream[1], (byte, at) => (at === 2 ? 4 : byte)), stream[2]];

const pictures = {
  "frame.svg": {
    title: "The frame of the message 10, 11, 0, 12, and the sentinel after it",
    lines: [{ label: "frame", pieces: [encode(Uint8Array.of(10, 11, 0, 12))], note: "Each code says how far it is to the next one. The second code stands where the zero was." }],
  },
  "run-of-255.svg": {
    title: "The frame of a run of 255 bytes, 1 to 255",
    lines: [{ label: "frame", pieces: [encode(run(255, 1))], cut: { from: 4, to: 253 }, note: "The full block holds 254 of them and stands for no zero; the block 2, 255 holds the last." }],
  },
  "damaged-stream.svg": {
    title: "A stream of three frames, and the same with one byte damaged",
    lines: [
      { label: "stream", pieces: stream, note: "The messages 10, 11, 0, 12, then 7, 0, 9, then 5, 6." },
      { label: "damaged", pieces: damaged, note: "A code 2 became 4: this piece breaks off inside its last part. The others stay." },
    ],
  },
  "two-frames.svg": {
    title: "The two frames of 254 ones",
    lines: [
      { label: "encoded frame", pieces: [encode(ones)], cut: { from: 4, to: 252 }, note: "One full block: 255 and 254 ones." },
      { label: "other frame", pieces: [longer], cut: { from: 4, to: 252 }, note: "The same frame with the lone block 01 after it. Both decode to the same message." },
    ],
  },
};

for (const [name, picture] of Object.entries(pictures)) await writeFile(join(folder, name), figure(picture));
