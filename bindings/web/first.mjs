// Writes the drawing that the page shows before its scripts run, or without scripts: node first.mjs [FOLDER]
//
// The page's drawing code makes the drawing in index.html, and page/picture.css, the style of all drawings. With FOLDER, both files are
// written to FOLDER, so that they can be compared.
import { mkdir, readFile, writeFile } from "node:fs/promises";
import { join } from "node:path";
import { fileURLToPath } from "node:url";
import { codePlaces, rowPicture, style } from "./draw.js";
import { encode, load } from "./jcobs.js";

await load();
const here = fileURLToPath(new URL(".", import.meta.url));
const folder = process.argv[2] ?? here;
const frame = encode(new TextEncoder().encode("Hello\0World"));
const drawing = rowPicture(frame, codePlaces(frame), 0, frame.length, { margin: 30, trail: 1, zoom: 1.5 });

const page = await readFile(join(here, "index.html"), "utf8");
const place = /(<div id="message-first"[^>]*>).*(<\/div>)/g;
if (page.match(place)?.length !== 1) throw new Error("first.mjs: index.html has no place for the drawing");
await mkdir(join(folder, "page"), { recursive: true });
await writeFile(join(folder, "index.html"), page.replace(place, (whole, open, close) => `${open}${drawing}${close}`));
await writeFile(join(folder, "page/picture.css"), `/* Written by first.mjs from draw.js. */\n${style(".picture svg")}\n`);
