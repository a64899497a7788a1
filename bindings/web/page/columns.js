// Reads bytes that od and hexdump print in columns after an offset: as octal numbers (-b), decimal numbers (-t u1, -t d1) or characters (-c).
// Also reads bytes that the command x of gdb prints as decimal numbers.
import { unrolled } from "./dumps.js";
import { choice } from "./readings.js";

const ESCAPES = { 0: 0, a: 7, b: 8, f: 12, n: 10, r: 13, t: 9, v: 11 };
const octal = (cell) => parseInt(cell, 8);
const character = (cell) => (/\d{3}/.test(cell) ? octal(cell) : cell[2] === "\\" ? ESCAPES[cell[3]] : cell.charCodeAt(3));

/** The forms that a column may have: the pattern of its cells, and the function that returns the byte of a cell. */
const COLUMNS = [
  { as: "octal numbers of od", cell: / [0-3][0-7]{2}/g, width: 4, byteOf: octal },
  { as: "decimal numbers of od", cell: / (?: {2}\d| [1-9]\d|1\d\d|2[0-4]\d|25[0-5])/g, width: 4, byteOf: Number },
  { as: "numbers with a sign of od", cell: / (?: {3}\d| {2}[1-9]\d| 1[01]\d| 12[0-7]| {2}-[1-9]| -[1-9]\d|-1[01]\d|-12[0-8])/g, width: 5, byteOf: (cell) => Number(cell) & 255 },
  { as: "characters of od", cell: / (?: {2}[ -~]| \\[0abfnrtv]|[0-3][0-7]{2})/g, width: 4, byteOf: character },
];

const GDB = /^0x([0-9a-f]+)(?:[ \t]*<[^>]*>)?:((?:\t(?:0|-?[1-9]\d{0,2}))+)$/i;

/** Returns the bytes of lines that begin with an offset of od (seven digits) or an address of gdb, or undefined for another text. */
export function parseColumns(text, wanted) {
  const lines = text.split("\n").filter((line) => line.trim() !== "");
  if (lines.length > 0 && lines.every((line) => GDB.test(line))) return parseGdb(lines);
  if (lines.length === 0 || !/^\d{7} /.test(lines[0]) || !lines.every((line) => line === "*" || /^[\da-f]{7,}( |$)/.test(line))) return undefined;
  const trimmed = lines.map((line) => line.trimEnd()); // hexdump fills its lines with spaces
  const readings = COLUMNS.flatMap((column) => [lines, trimmed].map((each) => readingsOf(each, column)).find((found) => found.length > 0) ?? []);
  return readings.length > 0 ? choice(readings, wanted) : undefined;
}

/** Returns the bytes of the lines if all their columns have one form, and the offsets, octal, decimal or hexadecimal, fit. */
function readingsOf(lines, { as, cell, width, byteOf }) {
  const rows = [];
  for (const line of lines) {
    const digits = line.match(/^[\da-f]*/)[0];
    const columns = line.slice(digits.length);
    const padded = columns.padEnd(Math.ceil(columns.length / width) * width); // a space at the end of the line may be missing
    const groups = padded.match(cell) ?? [];
    if (line !== "*" && groups.join("") !== padded) return [];
    rows.push(line === "*" ? { isStar: true } : { digits, groups });
  }
  const bytes = [8, 10, 16].map((base) => unrolled(rows, base, (groups) => groups.map(byteOf))).find((found) => found?.length > 0);
  return bytes ? [{ bytes: Uint8Array.from(bytes), as }] : [];
}

function parseGdb(lines) {
  const rows = lines.map((line) => line.match(GDB)).map(([, digits, columns]) => ({ digits, groups: columns.trim().split("\t") }));
  const large = rows.flatMap(({ groups }) => groups).find((number) => Number(number) < -128 || Number(number) > 255);
  if (large) return { error: `“${large}” isn't a byte: print each byte separately, for example with x/8xb.` };
  const bytes = unrolled(rows, 16, (groups) => groups.map((number) => Number(number) & 255));
  return bytes ? { bytes: Uint8Array.from(bytes), as: "decimal numbers of gdb" } : { error: "The addresses don't fit the bytes: bytes are missing, or there are too many." };
}
