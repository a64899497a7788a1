// Reads bytes in the forms in which developers have them: hex digits, dumps, arrays and strings of programs, decimal numbers, base64.
// The whole text must have one form: a part that doesn't belong to the form is an error, and is left out only if the user wants it.
import { parseColumns } from "./columns.js";
import { parseCan, parseDump } from "./dumps.js";
import { textsIn } from "./found.js";
import { parseHex, printHex } from "./hex.js";
import { parseBase64 } from "./base64.js";
import { parseLiteral } from "./literals.js";
import { choice } from "./readings.js";

const SEARCHED = 60_000; // characters of the longest text in which bytes are looked for
const PREVIEWED = 6;
const FENCE = /^\s*```[\w+-]*\n([\s\S]*?)\n?```\s*$|^\s*`([^`]+)`\s*$/; // of Markdown
const INVISIBLE = /[\u200b-\u200d\u2060\ufeff]/g;

/** Returns the bytes of several lists, one after another. */
export function joined(parts) {
  const whole = new Uint8Array(parts.reduce((length, part) => length + part.length, 0));
  let at = 0;
  for (const part of parts) {
    whole.set(part, at);
    at += part.length;
  }
  return whole;
}

const NODE_BUFFER = /^<(?:Buffer\b)?([^<>]*)>$/;
const NODE_OBJECT = /^\s*\{\s*type:\s*['"]Buffer['"],\s*data:\s*(\[[\d\s,]*\])\s*\}\s*$/;
const NODE_ARRAY_BUFFER = /^(?:Shared)?ArrayBuffer \{\s*\[Uint8Contents\]: <([^<>]*)>,?\s*byteLength: (\d+),?\s*\}$/;

/**
 * Returns `{bytes, as}` for a text in one of these forms, with the name of the form as `as`. Otherwise returns `{error}`, which says
 * what is wrong, perhaps with `as`. If the text can also be read in another form, `other` is the name of that form; pass this name as
 * `wanted` to choose that form.
 */
export function parseBytes(text, wanted) {
  const clean = text.replace(INVISIBLE, "").replace(/\r\n?/g, "\n");
  const [, block, inline] = clean.match(FENCE) ?? [];
  const whole = block ?? inline ?? clean;
  const found = parseWhole(whole, wanted);
  if (found.bytes || found.other || whole.length > SEARCHED) return found;
  const bytes = bytesIn(whole);
  return bytes ? choice([found, { bytes, as: `the bytes in it (${bytes.length}: ${printHex(bytes, 0, Math.min(bytes.length, PREVIEWED))}${bytes.length > PREVIEWED ? " …" : ""})` }], wanted) : found;
}

/** Returns the bytes in a text that also has other words, or undefined. */
function bytesIn(text) {
  for (const parts of textsIn(text)) {
    const read = parts.map((part) => parseWhole(part));
    if (read.every(({ bytes, as }) => bytes?.length > 0 && as !== "base64" && as !== "a string")) return joined(read.map(({ bytes }) => bytes));
  }
  return undefined;
}

function parseWhole(clean, wanted) {
  for (const parse of [parseBuffer, parseColumns, parseDump, parseCan, parseLiteral, parseWords, parseNumbers, parsePlainHex, parseBase64]) {
    const found = parse(clean, wanted);
    if (found) return found;
  }
  return parseHex(clean);
}

function parsePlainHex(text) {
  const { bytes } = parseHex(text);
  return bytes && { bytes, as: "hex" };
}

/** Reads a Buffer or an array as Node prints it or as it is in JSON: `<Buffer 03 0a>`, `{"type":"Buffer","data":[3,10]}`, `{"0":3,"1":10}`. */
function parseBuffer(text) {
  const [, inside, length] = text.trim().match(NODE_BUFFER) ?? text.trim().match(NODE_ARRAY_BUFFER) ?? [];
  if (inside !== undefined) {
    if (/\.\.\.|…/.test(inside)) return { error: "Bytes are left out at the “...”." };
    const { bytes } = parseHex(inside);
    if (bytes && length !== undefined && Number(length) !== bytes.length) return { error: `The length is given as ${length}, but there are ${bytes.length} bytes.` };
    return bytes && { bytes, as: "a buffer" };
  }
  const [, list] = text.match(NODE_OBJECT) ?? [];
  if (list !== undefined) return parseLiteral(list);
  if (!/^\s*\{\s*"/.test(text)) return undefined;
  let value;
  try {
    value = JSON.parse(text);
  } catch {
    return undefined;
  }
  const data = value.type === "Buffer" ? value.data : Object.keys(value).every((key, at) => key === String(at)) && Object.values(value);
  if (!Array.isArray(data) || !data.every((each) => Number.isInteger(each) && each >= 0 && each < 256)) return { error: "This JSON isn't a buffer of bytes." };
  return { bytes: Uint8Array.from(data), as: "a buffer" };
}

const wordsOf = (text) => text.split(/[\s,;:]+/).filter((word) => word !== "");

/** Reads numbers whose spelling shows their base: `$03`, `03h`, `0x3 0xA`, `0b101`. */
function parseWords(text, wanted) {
  if (!/[$hx]|0b[01]/i.test(text)) return undefined;
  const words = wordsOf(text);
  const all = (pattern) => words.length > 0 && words.every((word) => pattern.test(word));
  if (all(/^\$[0-9a-f]{1,2}$/i) || all(/^0?[0-9a-f]{2}h$/i)) return { bytes: Uint8Array.from(words, (word) => parseInt(word.replace("$", ""), 16)), as: "hex of an assembler" };
  if (all(/^0b[01]{1,8}$/i)) {
    const binary = { bytes: Uint8Array.from(words, (word) => parseInt(word.slice(2), 2)), as: "binary numbers" };
    const hex = { ...parseHex(text), as: "hex" };
    return choice(words.length > 1 || words[0].length === 10 ? [binary, hex] : [hex, binary], wanted); // 0b10 alone more likely means the two bytes 0b and 10
  }
  const prefixed = words.filter((word) => /^0x/i.test(word));
  return prefixed.length > 0 ? parsePrefixed(words, prefixed) : undefined;
}

/** Reads words of which some begin with `0x`. */
function parsePrefixed(words, prefixed) {
  const long = prefixed.find((word) => /^0x[0-9a-f]{3,}$/i.test(word));
  if (words.length > 1 && long) return { error: `“${long}” has several bytes, whose order isn't known: write each byte separately.` };
  const others = words.filter((word) => !/^0x/i.test(word));
  if (others.length > 0 && others.every((word) => /^(0|[1-9]\d*)$/.test(word))) return { error: `“${others[0]}” has no 0x, but other numbers have: it could be decimal or hexadecimal.` };
  if (others.length > 0 || !words.every((word) => /^0x[0-9a-f]{1,2}$/i.test(word))) return undefined;
  return { bytes: Uint8Array.from(words, (word) => parseInt(word, 16)), as: "hex" };
}

/**
 * Reads numbers that have only decimal digits and no leading 0. With commas between them the numbers are decimal, however many
 * digits each has, so that a change of one number doesn't change the others. With spaces between them they are hex. The user may
 * choose the other reading.
 */
function parseNumbers(text, wanted) {
  if (!/^[\d\s,]+$/.test(text)) return undefined;
  const words = text.split(/[\s,]+/).filter((word) => word !== "");
  const hasCommas = text.includes(",");
  if (words.length < (hasCommas ? 1 : 2) || !words.every((word) => /^(0|[1-9]\d*)$/.test(word))) return undefined;
  const large = words.find((word) => Number(word) > 255);
  const decimal = { as: "decimal numbers", ...(large ? { error: `“${large}” isn't a byte: it is more than 255.` } : { bytes: Uint8Array.from(words, Number) }) };
  const hex = { ...parseHex(text), as: "hex" };
  return choice(hasCommas ? [decimal, hex] : [hex, decimal], wanted);
}
