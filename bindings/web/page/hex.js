// Reads and writes bytes as hexadecimal digits.

const DIGITS = Array.from({ length: 256 }, (_, byte) => byte.toString(16).padStart(2, "0"));

/** Returns the bytes from `from` up to `to` as pairs of digits with spaces between them. */
export function printHex(bytes, from = 0, to = bytes.length) {
  const pairs = new Array(to - from);
  for (let i = from; i < to; i++) pairs[i - from] = DIGITS[bytes[i]];
  return pairs.join(" ");
}

/** Returns bytes as text: as UTF-8 if they are UTF-8, otherwise as printable ASCII. A middle dot replaces each character that can't be shown. */
export function printText(bytes) {
  try {
    // a character that is cut off at the end is left out
    return new TextDecoder("utf-8", { fatal: true, ignoreBOM: true }).decode(bytes, { stream: true }).replace(/\p{C}/gu, "·");
  } catch {
    let text = "";
    for (const byte of bytes) text += byte >= 32 && byte < 127 ? String.fromCharCode(byte) : "·";
    return text;
  }
}

const SEPARATOR = -2;
const value = new Int8Array(128).fill(-1);
for (let i = 0; i < 16; i++) {
  value["0123456789abcdef".charCodeAt(i)] = i;
  value["0123456789ABCDEF".charCodeAt(i)] = i;
}
for (const sign of " \t\r\n\f\v,;:-_") value[sign.charCodeAt(0)] = SEPARATOR;

/** Returns the value of the digit at an index, SEPARATOR for a separator, or -1 for any other character and after the end. */
function signAt(text, at) {
  const code = text.charCodeAt(at);
  return code < 128 ? value[code] : code === 0xa0 ? SEPARATOR : -1;
}

/** Describes a position in a text for the user. */
function placeOf(text, at) {
  const before = text.slice(0, at).split("\n");
  return `line ${before.length}, column ${before[before.length - 1].length + 1}`;
}

/**
 * Returns `{bytes}` for a text of digits, with or without `0x`, and with spaces, commas, colons or line ends between bytes. Otherwise
 * returns `{error, at}` with the first error and its index.
 */
export function parseHex(text) {
  const bytes = new Uint8Array(text.length >> 1);
  let length = 0;
  for (let at = 0; at < text.length; ) {
    if (signAt(text, at) === SEPARATOR) {
      at++;
      continue;
    }
    const isPrefixed = text.startsWith("0x", at) || text.startsWith("0X", at);
    if (isPrefixed) at += 2;
    const start = at;
    while (signAt(text, at) >= 0) at++;
    if (at < text.length && signAt(text, at) !== SEPARATOR) {
      return { error: `At ${placeOf(text, at)}: “${String.fromCodePoint(text.codePointAt(at))}” isn't a hexadecimal digit.`, at };
    }
    if (at === start) return { error: `At ${placeOf(text, at - 2)}: “0x” has no digits after it.`, at: at - 2 };
    if ((at - start) % 2 === 1) return { error: `At ${placeOf(text, start)}: ${oddDigits(text.slice(start, at))}.`, at: start };
    for (let i = start; i < at; i += 2) bytes[length++] = (signAt(text, i) << 4) | signAt(text, i + 1);
  }
  return { bytes: bytes.slice(0, length) };
}

function oddDigits(digits) {
  if (digits.length === 1) return `“${digits}” is one digit, but a byte has two, such as “0${digits}”`;
  return `“${digits.length > 12 ? digits.slice(0, 12) + "…" : digits}” has an odd number of digits`;
}
