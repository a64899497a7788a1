// Reads the strings of programs: returns the bytes that escapes stand for.

const ESCAPES = { a: 7, b: 8, e: 27, f: 12, n: 10, r: 13, t: 9, v: 11, "\\": 92, "'": 39, '"': 34 };
const PART = /\\x([0-9a-f]{2})|\\([0-7]{1,3})|\\u(?:\{([0-9a-f]{1,6})\}|([0-9a-f]{4}))|\\(\n\s*)|\\(.)|([^\\]+)/giu;

export const ESCAPED = "a string with escapes";

/** The reason why a text can't be read. `as` is the form of the text, if the form is certain. */
export class Unreadable extends Error {
  constructor(message, as) {
    super(message);
    this.as = as;
  }
}

/** Returns the bytes of the text between quotes. A string of bytes (`isBytes`) has no escapes for characters. */
export function unescaped(text, { isBytes = false, isRaw = false } = {}) {
  if (isRaw || !text.includes("\\")) return new TextEncoder().encode(text);
  if (!isBytes && /\\x[0-9a-f]{3}/i.test(text)) throw new Unreadable("After \\x, C reads all hexadecimal digits, and other languages read two: write the next character as an escape too.", ESCAPED);
  const found = [];
  for (const [whole, pair, octal, point, long, newline, escape, plain] of text.matchAll(PART)) {
    if (pair) found.push(parseInt(pair, 16));
    else if (octal) found.push(parseInt(octal, 8) & 255);
    else if (escape && escape in ESCAPES) found.push(ESCAPES[escape]);
    else if (plain || ((point || long) && !isBytes)) found.push(...new TextEncoder().encode(plain ?? String.fromCodePoint(parseInt(point ?? long, 16))));
    else if (!newline) throw new Unreadable(`“${whole}” isn't an escape that this page knows.`);
  }
  return Uint8Array.from(found);
}

/**
 * Throws an error for `\0` before an octal digit, which is one byte in C and Python, and two bytes in Rust. There is no error if the text
 * can't be Rust: because of `isOctal`, another escape, or several strings in a row. Each string is `{prefix, quote, content}`.
 */
export function demandOneReading(strings, isOctal) {
  const escapes = strings.flatMap(({ content }) => content.match(/\\[\s\S][0-7]{0,2}/g) ?? []);
  const octal = escapes.find((escape) => /^\\0[0-7]/.test(escape));
  const isRust = strings.every(({ prefix, quote }) => /^b?$/.test(prefix) && quote === '"') && escapes.every((escape) => /^\\[0nrtxu\\'"\n]/.test(escape));
  if (octal && isRust && !isOctal) throw new Unreadable(`“${octal}” is an octal escape in C and Python, and a byte 00 before digits in Rust: write the byte with \\x.`, ESCAPED);
}
