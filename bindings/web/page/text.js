// Converts a message to the text of a field and back: UTF-8, with line ends of one kind, and ∅ for a byte 00, which no keyboard writes.

export const ZERO = "∅";
const ENDS = { LF: "\n", CRLF: "\r\n", CR: "\r" };

/** Returns the name of the line ends of a text, "" if there are none, or null if there are several kinds. */
export function endsOf(text) {
  const found = new Set(text.match(/\r\n|\r|\n/g));
  if (found.size > 1) return null;
  return Object.keys(ENDS).find((name) => found.has(ENDS[name])) ?? "";
}

/** Returns the bytes of a field's text. */
export const bytesOfText = (text, ends) => new TextEncoder().encode(text.replaceAll("\n", ENDS[ends]).replaceAll(ZERO, "\0"));

/** Returns bytes as `{text, ends}`, from which `bytesOfText` returns these bytes again, or null if this isn't possible. */
export function textOf(bytes) {
  try {
    const given = new TextDecoder("utf-8", { fatal: true, ignoreBOM: true }).decode(bytes);
    const ends = endsOf(given);
    if (ends === null || given.includes(ZERO)) return null;
    const text = given.replaceAll("\0", ZERO).replace(/\r\n?/g, "\n");
    return /[^\P{C}\n\t]/u.test(text) ? null : { text, ends: ends || "LF" };
  } catch {
    return null;
  }
}

/** Returns whether a pasted text is certainly bytes in the form `as`, and not a text to send. */
export function isBytes(text, as) {
  if (as === "hex") return /^(0x)?[0-9a-f]{2}([\s,:-]+(0x)?[0-9a-f]{2}){2,}$/i.test(text.trim().replace(/,$/, "").trimEnd()) || /0x|fromhex/i.test(text);
  return as !== undefined && !["base64", "a string", "decimal numbers"].includes(as) || (as === "decimal numbers" && /[[{(]/.test(text));
}

/** Returns whether a text may be `length` bytes in the form `as`, so that the page should ask. */
export function mayBeBytes(text, as, length) {
  return length > 1 && (as !== "base64" || (length > 4 && /[\d+/=]/.test(text)));
}
