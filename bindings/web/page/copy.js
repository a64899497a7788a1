// Converts bytes to text for a program, and copies text to the clipboard.
import { figure } from "../draw.js";
import { printHex } from "./hex.js";

const DRAWN = 64; // a picture of more bytes is too wide for a document
const listed = (bytes) => Array.from(bytes, (byte) => `0x${byte.toString(16).padStart(2, "0")}`).join(", ");

const byteOf = (byte) => `0x${byte.toString(16).padStart(2, "0")}`;

/** The calls that make a frame from a message, by language. Each function returns the lines of a program. */
const CALLS = {
  c({ message, sentinel, isEnded }) {
    const name = `jcobs_encode${isEnded ? "_terminated" : ""}${sentinel === 0 ? "" : "_with_sentinel"}`;
    const given = message.length === 0 ? "NULL, 0" : "message, sizeof message";
    const declared = message.length === 0 ? "" : `static const unsigned char message[${message.length}] = {${listed(message)}};\n`;
    return `${declared}unsigned char frame[JCOBS_MAX_LENGTH(${message.length}) + 1];\njcobs_answer answer = ${name}(${given}, frame, sizeof frame${sentinel === 0 ? "" : `, ${byteOf(sentinel)}`});\n`;
  },
  rust({ message, sentinel, isEnded }) {
    const call = sentinel === 0 ? `jcobs::encode_vec(&[${listed(message)}])` : `jcobs::encode_vec_with_sentinel(&[${listed(message)}], ${byteOf(sentinel)})`;
    return `let ${isEnded ? "mut " : ""}frame = ${call};\n${isEnded ? `frame.push(${byteOf(sentinel)});\n` : ""}`;
  },
  python({ message, sentinel, isEnded }) {
    const options = `${sentinel === 0 ? "" : `, sentinel=${byteOf(sentinel)}`}${isEnded ? ", terminated=True" : ""}`;
    return `frame = jcobs.encode(bytes.fromhex("${printHex(message)}")${options})\n`;
  },
};

/** The forms in which a frame or a stream is copied, by name. Each function returns text, or null if it can't. */
export const FORMS = {
  hex: (bytes) => printHex(bytes),
  c: (bytes, { name = "frame" }) => `static const unsigned char ${name}[${bytes.length}] = {${listed(bytes)}};\n`,
  rust: (bytes, { name = "frame" }) => `const ${name.toUpperCase()}: [u8; ${bytes.length}] = [${listed(bytes)}];\n`,
  python: (bytes, { name = "frame" }) => `${name} = bytes.fromhex("${printHex(bytes)}")\n`,
  "c-call": (bytes, { call }) => call && CALLS.c(call),
  "rust-call": (bytes, { call }) => call && CALLS.rust(call),
  "python-call": (bytes, { call }) => call && CALLS.python(call),
  svg(bytes, { sentinel, pieces }) {
    if (bytes.length > DRAWN + 1) return null;
    const length = pieces.reduce((sum, piece) => sum + piece.length, 0);
    return figure({ title: `A frame of ${length} bytes`, sentinel, show: (byte) => printHex([byte]), lines: [{ label: "frame", pieces }] });
  },
};

/** Copies a link, and returns what to say about it. The link is null if `what` is too long for one. */
export async function copyLink(link, what) {
  if (link === null) return `${what} is too long for a link.`;
  return (await toClipboard(link)) ? "The link is copied." : "The browser gives no access to the clipboard; the link is in the address bar.";
}

/** Puts text on the clipboard, and returns whether the browser allowed it. */
export async function toClipboard(text) {
  try {
    await navigator.clipboard.writeText(text);
    return true;
  } catch {
    return false;
  }
}
