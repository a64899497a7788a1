// The log of a line: the entries of received and sent messages, and the log as text.
import { encode } from "../jcobs.js";
import { joined } from "./bytes.js";
import { parseHex, printHex } from "./hex.js";
import { counted } from "./inputs.js";

const KEPT = 1000;
const KEPT_BYTES = 16 << 20;

const sizeOf = ({ message, raw }) => (message ?? raw)?.length ?? 0;

export class Log {
  entries = [];
  #bytes = 0;
  #number = 0;

  /** Adds the entry `{way, kind, message, note, raw}` with a number and the time, and returns how many of the oldest entries were dropped. */
  add(entry) {
    this.entries.push({ number: ++this.#number, time: new Date(), ...entry });
    this.#bytes += sizeOf(entry);
    let dropped = 0;
    while (this.entries.length - dropped > KEPT || (this.#bytes > KEPT_BYTES && this.entries.length - dropped > 1)) {
      this.#bytes -= sizeOf(this.entries[dropped++]);
    }
    this.entries.splice(0, dropped);
    return dropped;
  }

  clear() {
    this.entries.length = 0;
    this.#bytes = this.#number = 0;
  }
}

/**
 * Returns a log as text. The line of an entry has its time, `in` or `out`, and the bytes of the message. If the entry isn't a message, the
 * line has its kind, and the bytes of the piece as they arrived.
 */
export function writeLog(entries) {
  const what = ({ message, kind, note, raw }) => (message ? printHex(message) || "-" : `# ${kind}: ${note}${raw ? `: ${printHex(raw)}` : ""}`);
  return entries.map((entry) => `${entry.time.toISOString()} ${entry.way} ${what(entry)}\n`).join("");
}

/** Returns whether a text begins like a log. */
export const isLog = (text) => /^\s*\d{4}-\d\d-\d\dT\S+ (in|out) /.test(text.slice(0, 200));

/** Returns the entries of a log's text, or `{error}` for the first line that isn't an entry. */
export function readLog(text) {
  const entries = [];
  for (const [at, line] of text.split(/\r?\n/).entries()) {
    if (line.trim() === "") continue;
    const [, stamp, way, rest] = line.match(/^\s*(\S+) (in|out) (.+)$/) ?? [];
    const time = new Date(stamp);
    const [, kind, note, digits] = rest?.match(/^# ([a-z ]+): ([^:]*)(?:: ([0-9a-f ]+))?$/) ?? [];
    const { bytes } = parseHex(kind ? (digits ?? "") : rest === "-" ? "" : (rest ?? "?"));
    if (Number.isNaN(time.getTime()) || !bytes) return { error: `Line ${at + 1} isn't a line of a log: “${line.slice(0, 60)}”.` };
    entries.push(kind ? { time, way, kind, note, ...(digits && { raw: bytes }) } : { time, way, kind: "message", message: bytes });
  }
  return { entries };
}

/**
 * Returns `{bytes, said}`. `bytes` are the frames of the received messages of a log, each with its sentinel, and the received pieces that
 * aren't messages, as they arrived. If nothing was received, `bytes` are the frames of the sent messages. `said` says how many rows were
 * read, and how many have no bytes.
 */
export function streamOf(entries, sentinel) {
  const way = entries.some((entry) => entry.way === "in") ? "in" : "out";
  const own = entries.filter((entry) => entry.way === way);
  const known = own.filter(({ message, raw }) => message ?? raw);
  const bytes = joined(known.map(({ message, raw }) => (message ? encode(message, { sentinel, terminated: true }) : raw)));
  const lost = own.length - known.length;
  const said = `Read as a log: ${counted(known.length, "row")} ${way === "in" ? "received" : "sent"}${lost > 0 ? `, and ${lost} without bytes` : ""}.`;
  return { bytes, said };
}
