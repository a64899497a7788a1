// Cuts a stream into pieces at its sentinels, and computes the outcome of each piece and the purpose of each byte.
import { CobsError, FrameDecoder, decode } from "../jcobs.js";
import { codePlaces, partOf } from "../draw.js";
import { count, counted } from "./inputs.js";
import { firstFrom, lastAtOrBefore } from "./search.js";

export const MESSAGE = 0;
export const BROKEN = 1;
export const TOO_LONG = 2;
const UNFINISHED = 3;
const IDLE = 4;
export const BADGES = ["message", "broken", "too long", "unfinished", "idle"];

const KINDS = { message: MESSAGE, broken: BROKEN, tooLong: TOO_LONG, unfinished: UNFINISHED, idle: IDLE };

/** Returns the only piece of these bytes, without the sentinels around it, or null if there are several pieces. */
export function onlyPiece(bytes, sentinel) {
  const front = bytes.findIndex((byte) => byte !== sentinel);
  if (front < 0) return bytes.subarray(0, 0);
  const end = bytes.indexOf(sentinel, front);
  const piece = bytes.subarray(front, end < 0 ? bytes.length : end);
  return end < 0 || bytes.subarray(end).every((byte) => byte === sentinel) ? piece : null;
}

/** The pieces of a stream: for each piece its start, its first byte that isn't a sentinel, its end, and its outcome. */
export class Pieces {
  #codes = { at: -1 };

  constructor(stream, { maxLength, sentinel }) {
    this.stream = stream;
    this.maxLength = maxLength;
    this.sentinel = sentinel;
    this.count = 0;
    this.ends = new Uint32Array(16);
    this.fronts = new Uint32Array(16);
    this.kinds = new Uint8Array(16);
    this.lengths = new Uint32Array(16);
    const decoder = new FrameDecoder({ maxLength, sentinel });
    decoder.push(stream, (outcome, end) => this.#add(outcome, end));
    this.ended = this.count;
    this.isUnfinished = decoder.unfinished;
    decoder.close();
    if (this.start(this.ended) < stream.length) this.#add({ kind: this.isUnfinished ? "unfinished" : "idle" }, stream.length);
  }

  #add({ kind, message, decodedBytes = 0 }, end) {
    if (this.count === this.ends.length) this.#grow();
    const at = this.count++;
    this.ends[at] = end;
    let front = this.start(at);
    while (front < end && this.stream[front] === this.sentinel) front++;
    this.fronts[at] = front;
    this.kinds[at] = KINDS[kind];
    this.lengths[at] = message?.length ?? decodedBytes;
  }

  #grow() {
    for (const name of ["ends", "fronts", "kinds", "lengths"]) {
      const longer = new this[name].constructor(2 * this.count);
      longer.set(this[name]);
      this[name] = longer;
    }
  }

  start(at) {
    return at === 0 ? 0 : this.ends[at - 1];
  }

  /** Returns the end of the bytes of a piece, before its sentinel if it has one. */
  back(at) {
    const end = at >= this.ended ? this.ends[at] : this.ends[at] - 1;
    return Math.max(end, this.fronts[at]);
  }

  /** Returns the bytes of a piece without the sentinels around it. */
  piece(at) {
    return this.stream.subarray(this.fronts[at], this.back(at));
  }

  /** Returns the message of a piece, or no bytes if the piece has no message. */
  message(at) {
    try {
      return decode(this.piece(at), { sentinel: this.sentinel });
    } catch (error) {
      if (error instanceof CobsError) return new Uint8Array();
      throw error;
    }
  }

  countOf(kind) {
    let found = 0;
    for (let at = 0; at < this.count; at++) if (this.kinds[at] === kind) found++;
    return found;
  }

  /** Returns the number of the last piece that begins at or before a byte. */
  at(byte) {
    return lastAtOrBefore((piece) => this.start(piece), byte, this.count);
  }

  /** Returns whether `other` has the same piece at the same place. `differing` is the list, in ascending order, of the bytes that differ. */
  isIn(other, at, differing) {
    const there = other.at(this.fronts[at]);
    if (there >= other.ended || other.ends[there] !== this.ends[at] || other.fronts[there] !== this.fronts[at]) return false;
    const first = firstFrom(differing, this.fronts[at]);
    return first === differing.length || differing[first] >= this.ends[at];
  }

  /** Returns the ended pieces that aren't in `other`. Only pieces near a byte that differs are compared. */
  changedFrom(other, differing) {
    const near = new Set(differing.flatMap((byte) => [this.at(byte), this.at(byte) + 1]));
    return [...near].filter((at) => at < this.ended && !this.isIn(other, at, differing));
  }

  /** Returns the indices of a piece's codes, and the number of full blocks before each code. The result is kept for the next call. */
  codes(at) {
    if (this.#codes.at === at) return this.#codes;
    const piece = this.piece(at);
    const places = codePlaces(piece, this.sentinel);
    const fulls = new Uint32Array(places.length);
    for (let i = 1; i < places.length; i++) fulls[i] = fulls[i - 1] + ((piece[places[i - 1]] ^ this.sentinel) === 255 ? 1 : 0);
    this.#codes = { at, places, fulls };
    return this.#codes;
  }

  /**
   * Returns the purpose of a byte: `at`, its piece; `value`, the byte XORed with the sentinel; `role`, which is "sentinel", "code" or
   * "data"; and for a code `isFirst`, `isAfterFull` and `isPast` (the code leads past the piece's end). `index` is the index of the
   * message's byte that corresponds to this byte. For the sentinel after a message it is the message's length. If no byte of the
   * message corresponds to this byte, it is -1.
   */
  about(byte) {
    const at = this.at(byte);
    const value = this.stream[byte] ^ this.sentinel;
    const inPiece = byte - this.fronts[at];
    if (inPiece < 0 || byte >= this.back(at)) {
      const isAfterMessage = inPiece > 0 && byte === this.back(at) && this.kinds[at] === MESSAGE;
      return { at, value, role: "sentinel", index: isAfterMessage ? this.lengths[at] : -1 };
    }
    const { places, fulls } = this.codes(at);
    const part = partOf(places, inPiece);
    const index = inPiece - 1 - fulls[part];
    if (places[part] !== inPiece) return { at, value, role: "data", index };
    const isAfterFull = part > 0 && fulls[part] > fulls[part - 1];
    const isPast = inPiece + value > this.back(at) - this.fronts[at];
    return { at, value, role: "code", isFirst: part === 0, isAfterFull, isPast, index: part === 0 || isAfterFull ? -1 : index };
  }

  /** Returns the outcome of a piece in words, without its badge. */
  words(at) {
    const kind = this.kinds[at];
    if (kind === MESSAGE) return counted(this.lengths[at], "byte");
    if (kind === BROKEN) return `after ${counted(this.lengths[at], "byte")} of output`;
    if (kind === TOO_LONG) return `for a buffer of ${counted(this.maxLength, "byte")}`;
    return kind === IDLE ? "sentinels with nothing between them" : "no sentinel yet";
  }

  /** Returns the name of a piece for a sentence. The first piece has the number 1. */
  name(at) {
    return `piece ${count(at + 1)}`;
  }
}
