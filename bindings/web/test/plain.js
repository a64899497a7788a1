// COBS in plain JavaScript, written for speed. bench/ compares the module with this code. It finds runs with `indexOf`,
// copies long runs with `set` and short runs byte by byte, and returns a copy, as the module does.

const SHORT = 24; // bytes of a run that a loop copies faster
const BLOCK = 254;

/** Returns the frame of a message, without a sentinel. */
export function encode(message) {
  const { length } = message;
  const frame = new Uint8Array(length + Math.floor(length / BLOCK) + 2);
  let at = 0;
  for (let i = 0; i <= length; ) {
    let end = i;
    const near = Math.min(i + SHORT, length);
    while (end < near && message[end] !== 0) end++;
    if (end === near && near < length) {
      end = message.indexOf(0, near);
      if (end < 0) end = length;
    }
    at = copyRun(message, i, end, frame, at, end === length);
    i = end + 1;
  }
  return frame.slice(0, at);
}

/** Writes the blocks of a run, and returns the index after them. */
function copyRun(message, from, end, frame, start, isLast) {
  let at = start;
  let i = from;
  while (end - i > BLOCK || (end - i === BLOCK && !isLast)) {
    frame[at] = 255;
    frame.set(message.subarray(i, i + BLOCK), at + 1);
    at += 255;
    i += BLOCK;
  }
  const rest = end - i;
  frame[at++] = rest + 1;
  if (rest > SHORT) frame.set(message.subarray(i, end), at);
  else for (let k = 0; k < rest; k++) frame[at + k] = message[i + k];
  return at + rest;
}

/** Returns the message of a frame without sentinels, or null for a broken frame. */
export function decode(frame) {
  const message = new Uint8Array(frame.length);
  let length = 0;
  for (let at = 0; at < frame.length; ) {
    const code = frame[at++];
    const end = at + code - 1;
    if (code === 0 || end > frame.length) return null;
    if (code > SHORT) {
      message.set(frame.subarray(at, end), length);
      length += code - 1;
      at = end;
    } else while (at < end) message[length++] = frame[at++];
    if (code < 255 && at < frame.length) message[length++] = 0;
  }
  return message.slice(0, length);
}

/** A decoder with the outcomes of `FrameDecoderStream`, with a loop over the runs. */
export class PlainDecoder {
  #buffer;
  #written = 0;
  #missing = 0;
  #joint = false;
  #isOpen = false;
  #isTooLong = false;

  constructor(maxLength) {
    this.#buffer = new Uint8Array(maxLength);
  }

  push(chunk, visit) {
    const buffer = this.#buffer;
    let written = this.#written;
    let missing = this.#missing;
    let zero = -1; // the next one
    for (let at = 0; at < chunk.length; ) {
      if (zero < at) zero = chunk.indexOf(0, at);
      if (zero < 0) zero = chunk.length;
      if (at === zero) {
        at++;
        if (!this.#isOpen) continue;
        if (this.#isTooLong) visit({ kind: "tooLong" });
        else if (missing > 0) visit({ kind: "broken", decodedBytes: written });
        else visit({ kind: "message", message: buffer.slice(0, written) });
        written = missing = 0;
        this.#isOpen = this.#isTooLong = this.#joint = false;
      } else if (missing > 0) {
        const length = Math.min(missing, zero - at);
        const kept = Math.min(length, buffer.length - written);
        if (kept > SHORT) buffer.set(chunk.subarray(at, at + kept), written);
        else for (let k = 0; k < kept; k++) buffer[written + k] = chunk[at + k];
        if (kept < length) this.#isTooLong = true;
        written += kept;
        missing -= length;
        at += length;
      } else {
        if (this.#joint) {
          if (written < buffer.length) buffer[written++] = 0;
          else this.#isTooLong = true;
        }
        this.#isOpen = true;
        this.#joint = chunk[at] < 255;
        missing = chunk[at] - 1;
        at++;
      }
    }
    this.#written = written;
    this.#missing = missing;
  }
}
