// Implements Consistent Overhead Byte Stuffing for browsers and Node with the proved code in cobs.wasm.
//
//     import { load, encode, decode, FrameDecoderStream } from "./jcobs.js";
//     await load();
//     const frame = encode(Uint8Array.of(10, 11, 0, 12));            // 3 10 11 2 12
//     const frames = port.readable.pipeThrough(new FrameDecoderStream({ maxLength: 4096 }));
//
// This file copies bytes into the module's memory, and copies results out of the module's memory. With `skipFirst`, this file finds
// the sentinel after which decoding begins. Apart from that, only the module decides which bytes a frame has, and which messages a
// stream has.
import { BROKEN, CHUNK_SIZE, CobsError, NEAR, OK, STATE_SIZE, TOO_SMALL, bytesOf, loaded, machineFor } from "./machine.js";

export { CobsError, isSupported, load, loadSync } from "./machine.js";

/**
 * Returns the options of a call, with the default value for each option that isn't given. Throws a TypeError if the call doesn't
 * have one of the given options.
 */
function optionsOf(given, defaults) {
  if (given === undefined) return defaults;
  if (typeof given !== "object" || given === null) throw new TypeError(`the options must be an object, such as { ${Object.keys(defaults).join(", ")} }`);
  const names = Object.keys(defaults);
  for (const name of Object.keys(given)) {
    if (!names.includes(name)) throw new TypeError(`this call has no option “${name}”, only ${names.join(", ")}`);
  }
  const options = { ...defaults };
  for (const name of names) if (given[name] !== undefined) options[name] = given[name];
  return checked(options);
}

function checked(options) {
  const { sentinel = 0, maxLength } = options;
  if (!Number.isInteger(sentinel) || sentinel < 0 || sentinel > 255) throw new RangeError("the sentinel must be an integer from 0 to 255");
  if ("maxLength" in options && (!Number.isSafeInteger(maxLength) || maxLength < 0)) {
    throw new RangeError("maxLength must be an integer, 0 or more");
  }
  return options;
}

const DECODING = { sentinel: 0 };
const ENCODING = { sentinel: 0, terminated: false };
const STREAM = { maxLength: 65536, sentinel: 0, skipFirst: false };

/** Returns the length of the longest frame that a message of `length` bytes can have, not counting sentinels. */
export function maxEncodedLength(length) {
  if (!Number.isSafeInteger(length) || length < 0) throw new RangeError("the length must be an integer, 0 or more");
  return loaded().machine.maxLength(length);
}

/**
 * Returns a length that is enough for the frame of a message of `length` bytes, and for a sentinel after the frame. A frame is at
 * least one byte longer than its message, and each 254 bytes of the message can add one more byte. The returned length can be
 * longer than necessary: it has one more byte for each 128 bytes of the message.
 */
const roomFor = (length) => length + Math.floor(length / 128) + 2;

/** Returns the frame of a message, followed by a sentinel if `terminated` is true. */
export function encode(message, options) {
  const { sentinel, terminated } = optionsOf(options, ENCODING);
  const bytes = bytesOf(message);
  const room = roomFor(bytes.length);
  const machine = machineFor(bytes.length + room + NEAR);
  const at = machine.placeAfter(bytes.length);
  const { length } = machine.encode(bytes, at, room, terminated);
  return machine.read(at, length, sentinel);
}

/**
 * Writes the frame of a message to the front of `dest`, followed by a sentinel if `terminated` is true. Returns how many bytes the
 * call has written. If the bytes to write don't fit `dest`, throws a RangeError and doesn't change `dest`.
 */
export function encodeInto(message, dest, options) {
  const front = bytesOf(dest);
  const { sentinel, terminated } = optionsOf(options, ENCODING);
  const bytes = bytesOf(message);
  const room = Math.min(front.length, roomFor(bytes.length));
  const machine = machineFor(bytes.length + room + NEAR);
  const at = machine.placeAfter(bytes.length);
  const { status, length } = machine.encode(bytes, at, room, terminated);
  if (status === TOO_SMALL) throw new RangeError(`the frame doesn't fit the ${front.length} bytes of dest`);
  machine.readInto(front, at, length, sentinel);
  return length;
}

/**
 * Returns the message of the first frame. Leading sentinels are skipped, and the frame ends at the next sentinel or at
 * the last byte.
 */
export function decode(frame, options) {
  const bytes = bytesOf(frame);
  const { sentinel } = optionsOf(options, DECODING);
  const machine = machineFor(2 * bytes.length + NEAR);
  const dest = machine.placeAfter(bytes.length);
  machine.write(bytes, machine.scratchAt, sentinel);
  const { status, length } = machine.decode(bytes.length, dest, bytes.length);
  if (status === OK) return machine.read(dest, length);
  if (status === BROKEN) throw new CobsError("broken", `the frame breaks off inside a block, after ${length} decoded bytes`, length);
  throw new CobsError("empty", "there is no frame to decode: there are no bytes, or only sentinels");
}

const abandoned = typeof FinalizationRegistry === "function" ? new FinalizationRegistry(({ arena, place }) => arena.give(place)) : null;

/**
 * A place in the shared memory for a state, a chunk and a buffer. The owner of the place is a decoder. `close` frees the place. The place is also freed if its owner is garbage-collected.
 */
class Held {
  #place;

  constructor(owner, length) {
    this.arena = loaded();
    this.#place = this.arena.take(STATE_SIZE + CHUNK_SIZE + length);
    this.state = this.#place.at;
    this.chunk = this.state + STATE_SIZE;
    this.buffer = this.chunk + CHUNK_SIZE;
    abandoned?.register(owner, { arena: this.arena, place: this.#place }, this);
  }

  get isOpen() {
    return this.#place !== null;
  }

  close() {
    abandoned?.unregister(this);
    this.arena.give(this.#place);
    this.#place = null;
  }
}

const DISPOSE = Symbol.dispose ?? Symbol("dispose");

/** Decodes a stream that comes in chunks of any size, with messages of up to `maxLength` bytes. */
export class FrameDecoder {
  #held;
  #decoder;
  #sentinel;
  #isSkipping;
  #skipped = 0;
  #isPushing = false;
  #isClosing = false;
  #wasUnfinished = false;

  constructor(options) {
    const { maxLength, sentinel, skipFirst } = optionsOf(options, STREAM);
    this.#sentinel = sentinel;
    this.#isSkipping = Boolean(skipFirst);
    this.#held = new Held(this, maxLength);
    this.#decoder = this.#held.arena.machine.decoder(this.#held.state, this.#held.buffer, maxLength);
  }

  /** Whether a frame has begun but no sentinel has ended it yet. The bytes that `skipFirst` skips begin no frame. */
  get unfinished() {
    return this.#held.isOpen ? !this.#decoder.isIdle() : this.#wasUnfinished;
  }

  /** How many bytes `skipFirst` has skipped, including the first sentinel. */
  get skipped() {
    return this.#skipped;
  }

  /**
   * Decodes a chunk, and calls `visit(outcome, end)` for each piece that ends in the chunk. `end` is the index, counted from the
   * start of the chunk, of the byte after the piece's sentinel. If `visit` closes the decoder, `push` doesn't call `visit` again.
   * If `visit` throws an error, `push` decodes the rest of the chunk without calling `visit`, and then throws this error. So the
   * error doesn't change how the next chunk is decoded.
   */
  push(chunk, visit) {
    if (!this.#held.isOpen || this.#isClosing) throw new Error("the decoder is closed");
    if (this.#isPushing) throw new Error("a push is under way");
    if (typeof visit !== "function") throw new TypeError("the second argument of push must be a function");
    const bytes = bytesOf(chunk);
    const fault = { thrown: undefined, isThrown: false };
    this.#isPushing = true;
    try {
      for (let at = this.#skip(bytes); at < bytes.length && !this.#isClosing; at += CHUNK_SIZE) {
        this.#pushSome(bytes.subarray(at, at + CHUNK_SIZE), at, visit, fault);
      }
    } finally {
      this.#isPushing = false;
      if (this.#isClosing) this.#close();
    }
    if (fault.isThrown) throw fault.thrown;
  }

  /** Returns the index, counted from the start of a chunk, at which decoding begins. */
  #skip(bytes) {
    if (!this.#isSkipping) return 0;
    const at = bytes.indexOf(this.#sentinel);
    this.#isSkipping = at < 0;
    const count = at < 0 ? bytes.length : at + 1;
    this.#skipped += count;
    return count;
  }

  #pushSome(bytes, offset, visit, fault) {
    const { arena, chunk, buffer } = this.#held;
    arena.machine.write(bytes, chunk, this.#sentinel);
    for (let at = 0; at < bytes.length && !this.#isClosing; ) {
      const { status, consumed, length } = this.#decoder.push(chunk + at, bytes.length - at);
      at += consumed;
      if (fault.isThrown) continue;
      try {
        if (status === OK) visit({ kind: "message", message: arena.machine.read(buffer, length) }, offset + at);
        else if (status === BROKEN) visit({ kind: "broken", decodedBytes: length }, offset + at);
        else if (status === TOO_SMALL) visit({ kind: "tooLong" }, offset + at);
      } catch (thrown) {
        fault.thrown = thrown;
        fault.isThrown = true;
      }
    }
  }

  /** Frees the decoder's memory. If a push is under way, the memory is freed at the end of that push. */
  close() {
    if (this.#isPushing) this.#isClosing = true;
    else this.#close();
  }

  #close() {
    if (!this.#held.isOpen) return;
    this.#wasUnfinished = this.unfinished;
    this.#held.close();
  }

  [DISPOSE]() {
    this.close();
  }
}

/**
 * Returns an iterator over the outcomes of the pieces of `bytes`. The property `end` of an outcome is the index in `bytes` of the
 * byte after the piece's sentinel.
 */
export function frames(bytes, options) {
  const view = bytesOf(bytes);
  const own = optionsOf(options, { ...STREAM, maxLength: view.length });
  loaded();
  return outcomesOf(view, own);
}

/** Makes its decoder only when the first outcome is wanted, because `return` before that doesn't run `finally`. */
function* outcomesOf(bytes, options) {
  const decoder = new FrameDecoder(options);
  try {
    for (let at = 0; at < bytes.length; at += CHUNK_SIZE) {
      const found = [];
      decoder.push(bytes.subarray(at, at + CHUNK_SIZE), (outcome, end) => found.push({ ...outcome, end: at + end }));
      yield* found;
    }
  } finally {
    decoder.close();
  }
}

/**
 * Makes the two ends of a stream, `readable` and `writable`, like those of a TransformStream. For each chunk, `take` is called
 * with the chunk and a function `give`. `take` calls `give` with each result. `close` is called once, however the stream ends. A
 * TransformStream isn't used, because some engines don't inform its transformer when the stream is cancelled or aborted.
 */
function ends(take, close) {
  const link = { take, close, out: null, into: null, wake: () => {}, isWanted: false, isOver: false, reason: undefined };
  return { readable: readableOf(link), writable: writableOf(link) };
}

/** Makes the stream fail with this reason. The reason is passed to `end`, the controller of the readable end or of the writable end. */
function fail(link, end, reason) {
  if (link.isOver) return;
  link.isOver = true;
  link.reason = reason;
  link.close();
  end.error(reason);
  link.wake();
}

function readableOf(link) {
  const source = {
    start: (controller) => void (link.out = controller),
    pull() {
      link.isWanted = true;
      link.wake();
    },
    cancel: (reason) => fail(link, link.into, reason),
  };
  return new ReadableStream(source, { highWaterMark: 0 });
}

function writableOf(link) {
  return new WritableStream({
    start(controller) {
      link.into = controller;
      // `abort` below isn't enough: the engine calls it only after the current write, and that write may wait for a reader
      const { signal } = controller;
      signal?.addEventListener("abort", () => fail(link, link.out, signal.reason));
    },
    async write(chunk) {
      while (!link.isWanted && !link.isOver) await new Promise((done) => (link.wake = done));
      if (link.isOver) throw link.reason;
      let count = 0;
      link.isWanted = false;
      try {
        link.take(chunk, (value) => {
          count++;
          link.out.enqueue(value);
        });
      } catch (error) {
        fail(link, link.out, error);
        throw error;
      }
      if (count === 0) link.isWanted = true;
    },
    close() {
      link.close();
      link.out.close();
    },
    abort: (reason) => fail(link, link.out, reason),
  });
}

/** Turns bytes into outcomes. There is one outcome for each piece that a sentinel ends; its `kind` is `message`, `broken` or `tooLong`. */
export class FrameDecoderStream {
  #decoder;

  constructor(options) {
    const decoder = new FrameDecoder(options);
    const { readable, writable } = ends(
      (chunk, give) => decoder.push(chunk, give),
      () => decoder.close(),
    );
    this.#decoder = decoder;
    this.readable = readable;
    this.writable = writable;
  }

  /**
   * Whether a frame has begun but no sentinel has ended it yet. At the end of the stream, the value says whether the last
   * frame was cut off.
   */
  get unfinished() {
    return this.#decoder.unfinished;
  }

  /** How many bytes `skipFirst` has skipped, including the first sentinel. */
  get skipped() {
    return this.#decoder.skipped;
  }
}

/** Turns messages into frames, each with a sentinel after it. */
export class FrameEncoderStream extends TransformStream {
  constructor(options) {
    loaded();
    const { sentinel } = optionsOf(options, DECODING);
    super({
      transform(message, controller) {
        controller.enqueue(encode(message, { sentinel, terminated: true }));
      },
    });
  }
}
