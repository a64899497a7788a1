/**
 * Consistent Overhead Byte Stuffing (COBS), implemented by the proved code in cobs.wasm.
 *
 * A call throws:
 * - a TypeError if an argument that must be `Bytes` has another type or a detached buffer, if the options aren't an object, or if
 *   you pass an option that the call doesn't have;
 * - a RangeError if a `sentinel`, a `maxLength` or a length isn't an allowed number, or if the call needs more memory than the
 *   engine gives. All open decoders together can have at most 4 GiB;
 * - an Error if the module isn't loaded.
 */

// With some values of TypeScript's option `lib`, these names aren't declared anywhere else. If they are declared elsewhere, for
// example by `dom`, @types/node or a newer compiler, the declarations here add nothing.
declare global {
  interface SymbolConstructor {
    readonly dispose: unique symbol;
  }
  interface URL {
    href: string;
  }
  interface Response {
    readonly ok: boolean;
  }
  interface ReadableStream<R = any> {}
  interface WritableStream<W = any> {}
  namespace WebAssembly {
    interface Module {}
  }
}

/** Bytes that are passed to a call: an ArrayBuffer, a SharedArrayBuffer, or any view of one of these. */
export type Bytes = ArrayBuffer | SharedArrayBuffer | ArrayBufferView;

/** The bytes of a result, in a new ArrayBuffer: `Uint8Array<ArrayBuffer>` with TypeScript 5.7 or later, `Uint8Array` before. */
export type NewBytes = ReturnType<Uint8ArrayConstructor["of"]>;

/**
 * A source from which `load` can read the module: an address, a response, the bytes of cobs.wasm, or the compiled module. A
 * relative address is relative to the page; in a worker and in Node, an address must be absolute. (For the file jcobs.js of the
 * repository, a relative address is relative to that file.)
 */
export type Source = string | URL | Response | PromiseLike<Response> | Bytes | WebAssembly.Module;

export interface SentinelOptions {
  /** The byte that a frame never contains: an integer from 0 to 255. Default 0. */
  sentinel?: number;
}

export interface EncodeOptions extends SentinelOptions {
  /** Whether the result has a sentinel after the frame. Default false. */
  terminated?: boolean;
}

export interface DecoderOptions extends SentinelOptions {
  /**
   * The length of the longest message that is accepted, in bytes: an integer, 0 or more. Default 65536. For `frames`, the default
   * is the number of bytes that are passed.
   */
  maxLength?: number;
  /**
   * Whether to skip all bytes up to and including the first sentinel. Use this option if the stream may begin inside a frame.
   * Default false.
   */
  skipFirst?: boolean;
}

/**
 * The outcome of a piece of a stream: its `kind`, and what belongs to that kind. A piece is the bytes between two neighbouring sentinels, or before the first sentinel. A
 * piece has at least one byte. So a sentinel at the start, or after another sentinel, has no outcome.
 */
export type Outcome =
  /** The piece is a frame, and `message` is its message. */
  | { kind: "message"; message: NewBytes }
  /**
   * The piece breaks off inside a block. `decodedBytes` is the number of bytes that the piece decodes to before it breaks off,
   * which is at most `maxLength`.
   */
  | { kind: "broken"; decodedBytes: number }
  /** The piece decodes to more than `maxLength` bytes, whether or not it then breaks off. */
  | { kind: "tooLong" };

/**
 * The error of a call that failed. `kind` is the reason:
 * - "empty": `decode` was passed no bytes, or only sentinels;
 * - "broken": the frame breaks off inside a block;
 * - "unsupported": this engine is too old to run the module, or a content security policy forbids it.
 */
export class CobsError extends Error {
  readonly kind: "empty" | "broken" | "unsupported";
  /** If `kind` is "broken", the number of bytes that the frame decodes to before it breaks off; otherwise 0. */
  readonly decodedBytes: number;
  constructor(kind: CobsError["kind"], message: string, decodedBytes?: number);
}

/** Returns whether the module can run in this engine, and under the content security policy of this page. */
export function isSupported(): boolean;

/**
 * Loads the module. Every call except `isSupported` needs the module. Without an argument, `load` loads the module that comes
 * with this file. While the module is being loaded, a further call of `load` changes nothing and returns the same promise. Once the
 * module is loaded, a further call changes nothing and returns a fulfilled promise. If the module can't be loaded, the promise is
 * rejected with one of the following errors, and `load` can be called again:
 * - a CobsError "unsupported";
 * - the error that occurred when the source was read, for example an error of `fetch`;
 * - a WebAssembly.CompileError if the bytes aren't a WebAssembly module;
 * - a TypeError if the source has a wrong type, or is a module other than this version's cobs.wasm.
 */
export function load(source?: Source): Promise<void>;

/**
 * Loads the module synchronously, for a program that can't wait for a promise. Without an argument, `loadSync` loads the module
 * that comes with this file. Once the module is loaded, a further call changes nothing. On a page in Chrome, outside of a worker,
 * this call needs Chrome 115 or later. In a browser, the file jcobs.js of the repository needs an argument, because a browser can't
 * read cobs.wasm synchronously.
 *
 * @throws CobsError "unsupported", or the errors of `load`
 */
export function loadSync(source?: Bytes | WebAssembly.Module): void;

/**
 * Returns the length of the longest frame that a message of `length` bytes can have, not counting sentinels.
 *
 * @throws RangeError if `length` isn't an integer from 0 to `Number.MAX_SAFE_INTEGER`
 */
export function maxEncodedLength(length: number): number;

/** Returns the frame of a message, followed by a sentinel if `terminated` is true. */
export function encode(message: Bytes, options?: EncodeOptions): NewBytes;

/**
 * Writes the frame of a message to the front of `dest`, followed by a sentinel if `terminated` is true. Returns how many bytes the
 * call has written. The bytes of `dest` after the written bytes aren't changed.
 *
 * @throws RangeError if the bytes to write don't fit `dest`; in this case `dest` isn't changed
 */
export function encodeInto(message: Bytes, dest: Bytes, options?: EncodeOptions): number;

/**
 * Returns the message of the first frame. Leading sentinels are skipped, and the frame ends at the next sentinel or at
 * the last byte. The bytes after that sentinel are ignored.
 *
 * @throws CobsError "empty" or "broken"
 */
export function decode(frame: Bytes, options?: SentinelOptions): NewBytes;

/**
 * Returns an iterator over the outcomes of the pieces of `bytes`. The property `end` of an outcome is the index in `bytes` of the
 * byte after the piece's sentinel. Bytes after the last sentinel have no outcome. The iterator reads `bytes` step by step, so don't
 * change `bytes` before the iterator has ended. It needs `maxLength` bytes of memory until it ends, or until a loop leaves it.
 */
export function frames(bytes: Bytes, options?: DecoderOptions): IterableIterator<Outcome & { end: number }>;

/** Decodes a stream that comes in chunks of any size. */
export class FrameDecoder {
  constructor(options?: DecoderOptions);
  /**
   * Decodes a chunk, and calls `visit` for each piece that ends in the chunk. `end` is the index, counted from the start of the
   * chunk, of the byte after the piece's sentinel. If `visit` closes the decoder, `push` doesn't call `visit` again. If `visit`
   * throws an error, `push` decodes the rest of the chunk without calling `visit`, and then throws this error. So the error doesn't
   * change how the next chunk is decoded.
   *
   * @throws Error if the decoder is closed, or if `visit` calls `push`
   * @throws TypeError if `visit` isn't a function
   */
  push(chunk: Bytes, visit: (outcome: Outcome, end: number) => void): void;
  /**
   * Whether a frame has begun but no sentinel has ended it yet. The bytes that `skipFirst` skips begin no frame. After `close`, the
   * value stays as it was.
   */
  get unfinished(): boolean;
  /** How many bytes `skipFirst` has skipped, including the first sentinel. */
  get skipped(): number;
  /**
   * Frees the decoder's memory. Without this call, garbage collection frees the memory at some later time. If `visit` calls
   * `close`, the memory is freed at the end of `push`. A second call does nothing.
   */
  close(): void;
  /**
   * Calls `close`. At the end of a block, a `using` declaration calls this method. The method exists only if the engine had
   * `Symbol.dispose` when this package was loaded.
   */
  [Symbol.dispose](): void;
}

/**
 * Turns a stream of bytes into a stream of outcomes. Bytes after the last sentinel of the stream have no outcome. A chunk that
 * isn't `Bytes` makes both ends fail with a TypeError.
 */
export class FrameDecoderStream {
  constructor(options?: DecoderOptions);
  readonly readable: ReadableStream<Outcome>;
  readonly writable: WritableStream<Bytes>;
  /**
   * Whether a frame has begun but no sentinel has ended it yet. At the end of the stream, the value says whether the last frame
   * was cut off. The bytes that `skipFirst` skips begin no frame.
   */
  get unfinished(): boolean;
  /** How many bytes `skipFirst` has skipped, including the first sentinel. */
  get skipped(): number;
}

/**
 * A `TransformStream` that turns messages into frames, each with a sentinel after it. A message that isn't `Bytes` makes both ends
 * fail with a TypeError.
 */
export class FrameEncoderStream {
  constructor(options?: SentinelOptions);
  readonly readable: ReadableStream<NewBytes>;
  readonly writable: WritableStream<Bytes>;
}
