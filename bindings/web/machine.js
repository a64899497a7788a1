// Loads the proved module, calls the module's functions, and keeps track of the free places in the module's memory. Only this file
// uses the names that the module exports. jcobs.js has the calls that users make.

// enum jcobs_status of jcobs.h
export const OK = 0;
export const TOO_SMALL = 2;
export const BROKEN = 3;

const WASM_PAGE = 65536;
const ANSWER_SIZE = 64;              // bytes for a jcobs_answer, at the front of the free memory
const SCRATCH_SIZE = 1 << 22;        // bytes of memory for a call; a call that needs more gets a separate memory
export const STATE_SIZE = 64;        // bytes for a jcobs_decoder
export const CHUNK_SIZE = 1 << 14;          // how many bytes of a stream are copied into the module at a time
export const NEAR = 1024;             // a call is short if it gets at most this many bytes; short calls write their results to a fixed place
const LONG = 4096;                   // a result of at least this many bytes is copied without `slice`
const MEMORY_LIMIT = 2 ** 32;        // the first address that doesn't fit in the module's 32 bits

/** The names that cobs.wasm exports. The tests make the calls that this file doesn't make. */
const CALLS = [
  "memory",
  "__heap_base",
  "jcobs_max_length",
  "jcobs_encode",
  "jcobs_encode_terminated",
  "jcobs_decode",
  "jcobs_frame_kind",
  "jcobs_decoder_reset",
  "jcobs_decoder_push",
  "jcobs_decoder_is_idle",
  "jcobs_encoder_reset",
  "jcobs_encoder_push",
  "jcobs_encoder_finish",
];

/** The error of a call that failed. `kind` is "empty", "broken" or "unsupported". `decodedBytes` is how many bytes a broken frame decodes to. */
export class CobsError extends Error {
  constructor(kind, message, decodedBytes = 0) {
    super(message);
    this.name = "CobsError";
    this.kind = kind;
    this.decodedBytes = decodedBytes;
  }
}

/** XORs `length` bytes from an index on with the sentinel: so a frame with the sentinel 0 gets this sentinel, and the other way round. */
function xor(bytes, at, length, sentinel) {
  if (sentinel !== 0) for (let i = at; i < at + length; i++) bytes[i] ^= sentinel;
}

/** An instance of the module, with calls whose arguments are addresses in its memory. */
class Machine {
  #calls;
  #memory;
  #bytes;
  #words;

  constructor(instance) {
    this.#calls = instance.exports;
    this.#memory = this.#calls.memory;
    this.answerAt = Math.ceil(Number(this.#calls.__heap_base.value) / ANSWER_SIZE) * ANSWER_SIZE;
    this.scratchAt = this.answerAt + ANSWER_SIZE;
    this.reach(this.scratchAt);
    this.#see();
  }

  #see() {
    this.#bytes = new Uint8Array(this.#memory.buffer);
    this.#words = new Uint32Array(this.#memory.buffer, this.answerAt, 6);
  }

  /** Makes the memory at least `end` bytes long. */
  reach(end) {
    if (end > MEMORY_LIMIT) throw new RangeError(`this needs ${end} bytes of memory, and a module has at most ${MEMORY_LIMIT}`);
    const pages = Math.ceil((end - this.#memory.buffer.byteLength) / WASM_PAGE);
    if (pages <= 0) return;
    this.#memory.grow(pages);
    this.#see();
  }

  /** Copies bytes to an address, and XORs each copied byte with the sentinel. */
  write(bytes, at, sentinel = 0) {
    this.#bytes.set(bytes, at);
    xor(this.#bytes, at, bytes.length, sentinel);
  }

  /** Returns a copy of the bytes at an address, each XORed with the sentinel. */
  read(at, length, sentinel = 0) {
    // for many bytes, the constructor needs only half as much time as `slice`, because `slice` first clears the copy
    const copy = length < LONG ? this.#bytes.slice(at, at + length) : new Uint8Array(this.#bytes.subarray(at, at + length));
    xor(copy, 0, length, sentinel);
    return copy;
  }

  /** Copies the bytes at an address to the front of `dest`, and XORs each copied byte with the sentinel. */
  readInto(dest, at, length, sentinel) {
    dest.set(this.#bytes.subarray(at, at + length));
    xor(dest, 0, length, sentinel);
  }

  maxLength(length) {
    return Number(this.#calls.jcobs_max_length(BigInt(length)));
  }

  /** Returns the address to which a call writes its result if `length` bytes are passed to it at `scratchAt`. */
  placeAfter(length) {
    return this.scratchAt + Math.max(length, NEAR);
  }

  /** Copies bytes to `scratchAt`, and encodes them to the address `dest`. */
  encode(bytes, dest, room, terminated) {
    this.write(bytes, this.scratchAt);
    const call = terminated ? this.#calls.jcobs_encode_terminated : this.#calls.jcobs_encode;
    call(this.answerAt, this.scratchAt, bytes.length, dest, room);
    return this.#answer();
  }

  /** Decodes the bytes at `scratchAt` to the address `dest`. */
  decode(sourceLength, dest, room) {
    this.#calls.jcobs_decode(this.answerAt, this.scratchAt, sourceLength, dest, room);
    return this.#answer();
  }

  /** Returns a decoder in the initial state, with its state and its buffer at these addresses. */
  decoder(state, buffer, room) {
    const [calls, answerAt] = [this.#calls, this.answerAt];
    calls.jcobs_decoder_reset(state);
    return {
      push: (at, length) => {
        calls.jcobs_decoder_push(answerAt, state, buffer, room, at, length);
        return this.#answer();
      },
      isIdle: () => calls.jcobs_decoder_is_idle(state) !== 0,
    };
  }

  /** Returns the jcobs_answer of the last call. It is a 32-bit number, followed by two 64-bit numbers, whose low halves come first. */
  #answer() {
    const words = this.#words;
    return { status: words[0], consumed: words[2] + words[3] * 0x100000000, length: words[4] + words[5] * 0x100000000 };
  }
}

/**
 * A small module with a function that copies bytes within its memory (memory.copy). In Firefox and Safari, no feature of WebAssembly
 * that cobs.wasm uses is newer than this copying. Chrome had this copying before it could pass 64-bit numbers from and to JavaScript
 * (version 85). But older versions of Chrome can't read this file, because of `??=`.
 */
const PROBE = Uint8Array.of(
  ...[0, 0x61, 0x73, 0x6d, 1, 0, 0, 0, 1, 4, 1, 0x60, 0, 0, 3, 2, 1, 0, 5, 3, 1, 0, 1],
  ...[10, 14, 1, 12, 0, 0x41, 0, 0x41, 0, 0x41, 0, 0xfc, 10, 0, 0, 0x0b],
);

/** Returns the reason why cobs.wasm can't run here, or "" if it can. */
function obstacle() {
  const hasAll = typeof WebAssembly === "object" && typeof BigInt64Array === "function" && WebAssembly.validate(PROBE);
  if (!hasAll) return "this engine lacks the WebAssembly that cobs.wasm needs, which browsers have since 2021 and Node since 16";
  try {
    new WebAssembly.Instance(new WebAssembly.Module(PROBE.subarray(0, 8)), {}); // of an empty module; WebKit forbids only the instance
    return "";
  } catch {
    return "a content security policy forbids WebAssembly: its script-src needs 'wasm-unsafe-eval'";
  }
}

/** Returns whether cobs.wasm can run here. */
export const isSupported = () => obstacle() === "";

let compiled;
let shared;
let loading;

/**
 * Loads the module from the file next to this one, or from a URL, a Response, the file's bytes or a compiled module. A relative URL
 * is relative to this file; in dist/ it is relative to the page. Every call except `isSupported` needs the module. Once the module is
 * loaded, or is being loaded, a further call changes nothing.
 */
export function load(source) {
  // moduleAddress() isn't the parameter's default value: in dist/ it decodes the whole module, so it should be called only once
  loading ??= loadFrom(source === undefined ? moduleAddress() : source).catch((error) => {
    if (!shared) loading = undefined; // loadSync may have loaded the module since
    throw error;
  });
  return loading;
}

/** Loads the module synchronously: from the file next to this one (in Node; dist/ has no such file and needs none), from bytes, or from a compiled module. */
export function loadSync(source) {
  if (shared) return;
  demandSupport();
  const given = source === undefined ? moduleAddress() : source;
  const module = given instanceof WebAssembly.Module ? given : new WebAssembly.Module(isBytes(given) ? bytesOf(given) : fileAt(given));
  demandCalls(module);
  keep(module, new WebAssembly.Instance(module, {}));
  loading = Promise.resolve();
}

const moduleAddress = () => new URL("cobs.wasm", import.meta.url);

function demandSupport() {
  const why = obstacle();
  if (why !== "") throw new CobsError("unsupported", why);
}

async function loadFrom(source) {
  demandSupport();
  const module = await moduleOf(source);
  demandCalls(module);
  // `new WebAssembly.Instance` isn't used, because on the main thread, Chrome before version 115 doesn't allow it for a module of this size
  const instance = await WebAssembly.instantiate(module, {});
  if (!shared) keep(module, instance);
}

function demandCalls(module) {
  const names = new Set(WebAssembly.Module.exports(module).map(({ name }) => name));
  if (!CALLS.every((name) => names.has(name))) throw new TypeError("the module isn't this version's cobs.wasm");
}

/** Stores the module, and the instance that all calls share from now on. */
function keep(module, instance) {
  shared = new Arena(new Machine(instance));
  compiled = module;
}

async function moduleOf(given) {
  const source = await given; // `given` may be a promise, for example the one that `fetch` returns
  if (source instanceof WebAssembly.Module) return source;
  if (isBytes(source)) return WebAssembly.compile(bytesOf(source));
  if (typeof Response === "function" && source instanceof Response) return WebAssembly.compile(await bytesOfResponse(source));
  if (typeof source !== "string" && !(source instanceof URL)) {
    throw new TypeError("load takes a URL, a Response, bytes, or a compiled module");
  }
  const url = new URL(source, import.meta.url);
  const files = filesFor(url);
  return WebAssembly.compile(files ? await files.promises.readFile(url) : await bytesOfResponse(await fetch(url)));
}

/** Returns Node's module `fs` if `url` is the address of a file. An `import` of `fs` isn't used, because bundlers for browsers can't resolve it. */
const filesFor = (url) => (url.protocol === "file:" ? globalThis.process?.getBuiltinModule?.("node:fs") : undefined);

/** Returns the bytes of the file at an address. This works only in Node, because browsers can't read a file without a promise. */
function fileAt(source) {
  const files = source instanceof URL ? filesFor(source) : undefined;
  if (!files) throw new TypeError("loadSync takes bytes or a compiled module; load fetches from an address");
  return files.readFileSync(source);
}

async function bytesOfResponse(response) {
  if (!response.ok) throw new Error(`${response.url || "cobs.wasm"} could not be loaded: status ${response.status}`);
  return response.arrayBuffer();
}

/** The memory that short calls and all streams share, with a list of its free places. */
class Arena {
  #free = []; // the free places in the order of their addresses; no two of them are adjacent

  constructor(machine) {
    this.machine = machine;
    this.end = machine.scratchAt + SCRATCH_SIZE;
    machine.reach(this.end);
  }

  /** Returns a place of at least `size` bytes: a part of a free place, or a new place at the end of the memory. */
  take(size) {
    const wanted = Math.ceil(size / 64) * 64;
    const found = this.#free.findIndex((place) => place.size >= wanted);
    if (found >= 0) {
      const place = this.#free[found];
      if (place.size === wanted) this.#free.splice(found, 1);
      else this.#free[found] = { at: place.at + wanted, size: place.size - wanted };
      return { at: place.at, size: wanted };
    }
    const place = { at: this.end, size: wanted };
    this.machine.reach(place.at + wanted);
    this.end += wanted;
    return place;
  }

  /** Frees a place, and joins it with the free places next to it, so that `take` can use all their bytes for one place. */
  give({ at, size }) {
    const free = this.#free;
    let next = this.#firstAfter(at);
    if (next < free.length && at + size === free[next].at) size += free.splice(next, 1)[0].size;
    if (next > 0 && free[next - 1].at + free[next - 1].size === at) {
      next--;
      size += free[next].size;
      at = free.splice(next, 1)[0].at;
    }
    if (at + size === this.end) this.end = at;
    else free.splice(next, 0, { at, size });
  }

  /** Returns the index in `#free` of the first free place after an address. */
  #firstAfter(at) {
    let low = 0;
    let high = this.#free.length;
    while (low < high) {
      const middle = (low + high) >> 1;
      if (this.#free[middle].at < at) low = middle + 1;
      else high = middle;
    }
    return low;
  }
}

/** Returns the memory that all calls share, or throws if the module isn't loaded. */
export function loaded() {
  if (!shared) throw new Error("cobs.wasm is not loaded: await load() first");
  return shared;
}

/** Returns a machine with `size` free bytes at `scratchAt`: the shared machine, or a new one if the shared machine has fewer bytes. */
export function machineFor(size) {
  const { machine } = loaded();
  if (size <= SCRATCH_SIZE) return machine;
  const own = new Machine(new WebAssembly.Instance(compiled, {}));
  own.reach(own.scratchAt + size);
  return own;
}

const isBuffer = (source) => /^\[object (Shared)?ArrayBuffer\]$/.test(Object.prototype.toString.call(source)); // `instanceof` is false for an ArrayBuffer that another window or iframe made
const isBytes = (source) => ArrayBuffer.isView(source) || isBuffer(source);

/** Returns the bytes of an ArrayBuffer or of any view of one. */
export function bytesOf(source) {
  if (source instanceof Uint8Array && source.length > 0) return source;
  if (ArrayBuffer.isView(source)) {
    if (isGone(source)) throw new TypeError("these bytes are gone: their buffer was transferred, or made shorter");
    return new Uint8Array(source.buffer, source.byteOffset, source.byteLength);
  }
  if (isBuffer(source)) return new Uint8Array(source);
  throw new TypeError("bytes must be a Uint8Array, another view, or an ArrayBuffer");
}

/** Returns whether a view has lost its bytes. Its length is then 0, like the length of an empty view. */
function isGone(view) {
  try {
    if ("length" in view && view.length === 0) Uint8Array.prototype.indexOf.call(view, 0); // throws for a view that is out of bounds
    return view.byteLength < 0; // throws for a DataView that is out of bounds
  } catch {
    return true;
  }
}
