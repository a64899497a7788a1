// Tests loading the module, and the calls for whole messages and frames.
import { createServer } from "node:http";
import { pathToFileURL } from "node:url";
import { runInNewContext } from "node:vm";
import * as cobs from "../jcobs.js";
import { memoryOf } from "./memory.mjs";
import { FRAME, MESSAGE, bytes, fresh, randomBytes, wasm } from "./module-setup.mjs";
import * as plain from "./plain.js";
import { check, equal, holds, throws } from "./tally.mjs";

await check("a call before load says so", () => throws(() => cobs.encode(MESSAGE), (error) => /load/.test(error.message), "encode"));
await check("the engine runs the module", () => holds(cobs.isSupported(), "isSupported()"));
await check("what is no module is an error, and load can be called again", async () => {
  const own = await fresh();
  await throws(() => own.load(bytes(1, 2, 3)), (error) => error instanceof WebAssembly.CompileError, "bytes");
  await throws(() => own.load(bytes(0, 0x61, 0x73, 0x6d, 1, 0, 0, 0)), (error) => /isn't this version's cobs.wasm/.test(error.message), "an empty module");
  await throws(() => own.load(new URL("none.wasm", import.meta.url)), () => true, "an address without a file");
  for (const wrong of [null, 5, {}]) await throws(() => own.load(wrong), (error) => error instanceof TypeError, `${wrong}`);
  await own.load(wasm);
  equal(own.encode(MESSAGE), FRAME, "the frame");
});
await check("a server's error isn't taken for the module", async () => {
  const server = createServer((request, response) => {
    response.writeHead(request.url === "/cobs.wasm" ? 200 : 404, { "content-type": "text/plain" });
    response.end(wasm);
  });
  await new Promise((done) => server.listen(0, "127.0.0.1", done));
  const address = `http://127.0.0.1:${server.address().port}`;
  try {
    const own = await fresh();
    await throws(() => own.load(`${address}/other.wasm`), (error) => /status 404/.test(error.message), "an address");
    const response = await fetch(`${address}/other.wasm`);
    await throws(() => own.load(response), (error) => /status 404/.test(error.message), "a response");
    await own.load(`${address}/cobs.wasm`); // whatever type the server names
    equal(own.encode(MESSAGE), FRAME, "the frame");
  } finally {
    server.close();
    server.closeAllConnections();
  }
});
await check("load loads once", () => memoryOf(async (pages, made) => {
  const own = await fresh();
  equal(own.load(wasm) === own.load(), true, "the same promise");
  await own.load(wasm);
  await own.load();
  equal(made(), 1, "instances");
}));

for (const [name, given] of Object.entries({
  "a Buffer": wasm,
  "an ArrayBuffer": wasm.buffer.slice(wasm.byteOffset, wasm.byteOffset + wasm.length),
  "a module": await WebAssembly.compile(wasm),
  "a Response": new Response(wasm),
  "what fetch returns": Promise.resolve(new Response(wasm)),
  "nothing": undefined,
  "a URL of a file": pathToFileURL(process.argv[2]),
})) {
  await check(`load takes ${name}`, async () => {
    const own = await fresh();
    await own.load(given);
    equal(own.encode(MESSAGE), FRAME, "the frame");
  });
}
await check("loadSync loads before it returns, and load after it changes nothing", () => memoryOf(async (pages, made) => {
  for (const given of [undefined, wasm, await WebAssembly.compile(wasm)]) {
    const own = await fresh();
    const before = made();
    own.loadSync(given);
    equal(own.encode(MESSAGE), FRAME, "the frame");
    own.loadSync();
    await own.load();
    equal(made() - before, 1, "instances");
  }
  const both = await fresh();
  const loading = both.load();
  both.loadSync();
  const decoder = new both.FrameDecoder();
  await loading;
  const seen = [];
  decoder.push(bytes(...FRAME, 0), ({ message }) => seen.push(message));
  decoder.close();
  equal([seen, both.encode(MESSAGE)], [[MESSAGE], FRAME], "with one decoder from before a load ended");
  const unused = pages(); // of the instance that `load` made in vain
  new both.FrameDecoder({ maxLength: 1 << 23 }).close();
  equal(pages(), unused, "pages of an instance that came too late");
}));
await check("a load that fails after loadSync has loaded the module changes nothing", async () => {
  const own = await fresh();
  const failing = own.load(bytes(1, 2, 3));
  own.loadSync();
  await throws(() => failing, () => true, "the load of what is no module");
  await own.load(bytes(1, 2, 3));
  equal(own.encode(MESSAGE), FRAME, "the frame");
});
await check("loadSync refuses what needs a promise, and what is no module", async () => {
  const own = await fresh();
  for (const given of ["cobs.wasm", new URL("https://example.org/cobs.wasm"), new Response(wasm), null]) await throws(() => own.loadSync(given), (error) => error instanceof TypeError && /load fetches/.test(error.message), `${given}`);
  await throws(() => own.loadSync(bytes(0, 0x61, 0x73, 0x6d, 1, 0, 0, 0)), (error) => /isn't this version's cobs.wasm/.test(error.message), "an empty module");
  own.loadSync();
  equal(own.encode(MESSAGE), FRAME, "the frame");
});
await check("a page of an engine that makes no long instance at once, as Chrome before 115, loads all the same", async () => {
  const { Instance } = WebAssembly;
  WebAssembly.Instance = class extends Instance {
    constructor(module, imports) {
      if (WebAssembly.Module.exports(module).length === 0) super(module, imports);
      else throw new RangeError("WebAssembly.Instance is disallowed on the main thread, if the buffer size is larger than 4KB");
    }
  };
  try {
    const own = await fresh();
    await own.load(wasm);
    equal(own.encode(MESSAGE), FRAME, "the frame");
  } finally {
    WebAssembly.Instance = Instance;
  }
});
await cobs.load(wasm);
await check("lengths that a 32-bit memory doesn't hold are refused before the call", async () => {
  const own = await fresh();
  await own.load(wasm);
  const isRange = (error) => error instanceof RangeError && /4294967296/.test(error.message);
  const long = new Uint8Array(2 ** 31);
  await throws(() => own.encode(long), isRange, "encode");
  await throws(() => own.decode(long), isRange, "decode");
  await throws(() => new own.FrameDecoder({ maxLength: 2 ** 32 }), isRange, "a decoder");
  equal(own.maxEncodedLength(2 ** 32), 4311876617, "lengths alone are counted");
  equal(own.encode(MESSAGE), FRAME, "the frame after them");
});

await check("encode, with each option", () => {
  equal(cobs.encode(bytes()), bytes(1), "the frame of the empty message");
  equal(cobs.encode(MESSAGE, { terminated: true }), bytes(...FRAME, 0), "with a sentinel behind");
  equal(cobs.encode(MESSAGE, { sentinel: 170, terminated: true }), bytes(...FRAME.map((byte) => byte ^ 170), 170), "with another sentinel");
});
await check("every kind of bytes is taken", () => {
  const padded = bytes(9, 9, ...MESSAGE, 9);
  equal(cobs.encode(padded.subarray(2, 6)), FRAME, "of a subarray");
  equal(cobs.encode(new DataView(padded.buffer, 2, 4)), FRAME, "of a view");
  equal(cobs.encode(MESSAGE.buffer), FRAME, "of a buffer");
});
await check("bytes that are gone are refused: another thread has them, or their buffer was made shorter", async () => {
  const decoder = new cobs.FrameDecoder();
  const moved = Uint8Array.from(FRAME);
  const ofMoved = new DataView(moved.buffer);
  structuredClone(moved, { transfer: [moved.buffer] });
  const shrunk = new ArrayBuffer(16, { maxByteLength: 16 });
  const cut = [new Uint8Array(shrunk, 8), new Uint16Array(shrunk, 4, 4), new Uint8Array(shrunk, 4, 8), new DataView(shrunk, 8, 4)];
  const [following] = cut; // has no length of its own
  shrunk.resize(6);
  for (const gone of [moved, ofMoved, ...cut]) {
    for (const call of [cobs.decode, cobs.encode, cobs.frames, (chunk) => decoder.push(chunk, () => {})]) {
      await throws(() => call(gone), (error) => error instanceof TypeError && /gone|detached/.test(error.message), "it");
    }
  }
  shrunk.resize(8);
  equal(cobs.encode(following), bytes(1), "of a view that begins where its buffer ends by now");
  decoder.close();
});
await check("what is no bytes is refused", async () => {
  for (const wrong of ["text", [1, 2], null, 7]) await throws(() => cobs.encode(wrong), (error) => error instanceof TypeError, `encode of ${wrong}`);
});
await check("what is no sentinel is refused", async () => {
  for (const sentinel of [-1, 256, 1.5, "0", null]) {
    await throws(() => cobs.encode(MESSAGE, { sentinel }), (error) => error instanceof RangeError, `encode with ${sentinel}`);
    await throws(() => cobs.decode(FRAME, { sentinel }), (error) => error instanceof RangeError, `decode with ${sentinel}`);
    await throws(() => new cobs.FrameDecoderStream({ sentinel }), (error) => error instanceof RangeError, `a stream with ${sentinel}`);
  }
});
await check("decode answers and refuses", async () => {
  equal(cobs.decode(bytes(0, 0, ...FRAME, 0, 9, 9)), MESSAGE, "the first frame");
  await throws(() => cobs.decode(bytes()), (error) => error instanceof cobs.CobsError && error.kind === "empty" && error.decodedBytes === 0, "no bytes");
  await throws(() => cobs.decode(bytes(0, 0)), (error) => error.kind === "empty", "zeros alone");
  await throws(() => cobs.decode(bytes(2, 5, 3, 1)), (error) => error.kind === "broken" && error.decodedBytes === 3, "a cut frame");
});
await check("greatest lengths", async () => {
  equal([0, 1, 5, 253, 254, 255, 508, 509].map(cobs.maxEncodedLength), [1, 2, 6, 254, 255, 257, 510, 512], "they");
  await throws(() => cobs.maxEncodedLength(-1), (error) => error instanceof RangeError, "-1");
});
await check("long messages, past the shared memory, and short ones after them", () => {
  for (const length of [300_000, 2_000_000, 2_100_000, 9_000_000, 10]) {
    const message = randomBytes(length, 0.02, length);
    const frame = cobs.encode(message);
    equal(Buffer.compare(frame, plain.encode(message)), 0, `comparing with plain code at ${length}`);
    equal(Buffer.compare(cobs.decode(frame), message), 0, `round trip at ${length}`);
  }
});
await check("a message that was given out stays as it is", () => {
  const first = cobs.decode(FRAME);
  cobs.decode(bytes(3, 99, 98));
  equal(first, MESSAGE);
});
await check("unknown options and wrong ones are errors", async () => {
  const calls = {
    encode: (options) => cobs.encode(MESSAGE, options),
    encodeInto: (options) => cobs.encodeInto(MESSAGE, new Uint8Array(9), options),
    decode: (options) => cobs.decode(bytes(1 ^ (options?.sentinel ?? 0)), options),
    frames: (options) => cobs.frames(FRAME, options),
    FrameDecoder: (options) => new cobs.FrameDecoder(options),
    FrameDecoderStream: (options) => new cobs.FrameDecoderStream(options),
    FrameEncoderStream: (options) => new cobs.FrameEncoderStream(options),
  };
  for (const [name, call] of Object.entries(calls)) {
    for (const wrong of [{ sentinal: 10 }, { toString: 10 }, { constructor: 10 }, { ["__proto__"]: 10 }, 10, null]) await throws(() => call(wrong), (error) => error instanceof TypeError && /option/.test(error.message), `${name} with ${JSON.stringify(wrong)}`);
    call({});
    call({ sentinel: undefined });
    call({ sentinel: 10 });
  }
  await throws(() => cobs.decode(FRAME, { terminated: true }), (error) => error instanceof TypeError, "an option of another call");
  await throws(() => new cobs.FrameDecoder().push(bytes(1)), (error) => error instanceof TypeError, "push without a function");
});
await check("frames of one buffer", async () => {
  const stream = bytes(0, ...FRAME, 0, 0, 5, 1, 0, 1, 0, 3, 5);
  const wanted = [{ kind: "message", message: MESSAGE, end: 7 }, { kind: "broken", decodedBytes: 1, end: 11 }, { kind: "message", message: bytes(), end: 13 }];
  equal([...cobs.frames(stream)], wanted, "they");
  equal([...cobs.frames(stream.map((byte) => byte ^ 9), { sentinel: 9 })], wanted, "with another sentinel");
  equal([...cobs.frames(stream, { maxLength: 3 })][0], { kind: "tooLong", end: 7 }, "the first, for messages of 3 bytes");
  for (const outcome of cobs.frames(stream)) {
    equal(outcome, wanted[0], "the first alone");
    break;
  }
  const messages = Array.from({ length: 300 }, (_, i) => randomBytes(i * 3, 0.1, i + 1));
  const long = Buffer.concat(messages.map((message) => cobs.encode(message, { terminated: true })));
  const found = [...cobs.frames(long)];
  equal(found.map(({ message }) => message), messages, "messages of a long buffer");
  equal(found.at(-1).end, long.length, "the last end");
});
await check("encodeInto writes the frame alone", async () => {
  const room = new Uint8Array(8).fill(0xee);
  equal(cobs.encodeInto(MESSAGE, room.subarray(1)), 5, "the length");
  equal(room, bytes(0xee, ...FRAME, 0xee, 0xee), "the bytes");
  equal(cobs.encodeInto(MESSAGE, room.buffer, { terminated: true, sentinel: 7 }), 6, "the length");
  equal(room, bytes(...[...FRAME, 0].map((byte) => byte ^ 7), 0xee, 0xee), "the bytes");
  for (const [options, length] of [[{}, 4], [{ terminated: true }, 5]]) {
    const short = new Uint8Array(length).fill(0xee);
    await throws(() => cobs.encodeInto(MESSAGE, short, options), (error) => error instanceof RangeError && error.message === `the frame doesn't fit the ${length} bytes of dest`, "too short");
    equal(short, new Uint8Array(length).fill(0xee), "the bytes after it");
  }
});
await check("bytes of another realm and shared bytes are taken", () => {
  equal(cobs.encode(runInNewContext("Uint8Array.of(10, 11, 0, 12).buffer")), FRAME, "of another realm");
  const sharedBytes = new Uint8Array(new SharedArrayBuffer(4));
  sharedBytes.set(MESSAGE);
  equal(cobs.encode(sharedBytes), FRAME, "of shared bytes");
  equal(cobs.encode(sharedBytes.buffer), FRAME, "of a shared buffer");
});
