// Tests the memory that calls, decoders and streams share.
import * as cobs from "../jcobs.js";
import { memoryOf } from "./memory.mjs";
import { FRAME, MESSAGE, all, bytes, fresh, randomBytes, source, wasm } from "./module-setup.mjs";
import { check, equal, holds, throws, until } from "./tally.mjs";

await check("10,000 decoders are closed in any order in no time", () => {
  const decoders = Array.from({ length: 10_000 }, () => new cobs.FrameDecoder({ maxLength: 10 }));
  const order = randomBytes(20_000, 0, 5);
  decoders.forEach((decoder, i) => (decoder.order = order[2 * i] * 256 + order[2 * i + 1]));
  decoders.sort((a, b) => a.order - b.order);
  const begun = process.cpuUsage();
  for (const decoder of decoders) decoder.close();
  const { user } = process.cpuUsage(begun);
  holds(user < 1_000_000, `it took ${Math.round(user / 1000)} ms of processor time`);
});
await check("a stream that isn't read to its end gives its memory back at once", () => memoryOf(async (pages) => {
  const own = await fresh();
  await own.load(wasm);
  const before = pages();
  const chunk = bytes(...FRAME, 0);
  for (let i = 0; i < 50; i++) {
    const cancelled = new own.FrameDecoderStream({ maxLength: 1 << 20 });
    const writer = cancelled.writable.getWriter();
    const written = writer.write(chunk).catch(() => {});
    const reader = cancelled.readable.getReader();
    equal((await reader.read()).value, { kind: "message", message: MESSAGE });
    await reader.cancel(new Error("no more"));
    await written;
    await throws(() => writer.write(chunk), (error) => error.message === "no more", "a write after the reader's cancel");
    const aborted = new own.FrameDecoderStream({ maxLength: 1 << 20 });
    await aborted.writable.abort(new Error("enough"));
    await throws(() => aborted.readable.getReader().read(), (error) => error.message === "enough", "a read after the writer's abort");
    await throws(() => all(source(["text"]).pipeThrough(new own.FrameDecoderStream({ maxLength: 1 << 20 }))), (error) => error instanceof TypeError, "a chunk that is no bytes");
    const waiting = new own.FrameDecoderStream({ maxLength: 1 << 20 });
    const held = waiting.writable.getWriter();
    let end;
    held.write(chunk).then(() => (end = "written"), () => (end = "failed"));
    await waiting.readable.cancel(new Error("no more"));
    await until(() => end, "a write that waits has an end");
  }
  holds(pages() <= before + 3 * 17, `memory had ${before} pages and has ${pages()}`);
}));
await check("an iterator over frames that is returned before its first outcome takes no memory", () => memoryOf(async (pages) => {
  const own = await fresh();
  await own.load(wasm);
  const before = pages();
  for (let i = 0; i < 20; i++) own.frames(new Uint8Array(1 << 20)).return();
  equal(pages(), before, "pages");
}));
if (globalThis.gc) {
  await check("what a closed decoder had is freed once: its next owner keeps it", async () => {
    const own = await fresh();
    await own.load(wasm);
    let isCollected = false;
    const collector = new FinalizationRegistry(() => (isCollected = true));
    (() => {
      const first = new own.FrameDecoder({ maxLength: 100 });
      collector.register(first);
      first.close();
    })();
    const second = new own.FrameDecoder({ maxLength: 100 }); // at the place of the first
    const seen = [];
    second.push(bytes(5, 1, 2), () => {});
    await until(() => (globalThis.gc(), isCollected), "the first is collected");
    await new Promise((done) => setImmediate(done));
    const third = new own.FrameDecoder({ maxLength: 100 });
    third.push(bytes(5, 9, 9), () => {});
    second.push(bytes(3, 4, 0), ({ message }) => seen.push([...message]));
    equal(seen, [[1, 2, 3, 4]], "what the second gives");
  });
}
await check("memory doesn't grow with a stream, nor with the number of streams", async () => {
  const frame = cobs.encode(randomBytes(900, 0.05, 5), { terminated: true });
  await memoryOf(async (pages) => {
    const cobs = await fresh();
    await cobs.load(wasm);
    const decoder = new cobs.FrameDecoder({ maxLength: 1000 });
    const before = pages();
    let count = 0;
    for (let i = 0; i < 5000; i++) decoder.push(frame, () => count++);
    equal(count, 5000, "messages");
    decoder.close();
    for (let i = 0; i < 2000; i++) {
      const next = new cobs.FrameDecoder({ maxLength: 100_000 });
      next.push(frame, () => count++);
      next.close();
    }
    for (let i = 0; i < 300; i++) await all(source([frame]).pipeThrough(new cobs.FrameDecoderStream({ maxLength: 50_000 })));
    holds(pages() <= before + 3, `memory had ${before} pages and has ${pages()}`);
  });
});
await check("a decoder that is closed within a visit gives its memory back", () => memoryOf(async (pages) => {
  const cobs = await fresh();
  await cobs.load(wasm);
  const before = pages();
  for (let i = 0; i < 200; i++) {
    const decoder = new cobs.FrameDecoder({ maxLength: 200_000 });
    decoder.push(bytes(...FRAME, 0, ...FRAME, 0), () => decoder.close());
    await throws(() => decoder.push(FRAME, () => {}), (error) => /closed/.test(error.message), "a push after it");
  }
  holds(pages() <= before + 4, `memory had ${before} pages and has ${pages()}`);
}));
await check("calls about as long as the memory that they share leave an open decoder as it is", async () => {
  const cobs = await fresh();
  await cobs.load(wasm);
  const shared = 1 << 22;
  const message = new Uint8Array(100_000).fill(1);
  const frame = cobs.encode(message, { terminated: true });
  const calls = {
    // the call, how many bytes it puts into the memory for each byte of its argument, and a function that makes an argument
    decode: [(given) => cobs.decode(given), 2, (length) => new Uint8Array(length).fill(1)],
    encode: [(given) => cobs.encode(given), 2 + 1 / 128, (length) => new Uint8Array(length)],
  };
  for (const [name, [call, times, make]] of Object.entries(calls)) {
    for (const more of [-2048, -1024, -64, 0, 64, 1024, 1100, 2048, 4096]) {
      const decoder = new cobs.FrameDecoder({ maxLength: message.length });
      const seen = [];
      decoder.push(frame.subarray(0, 50_000), () => {});
      call(make(Math.floor((shared + more) / times)));
      decoder.push(frame.subarray(50_000), (outcome) => seen.push(outcome));
      decoder.close();
      holds(seen.length === 1 && seen[0].message && Buffer.compare(seen[0].message, message) === 0, `${name} of ${more} bytes more than the memory has`);
    }
  }
});
await check("places that lie together serve a longer one when they are given back, in any order", () => memoryOf(async (pages) => {
  const cobs = await fresh();
  await cobs.load(wasm);
  for (const order of [[0, 1, 2], [0, 2, 1], [1, 0, 2], [1, 2, 0], [2, 0, 1], [2, 1, 0]]) {
    const held = [1 << 20, 1 << 20, 1 << 20, 10].map((maxLength) => new cobs.FrameDecoder({ maxLength }));
    const before = pages();
    for (const at of order) held[at].close();
    const longer = new cobs.FrameDecoder({ maxLength: 3 << 20 });
    equal(pages(), before, `pages after ${order}`);
    longer.close();
    held[3].close();
  }
}));
if (globalThis.gc) {
  await check("the memory of decoders that were let go is used again", () => memoryOf(async (pages) => {
    const cobs = await fresh();
    await cobs.load(wasm);
    const before = pages();
    let collected = 0;
    const collector = new FinalizationRegistry(() => collected++);
    const letGo = () => {
      const decoder = new cobs.FrameDecoder({ maxLength: 1 << 20 });
      decoder.push(bytes(1, 0), () => {});
      collector.register(decoder);
    };
    for (let round = 1; round <= 20; round++) {
      for (let i = 0; i < 20; i++) letGo();
      await until(() => (globalThis.gc(), collected === 20 * round), "each decoder is collected");
    }
    holds(pages() < before + 100 * 17, `memory had ${before} pages and has ${pages()}, and 400 decoders of 17 pages were made`);
  }));
}
