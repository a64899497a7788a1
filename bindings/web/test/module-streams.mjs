// Tests the streams, and the decoder that they use.
import * as cobs from "../jcobs.js";
import { FRAME, MESSAGE, all, bytes, randomBytes, source } from "./module-setup.mjs";
import * as plain from "./plain.js";
import { check, equal, holds, throws } from "./tally.mjs";

await check("a stream gives its outcomes however it is cut", async () => {
  const stream = bytes(...FRAME, 0, 0, 4, 7, 8, 9, 0, 5, 1, 0, 7, 1, 2, 3, 4, 5, 6, 0, 3, 5, 6, 0, 2);
  const wanted = [{ kind: "message", message: MESSAGE }, { kind: "message", message: bytes(7, 8, 9) }, { kind: "broken", decodedBytes: 1 }, { kind: "tooLong" }, { kind: "message", message: bytes(5, 6) }];
  for (const sentinel of [0, 0x55]) {
    const changed = stream.map((byte) => byte ^ sentinel);
    for (let size = 1; size <= stream.length; size++) {
      const chunks = [];
      for (let at = 0; at < stream.length; at += size) chunks.push(changed.subarray(at, at + size));
      const decoder = new cobs.FrameDecoderStream({ maxLength: 5, sentinel });
      equal(await all(source(chunks).pipeThrough(decoder)), wanted, `by ${size}`);
      equal(decoder.unfinished, true, "unfinished");
    }
  }
});
await check("random streams as plain code reads them", async () => {
  for (let round = 0; round < 60; round++) {
    const stream = randomBytes(4000 + round, [0.004, 0.05, 0.4][round % 3], round + 1);
    const wanted = [];
    new plain.PlainDecoder(200).push(stream, (outcome) => wanted.push(outcome));
    const chunks = [];
    for (let at = 0; at < stream.length; at += 1 + ((at * 7 + round) % 97)) chunks.push(stream.subarray(at, at + 1 + ((at * 7 + round) % 97)));
    equal(await all(source(chunks).pipeThrough(new cobs.FrameDecoderStream({ maxLength: 200 }))), wanted, `round ${round}`);
  }
});
await check("what is written through both streams comes back", async () => {
  const messages = [bytes(), bytes(0), MESSAGE, randomBytes(5000, 0.1, 3), randomBytes(700, 0, 4)];
  for (const sentinel of [0, 10]) {
    const back = source(messages).pipeThrough(new cobs.FrameEncoderStream({ sentinel })).pipeThrough(new cobs.FrameDecoderStream({ maxLength: 5000, sentinel }));
    equal((await all(back)).map(({ message }) => message), messages, "they");
  }
});
await check("a decoder says where each piece ends, and lets other calls in between", () => {
  const decoder = new cobs.FrameDecoder({ maxLength: 100 });
  const other = new cobs.FrameDecoder({ maxLength: 100 });
  const seen = [];
  decoder.push(bytes(...FRAME, 0, 2, 7, 0, 1), ({ message }, end) => {
    other.push(bytes(0, 5, 1, 2, 3, 4, 0), () => {});
    cobs.encode(randomBytes(500, 0, 9));
    seen.push([[...message], end]);
  });
  equal(seen, [[[...MESSAGE], 6], [[7], 9]]);
  equal(decoder.unfinished, true);
  decoder.push(bytes(0), () => {});
  equal(decoder.unfinished, false);
  decoder.close();
  other.close();
});
await check("a decoder says where each piece ends in a long chunk", () => {
  const stream = randomBytes(100_000, 0.03, 21);
  const decoder = new cobs.FrameDecoder({ maxLength: 40 });
  const seen = [];
  decoder.push(stream, (outcome, end) => seen.push([outcome, end]));
  decoder.close();
  const wanted = [];
  const one = new plain.PlainDecoder(40);
  for (let at = 0; at < stream.length; at++) one.push(stream.subarray(at, at + 1), (outcome) => wanted.push([outcome, at + 1]));
  holds(["message", "broken", "tooLong"].every((kind) => wanted.some(([outcome]) => outcome.kind === kind)), "each kind of outcome is there");
  equal(seen, wanted);
});
await check("many decoders at a time keep apart", () => {
  const decoders = Array.from({ length: 300 }, (_, i) => ({ decoder: new cobs.FrameDecoder({ maxLength: i + 1 }), message: randomBytes(i + 1, 0.1, i + 1), seen: [] }));
  const half = (i) => Math.floor(i / 2);
  for (const { decoder, message, seen } of decoders) {
    const frame = cobs.encode(message, { terminated: true });
    decoder.push(frame.subarray(0, half(frame.length)), (outcome) => seen.push(outcome));
  }
  for (const { decoder, message, seen } of decoders) {
    const frame = cobs.encode(message, { terminated: true });
    decoder.push(frame.subarray(half(frame.length)), (outcome) => seen.push(outcome));
    equal(seen, [{ kind: "message", message }]);
    decoder.close();
  }
});
await check("after a visit that throws the next chunk is decoded as if it hadn't", () => {
  const decoder = new cobs.FrameDecoder({ maxLength: 100 });
  const seen = [];
  const push = (...values) => decoder.push(bytes(...values), ({ message, decodedBytes }) => {
    seen.push(message ? [...message] : decodedBytes);
    if (message?.[0] === 7) throw new Error("seven");
  });
  let thrown;
  try {
    push(2, 7, 0, 2, 8, 0, 5, 1, 2);
  } catch (error) {
    thrown = error;
  }
  equal(thrown?.message, "seven", "what push throws");
  equal(decoder.unfinished, true, "unfinished");
  push(2, 4, 0);
  equal(seen, [[7], [1, 2, 2, 4]], "the outcomes");
  decoder.close();
});
await check("close within a visit takes effect, and no other decoder gets the place before the push ends", () => {
  const first = new cobs.FrameDecoder({ maxLength: 100 });
  const seen = [];
  let second;
  first.push(bytes(2, 8, 0, 5, 1, 2, 3, 4, 0, 2, 9), ({ message }) => {
    seen.push([...message]);
    first.close();
    second = new cobs.FrameDecoder({ maxLength: 100 });
    second.push(bytes(5, 1, 2), () => {});
  });
  second.push(bytes(3, 4, 0), (outcome) => equal(outcome, { kind: "message", message: bytes(1, 2, 3, 4) }, "of the other decoder"));
  equal(seen, [[8]], "the outcomes");
  equal(first.unfinished, false, "unfinished");
  holds((() => {
    try {
      first.push(bytes(0), () => {});
    } catch (error) {
      return /closed/.test(error.message);
    }
  })(), "it is closed");
  second.close();
});
await check("a decoder keeps what it has taken over calls that are longer than the shared memory", () => {
  const message = randomBytes(3_000_000, 0.02, 77);
  const decoders = Array.from({ length: 8 }, () => new cobs.FrameDecoder({ maxLength: 700_000 }));
  for (const decoder of decoders) decoder.push(bytes(5, 1, 2), () => {});
  const frame = cobs.encode(message);
  equal(Buffer.compare(cobs.decode(frame), message), 0, "comparing");
  cobs.encode(randomBytes(6_000_000, 0.02, 78));
  for (const decoder of decoders) {
    const seen = [];
    decoder.push(bytes(3, 4, 0), (outcome) => seen.push(outcome));
    equal(seen, [{ kind: "message", message: bytes(1, 2, 3, 4) }]);
    decoder.close();
  }
});
await check("skipFirst begins after the first sentinel", async () => {
  for (const sentinel of [0, 0x55]) {
    const stream = bytes(9, 9, 2, 9, 0, ...FRAME, 0, 5, 1, 0, 3, 5).map((byte) => byte ^ sentinel);
    for (let size = 1; size <= stream.length; size++) {
      const decoder = new cobs.FrameDecoder({ sentinel, skipFirst: true });
      const seen = [];
      for (let at = 0; at < stream.length; at += size) decoder.push(stream.subarray(at, at + size), (outcome, end) => seen.push([outcome, at + end]));
      equal(seen, [[{ kind: "message", message: MESSAGE }, 11], [{ kind: "broken", decodedBytes: 1 }, 14]], `by ${size}`);
      equal([decoder.skipped, decoder.unfinished], [5, true], "skipped, unfinished");
      decoder.close();
    }
    const through = new cobs.FrameDecoderStream({ sentinel, skipFirst: true });
    equal(await all(source([stream]).pipeThrough(through)), [{ kind: "message", message: MESSAGE }, { kind: "broken", decodedBytes: 1 }], "the stream");
    equal(through.skipped, 5, "skipped by the stream");
  }
});
await check("a stream waits until what it gave out is read", async () => {
  const stream = new cobs.FrameDecoderStream();
  const writer = stream.writable.getWriter();
  let count = 0;
  const writes = Array.from({ length: 5 }, () => writer.write(bytes(2, 7, 0, 2, 8, 0)).then(() => count++));
  for (let turn = 0; turn < 100; turn++) await new Promise((done) => setImmediate(done));
  equal(count, 0, "writes done before a read");
  const reader = stream.readable.getReader();
  for (let i = 0; i < 10; i++) equal((await reader.read()).value, { kind: "message", message: bytes(7 + (i % 2)) });
  await Promise.all(writes);
  const last = reader.read();
  await writer.close();
  equal((await last).done, true, "the end");
});
await check("a write that waits for a reader fails if there is none any more", async () => {
  const { readable, writable } = new cobs.FrameDecoderStream();
  const writer = writable.getWriter();
  writer.closed.catch(() => {});
  const written = writer.write(Uint8Array.from([...FRAME, 0])).then(() => "done", (reason) => reason);
  await readable.cancel("gone");
  equal(await written, "gone", "its reason");
});
await check("abort ends a write that waits for a reader, and what it would have given is the error", async () => {
  const stream = new cobs.FrameDecoderStream();
  const writer = stream.writable.getWriter();
  const written = writer.write(bytes(2, 7, 0)).catch(() => {});
  for (let turn = 0; turn < 10; turn++) await new Promise((done) => setImmediate(done));
  await writer.abort(new Error("enough"));
  await written;
  await throws(() => stream.readable.getReader().read(), (error) => error.message === "enough", "a read after it");
});
if (Symbol.dispose) {
  await check("a decoder is disposed of", () => {
    const decoder = new cobs.FrameDecoder();
    decoder[Symbol.dispose]();
  });
}
await check("a decoder refuses a push within a push, and after its close", async () => {
  const decoder = new cobs.FrameDecoder();
  await throws(() => decoder.push(bytes(1, 0), () => decoder.push(bytes(1, 0), () => {})), (error) => /under way/.test(error.message), "a push within");
  decoder.close();
  decoder.close();
  await throws(() => decoder.push(bytes(1), () => {}), (error) => /closed/.test(error.message), "a push after");
});
await check("a chunk that is no bytes breaks the stream off", () => throws(() => all(source(["text"]).pipeThrough(new cobs.FrameDecoderStream())), (error) => error instanceof TypeError, "it"));
await check("maxLength 0 lets the empty message through alone", async () => {
  equal(await all(source([bytes(1, 0, 2, 1, 0)]).pipeThrough(new cobs.FrameDecoderStream({ maxLength: 0 }))), [{ kind: "message", message: bytes() }, { kind: "tooLong" }]);
  await throws(() => new cobs.FrameDecoderStream({ maxLength: -1 }), (error) => error instanceof RangeError, "-1");
});
