// Code that users of the types may write. tests/web.sh checks it with the TypeScript compiler.
import { CobsError, FrameDecoder, FrameDecoderStream, FrameEncoderStream, type Outcome, decode, encode, encodeInto, frames, isSupported, load, maxEncodedLength } from "../jcobs.js";

export async function use(port: { readable: ReadableStream<Uint8Array>; writable: WritableStream<Uint8Array> }): Promise<number> {
  if (!isSupported()) return 0;
  await load(new URL("https://example.org/cobs.wasm"));
  const frame: Uint8Array = encode(new Uint8Array(3), { sentinel: 10, terminated: true });
  const longest: number = maxEncodedLength(frame.length);
  try {
    decode(new DataView(new ArrayBuffer(4)));
  } catch (error) {
    if (error instanceof CobsError && error.kind === "broken") return error.decodedBytes;
  }
  const lengths: number[] = [];
  const count = (outcome: Outcome): void => {
    if (outcome.kind === "message") lengths.push(outcome.message.length);
    else if (outcome.kind === "broken") lengths.push(outcome.decodedBytes);
    else lengths.push(-1);
  };
  for (const outcome of frames(frame, { skipFirst: true })) lengths.push(outcome.end);
  lengths.push(encodeInto(frame, new ArrayBuffer(100)));
  const decoder = new FrameDecoder({ maxLength: 100 });
  decoder.push(frame, (outcome, end) => count(end > 0 ? outcome : { kind: "tooLong" }));
  decoder[Symbol.dispose]();
  const stream = new FrameDecoderStream({ maxLength: 4096 });
  const reader = port.readable.pipeThrough<Outcome>(stream).getReader();
  const { value } = await reader.read();
  if (value) count(value);
  const sender = new FrameEncoderStream();
  void sender.readable.pipeTo(port.writable);
  return longest + lengths.length + Number(stream.unfinished);
}
