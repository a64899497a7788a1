// Measures jcobs.js or plain.js in Node, in the order of measure.py: web.mjs cobs_wasm|plain_JavaScript TREE ROWS. It prints the
// nanoseconds of each call for one message, the least of PASSES and ROUNDS, and 0 for a call that there isn't.
import { readFile } from "node:fs/promises";
import { pathToFileURL } from "node:url";

const PASSES = 3;
const ROUNDS = 10;
const LEAST = 200_000; // nanoseconds of a round
const SENTINEL = 0x7e;
const [who, tree, file] = process.argv.slice(2);
const web = pathToFileURL(`${tree}/bindings/web/`);
const isPlain = who === "plain_JavaScript";
const coder = await import(new URL(isPlain ? "test/plain.js" : "jcobs.js", web));
if (!isPlain) await coder.load(await readFile(new URL("cobs.wasm", web)));

/** Yields each row: the messages, their frames, the stream of these, and the frames for SENTINEL. */
function* rowsOf(bytes) {
  const view = new DataView(bytes.buffer, bytes.byteOffset);
  for (let at = 0; at < bytes.length; ) {
    const [count, length] = [view.getUint32(at, true), view.getUint32(at + 4, true)];
    const lengths = Array.from({ length: count }, (_, i) => view.getUint32(at + 8 + 4 * i, true));
    const take = (size) => bytes.slice((at += size) - size, at);
    at += 8 + 4 * count;
    const messages = lengths.map(() => take(length));
    const streamAt = at;
    const framesOf = () => lengths.map((size) => take(size + 1).subarray(0, size));
    const frames = framesOf();
    yield { messages, frames, stream: bytes.slice(streamAt, at), marked: framesOf() };
  }
}

const each = (act, list) => () => list.reduce((sum, bytes) => sum + act(bytes).length, 0);

function pushed(stream, size) {
  const decoder = isPlain ? new coder.PlainDecoder(65536) : new coder.FrameDecoder({ maxLength: 65536 });
  return () => {
    let sum = 0;
    const visit = ({ message }) => (sum += message.length);
    for (let at = 0; at < stream.length; at += size) decoder.push(stream.subarray(at, at + size), visit);
    return sum;
  };
}

function callsOf({ messages, frames, stream, marked }) {
  const { encode, decode } = coder;
  const options = { sentinel: SENTINEL };
  const [of, pushes] = [frames.length, [stream.length, 64, 8].map((size) => pushed(stream, size))];
  const both = isPlain ? [null, null] : [each((frame) => decode(frame, options), marked), each((message) => encode(message, options), messages)];
  const acts = [each(decode, frames), both[0], null, ...pushes, null, each(encode, messages), null, both[1], null, null, null, null];
  const sizes = [messages, frames].map((list) => list.reduce((sum, bytes) => sum + bytes.length, 0));
  return acts.map((act, i) => act && { act, of, sum: sizes[Number(i >= 7)] });
}

function timeOf({ act, of, sum }, times) {
  const begun = process.hrtime.bigint();
  for (let i = 0; i < times; i++) if (act() !== sum) throw new Error("a wrong result");
  return Number(process.hrtime.bigint() - begun) / of / times;
}

function leastOf(call) {
  let times = 1;
  while (timeOf(call, times) * call.of * times < LEAST) times *= 2;
  return Math.min(...Array.from({ length: ROUNDS }, () => timeOf(call, times)));
}

// In the first pass the engine hasn't optimized every call yet.
const calls = [...rowsOf(new Uint8Array(await readFile(file)))].flatMap(callsOf);
const passes = Array.from({ length: PASSES }, () => calls.map((call) => (call ? leastOf(call) : 0)));
console.log(calls.map((_, i) => Math.min(...passes.map((pass) => pass[i])).toFixed(2)).join("\n"));
