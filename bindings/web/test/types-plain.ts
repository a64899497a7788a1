// Uses the package without the types of a browser or of Node, that is, with a `lib` that has no `dom`.
import { FrameDecoder, type Outcome, decode, encode, load, loadSync } from "../jcobs.js";

export async function use(bytes: Uint8Array): Promise<number> {
  await load(bytes);
  loadSync(bytes);
  const decoder = new FrameDecoder({ maxLength: 10 });
  const seen: Outcome[] = [];
  decoder.push(encode(bytes, { terminated: true }), (outcome) => seen.push(outcome));
  decoder[Symbol.dispose]();
  return seen.length + decode(encode(bytes)).length;
}
