// Runs the cases of conformance/ with the module, in any engine: with the module's own calls, and if a case fits also with jcobs.js.
//
// conformance/README.md describes the lines. The calls that the module doesn't have are left out: decoding in place, `next_frame` and the two state machines. If the name or the form of the module's result differs
// from the line, the comment at the call says so.
import { CobsError, FrameDecoderStream, FrameEncoderStream, decode, encode, encodeInto, load, maxEncodedLength } from "../jcobs.js";
import { Raw } from "./raw.mjs";

let raw;

/** Expands a word that is written in parts: repeats the digits of each part as often as the number after the star says. */
const writtenOut = (word) => word.split("+").map((part) => part.split("*")).map(([digits, count = "1"]) => digits.repeat(Number(count))).join("");

const bytesOf = (word) => (word === "-" ? new Uint8Array() : Uint8Array.from(word.match(/../g), (pair) => parseInt(pair, 16)));
const wordOf = (bytes) => (bytes.length === 0 ? "-" : Array.from(bytes, (byte) => byte.toString(16).padStart(2, "0")).join(""));
const joined = (parts) => Uint8Array.from(parts.flatMap((part) => [...part]));

/** Returns the results of encoding into a buffer: the length, if the frame fits, and the whole buffer. */
function encoded(call, message, room) {
  const buffer = raw.place(room);
  const { status, consumed, length } = raw.answer(call, raw.place(message), buffer);
  if (consumed !== (status === "ok" ? message.length : 0)) throw new Error(`${consumed} bytes are consumed`);
  return { status, length: status === "ok" ? String(length) : "-", after: wordOf(raw.read(buffer)) };
}

/** Returns the status, the length and the whole buffer of `encodeInto` of jcobs.js, in the words of the cases. */
function encodedInto(message, room, sentinel) {
  try {
    const length = encodeInto(message, room, { sentinel });
    return ["ok", String(length), wordOf(room)];
  } catch (error) {
    if (!(error instanceof RangeError)) throw error;
    return ["too_small", "-", wordOf(room)];
  }
}

/** Puts a sentinel before the frame, because no call of the module writes one there. */
function wrapped(message, room) {
  if (room.length === 0) return { status: "too_small", length: "-", after: "-" };
  const { status, length, after } = encoded("jcobs_encode_terminated", message, room.subarray(1));
  if (status !== "ok") return { status, length, after: wordOf(room) };
  return { status, length: String(Number(length) + 1), after: `00${after === "-" ? "" : after}` };
}

/** For a source with only zeros, the module's `decode` returns `empty`; the cases have a broken frame of 0 decoded bytes. */
const named = (status, source) => (status === "empty" && source.length > 0 ? "invalid" : status);
const countWord = (status, length) => (status === "ok" || status === "invalid" ? String(length) : "-");

function decoded(source, room) {
  const buffer = raw.place(room);
  const answer = raw.answer("jcobs_decode", raw.place(source), buffer);
  const status = named(answer.status, source);
  return { status, length: countWord(status, answer.length), consumed: status === "ok" ? String(answer.consumed) : "-", after: wordOf(raw.read(buffer)), message: wordOf(raw.read(buffer, answer.length)) };
}

/** Returns the results of `decode` of jcobs.js in the words of the cases. */
function decodedByModule(source, sentinel = 0) {
  try {
    const message = decode(source, { sentinel });
    return ["ok", String(message.length), wordOf(message)];
  } catch (error) {
    if (!(error instanceof CobsError)) throw error;
    const status = named({ empty: "empty", broken: "invalid" }[error.kind], source);
    return [status, status === "empty" ? "-" : String(error.decodedBytes), "-"];
  }
}

/** Returns the results of a streaming decoder of the module: the buffer at the end, and three words for each piece. */
function decodedByPieces(room, pieces) {
  const buffer = raw.place(room);
  const state = { state: raw.place(new Uint8Array(16).fill(0x77)) };
  raw.call("jcobs_decoder_reset", state);
  const said = [];
  let taken = 0;
  for (const piece of pieces) {
    if (piece === "reset") {
      raw.call("jcobs_decoder_reset", state);
      continue;
    }
    const source = raw.place(bytesOf(piece));
    for (let at = 0; at < source.length; ) {
      const { status, consumed, length } = raw.answer("jcobs_decoder_push", state, buffer, { at: source.at + at, length: source.length - at });
      at += consumed;
      taken += consumed;
      if (status !== "more") said.push(String(taken), { ok: "message", invalid: "broken" }[status] ?? status, wordOf(raw.read(buffer, length)));
    }
  }
  return { after: wordOf(raw.read(buffer)), said };
}

/** The crate returns `too_small` for each byte from the first one that doesn't fit. The module returns it once, for the zero. */
function withoutRepeats(wanted, pieces) {
  const stream = joined(pieces.filter((piece) => piece !== "reset").map(bytesOf));
  const kept = [];
  for (let i = 0; i < wanted.length; i += 3) {
    if (wanted[i + 1] !== "too_small" || stream[Number(wanted[i]) - 1] === 0) kept.push(...wanted.slice(i, i + 3));
  }
  return kept;
}

async function throughStream(stream, chunks) {
  const given = new ReadableStream({
    start(controller) {
      for (const chunk of chunks) controller.enqueue(chunk);
      controller.close();
    },
  });
  const taken = [];
  const reader = given.pipeThrough(stream).getReader();
  for (let next = await reader.read(); !next.done; next = await reader.read()) taken.push(next.value);
  return taken;
}

const OUTCOMES = {
  message: ({ message }) => ["message", wordOf(message)],
  broken: ({ decodedBytes }) => ["broken", String(decodedBytes)],
  tooLong: () => ["too_long", "-"],
};
const outcomeWords = (outcome) => OUTCOMES[outcome.kind](outcome);

/** Returns the results of a streaming encoder of the module: the length of the frame, the buffer, and a word for each piece. */
function encodedByPieces(room, pieces) {
  const buffer = raw.place(room);
  const state = { state: raw.place(new Uint8Array(16).fill(0x77)) };
  raw.call("jcobs_encoder_reset", state);
  const said = pieces.map((piece) => raw.answer("jcobs_encoder_push", state, buffer, raw.place(bytesOf(piece))).status);
  const { status, length } = raw.answer("jcobs_encoder_finish", state, buffer);
  return { status, length: String(length), after: wordOf(raw.read(buffer)), said };
}

/** For each call, returns all results that must equal those of the line, one for each way to make the call. If there are none, the line is left out. */
const calls = {
  max_encoding_length: ([length]) => [[String(maxEncodedLength(Number(length)))], [String(raw.call("jcobs_max_length", BigInt(length)))]],
  max_encoding_overhead: ([length]) => [[String(maxEncodedLength(Number(length)) - Number(length))]],
  encode_vec: ([message]) => [[wordOf(encode(bytesOf(message)))]],
  encode_vec_including_sentinels: ([message]) => [[wordOf(Uint8Array.of(0, ...encode(bytesOf(message), { terminated: true })))]],
  encode_vec_with_sentinel: ([sentinel, message]) => [[wordOf(encode(bytesOf(message), { sentinel: bytesOf(sentinel)[0] }))]],
  encode([message, room]) {
    const { length, after } = encoded("jcobs_encode", bytesOf(message), bytesOf(room));
    return [[length, after]];
  },
  encode_including_sentinels([message, room]) {
    const { length, after } = wrapped(bytesOf(message), bytesOf(room));
    return [[length, after]];
  },
  encode_with_sentinel: ([sentinel, message, room]) => [encodedInto(bytesOf(message), bytesOf(room), bytesOf(sentinel)[0]).slice(1)],
  try_encode([message, room]) {
    const { status, length, after } = encoded("jcobs_encode", bytesOf(message), bytesOf(room));
    return [[status, length, after]];
  },
  try_encode_with_sentinel: ([sentinel, message, room]) => [encodedInto(bytesOf(message), bytesOf(room), bytesOf(sentinel)[0])],
  try_encode_including_sentinels([message, room]) {
    const { status, length, after } = wrapped(bytesOf(message), bytesOf(room));
    return [[status, length, after]];
  },
  async encode_frames(messages) {
    return [[wordOf(joined(await throughStream(new FrameEncoderStream(), messages.map(bytesOf))))]];
  },
  decode_vec([source]) {
    const bytes = bytesOf(source);
    const { status, length, message } = decoded(bytes, new Uint8Array(bytes.length));
    return [[status, length, status === "ok" ? message : "-"], decodedByModule(bytes)];
  },
  decode_vec_with_sentinel([sentinel, source], level) {
    // `decode` of jcobs.js skips leading sentinels, whatever the sentinel is, so it is compared only for frames
    return level === "owed" ? [decodedByModule(bytesOf(source), bytesOf(sentinel)[0])] : [];
  },
  decode([source, room]) {
    const { status, consumed, length, after } = decoded(bytesOf(source), bytesOf(room));
    return [[status, consumed, length, after]];
  },
  encoder([room, ...pieces]) {
    const { length, after, said } = encodedByPieces(bytesOf(room), pieces);
    return [[length, after, ...said]];
  },
  decoder([room, ...pieces]) {
    const { after, said } = decodedByPieces(bytesOf(room), pieces);
    return [[after, ...said]];
  },
  async decode_stream([room, ...pieces]) {
    const outcomes = await throughStream(new FrameDecoderStream({ maxLength: Number(room) }), pieces.map(bytesOf));
    return [outcomes.flatMap(outcomeWords)];
  },
  frame_kind([source]) {
    return [[["not_a_frame", "canonical", "longer"][raw.call("jcobs_frame_kind", raw.place(bytesOf(source)))]]];
  },
};

/** Returns whether results are those of a line. `refused` means any error, and the words after it may be any words. */
function agrees(found, wanted) {
  if (found.length !== wanted.length) return false;
  return wanted.every((word, i) => word === "?" || word === found[i] || (word === "refused" && found[i] !== "ok" && found[i] !== "message"));
}

/** Runs the cases of these texts, and returns how many there were, how many differ, and the lines to print. */
export async function runCases(module, texts) {
  await load(module);
  raw = new Raw(module);
  const counts = { cases: 0, differ: 0, said: [] };
  const leftOut = new Map();
  for (const line of texts.flatMap((text) => text.split("\n"))) {
    if (line === "" || line.startsWith("#")) continue;
    const call = line.split(" ", 3)[2];
    const said = await runCase(line);
    if (said === undefined) leftOut.set(call, (leftOut.get(call) ?? 0) + 1);
    else counts.cases++;
    if (said) {
      counts.differ++;
      counts.said.push(said);
    }
  }
  for (const [call, lines] of leftOut) counts.said.push(`left out: ${lines} lines of ${call}, which the module lacks`);
  return counts;
}

/** Returns the difference that a line shows, "" if there is none, or undefined if the line is left out. */
async function runCase(line) {
  const [left, right] = line.split(" ").map(writtenOut).join(" ").split(" ->").map((words) => words.trim());
  const [name, level, call, ...args] = left.split(" ");
  raw.clear();
  let wanted = right === "" ? [] : right.split(" ");
  if (call === "decoder") wanted = [wanted[0], ...withoutRepeats(wanted.slice(1), args.slice(1))];
  let answers;
  try {
    answers = (await calls[call]?.(args, level)) ?? [];
  } catch (error) {
    answers = [[`threw ${error.message}`]];
  }
  if (answers.length === 0) return undefined;
  const wrong = answers.find((found) => !agrees(found, wanted));
  const short = (words, length) => words.join(" ").slice(0, length);
  return wrong ? `${name}: ${call} ${short(args, 200)}\n  gave   ${short(wrong, 300)}\n  wanted ${short(wanted, 300)}` : "";
}

/** Runs the cases in a page, which loads the module and the cases from addresses. */
export async function runServed(module, vectors) {
  const texts = await Promise.all(vectors.map(async (address) => (await fetch(address)).text()));
  return runCases(await WebAssembly.compile(await (await fetch(module)).arrayBuffer()), texts);
}
