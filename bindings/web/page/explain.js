// Explains in a sentence what a byte is for: a byte of the stream, or a byte of a message above the stream.
import { printHex, printText } from "./hex.js";
import { count, counted } from "./inputs.js";
import { BADGES } from "./pieces.js";

const OF = {
  message: "of the message",
  broken: "of the output of the broken piece",
  "too long": "of a message that is too long for the buffer",
  unfinished: "of the message so far",
};

const PAST = { broken: "the end of the piece, which is broken", unfinished: "the bytes of the piece so far" };

const pair = (byte) => printHex([byte]);

/** Returns a sentence about byte `i` of a stream. */
export function explainFrame(pieces, i) {
  const { sentinel, stream } = pieces;
  const { at, value, role, isFirst, isAfterFull, isPast, index } = pieces.about(i);
  const name = `Byte ${count(i)}, ${pair(stream[i])}${sentinel === 0 ? "" : ` (${pair(value)} XORed with the sentinel)`}`;
  if (role === "sentinel") return `${name}: the sentinel. ${i >= pieces.fronts[at] ? `It ends ${pieces.name(at)}.` : "No piece ends here."}`;
  if (role === "data") return `${name}: byte ${count(index)} of the message${sentinel === 0 ? ", as it is" : ""}.`;
  const here = isFirst ? "the first code" : isAfterFull ? "a code after a full block, where the message has no zero" : "a code, in place of a zero of the message";
  if (isPast) return `${name}: ${here}. It leads past ${PAST[BADGES[pieces.kinds[at]]] ?? "the end of the piece"}: ${counted(value - (pieces.back(at) - i), "byte")} missing.`;
  return `${name}: ${here}. ${value === 255 ? "It marks a full block: the" : "The"} next code, or the end, is ${counted(value, "byte")} after it.`;
}

/** Returns a sentence about the byte of the message above byte `i` of a stream. */
export function explainMessage(pieces, i) {
  const { at, value, role, isFirst, index } = pieces.about(i);
  if (index < 0) {
    if (role === "sentinel") return "No byte of a message is here.";
    return isFirst ? "The first code stands for no byte of the message." : "After a full block a code stands for no byte of the message.";
  }
  if (role === "sentinel") return `The message ends here, after ${counted(index, "byte")}. Type two digits to append a byte.`;
  const of = OF[BADGES[pieces.kinds[at]]];
  if (role === "code") return `Byte ${count(index)} ${of}, 00: a zero, which the frame replaces by a code.`;
  const sign = value > 32 && value < 127 ? ` “${printText([value])}”` : "";
  return `Byte ${count(index)} ${of}, ${pair(value)}${sign}: the frame has it ${pieces.sentinel === 0 ? "as it is" : `XORed with the sentinel, as ${pair(pieces.stream[i])}`}.`;
}
