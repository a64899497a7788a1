import { decode, encode, load } from "jcobs";

await load();

const frame = encode(Uint8Array.of(10, 11, 0, 12)); // 3 10 11 2 12
const message = decode(frame); // 10 11 0 12
const sent = encode(message, { terminated: true }); // the frame, and the sentinel 0 after it
const other = encode(message, { sentinel: 10 }); // a frame for the sentinel 10: it contains no byte 10
console.log([frame, message, sent, other].map((bytes) => bytes.join(" ")).join("\n"));
