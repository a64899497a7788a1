// Tests the functions of the page that need no browser.
import { curve } from "../draw.js";
import * as cobs from "../jcobs.js";
import { FORMS } from "../page/copy.js";
import { Log, readLog, streamOf, writeLog } from "../page/log.js";
import { decoderLines, decoderSteps, encoderLines, encoderSteps } from "../page/steps.js";
import { Undo } from "../page/undo.js";
import { FRAME, MESSAGE, bytes, randomBytes } from "./module-setup.mjs";
import { check, equal, holds } from "./tally.mjs";

await check("the steps of encoder and decoder end in what the module gives, for any sentinel", () => {
  for (const length of [0, 1, 5, 253, 254, 255, 300]) {
    for (const [zeros, sentinel] of [[0, 0], [0.1, 0], [1, 0], [0, 0xaa], [0.1, 1]]) {
      const message = randomBytes(length, zeros, length + 1);
      const frame = cobs.encode(message, { sentinel });
      const ways = [[encoderSteps(message, sentinel), encoderLines(sentinel), frame], [decoderSteps(frame, sentinel), decoderLines(sentinel), message]];
      for (const [made, lines, wanted] of ways) {
        equal(Uint8Array.from(made.at(-1).out), wanted, `of ${length} bytes`);
        holds(made.every(({ line }) => line in lines), "each step has a line");
      }
    }
  }
});
await check("the curve of overhead is as high as the greatest length says, at each length", () => {
  const most = (length) => cobs.maxEncodedLength(length) - length;
  for (const length of [0, 254, 255, 5000]) {
    const svg = curve({ most, length, overhead: most(length) });
    const range = Math.max(1016, Math.ceil((length + 1) / 254) * 254);
    const numberAt = ([, x, y]) => ({ x: Number(x), y: Number(y) });
    // the labels of the axes say which position stands for which number
    const marks = [...svg.matchAll(/<text class="at" x="([\d.]+)" y="([\d.]+)">([\d,]+)<\/text>/g)].map((found) => ({ ...numberAt(found), number: Number(found[3].replaceAll(",", "")) }));
    const below = marks.filter(({ y }) => y === marks[0].y);
    const beside = marks.filter(({ x }) => x === marks.at(-1).x);
    const scale = (of, name) => (place) => of[0].number + ((place - of[0][name]) / (of.at(-1)[name] - of[0][name])) * (of.at(-1).number - of[0].number);
    const [bytesAt, overheadAt] = [scale(below, "x"), scale(beside.map((mark) => ({ ...mark, y: mark.y - 4 })), "y")];
    equal(beside.map(({ number }) => number), [1, most(range)], "the numbers beside the curve");
    const [, path] = svg.match(/class="most" d="([^"]+)"/);
    let [, , at, height] = path.match(/(M)([\d.]+) ([\d.]+)/);
    let from = 0;
    for (const [, kind, place] of path.matchAll(/([HV])([\d.]+)/g)) {
      if (kind === "V") {
        height = place;
        continue;
      }
      const to = bytesAt(Number(place));
      for (const inside of [from + 3 * range / 1000, (from + to) / 2, to - 3 * range / 1000]) equal(Math.round(overheadAt(Number(height))), most(Math.round(inside)), `the height at ${Math.round(inside)} of ${range} bytes`);
      [at, from] = [place, to];
    }
    holds(Math.abs(bytesAt(Number(at)) - range) <= range / 1000, "it goes on to the end");
    const dot = numberAt(svg.match(/<circle class="here" cx="([\d.]+)" cy="([\d.]+)"/));
    holds(Math.abs(bytesAt(dot.x) - length) <= range / 1000, `the dot is at ${length} bytes`);
    equal(Math.round(overheadAt(dot.y)), most(length), "its height");
    const bytes = (number) => `${number} byte${number === 1 ? "" : "s"}`;
    holds(svg.includes(`A message of ${bytes(length)} has ${bytes(most(length))} of overhead, of at most ${most(length)}`), "what it is called");
  }
});
await check("a frame is copied for a program", () => {
  const as = (form, frame = FRAME) => FORMS[form](frame, { sentinel: 0, pieces: [frame] });
  equal(["hex", "c", "rust", "python"].map((form) => as(form)), [
    "03 0a 0b 02 0c",
    "static const unsigned char frame[5] = {0x03, 0x0a, 0x0b, 0x02, 0x0c};\n",
    "const FRAME: [u8; 5] = [0x03, 0x0a, 0x0b, 0x02, 0x0c];\n",
    'frame = bytes.fromhex("03 0a 0b 02 0c")\n',
  ]);
  holds(/^<svg [\s\S]*<\/svg>\n$/.test(as("svg")), "a picture");
  equal(as("svg", new Uint8Array(66)), null, "of a long frame");
});
await check("the call that makes a frame is copied for a program", () => {
  const as = (form, call) => FORMS[`${form}-call`](FRAME, { call: call && { message: MESSAGE, sentinel: 0, isEnded: false, ...call } });
  equal(["c", "rust", "python"].map((form) => as(form, {})), [
    "static const unsigned char message[4] = {0x0a, 0x0b, 0x00, 0x0c};\nunsigned char frame[JCOBS_MAX_LENGTH(4) + 1];\njcobs_answer answer = jcobs_encode(message, sizeof message, frame, sizeof frame);\n",
    "let frame = jcobs::encode_vec(&[0x0a, 0x0b, 0x00, 0x0c]);\n",
    'frame = jcobs.encode(bytes.fromhex("0a 0b 00 0c"))\n',
  ], "of a frame");
  equal(["c", "rust", "python"].map((form) => as(form, { message: bytes(), sentinel: 10, isEnded: true })), [
    "unsigned char frame[JCOBS_MAX_LENGTH(0) + 1];\njcobs_answer answer = jcobs_encode_terminated_with_sentinel(NULL, 0, frame, sizeof frame, 0x0a);\n",
    "let mut frame = jcobs::encode_vec_with_sentinel(&[], 0x0a);\nframe.push(0x0a);\n",
    'frame = jcobs.encode(bytes.fromhex(""), sentinel=0x0a, terminated=True)\n',
  ], "of the empty message, with a sentinel");
  equal(["c", "rust", "python"].map((form) => as(form, null)), [null, null, null], "of bytes that no call makes");
});
await check("the page writes and reads logs, and gives the stream that came in", () => {
  const time = new Date("2026-11-23T10:00:00.125Z");
  const row = (way, given) => ({ time, way, ...given });
  const entries = [
    row("in", { kind: "left out", note: "3 bytes through the first sentinel" }),
    row("out", { kind: "message", message: bytes(7) }),
    row("in", { kind: "message", message: MESSAGE }),
    row("in", { kind: "message", message: bytes() }),
    row("in", { kind: "broken", note: "after 1 byte of output", raw: bytes(5, 1, 0) }),
  ];
  const text = writeLog(entries);
  equal(text.split("\n")[4], "2026-11-23T10:00:00.125Z in # broken: after 1 byte of output: 05 01 00", "a line");
  equal(readLog(text).entries, entries, "the entries");
  equal(readLog(text.replaceAll("\n", "\r\n")).entries, entries, "the entries of a log with other line ends");
  equal(streamOf(entries, 0), { bytes: bytes(...FRAME, 0, 1, 0, 5, 1, 0), said: "Read as a log: 3 rows received, and 1 without bytes." }, "the stream");
  equal(streamOf(entries.slice(1, 2), 0x55).bytes, bytes(2 ^ 0x55, 7 ^ 0x55, 0x55), "of what was sent alone");
  for (const wrong of ["nonsense", "2026-11-23T10:00:00.125Z in 0g", "2026-11-23T10:00:00.125Z by 00", "now in 00"]) holds(readLog(wrong).error?.startsWith("Line 1"), wrong);
});
await check("the log keeps 1,000 rows, or those of the last 16 MiB", () => {
  const log = new Log();
  const add = (length) => log.add({ way: "in", kind: "message", message: new Uint8Array(length) });
  equal(Array.from({ length: 1001 }, () => add(1)).at(-1), 1, "how many the last of 1,001 rows drops");
  equal([log.entries.length, log.entries[0].number], [1000, 2], "the rows");
  log.clear();
  for (let i = 0; i < 16; i++) equal(add(1 << 20), 0, "none is dropped");
  equal([add(1), log.entries.length, log.entries[0].number], [1, 16, 2], "one byte more");
  equal([add(17 << 20), log.entries.length], [16, 1], "a longer one stays alone");
});
await check("Undo takes back 100 changes", () => {
  const button = Object.assign(new EventTarget(), { disabled: true });
  const shown = [];
  const undo = new Undo(new EventTarget(), button, ({ text }) => shown.push(text));
  for (let text = 0; text <= 120; text++) undo.note({ text }, false);
  for (let i = 0; i < 110; i++) button.dispatchEvent(new Event("click"));
  equal([shown.length, shown[0], shown.at(-1), button.disabled], [100, 119, 20, true], "what was shown again");
});
