// Shows the encoder and the decoder step by step in the drawing, with a few lines of code that make the same steps. The lines explain the
// format. The other parts of the page encode and decode with the module, and the tests compare the lines with the module.
import { printHex } from "./hex.js";
import { byId, count } from "./inputs.js";

const LONGEST = 300;
const PACE = 900; // milliseconds of a step while the steps are played

const ENCODER = [
  "out = [0]; at = 0; code = 1",
  "for each byte of the message:",
  "  if byte != 0:",
  "    out.push(byte); code += 1",
  "  if byte == 0 or (code == 255 and bytes follow):",
  "    out[at] = code",
  "    at = out.length; out.push(0); code = 1",
  "out[at] = code",
];

const DECODER = [
  "out = []; at = 0",
  "while at < frame.length:",
  "  code = frame[at]",
  "  out.push(the code - 1 bytes after it)",
  "  at += code",
  "  if code < 255 and at < frame.length:",
  "    out.push(0)",
];

/** The lines of the encoder and of the decoder, with one more line for a sentinel other than 0. */
export const encoderLines = (sentinel) => (sentinel === 0 ? ENCODER : [...ENCODER, "out = each byte of out XOR the sentinel"]);
export const decoderLines = (sentinel) => (sentinel === 0 ? DECODER : ["frame = each byte of frame XOR the sentinel", ...DECODER]);

/**
 * Returns the steps of the encoder. Each step has its line of code, the output so far, a sentence, and `stage`, which `rowPicture` draws.
 * In a stage, the code of the open block is counted at its place, and gets its arc when the block is closed.
 */
export function encoderSteps(message, sentinel = 0) {
  const steps = [];
  const out = [0];
  let at = 0;
  let code = 1;
  const step = (line, now, said, isClosed = false) => {
    const stage = { frame: out.length, over: Infinity, arcs: isClosed ? at + 1 : at, open: isClosed ? -1 : at, count: code, fresh: isClosed ? at : -1, now, seen: now < 0 ? out.length - 1 : now, isOver: true, isPlain: true };
    steps.push({ line, out: out.slice(), said, stage });
  };
  step(0, -1, "A place is kept for the first code.");
  for (const [i, byte] of message.entries()) {
    if (byte !== 0) {
      out.push(byte);
      code++;
      step(3, out.length - 1, `The byte is copied. The open code is ${code} so far.`);
    }
    if (byte === 0 || (code === 255 && i + 1 < message.length)) {
      out[at] = code;
      const place = byte === 0 ? out.length : out.length - 1;
      step(5, place, byte === 0 ? `A zero: the open code becomes ${code}, the distance to this place.` : "The block is full: its code is 255, which stands for no zero.", true);
      at = out.length;
      out.push(0);
      code = 1;
      step(6, out.length - 1, byte === 0 ? "The next code gets the place of the zero." : "A place is kept for the next code.");
    }
  }
  out[at] = code;
  step(7, -1, `The end: the last code becomes ${code}, the distance to the sentinel.`, true);
  if (sentinel !== 0) steps.push({ line: 8, out: out.map((byte) => byte ^ sentinel), stage: null, said: `Each byte is XORed with ${printHex([sentinel])}: since none was 00, none is ${printHex([sentinel])} now.` });
  return steps;
}

/** Returns the steps of the decoder of a whole frame, in the form of the encoder's. The message appears above the frame. */
export function decoderSteps(given, sentinel = 0) {
  const steps = [];
  const out = [];
  const frame = given.map((byte) => byte ^ sentinel);
  let at = 0;
  const step = (line, now, said, { over, arcs }) => {
    const stage = { frame: Infinity, over, arcs, open: -1, fresh: arcs > at ? at : -1, now, seen: Infinity, isOver: false, isPlain: true };
    steps.push({ line: sentinel === 0 ? line : line + 1, out: out.slice(), said, stage });
  };
  if (sentinel !== 0) step(-1, -1, `Each byte is XORed with ${printHex([sentinel])}.`, { over: 0, arcs: 0 });
  step(0, -1, "The output is still empty.", { over: 0, arcs: 0 });
  while (at < frame.length) {
    const code = frame[at];
    step(2, at, `The code is ${code}.`, { over: at + 1, arcs: at });
    out.push(...frame.subarray(at + 1, at + code));
    step(3, at, code === 1 ? "There are no bytes before the next code." : `${code === 2 ? "One byte is" : `${code - 1} bytes are`} copied.`, { over: at + code, arcs: at + 1 });
    at += code;
    if (code < 255 && at < frame.length) {
      out.push(0);
      step(6, at, "The next code is in the place of a zero of the message.", { over: at + 1, arcs: at });
    }
  }
  step(1, -1, "The end of the frame: this is the message.", { over: Infinity, arcs: Infinity });
  return steps;
}

let given = { message: null, frame: null, sentinel: 0 };
let steps = [];
let now = -1; // the step that is shown; -1 while the drawing is whole
let canvas;
let timer = 0;

const isShown = () => now >= 0;

function show(to) {
  now = Math.min(steps.length - 1, Math.max(0, to));
  const { line, said, stage } = steps[now];
  canvas.stage(stage);
  for (const [i, element] of [...byId("steps-code").children].entries()) element.className = i === line ? "on" : "";
  byId("steps-said").textContent = `Step ${count(now + 1)} of ${count(steps.length)}: ${said}`;
  byId("steps-back").disabled = now === 0;
  byId("steps-next").disabled = now === steps.length - 1;
  byId("steps-at").max = steps.length - 1;
  byId("steps-at").value = now;
  if (now === steps.length - 1) pause();
}

/** Sets the message and its frame. The message is null if the drawing doesn't show its frame. If steps are shown, the first one is shown. */
export function setSteps(message, frame, sentinel) {
  given = { message, frame, sentinel };
  if (isShown()) begin();
}

function begin() {
  pause();
  const { message, frame, sentinel } = given;
  const isDecoder = byId("steps-which").value === "decoder";
  const isPossible = message !== null && message.length <= LONGEST;
  byId("steps-long").hidden = isPossible;
  for (const id of ["steps-all", "steps-lines", "steps-said"]) byId(id).hidden = !isPossible;
  if (!isPossible) return;
  steps = isDecoder ? decoderSteps(frame, sentinel) : encoderSteps(message, sentinel);
  byId("steps-code").replaceChildren(...(isDecoder ? decoderLines : encoderLines)(sentinel).map((text) => Object.assign(document.createElement("li"), { textContent: text })));
  show(0);
}

function pause() {
  clearInterval(timer);
  timer = 0;
  byId("steps-play").textContent = "Play";
}

function play() {
  if (timer !== 0) return pause();
  if (now === steps.length - 1) show(0);
  timer = setInterval(() => show(now + 1), PACE);
  byId("steps-play").textContent = "Pause";
}

/** Shows the steps, or the whole drawing again. */
function toggle() {
  const isOpening = !isShown();
  pause();
  now = isOpening ? 0 : -1;
  byId("message-steps").hidden = byId("steps-lines").hidden = !isOpening;
  byId("steps-open").setAttribute("aria-expanded", String(isOpening));
  if (isOpening) begin();
  else canvas.stage(null);
  byId(isOpening ? "steps-next" : "steps-open").focus();
  if (isOpening) byId("message-drawing").scrollIntoView({ block: "nearest" });
}

/** `drawing` is the canvas that shows the steps. */
export function startSteps(drawing) {
  canvas = drawing;
  for (const id of ["steps-open", "steps-close"]) byId(id).addEventListener("click", toggle);
  byId("steps-which").addEventListener("change", begin);
  byId("steps-play").addEventListener("click", play);
  for (const [name, by] of [["back", -1], ["next", 1]]) byId(`steps-${name}`).addEventListener("click", () => {
    pause();
    show(now + by);
  });
  byId("steps-at").addEventListener("input", (event) => {
    pause();
    show(event.target.valueAsNumber);
  });
}
