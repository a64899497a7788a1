// The view of a stream: its pieces, their outcomes, and the effect of damage on them.
import { encode } from "../jcobs.js";
import { keepState, linkOf } from "./address.js";
import { joined, parseBytes } from "./bytes.js";
import { Canvas } from "./canvas.js";
import { FORMS, copyLink, toClipboard } from "./copy.js";
import { Field } from "./field.js";
import { printHex, printText } from "./hex.js";
import { byId, complain, count, counted, once, readRoom, readSentinel, statusOf } from "./inputs.js";
import { isLog, readLog, streamOf } from "./log.js";
import { BADGES, BROKEN, MESSAGE, Pieces, TOO_LONG } from "./pieces.js";
import { Undo } from "./undo.js";

const SHOWN_BYTES = 24;
const LINKED = 1900; // bytes of the longest stream in a link
const FILE_LIMIT = 16 << 20;
const LINES = 2000; // up to this number of pieces, each piece is written on a separate line

let original = new Uint8Array();
let stream = new Uint8Array();
let damage = new Map();
let hurt = []; // the indices of the damaged bytes, in ascending order
let before;
let pieces;
let canvas;
let field;
let undo;
let placeholder; // the field's placeholder while no file is shown
let isTyped = false; // whether the present change was made with a key in the field
let fromFile = null; // `{bytes}`, or `{entries}` of a log
let readAs = "";
let reading; // the reading that the user chose for the field's bytes, if there are several

/** Returns the bytes of the field or the file; for a log of Line, the frames of its rows. If there are no bytes, says so and returns null. */
function readStream(sentinel) {
  const log = fromFile ? fromFile.entries && fromFile : isLog(field.text) && readLog(field.text);
  const { bytes, error, said, as, other } = log ? (log.error ? log : streamOf(log.entries, sentinel)) : (fromFile ?? parseBytes(field.text, reading));
  byId("stream-reading").hidden = other === undefined;
  byId("stream-read").textContent = error ? "" : `Read as ${as}.`;
  byId("stream-other").textContent = `Read as ${other}`;
  byId("stream-other").dataset.as = other ?? "";
  readAs = said ? ` ${said}` : as && as !== "hex" ? ` Read as ${as}.` : "";
  field.complain(error ? `${error} The drawing below still shows the last valid input.` : null, byId("stream-error"));
  return bytes ?? null;
}

/** Reads the fields, and returns whether all of them are valid. */
function update() {
  const maxLength = readRoom(byId("stream-room"), byId("stream-room-error"));
  const sentinel = readSentinel(byId("stream-sentinel"), byId("stream-sentinel-error"));
  const bytes = readStream(sentinel ?? 0);
  const isUnread = bytes === null || maxLength === null || sentinel === null;
  byId("stream").classList.toggle("stale", isUnread);
  if (isUnread) {
    note();
    return false;
  }
  const isSame = bytes.length === original.length && bytes.every((byte, at) => byte === original[at]);
  if (!isSame) {
    damage = new Map();
    original = bytes;
    canvas.goTo(0);
  }
  before = new Pieces(original, { maxLength, sentinel });
  applyDamage();
  return true;
}

/** Returns the indices of at most `most` damaged bytes, each with its byte. */
const damageText = (most) => hurt.slice(0, most).map((at) => `${at}:${printHex(stream, at, at + 1)}`).join();

function setDamage(text) {
  damage = new Map();
  for (const [, at, byte] of text.matchAll(/(\d+):([0-9a-f]{2})/g)) if (Number(at) < original.length) damage.set(Number(at), parseInt(byte, 16));
  applyDamage();
}

/** Shows an earlier state of the view. */
function restore({ text, reading: chosen, file, sentinel, room, damage: changes }) {
  byId("stream-sentinel").value = printHex([sentinel]);
  byId("stream-room").value = room;
  field.text = text;
  reading = chosen;
  fromFile = file;
  if (update()) setDamage(changes);
}

/** Keeps the state of the view for Undo. */
function note() {
  undo?.note({ text: field.text, reading, file: fromFile, sentinel: before.sentinel, room: before.maxLength, damage: damageText(hurt.length) }, isTyped);
  isTyped = false;
}

function applyDamage() {
  stream = original;
  if (damage.size > 0) {
    stream = original.slice();
    for (const [at, byte] of damage) stream[at] = byte;
  }
  hurt = [...damage.keys()].sort((a, b) => a - b);
  pieces = damage.size > 0 ? new Pieces(stream, before) : before;
  byId("stream-mend").disabled = damage.size === 0;
  note();
  keepState("stream", {
    hex: printHex(original.subarray(0, LINKED + 1)).replaceAll(" ", ""),
    sentinel: printHex([before.sentinel]),
    room: before.maxLength,
    ...(hurt.length > 0 ? { damage: damageText(hurt.length) } : {}),
  });
  byId("stream-copied").textContent = "";
  byId("stream-empty").hidden = stream.length > 0;
  byId("stream-pieces").closest(".canvas").hidden = stream.length === 0;
  canvas.show(pieces);
  say();
}

/** Shows the contents of a link: a stream, the sentinel, the buffer's length, and the damaged bytes. */
export function setStream(values) {
  byId("stream-sentinel").value = values.get("sentinel") ?? "00";
  byId("stream-room").value = values.get("room") ?? "64";
  if (values.has("hex")) {
    forgetFile();
    field.text = values.get("hex").replaceAll(" ", "").replace(/..(?=.)/g, "$& ");
  }
  if (!update()) return;
  setDamage(values.get("damage") ?? "");
  if (values.has("at")) canvas.open(Number(values.get("at")));
}

/** Shows the rows of a log of Line. */
export function setLog(entries, { sentinel, room }) {
  byId("stream-sentinel").value = sentinel;
  byId("stream-room").value = room;
  setFile({ entries: entries.slice() }, "The log of Line");
}

function setFile(held, name) {
  field.text = "";
  fromFile = held;
  field.complain(null, byId("stream-error"));
  placeholder ??= byId("stream-input").placeholder;
  byId("stream-input").placeholder = `${name}. Type or paste to replace it.`;
  update();
}

function forgetFile() {
  fromFile = null;
  byId("stream-input").placeholder = placeholder ?? byId("stream-input").placeholder;
}

/** Copies the stream as it is shown, with its damage. */
async function copy() {
  const said = byId("stream-copied");
  if (stream.length === 0) said.textContent = "There is nothing to copy.";
  else if (await toClipboard(FORMS[byId("stream-form").value](stream, { name: "stream" }))) said.textContent = `${counted(stream.length, "byte")} copied.`;
  else said.textContent = "The browser gives no access to the clipboard.";
}

async function share() {
  byId("stream-copied").textContent = await copyLink(linkOf("stream", canvas.active > 0 ? { at: canvas.active } : {}), `The stream${damage.size > 0 ? " with its damage" : ""}`);
}

const status = statusOf("stream", 250);

function say() {
  const parts = [MESSAGE, BROKEN, TOO_LONG].map((kind) => [pieces.countOf(kind), BADGES[kind]]);
  const said = parts.filter(([number]) => number > 0).map(([number, name]) => (name === "message" ? counted(number, name) : `${count(number)} ${name}`));
  let text = `${counted(stream.length, "byte")}, ${counted(pieces.ended, "piece")}${said.length > 0 ? `: ${said.join(", ")}` : ""}.`;
  if (pieces.isUnfinished) text += " The last bytes have no sentinel after them yet.";
  text += readAs;
  if (damage.size > 0) {
    const kept = before.ended - before.changedFrom(pieces, hurt).length;
    const came = before.ended === 1 ? `the piece has ${kept === 1 ? "the same" : "another"} outcome` : `${count(kept)} of the ${counted(before.ended, "piece")} still have the same outcome`;
    text += ` ${counted(damage.size, "byte")} damaged: ${came}.`;
    const altered = pieces.changedFrom(before, hurt).filter((at) => pieces.kinds[at] === MESSAGE).length;
    if (altered > 0) text += ` ${counted(altered, "message")} that nobody sent: COBS doesn't notice such damage, but a CRC in the message shows it.`;
  }
  status.show(text);
}

function fillOutcome(element, at) {
  const kind = pieces.kinds[at];
  const isAltered = kind === MESSAGE && damage.size > 0 && !pieces.isIn(before, at, hurt);
  const badge = document.createElement("span");
  badge.className = `badge ${isAltered ? "altered" : BADGES[kind].replace(" ", "-")}`;
  badge.textContent = isAltered ? "altered message" : BADGES[kind];
  const words = document.createElement("span");
  words.textContent = pieces.words(at);
  element.replaceChildren(`${count(at + 1)}`, badge, words);
  if (kind !== MESSAGE || pieces.lengths[at] === 0) return;
  const message = pieces.message(at);
  const front = message.subarray(0, SHOWN_BYTES);
  const more = message.length > front.length ? " …" : "";
  const code = document.createElement("code");
  code.textContent = `${printHex(front)}${more}  “${printText(front)}${more && "…"}”`;
  element.append(code);
}

function damagedByte(byte) {
  const how = byId("stream-damage").value;
  if (how === "zero") return 0;
  if (how === "ff") return 255;
  if (how === "sentinel") return before.sentinel;
  return byte ^ 1;
}

/** Changes a byte on its way. This is damage, unless the new byte is the byte that was sent. */
function write(at, byte) {
  if (byte === original[at]) damage.delete(at);
  else damage.set(at, byte);
  applyDamage();
}

function toggle(at) {
  canvas.goTo(at);
  write(at, damage.has(at) ? original[at] : damagedByte(original[at]));
}

/** Changes the message of a piece that was sent. The damaged bytes of the other pieces stay damaged. */
function splice(at, index, removed, bytes) {
  if (!pieces.isIn(before, at, hurt)) return `Damage has changed ${pieces.name(at)}: mend its bytes first.`;
  const message = pieces.message(at);
  const frame = encode(joined([message.subarray(0, index), bytes, message.subarray(index + removed)]), { sentinel: before.sentinel });
  const [front, back] = [pieces.fronts[at], pieces.back(at)];
  const shift = frame.length - (back - front);
  damage = new Map([...damage].map(([place, byte]) => [place < front ? place : place + shift, byte]));
  original = joined([original.subarray(0, front), frame, original.subarray(back)]);
  forgetFile();
  before = new Pieces(original, before);
  field.text = asLines(before);
  applyDamage();
  return undefined;
}

/** Returns a stream as hex, with a line for each piece unless there are many pieces. */
function asLines(of) {
  if (of.count > LINES) return printHex(of.stream);
  return Array.from({ length: of.count }, (_, at) => printHex(of.stream, of.start(at), of.ends[at])).join("\n");
}

async function takeFile(file) {
  if (!file) return;
  if (file.size > FILE_LIMIT) {
    field.complain(`${file.name} has ${counted(file.size, "byte")}. The page shows at most ${count(FILE_LIMIT)}, so the stream stays as it was.`, byId("stream-error"));
    return;
  }
  const bytes = new Uint8Array(await file.arrayBuffer());
  const textOf = (part) => new TextDecoder().decode(part);
  const log = isLog(textOf(bytes.subarray(0, 200))) ? readLog(textOf(bytes)) : { bytes };
  if (log.error) field.complain(`${file.name}: ${log.error} The stream stays as it was.`, byId("stream-error"));
  else setFile(log, `${file.name}, ${counted(bytes.length, "byte")}`);
}

/** Returns an example: several messages, a frame that breaks off, and a frame that has no end yet. */
function example(sentinel) {
  const messages = ["temp=21.5", "temp=21.6", "", "a\0b\0c", "x".repeat(80), "temp=21.7"].map((text) => new TextEncoder().encode(text));
  const broken = [5, 0x6c, 0x6f, 0].map((byte) => byte ^ sentinel);
  const lines = [...messages.map((message) => encode(message, { sentinel, terminated: true })), broken, encode(new TextEncoder().encode("not yet ended"), { sentinel })];
  return lines.map((line) => printHex(line)).join("\n");
}

function startDrop() {
  const view = byId("stream");
  view.addEventListener("dragover", (event) => {
    event.preventDefault();
    view.classList.add("dropping");
  });
  view.addEventListener("dragleave", () => view.classList.remove("dropping"));
  view.addEventListener("drop", (event) => {
    event.preventDefault();
    view.classList.remove("dropping");
    takeFile(event.dataTransfer.files[0]);
  });
}

export function startStream() {
  const asked = once(update);
  const changed = (isByKey) => {
    isTyped = isByKey;
    if (!isByKey) reading = undefined;
    forgetFile();
    asked();
  };
  field = new Field(byId("stream-input"), changed);
  byId("stream-other").addEventListener("click", ({ target }) => {
    reading = target.dataset.as;
    asked();
  });
  const mark = (i) => (damage.has(i) ? `, was ${printHex(original, i, i + 1)}` : "");
  canvas = new Canvas(byId("stream-pieces"), { name: "stream", outcome: fillOutcome, mark, act: toggle, write, splice });
  byId("stream-room").addEventListener("input", asked);
  byId("stream-sentinel").addEventListener("input", asked);
  byId("stream-example").addEventListener("click", () => (field.text = example(before.sentinel)));
  byId("stream-file").addEventListener("change", (event) => takeFile(event.target.files[0]));
  byId("stream-copy").addEventListener("click", copy);
  byId("stream-share").addEventListener("click", share);
  byId("stream-mend").addEventListener("click", () => {
    damage.clear();
    applyDamage();
    byId("stream-pieces").focus();
  });
  byId("stream").querySelector("form").addEventListener("submit", (event) => event.preventDefault());
  startDrop();
  before = new Pieces(original, { maxLength: 64, sentinel: 0 });
  applyDamage();
  undo = new Undo(byId("stream"), byId("stream-undo"), restore);
  field.text = example(0);
}
