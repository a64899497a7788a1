// The view of one message and its frame.
import { CobsError, decode, encode, frames, maxEncodedLength } from "../jcobs.js";
import { codePlaces, curve } from "../draw.js";
import { isLinkable, keepState, linkOf } from "./address.js";
import { joined, parseBytes } from "./bytes.js";
import { Canvas } from "./canvas.js";
import { FORMS, copyLink, toClipboard } from "./copy.js";
import { KINDS, crcOf } from "./crc.js";
import { Field, isKey } from "./field.js";
import { parseHex, printHex } from "./hex.js";
import { byId, complain, count, counted, once, readSentinel, statusOf } from "./inputs.js";
import { BADGES, MESSAGE, Pieces, onlyPiece } from "./pieces.js";
import { setSteps, startSteps } from "./steps.js";
import { setStream } from "./stream.js";
import { ZERO, bytesOfText, endsOf, isBytes, mayBeBytes, textOf } from "./text.js";
import { Undo } from "./undo.js";

const HEX_SHOWN = 2048;
const EDITED = 4096;      // bytes of the longest frame that its field shows
const LINKED = 2000;      // bytes of the longest message in a link
const OFFERED = 1 << 20;  // at most this many bytes are tried as a frame or a stream
const ASKED = 1 << 16;    // a text of at most this many characters is tried as bytes
const SUMMED = 1 << 20;   // bytes of the longest message whose CRC is shown

let frame = new Uint8Array();
let typed = null; // the bytes that the user wrote in place of the frame: no frame, several pieces, or the message's longer frame
let pieces;
let sentinel = 0;
let message = new Uint8Array();
let readAs = "";
let endsNote = "";
let asKind = "text"; // the kind of the field's text
let reading;         // the reading that the user chose for the field's bytes, if there are several
let frameReading;    // the reading that the user chose for the bytes in the frame's field
let written = null;  // the text of the frame's field, while it can't be read or can be read in two ways; it stays until it is replaced
let field;
let canvas;
let undo;
let frameAs = "";    // the form in which the text of the frame's field was read, while it is there
let isTyped = false; // whether the present change was made with a key in a field

const kind = () => document.querySelector('input[name="message-kind"]:checked').value;

/** Returns the message. If the field has no message, says so and returns null. */
function readMessage() {
  const isText = kind() === "text";
  byId("message-ends").closest("label").hidden = !isText || !field.text.includes("\n");
  byId("message-other").hidden = true;
  if (isText) {
    readAs = endsNote + (/\p{Surrogate}/u.test(field.text) ? " A lone surrogate has no bytes in UTF-8; it was replaced by ef bf bd." : "");
    field.complain(null, byId("message-error"));
    byId("message-read").textContent = `Read as text (UTF-8)${field.text.includes(ZERO) ? `; each ${ZERO} is a byte 00` : ""}.`;
    return bytesOfText(field.text, byId("message-ends").value);
  }
  const { bytes, error, as, other } = parseBytes(field.text, reading);
  readAs = "";
  byId("message-read").textContent = error ? "" : `Read as ${as}.`;
  showOther(byId("message-other"), other);
  field.complain(error ? `${error} The drawing below still shows the last valid input.` : null, byId("message-error"));
  return bytes ?? null;
}

/** Finds out whether the pasted text is bytes in some form, if nothing else is in the field. Otherwise notes the line ends of the text, because the field changes them. */
function notePasted(text, isWhole) {
  reading = undefined;
  if (kind() === "text" && isWhole && isBytes(text, parseBytes(text).as)) choose("hex");
  const ends = endsOf(text);
  if (kind() !== "text" || ends === "") return;
  byId("message-ends").value = ends ?? "LF";
  endsNote = ends === null ? " The pasted text had several kinds of line ends; all are LF now." : "";
}

function choose(wanted) {
  document.querySelector(`input[name="message-kind"][value="${wanted}"]`).checked = true;
  asKind = wanted;
}

const status = statusOf("message", 400);

function say() {
  const blocks = byId("message-blocks").dataset.count;
  const fault = typed && faultOf(typed);
  const what = fault
    ? `${counted(typed.length, "byte")} that aren't a frame`
    : `${counted(message.length, "byte")} in a frame of ${counted((typed ?? frame).length, "byte")}: ${blocks === "1" ? "one block" : `${count(Number(blocks))} blocks`}`;
  const more = `${readAs}${sentinel === 0 ? "" : ` Each byte of the frame is XORed with ${printHex([sentinel])}, so no frame contains ${printHex([sentinel])}.`}`;
  status.show(`${what}.${more}`);
  byId("message-status").classList.toggle("spoken", more === "" && !fault); // the line above the drawing already says this
}

/** Shows the figures of the frame that is shown. For bytes that aren't a frame, no figures are shown. */
function showFacts(shown, isFrame) {
  byId("message-length").dataset.bytes = message.length;
  byId("message-length").textContent = isFrame ? counted(message.length, "byte") : "–";
  byId("message-frame-length").textContent = counted(shown.length, "byte");
  byId("message-greatest").textContent = isFrame ? counted(maxEncodedLength(message.length), "byte") : "–";
  const places = codePlaces(shown, sentinel);
  byId("message-blocks").dataset.count = places.length;
  byId("message-blocks").textContent = isFrame ? count(places.length) : "–";
  byId("message-full").textContent = isFrame ? count(places.reduce((full, at) => full + ((shown[at] ^ sentinel) === 255), 0)) : "–";
}


/** Reads the fields. The bytes `wanted` are shown in place of the frame; null means the frame itself. */
function update(wanted) {
  const read = readMessage();
  const byte = readSentinel(byId("message-sentinel"), byId("message-sentinel-error"));
  if (read === null) offer(null);
  if (read === null || byte === null) return note();
  const isSame = byte === sentinel && read.length === message.length && read.every((each, at) => each === message[at]);
  if (wanted !== undefined || !isSame) typed = wanted ?? null;
  message = read;
  sentinel = byte;
  frame = encode(message, { sentinel });
  offer(message);
  showExtras();
  showFrame();
}

/** Shows the curve of the overhead, and the CRC. */
function showExtras() {
  byId("message-curve").innerHTML = curve({ most: (length) => maxEncodedLength(length) - length, length: message.length, overhead: frame.length - message.length });
  const isShort = message.length <= SUMMED;
  for (const id of ["message-crc-high", "message-crc-low"]) byId(id).disabled = !isShort;
  byId("message-crc-value").textContent = isShort ? printHex(crcOf(message, byId("message-crc").value)) : "–";
}

function appendCrc(isHighFirst) {
  const sum = crcOf(message, byId("message-crc").value);
  setBytes(joined([message, isHighFirst ? sum : sum.reverse()]));
}

const digitsOf = (bytes) => printHex(bytes.subarray(0, LINKED + 1)).replaceAll(" ", "");

/** Shows the frame, or the bytes that were written in its place. */
function showFrame() {
  const shown = typed ?? frame;
  pieces = new Pieces(joined([shown, [sentinel]]), { maxLength: shown.length, sentinel });
  const left = shown.length - HEX_SHOWN;
  byId("message-frame").textContent = printHex(shown, 0, Math.min(shown.length, HEX_SHOWN)) + (left > 0 ? ` … and ${counted(left, "more byte")}, which are copied too` : "");
  byId("message-frame").hidden = shown.length <= EDITED;
  const fault = typed && faultOf(typed);
  showField(shown, fault);
  note();
  showFacts(shown, fault === null);
  say();
  canvas.show(pieces, pieces.ended !== 1 || pieces.kinds[0] !== MESSAGE);
  setSteps(typed ? null : message, frame, sentinel); // there are no steps for bytes that aren't the message's frame
}

/** Keeps the state of the view for Undo, and, if everything can be read, for the address. */
function note() {
  undo.note({ kind: asKind, text: field.text, reading, ends: byId("message-ends").value, sentinel, frame: typed ? printHex(typed) : "", written, frameReading: written === null ? undefined : frameReading }, isTyped);
  isTyped = false;
  const isUnread = ["message-input", "message-sentinel"].some((id) => byId(id).hasAttribute("aria-invalid")) || !isFrameRead();
  byId("message").classList.toggle("stale", isUnread);
  if (isUnread) return;
  const text = kind() === "text" && new TextDecoder("utf-8", { ignoreBOM: true }).decode(message.subarray(0, LINKED + 1));
  const own = text && isLinkable(text) ? { text } : { hex: digitsOf(message) };
  keepState("message", { ...own, ...(sentinel !== 0 && { sentinel: printHex([sentinel]) }), ...(typed && { frame: digitsOf(typed) }) });
}

const isFrameRead = () => written === null || parseBytes(written, frameReading).bytes !== undefined;

/** Shows the bytes in the frame's field, or the text that the user wrote there and what is wrong with it. */
function showField(shown, fault) {
  const input = byId("message-frame-edit");
  const { error, other } = written === null ? {} : parseBytes(written, frameReading);
  input.hidden = shown.length > EDITED && written === null;
  if (document.activeElement !== input) input.value = written ?? (shown.length > EDITED ? "" : printHex(shown));
  const pieceCount = typed?.includes(sentinel) && pieces.ended;
  complain(input, error ? `${error} The drawing below still shows the last valid frame.` : fault, byId("message-frame-error"));
  byId("message-frame-pieces").textContent = pieceCount && !error ? `These are ${counted(pieceCount, "piece")}, with the sentinel ${printHex([sentinel])} between them. Message still has what it had before.` : "";
  byId("message-typed").hidden = !error && !fault && !pieceCount;
  byId("message-frame-stream").hidden = !pieceCount || error !== undefined;
  showOther(byId("message-frame-other"), other);
  byId("message-frame-read").textContent = error || frameAs === "" ? "" : `Read as ${frameAs}.`;
}

/** Returns the message of a frame, or null if the bytes aren't one frame. */
function messageOf(bytes) {
  if (bytes.includes(sentinel)) return null;
  try {
    return decode(bytes, { sentinel });
  } catch (error) {
    if (error instanceof CobsError) return null;
    throw error;
  }
}

/** Returns what is wrong with a piece that isn't a frame, or null for the longer frame of a message, and for several pieces. */
function faultOf(bytes) {
  if (bytes.length === 0) return "A frame has at least one byte.";
  if (bytes.includes(sentinel) || messageOf(bytes) !== null) return null;
  const at = codePlaces(bytes, sentinel).at(-1);
  const [announced, left] = [(bytes[at] ^ sentinel) - 1, bytes.length - at - 1];
  return `The frame breaks off inside a block: the code ${printHex([bytes[at]])} (byte ${count(at)}) announces ${counted(announced, "byte")}, and ${left === 0 ? "none follows" : `only ${count(left)} follow${left === 1 ? "s" : ""}`}. Message still has what it had before.`;
}

/**
 * Takes bytes in place of the frame. If the bytes are a frame, its message is put into the field above. `text` is the text of the frame's
 * field, if it stays there, and `as` the form in which the text was read.
 */
function takeFrame(bytes, { text = null, as = "", isByKey = false } = {}) {
  const found = messageOf(bytes);
  if (found) setBytes(found);
  const own = found && encode(found, { sentinel });
  [written, frameAs, isTyped] = [text, as, isByKey];
  update(own?.length === bytes.length ? null : bytes);
  byId("message-copied").textContent = found && own.length < bytes.length ? "The message has two frames, and this is the longer one: encoders leave out its last 01." : "";
}

/** Takes the text of the frame's field: a frame, a frame with sentinels around it (as it came over a line), or several frames. */
function editFrame(isByKey = false) {
  const text = byId("message-frame-edit").value;
  const { bytes, as, other } = parseBytes(text, frameReading);
  byId("message-copied").textContent = "";
  if (bytes) takeFrame(onlyPiece(bytes, sentinel) ?? bytes, { text: other ? text : null, as, isByKey });
  else {
    [written, frameAs, isTyped] = [text, "", isByKey];
    showFrame();
  }
}

/** Shows the button for the other reading of bytes, if there is one. */
function showOther(button, other) {
  button.hidden = other === undefined;
  button.dataset.as = other ?? "";
  button.textContent = `Read as ${other}`;
}

/** Shows the message's frame again, instead of the bytes that were written in its place. */
function mend() {
  typed = written = null;
  frameAs = "";
  showFrame();
  byId("message-drawing").focus();
}

/** Changes a byte of the frame, or appends one. */
function write(i, byte) {
  const shown = typed ?? frame;
  takeFrame(joined([shown.subarray(0, i), [byte], shown.subarray(i + 1)]));
}

/** Changes bytes of the message. */
function splice(at, index, removed, bytes) {
  if (pieces.ended > 1) return "These are several pieces: show them in Stream to change the message of one piece.";
  setBytes(joined([message.subarray(0, index), bytes, message.subarray(index + removed)]));
  update();
  return undefined;
}

/**
 * Offers another reading of the field: bytes that are a frame or a stream can be decoded, digits that are no bytes (null) can be read as
 * text, and text can be read as bytes.
 */
function offer(bytes) {
  const isHex = kind() === "hex";
  const isOffered = isHex && bytes?.length > 1 && bytes.length <= OFFERED;
  const isFrame = isOffered && messageOf(onlyPiece(bytes, sentinel) ?? bytes) !== null;
  const isStream = isOffered && !isFrame && bytes.at(-1) === sentinel && isAllMessages();
  const form = isHex ? undefined : formOfText();
  byId("message-offer").hidden = !isFrame && !isStream && bytes !== null && form === undefined;
  byId("message-decode").hidden = !isFrame;
  byId("message-stream").hidden = !isStream;
  byId("message-as-text").hidden = bytes !== null;
  byId("message-as-bytes").hidden = form === undefined;
  byId("message-offer-text").textContent = isFrame ? "These bytes are a frame themselves." : isStream ? "These bytes are a stream of frames." : form ? `This could be bytes (${form}).` : "";
}

/** Returns the form in which the field's text may be bytes, or undefined. */
function formOfText() {
  if (field.text.length > ASKED) return undefined;
  const { bytes, as } = parseBytes(field.text);
  return bytes && mayBeBytes(field.text, as, bytes.length) ? as : undefined;
}

function isAllMessages() {
  let count = 0;
  for (const { kind: kindOfPiece } of frames(message, { sentinel })) {
    if (kindOfPiece !== "message") return false;
    count++;
  }
  return count > 0;
}

/** Shows the contents of a link: a message as text or bytes, a frame, or both, and the sentinel. */
export function setMessage(values) {
  const [text, digits, given] = ["text", "hex", "frame"].map((name) => values.get(name));
  byId("message-sentinel").value = values.get("sentinel") ?? "00";
  if (digits !== null) setInput("hex", parseHex(digits).bytes ? printHex(parseHex(digits).bytes) : digits);
  else if (text !== null) setText(bytesOfText(text, "LF")) || setInput("hex", printHex(bytesOfText(text, "LF")));
  else if (given !== null) setInput("hex", "");
  written = null;
  frameReading = undefined;
  update(null);
  const { bytes } = parseHex(given ?? "?");
  if (bytes) takeFrame(onlyPiece(bytes, sentinel) ?? bytes);
  else if (given !== null) {
    byId("message-frame-edit").value = given;
    editFrame();
  }
  if (values.has("at")) canvas.open(Number(values.get("at")));
}

/** Shows an earlier state of the view. */
function restore(state) {
  byId("message-sentinel").value = printHex([state.sentinel]);
  byId("message-ends").value = state.ends;
  setInput(state.kind, state.text);
  ({ reading, written, frameReading } = state);
  frameAs = (written !== null && parseBytes(written, frameReading).as) || "";
  update(state.frame === "" ? null : parseHex(state.frame).bytes);
}

/** Puts bytes into the field as text, and returns whether this is possible. */
function setText(bytes) {
  const found = textOf(bytes);
  if (found === null) return false;
  byId("message-ends").value = found.ends;
  setInput("text", found.text);
  return true;
}

/** Puts a message into the field: as text if the field has text and the message can be shown as text, and otherwise as hex. */
function setBytes(bytes) {
  if (kind() !== "text" || !setText(bytes)) setInput("hex", printHex(bytes));
}

/** Changes the kind of input. The contents of the field are converted to the other kind, if this is possible. */
function changeKind() {
  if (kind() === asKind) return;
  if (kind() === "hex") {
    field.text = printHex(bytesOfText(field.text, byId("message-ends").value));
  } else {
    const { bytes } = parseBytes(field.text, reading);
    if (bytes) setText(bytes);
  }
  reading = undefined;
  asKind = kind();
}

async function copy() {
  const form = byId("message-form").value;
  const shown = typed ?? frame;
  const isEnded = byId("message-ended").checked;
  const bytes = isEnded ? joined([shown, [sentinel]]) : shown;
  const call = typed ? null : { message, sentinel, isEnded };
  const text = bytes.length === 0 ? "" : FORMS[form](bytes, { sentinel, call, pieces: Array.from({ length: pieces.ended }, (_, at) => pieces.piece(at)) });
  const said = byId("message-copied");
  if (!isFrameRead()) said.textContent = "Nothing is copied, because the text in Frame can't be read.";
  else if (text === "") said.textContent = "There is nothing to copy.";
  else if (text === null) said.textContent = form === "svg" ? "The frame is too long for a picture." : "No call makes these bytes from the message.";
  else if (await toClipboard(text)) said.textContent = form.endsWith("-call") ? "The call is copied." : `${counted(bytes.length, "byte")} copied.`;
  else {
    if (!byId("message-frame-edit").hidden) byId("message-frame-edit").select();
    else getSelection().selectAllChildren(byId("message-frame"));
    said.textContent = "The browser gives no access to the clipboard. The shown bytes are selected: copy them with the keyboard.";
  }
}

async function share() {
  byId("message-copied").textContent = await copyLink(linkOf("message", canvas.active > 0 ? { at: canvas.active } : {}), "The message");
}

function setInput(wanted, text) {
  choose(wanted);
  reading = undefined;
  endsNote = "";
  field.text = text;
}

function sample({ hex, text, run, zeros }) {
  if (text) setInput("text", text);
  else if (hex) setInput("hex", hex);
  else if (run) setInput("text", Array.from({ length: Number(run) }, (_, i) => String.fromCharCode(97 + (i % 26))).join(""));
  else setInput("hex", printHex(new Uint8Array(Number(zeros))));
}

/** Says what a stream with only the frame decodes to, if this isn't just the message. */
function fillOutcome(element, at) {
  const kindOfPiece = BADGES[pieces.kinds[at]];
  const badge = Object.assign(document.createElement("span"), { className: `badge ${kindOfPiece.replace(" ", "-")}`, textContent: kindOfPiece });
  element.replaceChildren(`${count(at + 1)}`, badge, pieces.words(at));
}

export function startMessage() {
  const soon = once(() => update());
  const asked = (isByKey = false) => {
    isTyped = isByKey === true;
    written = null;
    frameAs = "";
    byId("message-copied").textContent = "";
    soon();
  };
  field = new Field(byId("message-input"), asked, notePasted);
  byId("message-first").remove();
  undo = new Undo(byId("message"), byId("message-undo"), restore);
  byId("message-crc").append(...Object.keys(KINDS).map((name) => new Option(name)));
  byId("message-crc").addEventListener("input", showExtras);
  byId("message-crc-high").addEventListener("click", () => appendCrc(true));
  byId("message-crc-low").addEventListener("click", () => appendCrc(false));
  byId("message-as-text").addEventListener("click", () => setInput("text", field.text));
  byId("message-as-bytes").addEventListener("click", () => setInput("hex", field.text));
  byId("message-other").addEventListener("click", ({ target }) => {
    reading = target.dataset.as;
    asked();
  });
  byId("message-frame-other").addEventListener("click", ({ target }) => {
    frameReading = target.dataset.as;
    editFrame();
    byId("message-frame-edit").focus();
  });
  canvas = new Canvas(byId("message-drawing"), { name: "message", outcome: fillOutcome, write, splice });
  startSteps(canvas);
  for (const radio of document.querySelectorAll('input[name="message-kind"]')) radio.addEventListener("change", () => {
    changeKind();
    asked();
  });
  byId("message-ends").addEventListener("change", asked);
  byId("message-sentinel").addEventListener("input", asked);
  byId("message-copy").addEventListener("click", copy);
  byId("message-share").addEventListener("click", share);
  byId("message-frame-edit").addEventListener("input", ({ inputType }) => editFrame(isKey(inputType)));
  // a press on these buttons leaves the focus in the field: if the field lost the focus, its new text would move the buttons away
  for (const id of ["message-frame-stream", "message-back"]) byId(id).addEventListener("mousedown", (event) => event.preventDefault());
  byId("message-frame-edit").addEventListener("paste", () => (frameReading = undefined));
  byId("message-frame-edit").addEventListener("blur", () => {
    if (written === null) [frameReading, frameAs] = [undefined, ""];
    showFrame();
  });
  byId("message-back").addEventListener("click", mend);
  byId("message-decode").addEventListener("click", () => {
    setInput("hex", printHex(decode(message, { sentinel }))); // this also works for a frame with sentinels around it
    byId("message-input").focus();
  });
  const toStream = (bytes) => {
    const values = new URLSearchParams({ hex: printHex(bytes), sentinel: printHex([sentinel]) });
    dispatchEvent(new CustomEvent("jcobs-open", { detail: "stream" }));
    setStream(values);
  };
  byId("message-stream").addEventListener("click", () => toStream(message));
  byId("message-frame-stream").addEventListener("click", () => toStream(typed));
  for (const button of document.querySelectorAll("#message > .samples [data-text], #message > .samples :is([data-hex], [data-run], [data-zeros])")) button.addEventListener("click", () => sample(button.dataset));
  byId("message").querySelector("form").addEventListener("submit", (event) => event.preventDefault());
  sample({ text: `Hello${ZERO}World` });
}
