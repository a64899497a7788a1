// The view of a line, which is a device with Web Serial or the loop: the messages that are received and sent.
import { keepState } from "./address.js";
import { parseBytes } from "./bytes.js";
import { Connection } from "./connection.js";
import { printHex, printText } from "./hex.js";
import { byId, complain, count, counted, once, readRoom, readSentinel, save, statusOf } from "./inputs.js";
import { Log, readLog, writeLog } from "./log.js";
import { LoopPort } from "./loop.js";
import { Rows } from "./rows.js";
import { setLog } from "./stream.js";

const SHOWN_BYTES = 64;
const OPENED_BYTES = 4096;
const ROW_HEIGHT = 30;
const PORT_BUFFER = 65_536; // bytes of Web Serial's buffer; its default of 255 bytes is too short at high baud rates
const SETTINGS = ["line-baud", "line-data", "line-parity", "line-stop", "line-flow", "line-room", "line-sentinel", "line-known"];

const NAMES = { baud: "line-baud", data: "line-data", parity: "line-parity", stop: "line-stop", flow: "line-flow", room: "line-room", sentinel: "line-sentinel" }; // in the address
export const LINE_NAMES = Object.keys(NAMES);

const totals = { messages: 0, broken: 0, tooLong: 0, bytes: 0, sent: 0 };
const log = new Log();
let rows;
let connection = null;
let connectedPort = null;
let lostPort = null; // the port of a device that was unplugged without Disconnect
let isBusy = false;
let isPaused = false;
let chosen = -1; // the number of the row that the keyboard has selected
let known = [];

const status = statusOf("line", 800);
const fault = (text) => complain(byId("line-connect"), text, byId("line-error"));

function counters() {
  byId("line-messages").textContent = count(totals.messages);
  byId("line-broken").textContent = count(totals.broken);
  byId("line-too-long").textContent = count(totals.tooLong);
  byId("line-bytes").textContent = count(totals.bytes);
  byId("line-sent").textContent = count(totals.sent);
}

const paint = once(() => {
  counters();
  byId("line-empty").hidden = log.entries.length > 0;
  byId("line-log").hidden = log.entries.length === 0;
  if (isPaused && log.entries.length > 0) return;
  const box = byId("line-log");
  const isAtEnd = box.scrollTop + box.clientHeight >= box.scrollHeight - ROW_HEIGHT;
  box.style.height = `${Math.max(4, Math.min(log.entries.length, 10)) * ROW_HEIGHT + 2}px`;
  rows.reset(log.entries.length);
  if (isAtEnd && log.entries.length > 0) rows.reveal(log.entries.length - 1);
});

function add(entry) {
  const box = byId("line-log");
  const isAtEnd = box.scrollTop + box.clientHeight >= box.scrollHeight - ROW_HEIGHT;
  const dropped = log.add(entry);
  if (dropped > 0 && !isAtEnd && !isPaused) box.scrollTop -= dropped * ROW_HEIGHT; // the visible rows stay at their places
  paint();
  if (connection) status.speak(`Connected. ${counted(totals.messages, "message")}, ${count(totals.broken)} broken, ${count(totals.tooLong)} too long.`); // as the counters show
}

function receive({ kind, message, decodedBytes }, raw) {
  if (kind === "message") {
    totals.messages++;
    totals.bytes += message.length;
    add({ way: "in", kind, message });
  } else if (kind === "tooLong") {
    totals.tooLong++;
    add({ way: "in", kind: "too long", note: "for the buffer", raw });
  } else {
    totals.broken++;
    add({ way: "in", kind, note: `after ${counted(decodedBytes, "byte")} of output`, raw });
  }
}

const clock = (time) => time.toTimeString().slice(0, 8) + `.${String(time.getMilliseconds()).padStart(3, "0")}`;

function fillRow(element, index) {
  const { number, time, way, kind, message, note } = log.entries[index];
  const span = (name, text) => Object.assign(document.createElement("span"), { className: name, textContent: text });
  const front = message?.subarray(0, SHOWN_BYTES);
  const isCut = message && message.length > SHOWN_BYTES;
  const what = message ? span("text", printText(front)) : span(`badge ${kind.replace(" ", "-")}`, kind);
  const digits = message ? printHex(front) + (isCut ? ` … ${counted(message.length, "byte")}` : "") : note;
  element.className = `row${number === chosen ? " active" : ""}`;
  element.id = `line-row-${number}`;
  element.setAttribute("role", "option");
  element.setAttribute("aria-selected", String(number === chosen));
  element.dataset.number = number;
  element.replaceChildren(span("number", String(number)), span("time", clock(time)), span("way", way === "out" ? "→" : "←"), what, span("digits", digits));
  element.setAttribute("aria-label", `${way === "out" ? "sent" : "received"} ${kind}, ${message ? `${what.textContent}, ${digits}` : digits}`);
}

/** Shows a whole row below the log. */
function open(number) {
  chosen = number;
  const at = log.entries.findIndex((entry) => entry.number === number);
  if (at < 0) return;
  const { message, kind, note, time, way, raw } = log.entries[at];
  const shown = message ?? raw ?? new Uint8Array();
  const more = shown.length > OPENED_BYTES ? `\n… and ${counted(shown.length - OPENED_BYTES, "more byte")}` : "";
  byId("line-opened").hidden = false;
  byId("line-opened-title").textContent = `${way === "out" ? "Sent" : "Received"} at ${clock(time)}: ${message ? counted(message.length, "byte") : `${kind} ${note}${raw ? ". Its bytes as they arrived:" : ""}`}`;
  byId("line-opened-text").textContent = message ? printText(message.subarray(0, OPENED_BYTES)) : "";
  byId("line-opened-hex").textContent = printHex(shown.subarray(0, OPENED_BYTES)) + more;
  rows.refresh();
  rows.reveal(at);
  byId("line-log").setAttribute("aria-activedescendant", `line-row-${number}`);
}

function onKey(event) {
  const last = log.entries.length - 1;
  const at = log.entries.findIndex((entry) => entry.number === chosen);
  const to = { ArrowUp: at < 0 ? last : at - 1, ArrowDown: at < 0 ? last : at + 1, Home: 0, End: last }[event.key];
  if (to === undefined || last < 0) return;
  event.preventDefault();
  open(log.entries[Math.min(last, Math.max(0, to))].number);
}

function setConnected(isConnected) {
  for (const id of [...SETTINGS, "line-loop"]) byId(id).disabled = isConnected || isBusy;
  byId("line-connect").disabled = isConnected || isBusy || !("serial" in navigator);
  byId("line-close").disabled = !isConnected || isBusy;
  byId("line-submit").disabled = !isConnected || isBusy;
  for (const id of ["line-dtr", "line-rts"]) byId(id).disabled = !isConnected || !connectedPort?.setSignals;
}

const settings = () => ({
  baudRate: byId("line-baud").valueAsNumber,
  dataBits: Number(byId("line-data").value),
  parity: byId("line-parity").value,
  stopBits: Number(byId("line-stop").value),
  flowControl: byId("line-flow").value,
  bufferSize: PORT_BUFFER,
});

async function connect(choose, name, skipFirst) {
  if (connection || isBusy) return;
  const maxLength = readRoom(byId("line-room"), byId("line-error"));
  const sentinel = maxLength === null ? null : readSentinel(byId("line-sentinel"), byId("line-error"));
  if (sentinel === null) return;
  fault(null);
  isBusy = true;
  setConnected(false);
  try {
    connectedPort = await choose();
    lostPort = null;
    await connectedPort.open(settings());
    connection = new Connection(connectedPort, { maxLength, sentinel, skipFirst }, {
      outcome: receive,
      left: (bytes) => add({ way: "in", kind: "left out", note: `${counted(bytes, "byte")} up to and including the first sentinel, because they may be the rest of a frame` }),
      fault: (error) => fault(`The line reported: ${error.message}`),
    });
  } catch (error) {
    fault(error.name === "NotFoundError" ? "No device was chosen." : `The device could not be opened: ${error.message}`);
  }
  isBusy = false;
  setConnected(connection !== null);
  if (connection === null) return;
  byId("line-close").focus();
  status.show(`Connected to ${name}.`);
  const own = connection;
  await own.receive();
  if (connection !== own || isBusy) return;
  const lost = connectedPort;
  await disconnect();
  lostPort = lost;
}

async function disconnect() {
  if (!connection || isBusy) return;
  isBusy = true;
  setConnected(true);
  const closed = connection;
  const wasHere = document.activeElement === byId("line-close") || document.activeElement === document.body;
  // a device that was unplugged is already closed, and its fault is shown
  await closed.close().catch((error) => byId("line-error").hidden && fault(`The device could not be closed: ${error.message}`));
  connection = null;
  connectedPort = null;
  isBusy = false;
  setConnected(false);
  status.show("Not connected.");
  if (wasHere) byId(byId("line-connect").disabled ? "line-loop" : "line-connect").focus();
  listKnown();
}

async function send() {
  const input = byId("line-text");
  const isHex = document.querySelector('input[name="line-kind"]:checked').value === "hex";
  const text = input.value;
  const { bytes, error } = isHex ? parseBytes(text) : { bytes: new TextEncoder().encode(text) };
  complain(input, error ?? null, byId("line-text-error"));
  if (error || !connection) return;
  input.select();
  try {
    await connection.send(bytes);
    totals.sent++;
    add({ way: "out", kind: "message", message: bytes });
  } catch (refused) {
    complain(input, `“${text.slice(0, 40)}” was not sent: ${refused.message}`, byId("line-text-error"));
  }
}

function clear() {
  log.clear();
  Object.assign(totals, { messages: 0, broken: 0, tooLong: 0, bytes: 0, sent: 0 });
  chosen = -1;
  byId("line-opened").hidden = true;
  byId("line-log").removeAttribute("aria-activedescendant");
  paint();
}

function pause() {
  isPaused = !isPaused;
  byId("line-pause").setAttribute("aria-pressed", String(isPaused));
  byId("line-pause").textContent = isPaused ? "Go on" : "Pause";
  paint();
}

/** Shows the received messages in Stream, or the sent messages if none was received. */
function toStream() {
  dispatchEvent(new CustomEvent("jcobs-open", { detail: "stream" }));
  setLog(log.entries, { sentinel: byId("line-sentinel").value, room: byId("line-room").value });
}

async function loadLog(file) {
  if (!file) return;
  const { entries, error } = readLog(await file.text());
  fault(error ?? null);
  if (error) return;
  clear();
  for (const entry of entries) add(entry);
  status.show(`${counted(entries.length, "row")} of ${file.name}.`);
}

/** Lists the devices that were chosen before: for these the browser doesn't ask the user again. */
async function listKnown() {
  known = (await navigator.serial?.getPorts?.()) ?? [];
  const hex4 = (number) => number.toString(16).padStart(4, "0");
  const name = ({ usbVendorId, usbProductId }) => (usbVendorId === undefined ? "a port without USB" : `USB ${hex4(usbVendorId)}:${hex4(usbProductId)}`);
  const options = [new Option("ask", ""), ...known.map((port, i) => new Option(name(port.getInfo()), String(i)))];
  byId("line-known").replaceChildren(...options);
  byId("line-known").closest("label").hidden = known.length === 0;
}

/** Returns whether two ports are of the same device: browsers may make a new port for a device that is plugged in again. */
function isSamePort(port, other) {
  if (!other || port === other) return port === other;
  const [a, b] = [port.getInfo(), other.getInfo()];
  return a.usbVendorId !== undefined && a.usbVendorId === b.usbVendorId && a.usbProductId === b.usbProductId;
}

function choosePort() {
  const port = known[byId("line-known").value === "" ? -1 : Number(byId("line-known").value)];
  return port ?? navigator.serial.requestPort();
}

const setSignal = (name, isOn) => connectedPort?.setSignals?.({ [name]: isOn }).catch((error) => fault(`The signal could not be set: ${error.message}`));

const keepSettings = () => keepState("line", Object.fromEntries(Object.entries(NAMES).map(([name, id]) => [name, byId(id).value])));

/** Applies a link's settings of the port and the frames. An invalid value leaves its setting unchanged. */
export function setLine(values) {
  if (connection || isBusy) return;
  for (const [name, id] of Object.entries(NAMES)) {
    const field = byId(id);
    const before = field.value;
    if (values.has(name)) field.value = values.get(name);
    if (field.value === "" || !field.checkValidity()) field.value = before;
  }
  keepSettings();
}

export function startLine() {
  rows = new Rows(byId("line-log"), { topOf: (index) => index * ROW_HEIGHT, fill: fillRow });
  byId("line-lacking").hidden = "serial" in navigator;
  if (!isSecureContext) byId("line-lacking").textContent = "A browser lets a page connect to a device only if the address of the page begins with https, or is localhost. The loop returns the bytes that you send.";
  byId("line-connect").addEventListener("click", () => connect(choosePort, "the device", true));
  byId("line-loop").addEventListener("click", () => connect(async () => new LoopPort(() => byId("line-noise").checked), "the loop", false));
  byId("line-close").addEventListener("click", disconnect);
  byId("line-clear").addEventListener("click", clear);
  byId("line-pause").addEventListener("click", pause);
  byId("line-save").addEventListener("click", () => save("line.log", writeLog(log.entries)));
  byId("line-stream").addEventListener("click", toStream);
  byId("line-load").addEventListener("change", async ({ target }) => {
    await loadLog(target.files[0]);
    target.value = ""; // so that the same file can be loaded again
  });
  byId("line-dtr").addEventListener("change", (event) => setSignal("dataTerminalReady", event.target.checked));
  byId("line-rts").addEventListener("change", (event) => setSignal("requestToSend", event.target.checked));
  byId("line-log").addEventListener("click", (event) => {
    const row = event.target.closest("[data-number]");
    if (row) open(Number(row.dataset.number));
  });
  byId("line-log").addEventListener("keydown", onKey);
  navigator.serial?.addEventListener?.("connect", (event) => {
    listKnown();
    if (byId("line-again").checked && isSamePort(event.target, lostPort)) connect(async () => event.target, "the device", true);
  });
  byId("line-port").addEventListener("submit", (event) => event.preventDefault());
  byId("line-port").addEventListener("input", keepSettings);
  byId("line-send").addEventListener("submit", (event) => {
    event.preventDefault();
    send();
  });
  setConnected(false);
  keepSettings();
  listKnown();
  paint();
}
