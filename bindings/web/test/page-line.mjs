// Tests the view Line in Chromium.
import { mkdtemp, readFile, rm, writeFile } from "node:fs/promises";
import { tmpdir } from "node:os";
import { join } from "node:path";
import { equal, holds } from "./tally.mjs";
import { badges, check, fillStream, on, summary } from "./page-setup.mjs";

const counter = (page, name, wanted) => page.until(`document.getElementById("line-${name}").textContent === "${wanted}"`);
const logged = (page) => page.value('[...document.querySelectorAll("#line-log .row")].map((row) => [...row.children].slice(1).map((each) => each.textContent))');

/** Returns the received rows of the log, each with its kind and its digits. */
const cameIn = async (page) => (await logged(page)).filter(([, way]) => way === "←").map(([, , ...rest]) => rest);

await check("line: the loop gives back what is sent, as text and hex", () => on("line", async (page) => {
  equal(await page.value('document.getElementById("line-submit").disabled'), true, "nothing to send to yet");
  await page.click("#line-loop");
  await page.until('document.getElementById("line-status").textContent.includes("Connected")');
  await page.fill("#line-text", "hello");
  await page.press("Enter");
  await counter(page, "messages", 1);
  await page.click('input[name="line-kind"][value="hex"]');
  await page.fill("#line-text", "00 01 00");
  await page.click("#line-submit");
  await counter(page, "messages", 2);
  await page.until('document.querySelectorAll("#line-log .row").length === 4');
  equal((await cameIn(page)), [["hello", "68 65 6c 6c 6f"], ["···", "00 01 00"]], "what came in");
  equal(await page.text("#line-bytes"), "8", "bytes");
  equal(await page.text("#line-status"), "Connected to the loop.", "the status, beside the counters");
  await page.until('document.getElementById("line-spoken").textContent === "Connected. 2 messages, 0 broken, 0 too long."');
  await page.fill("#line-text", "0g");
  await page.press("Enter");
  await page.until('document.getElementById("line-text-error").textContent.includes("“g”")');
  equal(await page.value('document.getElementById("line-text").value'), "0g", "what the field holds");
  await page.click("#line-close");
  await page.until('document.getElementById("line-status").textContent === "Not connected."');
  equal(await page.value('document.getElementById("line-submit").disabled'), true, "Send is off again");
  await page.click("#line-loop");
  await page.until('document.getElementById("line-status").textContent.includes("Connected")');
}));

await check("line: broken and too long frames are counted, and the next comes through", () => on("line", async (page) => {
  await page.fill("#line-room", "8");
  await page.click("#line-noise");
  await page.click("#line-loop");
  await page.until('!document.getElementById("line-submit").disabled');
  for (const text of ["one", "two", "three", "more than eight", "five"]) {
    await page.fill("#line-text", text);
    await page.press("Enter");
  }
  await counter(page, "messages", 3);
  await counter(page, "broken", 1);
  await counter(page, "too-long", 1);
  await page.until('document.querySelectorAll("#line-log .row").length === 10');
  equal((await logged(page)).slice(0, 2).map(([, way]) => way), ["→", "←"], "what is sent is above what comes of it");
  equal((await cameIn(page)).map(([first]) => first), ["one", "two", "broken", "too long", "five"], "what came in");
}));

const counts = (page) => page.value('["messages", "broken", "too-long", "sent"].map((name) => Number(document.getElementById(`line-${name}`).textContent))');
const isConnected = '!document.getElementById("line-submit").disabled';
const isNotConnected = 'document.getElementById("line-status").textContent === "Not connected."';
const said = (page) => page.text("#line-error");
const xored = (bytes, sentinel) => bytes.map((byte) => byte ^ sentinel).join();

/** Puts test/port.js into the page as the port of Web Serial. */
const DEVICE = (await readFile(new URL("port.js", import.meta.url), "utf8")).replace("export class", "class") + `
  const port = (globalThis.port = new FakePort());
  Object.defineProperty(navigator, "serial", { value: { requestPort: async () => port, getPorts: async () => [port], addEventListener: (name, act) => (globalThis["serial_" + name] = act) }, configurable: true });
`;
const withDevice = { before: DEVICE };

for (const sentinel of [0, 0x55]) {
  await check(`line: a device with the sentinel ${sentinel}, sending and receiving`, () => on("line", async (page) => {
    await page.fill("#line-baud", "57600");
    await page.fill("#line-sentinel", sentinel.toString(16).padStart(2, "0"));
    await page.click("#line-port summary");
    await page.value('document.getElementById("line-parity").value = "even"');
    await page.click("#line-connect");
    await page.until(isConnected);
    equal(await page.value("[port.opened.baudRate, port.opened.parity, port.opened.dataBits, port.opened.stopBits, port.opened.flowControl]"), [57600, "even", 8, 1, "none"], "the settings");
    await page.value(`port.give(${xored([9, 9, 0, 3, 104], sentinel)})`);
    await page.value(`port.give(${xored([105, 0, 5, 1, 0], sentinel)})`);
    await counter(page, "broken", 1);
    equal(await counts(page), [1, 1, 0, 0], "messages, broken, too long, sent");
    await page.fill("#line-text", "hi");
    await page.press("Enter");
    await page.until(`port.sent.join() === '${xored([3, 104, 105, 0], sentinel)}'`);
    await counter(page, "sent", 1);
    await page.until('document.querySelectorAll("#line-log .row").length === 4');
    equal((await logged(page)).map((row) => row.slice(1)), [
      ["←", "left out", "3 bytes up to and including the first sentinel, because they may be the rest of a frame"],
      ["←", "hi", "68 69"],
      ["←", "broken", "after 1 byte of output"],
      ["→", "hi", "68 69"],
    ], "the rows");
    await page.click("#line-dtr");
    await page.until("port.signals?.dataTerminalReady === false");
  }, withDevice));
}

await check("line: a device that was chosen before is connected without a question, and again when it comes back", () => on("line", async (page) => {
  await page.until('document.getElementById("line-known").options.length === 2');
  equal(await page.value('document.getElementById("line-known").options[1].text'), "USB 2341:0043", "its name");
  await page.value("navigator.serial.requestPort = () => Promise.reject(new DOMException('asked', 'NotFoundError'))");
  await page.click("#line-connect");
  await page.until('document.getElementById("line-error").textContent === "No device was chosen."');
  await page.value('document.getElementById("line-known").value = "0"');
  await page.click("#line-connect");
  await page.until(isConnected);
  await page.value('port.fail("NetworkError"), port.opened = null');
  await page.until(isNotConnected);
  await page.value("serial_connect({ target: port })");
  equal(await page.value(isConnected), false, "it isn't asked to connect again");
  await page.value('document.getElementById("line-again").checked = true');
  await page.value("serial_connect({ target: Object.assign(new FakePort(), { getInfo: () => ({ usbVendorId: 1, usbProductId: 2 }) }) })");
  equal(await page.value("[document.getElementById('line-connect').disabled, port.opened]"), [false, null], "another device isn't connected");
  await page.value("serial_connect({ target: port })");
  await page.until(isConnected);
  await page.click("#line-close");
  await page.until(isNotConnected);
  await page.value("serial_connect({ target: port })");
  equal(await page.value("[document.getElementById('line-connect').disabled, port.opened]"), [false, null], "after Disconnect it isn't connected either");
}, withDevice));

await check("line: Disconnect closes the device, and Connect opens it again", () => on("line", async (page) => {
  for (const milliseconds of [0, 1, 50]) {
    await page.value(`port.cancelMilliseconds = ${milliseconds}`);
    await page.click("#line-connect");
    await page.until(isConnected);
    await page.value("port.give(0, 2, 9, 0)");
    await page.until('document.getElementById("line-messages").textContent !== "0"');
    await page.click("#line-close");
    await page.until(isNotConnected);
    equal(await page.value("port.opened"), null, "the port");
    equal(await said(page), "", "what is wrong");
    equal(await page.value("document.activeElement.id"), "line-connect", "the focus");
  }
}, withDevice));

await check("line: messages that are sent while one is under way go out too, and Disconnect waits for nothing", () => on("line", async (page) => {
  await page.value("port.writeMilliseconds = 300");
  await page.click("#line-connect");
  await page.until(isConnected);
  for (const text of ["one", "two", "three"]) {
    await page.fill("#line-text", text);
    await page.press("Enter");
  }
  await page.until("port.sent.join() === '4,111,110,101,0,4,116,119,111,0,6,116,104,114,101,101,0'");
  await counter(page, "sent", 3);
  await page.value("port.writeMilliseconds = 700");
  await page.fill("#line-text", "four");
  await page.press("Enter");
  await page.click("#line-close");
  await page.until(isNotConnected);
  equal(await page.value("port.opened"), null, "the port");
  equal(await said(page), "", "what is wrong");
}, withDevice));

await check("line: a message that waits when Disconnect is pressed is named, and not counted as sent", () => on("line", async (page) => {
  await page.click("#line-connect");
  await page.until(isConnected);
  await page.value("port.hold = (signal) => (globalThis.isWriting = true, new Promise((done) => signal.addEventListener('abort', done)))");
  for (const text of ["one", "two"]) {
    await page.fill("#line-text", text);
    await page.press("Enter");
  }
  await page.until("globalThis.isWriting");
  await page.click("#line-close");
  await page.until(isNotConnected);
  await page.until('document.getElementById("line-text-error").textContent === "“two” was not sent: the line was closed"');
  await counter(page, "sent", 1);
  equal(await page.value("port.sent.join()"), "4,111,110,101,0", "what went out");
}, withDevice));

await check("line: hex takes bytes in any form", () => on("line", async (page) => {
  await page.click("#line-loop");
  await page.until(isConnected);
  await page.click('input[name="line-kind"][value="hex"]');
  await page.fill("#line-text", "{0x0a, 0x0b}");
  await page.press("Enter");
  await counter(page, "messages", 1);
  equal((await cameIn(page)), [["··", "0a 0b"]], "what came in");
}));

await check("line: after a fault of the line the rest of the frame isn't taken for a message", () => on("line", async (page) => {
  await page.click("#line-connect");
  await page.until(isConnected);
  await page.value("port.give(0, 2, 7, 0, 5, 1, 2)");
  await counter(page, "messages", 1);
  await page.value('port.fail("BreakError")');
  await page.until('document.getElementById("line-error").textContent.includes("the BreakError")');
  await page.value("port.give(2, 9, 0, 2, 8, 0)");
  await counter(page, "messages", 2);
  equal((await logged(page)).map(([, , what]) => what), ["·", "left out", "·"], "the rows");
  equal(await counts(page), [2, 0, 0, 0], "messages, broken, too long, sent");
  await page.value('port.fail("NetworkError")');
  await page.until(isNotConnected);
  holds((await said(page)).includes("the NetworkError"), "the reason stays");
}, withDevice));

await check("line: the newest 1,000 rows are kept, and rows in sight stay while others come", () => on("line", async (page) => {
  await page.click("#line-connect");
  await page.until(isConnected);
  await page.value("port.give(0); for (let i = 1; i <= 1200; i++) port.give(3, 1 + (i >> 8), 1 + (i & 127), 0)");
  await counter(page, "messages", "1,200");
  const numbers = () => page.value('[...document.querySelectorAll("#line-log .row .number")].map((each) => Number(each.textContent))');
  await page.until('[...document.querySelectorAll("#line-log .row .number")].at(-1).textContent === "1200"');
  await page.value('document.getElementById("line-log").scrollTop = 0');
  await page.until('document.querySelector("#line-log .row .number").textContent === "201"');
  await page.value('document.getElementById("line-log").scrollTop = 6000');
  await page.until('document.querySelector("#line-log .row .number").textContent === "398"');
  await page.value("port.give(2, 9, 0, 2, 9, 0, 2, 9, 0)");
  await counter(page, "messages", "1,203");
  await page.until('document.getElementById("line-log").scrollTop === 6000 - 90');
  equal((await numbers())[0], 398, "the first row in the document");
  await page.click("#line-pause");
  await page.value("port.give(2, 9, 0)");
  await counter(page, "messages", "1,204");
  equal((await numbers())[0], 398, "the first row in the document, in a pause");
  await page.click("#line-clear");
  await page.click("#line-pause");
  await page.until('document.querySelectorAll("#line-log .row").length === 0');
}, withDevice));

await check("line: a row opens, UTF-8 is text, and a log is saved and loaded", () => on("line", async (page) => {
  await page.click("#line-loop");
  await page.until(isConnected);
  await page.fill("#line-text", "héllo wörld ✓");
  await page.press("Enter");
  await counter(page, "messages", 1);
  await page.fill("#line-text", "x".repeat(100));
  await page.press("Enter");
  await counter(page, "messages", 2);
  await page.until('document.querySelectorAll("#line-log .row").length === 4');
  holds((await logged(page)).some(([, , text]) => text === "héllo wörld ✓"), "UTF-8 is shown as text");
  await page.click("#line-log");
  await page.press("Home");
  await page.press("End");
  await page.until('document.getElementById("line-opened-text").textContent.length === 100');
  equal(await page.value('document.getElementById("line-log").getAttribute("aria-activedescendant")'), "line-row-4", "the row that is named");
  await page.click("#line-row-1 .text");
  await page.until('document.getElementById("line-opened-text").textContent === "héllo wörld ✓"');
  const rows = await logged(page);
  await page.value("URL.createObjectURL = (blob) => (globalThis.saved = blob.text(), 'data:,')");
  await page.value("HTMLAnchorElement.prototype.click = () => {}");
  await page.click("#line-save");
  const text = await page.value("saved");
  equal(text.split("\n").length, 5, "lines");
  const folder = await mkdtemp(join(tmpdir(), "jcobs-log-"));
  try {
    await writeFile(join(folder, "line.log"), `${text}2026-11-23T10:00:00.000Z in # broken: after 3 bytes of output\n`);
    await page.click("#line-clear");
    const { root } = await page.send("DOM.getDocument");
    const { nodeId } = await page.send("DOM.querySelector", { nodeId: root.nodeId, selector: "#line-load" });
    await page.send("DOM.setFileInputFiles", { files: [join(folder, "line.log")], nodeId });
    await page.until('document.querySelectorAll("#line-log .row").length === 5');
    equal((await logged(page)).slice(0, 4), rows, "the rows");
    equal((await logged(page))[4].slice(1), ["←", "broken", "after 3 bytes of output"], "the last");
    await writeFile(join(folder, "line.log"), "nonsense\n");
    await page.send("DOM.setFileInputFiles", { files: [join(folder, "line.log")], nodeId });
    await page.until('document.getElementById("line-error").textContent.includes("Line 1 isn\'t a line of a log")');
  } finally {
    await rm(folder, { recursive: true });
  }
}));

await check("line: a browser without Web Serial is told so, and has the loop", () => on("line", async (page) => {
  equal(await page.value('document.getElementById("line-connect").disabled'), true, "Connect is off");
  holds((await page.text("#line-lacking")).includes("no Web Serial"), "it says why");
  equal(await page.value('document.getElementById("line-lacking").hidden'), false, "in sight");
}, { before: "delete Navigator.prototype.serial" }));

await check("line: what came in is shown in Stream, from the view, from a saved log, and from one that is pasted", () => on("line", async (page) => {
  await page.fill("#line-sentinel", "55");
  await page.fill("#line-room", "5");
  await page.click("#line-connect");
  await page.until(isConnected);
  await page.value(`port.give(${xored([9, 0, 3, 104], 0x55)})`);
  await page.value(`port.give(${xored([105, 0, 5, 1], 0x55)})`);
  await page.value(`port.give(${xored([0, 0, 7, 1, 2, 3, 4, 5, 6, 0, 2, 7, 0, 2], 0x55)})`);
  await counter(page, "messages", 2);
  await counter(page, "too-long", 1);
  await page.fill("#line-text", "sent");
  await page.press("Enter");
  await counter(page, "sent", 1);
  await page.until('document.querySelectorAll("#line-log .row").length === 6');
  await page.click("#line-row-3");
  await page.until(`document.getElementById("line-opened-hex").textContent === "${xored([5, 1, 0], 0x55).split(",").map((byte) => Number(byte).toString(16).padStart(2, "0")).join(" ")}"`);
  await page.value("URL.createObjectURL = (blob) => (globalThis.saved = blob.text(), 'data:,')");
  await page.value("HTMLAnchorElement.prototype.click = () => {}");
  await page.click("#line-save");
  const log = await page.value("saved");
  const isShown = async () => {
    await summary(page, "18 bytes, 4 pieces: 2 messages, 1 broken, 1 too long. Read as a log: 4 rows received, and 1 without bytes.");
    equal(await badges(page), ["message", "broken", "too long", "message"], "the badges");
  };
  await page.click("#line-stream");
  await page.until('!document.getElementById("stream").hidden && document.activeElement.id === "tab-stream"');
  equal(await page.value('[document.getElementById("stream-sentinel").value, document.getElementById("stream-room").value]'), ["55", "5"], "the sentinel and the buffer");
  await isShown();
  await fillStream(page, "00");
  await summary(page, "0 pieces.");
  const folder = await mkdtemp(join(tmpdir(), "jcobs-log-"));
  try {
    await writeFile(join(folder, "line.log"), log);
    const { root } = await page.send("DOM.getDocument");
    const { nodeId } = await page.send("DOM.querySelector", { nodeId: root.nodeId, selector: "#stream-file" });
    await page.send("DOM.setFileInputFiles", { files: [join(folder, "line.log")], nodeId });
    await isShown();
  } finally {
    await rm(folder, { recursive: true });
  }
  await fillStream(page, "00");
  await summary(page, "0 pieces.");
  await fillStream(page, log);
  await isShown();
  await fillStream(page, `${log}2026-11-23T10:00:00.000Z in 0g\n`);
  await page.until('document.getElementById("stream-error").textContent.includes("Line 7 isn\'t a line of a log")');
}, { ...withDevice, height: 1600 }));
