// Tests the view Stream in Chromium.
import { mkdtemp, rm, writeFile } from "node:fs/promises";
import { tmpdir } from "node:os";
import { join } from "node:path";
import { encode as plainEncode } from "./plain.js";
import { equal, holds } from "./tally.mjs";
import { READY, STREAM, address, badges, browser, check, fillStream, hex, on, outcomes, summary, timed } from "./page-setup.mjs";

const TALL = { height: 1600 }; // so that all pieces are in sight
const isByte = (page, at, digits) => page.until(`document.getElementById("stream-byte-${at}").getAttribute("aria-label").startsWith("Byte ${at}: ${digits},")`);

await check("stream: pieces and their outcomes over a buffer", () => on("stream", async (page) => {
  await page.fill("#stream-room", "5");
  await fillStream(page, STREAM);
  await summary(page, "28 bytes, 5 pieces: 3 messages, 1 broken, 1 too long. The last bytes have no sentinel");
  equal(await badges(page), ["message", "message", "message", "broken", "too long", "unfinished"], "the badges");
  holds((await outcomes(page))[0].includes("4 bytes") && (await outcomes(page))[0].includes("0a 0b 00 0c"), "the first message is shown");
  await page.fill("#stream-room", "6");
  await summary(page, "5 pieces: 4 messages, 1 broken.");
}));

await check("stream: a damaged byte changes its piece alone, and is mended", () => on("stream", async (page) => {
  await fillStream(page, STREAM);
  await summary(page, "5 pieces: 4 messages, 1 broken");
  const before = await outcomes(page);
  await page.click("#stream-byte-8");
  await summary(page, "1 byte damaged: 4 of the 5 pieces still have the same outcome");
  const after = await outcomes(page);
  equal(after.filter((row, i) => row !== before[i]).length, 1, "changed rows");
  holds(after[1].includes("broken"), "a code that is one too great breaks its piece");
  equal(await page.value('document.getElementById("stream-byte-8").getAttribute("aria-selected")'), "true", "the byte is marked");
  await page.click("#stream-byte-8");
  await summary(page, "4 messages, 1 broken");
  equal(await outcomes(page), before, "all is as before");
  await page.value('document.getElementById("stream-damage").value = "zero"');
  await page.click("#stream-byte-3");
  await summary(page, "4 of the 5 pieces still have the same outcome");
  await page.click("#stream-mend");
  await page.until('document.getElementById("stream-mend").disabled');
  equal(await outcomes(page), before, "all is mended");
}));

await check("stream: a damaged sentinel joins two pieces", () => on("stream", async (page) => {
  await fillStream(page, STREAM);
  await summary(page, "5 pieces");
  await page.click("#stream-byte-5");
  await summary(page, "1 byte damaged: 3 of the 5 pieces still have the same outcome");
}));

await check("stream: another sentinel", () => on("stream", async (page) => {
  await fillStream(page, STREAM);
  await summary(page, "5 pieces: 4 messages, 1 broken");
  const before = await outcomes(page);
  await page.fill("#stream-sentinel", "55");
  await summary(page, "0 pieces");
  await fillStream(page, STREAM.split(" ").map((pair) => (parseInt(pair, 16) ^ 0x55).toString(16).padStart(2, "0")).join(" "));
  await summary(page, "28 bytes, 5 pieces: 4 messages, 1 broken. The last bytes have no sentinel");
  equal(await outcomes(page), before, "the outcomes");
  const marked = (name) => page.value(`[...document.querySelectorAll("#stream-pieces .byte.${name}")].map((each) => Number(each.dataset.at))`);
  equal(await marked("end"), [5, 10, 11, 15, 18, 26], "the sentinels");
  equal(await marked("code"), [0, 3, 6, 8, 12, 16, 19, 27], "the codes");
  await page.value('document.getElementById("stream-damage").value = "sentinel"');
  await page.click("#stream-byte-1");
  await isByte(page, 1, "55");
  await summary(page, "1 byte damaged");
}, TALL));

await check("stream: the example has the sentinel that is set", () => on("stream", async (page) => {
  await summary(page, "142 bytes, 7 pieces: 5 messages, 1 broken, 1 too long. The last bytes have no sentinel");
  await page.fill("#stream-sentinel", "aa");
  await summary(page, "0 pieces.");
  await page.click("#stream-example");
  await summary(page, "142 bytes, 7 pieces: 5 messages, 1 broken, 1 too long. The last bytes have no sentinel");
}));

await check("stream: sentinels after the last frame are no unfinished piece", () => on("stream", async (page) => {
  for (const [text, said, wanted] of [
    ["03 0a 0b 00 00", "1 piece: 1 message.", ["message", "idle"]],
    ["00 00", "0 pieces.", ["idle"]],
    ["00 00 01 00 00 02", "1 piece: 1 message. The last bytes have no sentinel", ["message", "unfinished"]],
    ["05 00 05 01 00", "2 pieces: 2 broken.", ["broken", "broken"]],
  ]) {
    await fillStream(page, text);
    await summary(page, said);
    equal(await badges(page), wanted, `the badges of ${text}`);
    equal((await page.text("#stream-status")).includes("no sentinel"), wanted.includes("unfinished"), "what the line above says of its end");
  }
  equal((await outcomes(page)).map((row) => row.replace(/^\d+/, "")), ["brokenafter 0 bytes of output", "brokenafter 1 byte of output"], "the outcomes");
}));

await check("stream: each kind of damage writes what it says", () => on("stream", async (page) => {
  await fillStream(page, STREAM);
  await summary(page, "5 pieces");
  for (const [how, at, wanted] of [["flip", 1, "0b"], ["zero", 2, "00"], ["ff", 4, "ff"], ["sentinel", 9, "00"]]) {
    await page.value(`document.getElementById("stream-damage").value = "${how}"`);
    await page.click(`#stream-byte-${at}`);
    await isByte(page, at, wanted);
  }
}));

await check("stream: damage that makes another message is called so", () => on("stream", async (page) => {
  await fillStream(page, STREAM);
  await summary(page, "5 pieces");
  await page.click("#stream-byte-1");
  await summary(page, "4 of the 5 pieces still have the same outcome. 1 message that nobody sent");
  equal(await badges(page), ["altered message", "message", "message", "broken", "message", "unfinished"], "the badges");
  await page.click("#stream-byte-1");
  await summary(page, "4 messages, 1 broken");
  await page.click("#stream-byte-5"); // a sentinel becomes 01: two frames become one message
  await summary(page, "3 of the 5 pieces still have the same outcome. 1 message that nobody sent");
  equal((await badges(page))[0], "altered message", "the first badge");
}));

await check("stream: a list that is higher than browsers draw", () => on("stream", async (page) => {
  const count = 120_000; // of 2 rows each, 36 pixels high
  await fillStream(page, "01 00 ".repeat(count));
  await summary(page, `${count.toLocaleString("en")} pieces: ${count.toLocaleString("en")} messages`);
  const inSight = (at) => page.until(`(() => {
    const box = document.getElementById("stream-pieces").getBoundingClientRect();
    const cell = document.getElementById("stream-byte-${at}")?.getBoundingClientRect();
    return cell && cell.top >= box.top - 1 && cell.bottom <= box.bottom + 1;
  })()`);
  await page.click("#stream-pieces");
  await page.press("End");
  await inSight(2 * count - 1);
  await page.press("ArrowUp");
  for (let i = 0; i < 8; i++) await page.press("PageUp");
  const at = await page.value('document.getElementById("stream-pieces").getAttribute("aria-activedescendant").match(/\\d+/)[0]');
  holds(at < 2 * count - 50, "Page Up leads up");
  await inSight(at);
  await page.press("Home");
  await inSight(0);
  await page.value('(() => { const box = document.getElementById("stream-pieces"); box.scrollTop = (box.scrollHeight - box.clientHeight) / 2; })()');
  await inSight(count);
  const rows = await page.value('[...document.querySelectorAll("#stream-pieces .row")].map((row) => [row.classList.contains("outcome"), row.getBoundingClientRect().top])');
  const steps = new Set(rows.slice(1).map(([, top], i) => `${rows[i][0] ? "outcome" : "bytes"} ${Math.round(top - rows[i][1])}`));
  equal([...steps].sort(), ["bytes 93", "outcome 36"], "how far rows are from each other");
}));

await check("stream: a link gives the same stream with its damage", () => on("stream", async (page) => {
  await page.fill("#stream-room", "5");
  await fillStream(page, STREAM);
  await summary(page, "1 too long");
  await page.click("#stream-byte-8");
  await summary(page, "1 byte damaged");
  await page.click("#stream-share");
  await page.until('document.getElementById("stream-copied").textContent === "The link is copied."');
  const [rows, said] = [await outcomes(page), await page.text("#stream-status")];
  const other = await browser.open(await page.value("navigator.clipboard.readText()"));
  await other.until(READY);
  await other.until(`document.getElementById("stream-status").textContent === ${JSON.stringify(said)}`);
  equal(await outcomes(other), rows, "the outcomes");
  await other.close();
  await fillStream(page, "02 07 00 01");
  await summary(page, "4 bytes, 1 piece");
  await page.click("#stream-byte-1");
  await summary(page, "1 byte damaged");
  for (const [form, wanted] of [["hex", "02 06 00 01"], ["c", "static const unsigned char stream[4] = {0x02, 0x06, 0x00, 0x01};\n"], ["rust", "const STREAM: [u8; 4] = [0x02, 0x06, 0x00, 0x01];\n"], ["python", 'stream = bytes.fromhex("02 06 00 01")\n']]) {
    await page.value(`document.getElementById("stream-copied").textContent = "", document.getElementById("stream-form").value = "${form}"`);
    await page.click("#stream-copy");
    await page.until('document.getElementById("stream-copied").textContent === "4 bytes copied."');
    equal(await page.value("navigator.clipboard.readText()"), wanted, form);
  }
}));

await check("stream: a link that was cut or changed has its complaint, and the page works", () => on("stream", async (page) => {
  for (const [link, words] of [
    ["hex=030a0b020", "“0” is one digit"],
    ["hex=<img src=x onerror=alert(1)>", "list of bytes"],
    ["hex=030a0b00&sentinel=zz", "“zz” isn't a sentinel"],
    ["hex=030a0b00&sentinel=0", "“0” isn't a sentinel"],
    ["hex=030a0b00&room=abc", "whole number"],
    ["hex=030a0b00&room=-1", "whole number"],
    ["hex=030a0b00&room=99999999&damage=1:ff,9:00,x", "whole number"],
  ]) {
    const other = await browser.open(`${address}#stream&${link}`);
    await other.until(READY);
    await other.until(`[...document.querySelectorAll("#stream .error")].some((each) => !each.hidden && each.textContent.includes(${JSON.stringify(words)}))`);
    equal(await other.value('document.getElementById("unsupported").hidden'), true, "nothing else is wrong");
    for (const [name, value] of [["sentinel", "00"], ["room", "64"]]) await other.fill(`#stream-${name}`, value);
    await other.click("#stream-example");
    await summary(other, "142 bytes, 7 pieces");
    equal(other.faults, [], "what the page complained of on its console");
    await other.close();
  }
  equal(await page.value("location.hash.startsWith('#stream')"), true, "the address");
}));

await check("stream: damage of a piece's first byte leaves the piece before it alone", () => on("stream", async (page) => {
  await fillStream(page, STREAM);
  await summary(page, "5 pieces");
  await page.click("#stream-byte-6"); // the first byte of the second piece
  await summary(page, "1 byte damaged: 4 of the 5 pieces still have the same outcome");
  equal((await badges(page)).slice(0, 2), ["message", "broken"], "the badges");
}));

await check("stream: nothing is copied of no bytes", () => on("stream", async (page) => {
  await page.fill("#stream-input", "");
  await summary(page, "0 bytes, 0 pieces.");
  await page.value('document.getElementById("stream-form").value = "c"');
  await page.click("#stream-copy");
  await page.until('document.getElementById("stream-copied").textContent === "There is nothing to copy."');
}));

await check("stream: arcs lead from code to code, and each byte is explained", () => on("stream", async (page) => {
  for (const sentinel of [0, 0x55]) {
    await page.fill("#stream-sentinel", sentinel.toString(16).padStart(2, "0"));
    await fillStream(page, STREAM.split(" ").map((pair) => hex([parseInt(pair, 16) ^ sentinel])).join(" "));
    await page.until('document.querySelectorAll("#stream-pieces .byte").length === 28 && document.getElementById("stream-status").textContent.includes("5 pieces")');
    const arcs = '[...document.querySelectorAll("#stream-pieces .row")].map((row) => [row.querySelectorAll(".arc:not(.bad)").length, row.querySelectorAll(".arc.bad").length])';
    const wanted = JSON.stringify([[2, 0], [2, 0], [1, 0], [0, 1], [1, 0], [0, 1]]); // whole and broken ones, of each piece
    await page.until(`JSON.stringify(${arcs}.filter(([good, bad]) => good + bad > 0)) === ${JSON.stringify(wanted)}`);
    await page.value('document.getElementById("stream-pieces").focus()');
    await page.press("Home");
    for (const words of ["the first code. The next code, or the end, is 3 bytes after it.", "byte 0 of the message", "byte 1 of the message", "a code, in place of a zero of the message. The next code, or the end, is 2 bytes after it.", "byte 3 of the message", "the sentinel. It ends piece 1."]) {
      await page.until(`document.getElementById("stream-explained").textContent.includes(${JSON.stringify(words)})`);
      await page.press("ArrowRight");
    }
    await page.press("End");
    await page.until('document.getElementById("stream-explained").textContent.includes("It leads past the bytes of the piece so far: 1 byte missing.")');
    for (let i = 0; i < 11; i++) await page.press("ArrowLeft");
    await page.until('document.getElementById("stream-explained").textContent.includes("It leads past the end of the piece, which is broken: 3 bytes missing.")');
  }
}, TALL));

await check("stream: by the keyboard alone", () => on("stream", async (page) => {
  await fillStream(page, STREAM);
  await summary(page, "5 pieces");
  for (let i = 0; i < 20; i++) {
    if ((await page.value("document.activeElement.id")) === "stream-pieces") break;
    await page.press("Tab");
  }
  equal(await page.value("document.activeElement.id"), "stream-pieces", "Tab leads to the pieces");
  for (let i = 0; i < 8; i++) await page.press("ArrowRight");
  equal(await page.value('document.getElementById("stream-pieces").getAttribute("aria-activedescendant")'), "stream-byte-8", "the byte that is named");
  await page.press("Enter");
  await summary(page, "1 byte damaged: 4 of the 5 pieces");
  await page.press(" ");
  await page.press("End");
  equal(await page.value('document.getElementById("stream-pieces").getAttribute("aria-activedescendant")'), "stream-byte-27", "the last byte");
  holds((await page.value('document.getElementById("stream-byte-27").getAttribute("aria-label")')) === "Byte 27: 02, code, piece 6: unfinished no sentinel yet", "what it is called");
}));

await check("stream: bad hex is named, and nothing is lost", () => on("stream", async (page) => {
  await fillStream(page, STREAM);
  await summary(page, "5 pieces");
  await page.click("#stream-byte-8");
  await summary(page, "1 byte damaged");
  const before = await outcomes(page);
  await page.click("#stream-input");
  await page.press("End", 2);
  await page.type(" 0q");
  await page.until('document.getElementById("stream-error").textContent.includes("“q” isn\'t a hexadecimal digit")');
  equal(await page.value('document.getElementById("stream-input").value'), `${STREAM} 0q`, "what the field holds");
  equal(await outcomes(page), before, "the pieces, damage too, stand as before");
  await page.press("Backspace");
  await page.press("Backspace");
  await page.press("Backspace");
  await page.until('document.getElementById("stream-error").hidden');
  equal(await outcomes(page), before, "and the damage is still there");
  await page.fill("#stream-room", "");
  await page.until('document.getElementById("stream-room-error").textContent.includes("whole number")');
}));

await check("stream: 1 MB is pasted, and a byte at its end damaged", () => on("stream", async (page) => {
  const frame = [...plainEncode(Buffer.from("0123456789abc")), 0];
  const count = Math.floor((1 << 20) / frame.length);
  const text = `${hex(frame)} `.repeat(count);
  await page.value(`navigator.clipboard.writeText(${JSON.stringify(text)})`);
  await page.click("#stream-input");
  await page.selectAll();
  const { pause, busy } = await timed(page, async () => {
    await page.send("Input.dispatchKeyEvent", { type: "keyDown", key: "v", code: "KeyV", windowsVirtualKeyCode: 86, modifiers: 2, commands: ["paste"] });
    await summary(page, `${count.toLocaleString("en")} pieces: ${count.toLocaleString("en")} messages`);
    await page.click("#stream-byte-1");
    await summary(page, "1 byte damaged");
    await page.press("End");
    await page.press("ArrowLeft");
    await page.press("Enter");
    await summary(page, "2 bytes damaged");
    await page.press("Home");
    await page.until(`(() => {
      const box = document.getElementById("stream-pieces").getBoundingClientRect();
      const { top, bottom } = document.getElementById("stream-byte-0").getBoundingClientRect();
      return top >= box.top && bottom <= box.bottom;
    })()`);
  });
  console.log(`page: 1 MB in ${count} pieces: the longest pause between two frames was ${Math.round(pause)} ms, processor time ${Math.round(busy)} ms`);
  holds(busy < 2500, `the page was busy for ${busy} ms`);
  const rows = await page.value('document.querySelectorAll("#stream-pieces .row").length');
  holds(rows > 0 && rows < 80, `${rows} rows are in the document`);
}));

await check("stream: a file", async () => {
  const folder = await mkdtemp(join(tmpdir(), "jcobs-file-"));
  try {
    await writeFile(join(folder, "stream.bin"), Buffer.from("030a0b020c00020700", "hex"));
    await on("stream", async (page) => {
      const { root } = await page.send("DOM.getDocument");
      const { nodeId } = await page.send("DOM.querySelector", { nodeId: root.nodeId, selector: "#stream-file" });
      await page.send("DOM.setFileInputFiles", { files: [join(folder, "stream.bin")], nodeId });
      await summary(page, "9 bytes, 2 pieces: 2 messages.");
      const drop = async (type) => page.send("Input.dispatchDragEvent", { type, x: 300, y: 300, data: { items: [], files: [join(folder, "stream.bin")], dragOperationsMask: 1 } });
      await fillStream(page, "01 00");
      await summary(page, "2 bytes, 1 piece: 1 message.");
      for (const type of ["dragEnter", "dragOver", "drop"]) await drop(type);
      await summary(page, "9 bytes, 2 pieces: 2 messages.");
    });
  } finally {
    await rm(folder, { recursive: true });
  }
});
