// Tests the canvas of the views Message and Stream in Chromium: the explanations of bytes, and changes of bytes.
import { equal, holds } from "./tally.mjs";
import { STREAM, badges, check, chooseHex, chooseText, fillStream, on, summary } from "./page-setup.mjs";

const explained = (page, view, words) => page.until(`document.getElementById("${view}-explained").textContent.includes(${JSON.stringify(words)})`);
const cursor = (page, box) => page.value(`document.getElementById("${box}").getAttribute("aria-activedescendant")`);
const isFrame = (page, digits) => page.until(`document.getElementById("message-frame").textContent === "${digits}"`);
const isMessage = (page, text) => page.until(`document.getElementById("message-input").value === ${JSON.stringify(text)}`);

/** Moves the mouse to the middle of an element, and returns this position. */
async function point(page, selector) {
  const place = await page.placeOf(selector);
  await page.send("Input.dispatchMouseEvent", { type: "mouseMoved", ...place });
  return place;
}

/** Returns the position of an element in the page, independent of scrolling. */
const boxOf = (page, id) => page.value(`(({ left, top, width, height }) => [left + scrollX, top + scrollY, width, height])(document.getElementById("${id}").getBoundingClientRect())`);

for (const [sentinel, over, code] of [["00", "0b: the frame has it as it is.", "Byte 3, 02: a code"], ["aa", "0b: the frame has it XORed with the sentinel, as a1.", "Byte 3, a8 (02 XORed with the sentinel): a code"]]) {
  await check(`canvas: each byte is explained under the mouse, with the sentinel ${sentinel}`, () => on("message", async (page) => {
    await page.fill("#message-sentinel", sentinel);
    await page.until(`document.getElementById("message-byte-5").getAttribute("aria-label").includes("${sentinel}, sentinel")`);
    for (const [place, words] of [
      ["#message-byte-0", "the first code. The next code, or the end, is 3 bytes after it."],
      ["#message-byte-1", sentinel === "00" ? "Byte 1, 0a: byte 0 of the message, as it is." : "Byte 1, a0 (0a XORed with the sentinel): byte 0 of the message."],
      ["#message-byte-3", `${code}, in place of a zero of the message. The next code, or the end, is 2 bytes after it.`],
      ["#message-byte-5", "the sentinel. It ends piece 1."],
      ["#message-over-2", `Byte 1 of the message, ${over}`],
      ["#message-over-3", "Byte 2 of the message, 00: a zero, which the frame replaces by a code."],
      ["#message-drawing .spot.none", "The first code stands for no byte of the message."],
    ]) {
      await point(page, place);
      await explained(page, "message", words);
    }
    await point(page, "#message-input");
    await explained(page, "message", "the first code"); // that of the cursor
  }));
}

for (const [name, options] of [["a phone", { width: 360, isPhone: true }], ["a small window", { width: 900 }], ["a computer", { width: 1280, height: 800 }]]) {
  await check(`canvas: neither status nor explanation moves a byte of a message, on ${name}`, () => on("message", async (page) => {
    const said = (words) => page.until(`document.getElementById("message-status").textContent === "510 bytes in a frame of 513 bytes: 3 blocks.${words}"`);
    await chooseHex(page);
    await page.click("#message-input");
    await page.selectAll();
    await page.paste("09 ".repeat(510)); // no frame, so that nothing is offered
    await said("");
    const before = await boxOf(page, "message-drawing");
    await page.fill("#message-sentinel", "aa");
    await said(" Each byte of the frame is XORed with aa, so no frame contains aa.");
    equal(await boxOf(page, "message-drawing"), before, "the place of the drawing, after a longer status");
    const columns = await page.value('document.querySelectorAll("#message-drawing .row:first-child .frame .spot").length');
    for (const [line, place, words] of [
      [0, "#message-byte-0", "It marks a full block"],
      [0, "#message-over-1", "Byte 0 of the message, 09"],
      [0, "#message-drawing .spot.none", "The first code stands"],
      [Math.floor(255 / columns), "#message-byte-255", "a code after a full block, where the message has no zero. It marks a full block"],
    ]) {
      await page.value(`document.getElementById("message-drawing").scrollTop = ${93 * line}`);
      await point(page, place);
      await explained(page, "message", words);
      equal(await boxOf(page, "message-drawing"), before, `the place of the drawing, with the mouse on ${place}`);
    }
  }, options));
  await check(`canvas: a click damages a byte, and one at the same place mends it, on ${name}`, () => on("stream", async (page) => {
    const whole = "28 bytes, 5 pieces: 4 messages, 1 broken. The last bytes have no sentinel after them yet.";
    const said = (words) => page.until(`document.getElementById("stream-status").textContent === "${whole}${words}"`);
    await fillStream(page, STREAM);
    await said("");
    await page.click("#stream-share");
    await page.until('document.getElementById("stream-copied").textContent === "The link is copied."');
    const place = await point(page, "#stream-byte-1");
    await explained(page, "stream", "Byte 1, 0a: byte 0 of the message");
    const before = await boxOf(page, "stream-pieces");
    await page.clickAt(place);
    await said(" 1 byte damaged: 4 of the 5 pieces still have the same outcome. 1 message that nobody sent: COBS doesn't notice such damage, but a CRC in the message shows it.");
    equal(await boxOf(page, "stream-pieces"), before, "the place of the pieces, after a longer status");
    await page.clickAt(place);
    await said("");
    equal(await page.value('document.querySelectorAll("#stream-pieces [aria-selected=true]").length'), 0, "damaged bytes");
  }, options));
}

await check("canvas: the arrow keys go through frame and message", () => on("message", async (page) => {
  await page.value('document.getElementById("message-drawing").focus()');
  for (const [key, wanted] of [
    ["Home", "byte-0"], ["ArrowUp", "byte-0"], ["ArrowRight", "byte-1"], ["ArrowUp", "over-1"], ["ArrowUp", "over-1"], ["ArrowRight", "over-2"], ["ArrowRight", "over-3"],
    ["ArrowRight", "over-4"], ["ArrowRight", "over-5"], ["ArrowRight", "over-5"], ["ArrowDown", "byte-5"], ["ArrowDown", "byte-5"], ["ArrowUp", "over-5"], ["ArrowLeft", "over-4"], ["End", "byte-5"],
  ]) {
    await page.press(key);
    equal(await cursor(page, "message-drawing"), `message-${wanted}`, `where ${key} leads`);
  }
  await chooseHex(page);
  await page.fill("#message-input", "01 ".repeat(300));
  await page.until('document.getElementById("message-length").dataset.bytes === "300"');
  const columns = await page.value('document.querySelector("#message-drawing .row").querySelectorAll(".frame .spot").length');
  await page.value('document.getElementById("message-drawing").focus()');
  for (const [key, wanted] of [["Home", "byte-0"], ["ArrowDown", `over-${columns}`], ["ArrowDown", `byte-${columns}`], ["ArrowDown", `over-${2 * columns}`], ["ArrowUp", `byte-${columns}`], ["End", "byte-302"], ["PageUp", null], ["PageDown", "byte-302"]]) {
    await page.press(key);
    if (wanted) equal(await cursor(page, "message-drawing"), `message-${wanted}`, `where ${key} leads`);
  }
  await page.press("ArrowUp");
  for (let i = 0; i < 46; i++) await page.press("ArrowLeft"); // from the end of the message over the code after the full block
  equal(await cursor(page, "message-drawing"), "message-over-256", "the byte after the code that stands for no zero");
  await explained(page, "message", "Byte 254 of the message, 01");
  await page.press("ArrowLeft");
  equal(await cursor(page, "message-drawing"), "message-over-254", "the byte before it");
  await page.press("ArrowDown");
  await page.press("ArrowRight");
  await explained(page, "message", "Byte 255, 2f: a code after a full block, where the message has no zero.");
}));

await check("canvas: Page Down and Page Up go as many lines as are in sight, to the same column", () => on("message", async (page) => {
  await chooseHex(page);
  await page.fill("#message-input", "01 00 ".repeat(1500));
  await page.until('document.getElementById("message-length").dataset.bytes === "3000"');
  const [columns, lines] = await page.value(`(() => {
    const box = document.getElementById("message-drawing");
    const [first, second] = [...box.querySelectorAll(".row")].map((row) => row.getBoundingClientRect().top);
    return [box.querySelector(".row .frame").children.length, Math.floor(box.clientHeight / (second - first))];
  })()`);
  holds(columns > 8 && lines > 3, `${columns} columns and ${lines} lines`);
  await page.value('document.getElementById("message-drawing").focus()');
  await page.press("ArrowRight");
  for (const [key, line] of [["PageDown", lines], ["PageDown", 2 * lines], ["PageUp", lines], ["PageUp", 0]]) {
    await page.press(key);
    equal(await cursor(page, "message-drawing"), `message-byte-${line * columns + 1}`, `where ${key} leads`);
  }
}));

await check("canvas: a screen reader hears the byte at the cursor, what it is for, and why it can't be changed", () => on("message", async (page) => {
  await page.value('document.getElementById("message-drawing").focus()');
  await page.press("Home");
  for (let i = 0; i < 3; i++) await page.press("ArrowRight");
  const nodes = async () => (await page.send("Accessibility.getFullAXTree")).nodes.filter((node) => !node.ignored);
  const found = (await nodes()).find((node) => node.name?.value === "Byte 3: 02, code");
  holds(found.description?.value.startsWith("Byte 3, 02: a code, in place of a zero of the message."), `its description is ${found.description?.value}`);
  const active = (await nodes()).find((node) => node.name?.value === "The frame, and above it its message").properties.find(({ name }) => name === "activedescendant");
  equal(active.value.relatedNodes.map(({ idref }) => idref), ["message-byte-3"], "the active one");
  await page.type("09");
  await page.press("ArrowUp");
  await page.type("00");
  equal([await page.value('document.getElementById("message-fault").getAttribute("role")'), (await page.text("#message-fault")).slice(0, 19)], ["status", "There is no message"], "what says why");
}));

await check("canvas: two digits write a byte of the message or of the frame", () => on("message", async (page) => {
  await chooseHex(page);
  await page.fill("#message-sentinel", "aa");
  await isFrame(page, "a9 a0 a1 a8 a6");
  await page.fill("#message-sentinel", "00");
  await isFrame(page, "03 0a 0b 02 0c");
  await point(page, "#message-over-1");
  await page.click("#message-over-1");
  await page.type("00"); // a zero for 0a, and the cursor goes on
  await isFrame(page, "01 02 0b 02 0c");
  await point(page, "#message-over-1"); // where the mouse is: a browser says so again when the bytes under it change
  await explained(page, "message", "Byte 1 of the message, 0b");
  await page.type("4");
  await explained(page, "message", "4_: a second digit changes the byte");
  equal(await page.text("#message-over-2"), "4_", "what the place shows");
  await page.press("Escape");
  await explained(page, "message", "Byte 1 of the message, 0b");
  await page.type("4D");
  await isMessage(page, "00 4d 00 0c");
  equal(await cursor(page, "message-drawing"), "message-over-3", "the cursor after it");
  await page.press("End");
  await page.press("ArrowUp");
  await page.type("0e"); // after the last byte
  await isMessage(page, "00 4d 00 0c 0e");
  await page.press("Backspace");
  await isMessage(page, "00 4d 00 0c");
  await page.press("ArrowLeft");
  await page.press("Insert");
  await isMessage(page, "00 4d 00 00 0c");
  await page.press("Delete");
  await page.press("Delete");
  await isMessage(page, "00 4d 00");
  await isFrame(page, "01 02 4d 01");
  await page.press("Home");
  await page.type("03");
  await isFrame(page, "03 02 4d 01");
  await isMessage(page, "02 4d 00");
  equal(await cursor(page, "message-drawing"), "message-byte-1", "the cursor after it");
  await page.type("05");
  await isMessage(page, "05 4d 00");
}));

await check("canvas: a frame that is none is shown as it is, and the way back", () => on("message", async (page) => {
  await page.click("#message-byte-3");
  await page.type("09");
  await page.until('document.querySelector("#message-drawing .badge").textContent === "broken"');
  equal(await page.value('document.querySelectorAll("#message-drawing .arc.bad").length'), 1, "broken arcs");
  holds((await page.text("#message-frame-error")).startsWith("The frame breaks off inside a block: the code 09 (byte 3) announces 8 bytes, and only 1 follows."), "what is said");
  equal(await page.value('document.getElementById("message-input").value'), "0a 0b 00 0c", "the message");
  equal(await page.value('document.getElementById("message-frame-edit").value'), "03 0a 0b 09 0c", "the field of the frame");
  await point(page, "#message-over-4");
  await explained(page, "message", "Byte 3 of the output of the broken piece, 0c");
  await page.click("#message-over-4");
  await page.type("01");
  await page.until('document.getElementById("message-fault").textContent.startsWith("There is no message in piece 1 to change")');
  await page.click("#message-back");
  await page.until('document.querySelector("#message-drawing .badge") === null');
  await isFrame(page, "03 0a 0b 02 0c");
  equal(await page.value("[document.activeElement.id, document.getElementById('message-typed').hidden]"), ["message-drawing", true], "the focus, the way back");
  await page.click("#message-byte-2");
  await page.type("00"); // a sentinel: two pieces
  await page.until('document.querySelectorAll("#message-drawing .badge").length === 2');
  holds((await page.text("#message-frame-pieces")).startsWith("These are 2 pieces, with the sentinel 00 between them"), "what is said");
  await page.fill("#message-input", "07");
  await isFrame(page, "02 07");
  equal(await page.value("document.getElementById('message-frame-error').hidden"), true, "no complaint");
}));

await check("canvas: the longer frame of a message is shown, and said to be so", () => on("message", async (page) => {
  await chooseHex(page);
  await page.fill("#message-input", "01 ".repeat(254));
  await page.until('document.getElementById("message-length").dataset.bytes === "254"');
  await page.value('document.getElementById("message-drawing").focus()');
  await page.press("End"); // the sentinel
  await page.type("01");
  await page.until('document.getElementById("message-copied").textContent.includes("this is the longer one")');
  await page.until('document.getElementById("message-byte-256") !== null && document.querySelector("#message-drawing .badge") === null');
  equal(await page.value('document.getElementById("message-length").dataset.bytes'), "254", "the message's length");
  await page.until(`document.getElementById("message-copied").textContent.includes("this is the longer one")`);
}));

await check("canvas: what is text stays text, if it can", () => on("message", async (page) => {
  await chooseText(page);
  await page.fill("#message-input", "hello");
  await isFrame(page, "06 68 65 6c 6c 6f");
  await page.click("#message-over-1");
  await page.type("4a");
  await isMessage(page, "Jello");
  await page.type("ff");
  await isMessage(page, "4a ff 6c 6c 6f");
}));

await check("canvas: the field beside it writes the byte at the cursor, without a keyboard for the canvas", () => on("message", async (page) => {
  await page.click("#message-over-4");
  equal(await page.value('document.getElementById("message-byte").value'), "0c", "the byte");
  await page.fill("#message-byte", "0d");
  await isMessage(page, "0a 0b 00 0d");
  await page.type("0e"); // the old one was selected
  await isMessage(page, "0a 0b 00 0e");
  await page.click("#message-byte-1");
  await page.fill("#message-byte", "1f");
  await isFrame(page, "03 1f 0b 02 0e");
  await page.click("#message-byte-0");
  await page.fill("#message-byte", "05");
  await isMessage(page, "1f 0b 02 0e");
}));

await check("canvas: in a stream, digits in a frame are damage, and in a message another message", () => on("stream", async (page) => {
  await fillStream(page, STREAM);
  await summary(page, "5 pieces: 4 messages, 1 broken");
  await page.click("#stream-over-1");
  await explained(page, "stream", "Byte 0 of the message, 0a");
  await page.type("00");
  await page.until('document.getElementById("stream-input").value.startsWith("01 02 0b 02 0c 00")');
  await summary(page, "28 bytes, 5 pieces: 4 messages, 1 broken");
  equal(await page.value('document.getElementById("stream-mend").disabled'), true, "nothing is damaged");
  await page.click("#stream-byte-13"); // damage, by the click, in the third piece
  await summary(page, "1 byte damaged: 4 of the 5 pieces");
  await page.click("#stream-over-4");
  await page.press("Delete");
  await summary(page, "27 bytes, 5 pieces: 4 messages, 1 broken. The last bytes have no sentinel after them yet. 1 byte damaged: 4 of the 5 pieces");
  equal(await page.value('[...document.querySelectorAll("#stream-pieces [aria-selected=true]")].map((each) => each.id)'), ["stream-byte-12"], "the damaged byte, where it is now");
  equal((await page.value('document.getElementById("stream-input").value')).split("\n")[0], "01 02 0b 01 00", "the first line of the field");
  await page.click("#stream-over-12");
  await page.type("01");
  await page.until('document.getElementById("stream-fault").textContent === "Damage has changed piece 3: mend its bytes first."');
  await page.press("ArrowDown");
  await page.type("05"); // what was sent
  await summary(page, "27 bytes, 5 pieces: 4 messages, 1 broken. The last bytes have no sentinel after them yet.");
  await page.type("ff");
  await summary(page, "1 byte damaged");
  holds((await badges(page)).includes("altered message"), "a message that nobody sent");
}));
