// Tests the view Message in Chromium.
import { encode as plainEncode } from "./plain.js";
import { equal, holds } from "./tally.mjs";
import { BY_HAND, READY, browser, check, chooseHex, chooseText, hex, number, on, summary, timed } from "./page-setup.mjs";

const facts = async (page) => {
  const read = (name) => page.text(`#message-${name}`);
  return [number(await read("length")), number(await read("frame-length")), number(await read("greatest")), number(await read("blocks")), number(await read("full"))];
};

await check("message: text that is typed", () => on("message", async (page) => {
  await chooseText(page);
  await page.fill("#message-input", "hello");
  await page.until('document.getElementById("message-frame").textContent === "06 68 65 6c 6c 6f"');
  equal(await facts(page), [5, 6, 6, 1, 0], "the lengths");
  await page.until('document.getElementById("message-status").textContent.includes("5 bytes in a frame of 6 bytes: one block")');
}));

await check("message: the status is in sight at once, and spoken when it has settled", () => on("message", async (page) => {
  const texts = () => page.value('["length", "status", "spoken"].map((name) => document.getElementById(`message-${name}`).textContent)');
  const first = "4 bytes in a frame of 5 bytes: 2 blocks.";
  await page.value("doLater()");
  equal(await texts(), ["4 bytes", first, first], "the message's length, the status, and what is spoken");
  await chooseText(page);
  await page.click("#message-input");
  await page.selectAll();
  for (const [at, key] of [..."hello"].entries()) {
    await page.type(key);
    await page.until(`document.getElementById("message-length").dataset.bytes === "${at + 1}"`);
    const counted = `${at + 1} byte${at > 0 ? "s" : ""}`;
    equal(await texts(), [counted, `${counted} in a frame of ${at + 2} bytes: one block.`, first], `they after ${at + 1} keys`);
  }
  await page.value("doLater()");
  equal((await texts())[2], "5 bytes in a frame of 6 bytes: one block.", "what is spoken then");
  equal(await page.value('["status", "spoken"].map((name) => [document.getElementById(`message-${name}`).getAttribute("aria-hidden"), document.getElementById(`message-${name}`).getAttribute("role")])'), [["true", null], [null, "status"]], "who gets which");
}, { before: BY_HAND }));

await check("message: hex that is typed, and its drawing", () => on("message", async (page) => {
  await chooseHex(page);
  await page.fill("#message-input", "0A,0b 0x00:0c");
  await page.until('document.getElementById("message-frame").textContent === "03 0a 0b 02 0c"');
  equal(await facts(page), [4, 5, 5, 2, 0], "the lengths");
  const drawn = await page.value(`(() => {
    const svg = document.querySelector("#message-drawing svg");
    const texts = (selector) => [...svg.querySelectorAll(selector)].map((each) => each.textContent);
    return { codes: texts("text.on"), joints: texts("text.zero"), arcs: svg.querySelectorAll(".arc").length, blocks: svg.querySelectorAll(".edge").length };
  })()`);
  equal(drawn, { codes: ["03", "02"], joints: ["0"], arcs: 2, blocks: 2 });
  const labels = await page.value('[...document.querySelectorAll("#message-drawing [role=option]")].map((each) => each.getAttribute("aria-label"))');
  equal(labels, [
    ...["message byte 0: 0a", "message byte 1: 0b", "message byte 2: 00", "message byte 3: 0c", "end of the message"],
    ...["Byte 0: 03, code", "Byte 1: 0a", "Byte 2: 0b", "Byte 3: 02, code", "Byte 4: 0c", "Byte 5: 00, sentinel"],
  ], "what a screen reader hears");
}));

await check("message: a full block is marked, and the joint behind it stands for no zero", () => on("message", async (page) => {
  await page.click('[data-run="255"]');
  await page.until('document.getElementById("message-full").textContent === "1"');
  equal(await facts(page), [255, 257, 257, 2, 1], "the lengths");
  await page.click("#message-drawing");
  for (let i = 0; i < 6; i++) await page.press("PageDown");
  await page.until('[...document.querySelectorAll("#message-drawing text.note")].some((each) => each.textContent === "no 0")');
  equal(await page.value('document.querySelectorAll("#message-drawing text.zero").length'), 0, "joints with a zero in sight");
  await page.press("Home");
  await page.until('document.querySelector("#message-drawing .code.full") !== null');
}));

await check("message: another sentinel", () => on("message", async (page) => {
  await page.fill("#message-sentinel", "aa");
  await page.until('document.getElementById("message-frame").textContent === "a9 a0 a1 a8 a6"');
  equal(await facts(page), [4, 5, 5, 2, 0], "the lengths");
  await page.fill("#message-sentinel", "zz");
  await page.until('document.getElementById("message-sentinel-error").textContent.includes("zz")');
  equal(await page.text("#message-frame"), "a9 a0 a1 a8 a6", "the frame of the last good sentinel");
}));

await check("message: over the bytes are those of the message, whatever the sentinel", () => on("message", async (page) => {
  const over = () => page.value('[...document.querySelectorAll("#message-drawing text.over, #message-drawing text.zero")].map((each) => each.textContent).filter((text) => text)');
  for (const [sentinel, codes] of [["00", ["03", "02"]], ["aa", ["a9", "a8"]], ["03", ["00", "01"]]]) {
    await page.fill("#message-sentinel", sentinel);
    await page.until(`document.querySelector("#message-drawing text.on").textContent === "${codes[0]}"`);
    equal((await over()).slice(0, 4), ["0a", "0b", "0", "0c"], `with the sentinel ${sentinel}`);
    equal(await page.value('[...document.querySelectorAll("#message-drawing text.on")].map((each) => each.textContent)'), codes, "the codes");
  }
  await page.fill("#message-sentinel", "20");
  await page.click('[data-text="hello world"]');
  await page.until('[...document.querySelectorAll("#message-drawing text.over")].map((each) => each.textContent).join("").startsWith("hello20world")');
  const label = (lane) => page.value(`document.getElementById("message-${lane}-1").getAttribute("aria-label")`);
  equal([await label("over"), await label("byte")], ["message byte 0: 68", "Byte 1: 48"], "what a screen reader hears");
}));

await check("message: bad hex is named, and nothing is lost", () => on("message", async (page) => {
  await chooseHex(page);
  const cases = [["0a 0b\n00 0g", "line 2, column 5", "g"], ["0a 0b 1", "line 1, column 7", "01"], ["0a 0x", "0x", "digits"], ["0a 123", "odd number", "123"]];
  for (const [text, ...words] of cases) {
    await page.click("#message-input");
    await page.selectAll();
    await page.paste(text);
    await page.until(`document.getElementById("message-input").value === ${JSON.stringify(text)}`);
    for (const word of words) await page.until(`document.getElementById("message-error").textContent.includes(${JSON.stringify(word)})`);
    equal(await page.value('document.getElementById("message-input").getAttribute("aria-invalid")'), "true", "aria-invalid");
    equal(await page.text("#message-frame"), "03 0a 0b 02 0c", "the frame of the last good input");
  }
  await page.press("Backspace");
  await page.type("4");
  await page.until('document.getElementById("message-error").hidden === false');
  await page.fill("#message-input", "0a 01");
  await page.until('document.getElementById("message-frame").textContent === "03 0a 01"');
  equal(await page.value('document.getElementById("message-error").hidden'), true, "no complaint");
}));

await check("message: Copy gives the whole frame", () => on("message", async (page) => {
  await page.click('[data-text="hello world"]');
  await page.until('document.getElementById("message-frame").textContent.startsWith("0c 68")');
  await page.click("#message-copy");
  await page.until('document.getElementById("message-copied").textContent.includes("12 bytes copied")');
  equal(await page.value("navigator.clipboard.readText()"), hex(plainEncode(Buffer.from("hello world"))));
}));

for (const [name, make, how] of [
  ["1 MB of text without line ends", () => "abcdefghij".repeat(104858).slice(0, 1 << 20), "text"],
  ["1 MB as hex, with zeros", () => "00 ff 01 02 ".repeat(1 << 18), "hex"],
]) {
  await check(`message: ${name} is pasted`, () => on("message", async (page) => {
    const text = make();
    const message = how === "text" ? Buffer.from(text) : Buffer.from(text.replace(/ /g, ""), "hex");
    const frame = plainEncode(message);
    await (how === "text" ? chooseText(page) : chooseHex(page));
    await page.click("#message-input");
    await page.selectAll();
    await page.value(`navigator.clipboard.writeText(${JSON.stringify(text)})`);
    const { pause, busy } = await timed(page, async () => {
      await page.send("Input.dispatchKeyEvent", { type: "keyDown", key: "v", code: "KeyV", windowsVirtualKeyCode: 86, modifiers: 2, commands: ["paste"] });
      await page.until(`document.getElementById("message-length").dataset.bytes === "${message.length}"`);
      await page.click("#message-drawing");
      await page.press("End");
      await page.until(`document.getElementById("message-byte-${frame.length - 1}")?.getClientRects().length > 0`);
    });
    console.log(`page: ${name}: the longest pause between two frames was ${Math.round(pause)} ms, processor time ${Math.round(busy)} ms`);
    holds(busy < 2500, `the page was busy for ${busy} ms`);
    equal((await facts(page)).slice(0, 2), [message.length, frame.length], "the lengths");
    const rows = await page.value('document.querySelectorAll("#message-drawing .row").length');
    holds(rows > 0 && rows < 40, `${rows} rows are in the document`);
    await page.click("#message-copy");
    await page.until('document.getElementById("message-copied").textContent.includes("copied")');
    equal((await page.value("navigator.clipboard.readText()")) === hex(frame), true, "the whole frame is on the clipboard");
    await page.click(".held button:nth-of-type(2)");
    equal(await page.value(`document.getElementById("message-input").value.length`), text.length, "what the field holds when it is edited");
  }));
}

await check("message: bytes that are a frame, or a stream, are offered to be read so", () => on("message", async (page) => {
  await chooseHex(page);
  await page.fill("#message-input", "{0x03, 0x0a, 0x0b, 0x02, 0x0c}");
  await page.until('document.getElementById("message-offer-text").textContent.includes("are a frame")');
  await page.until('document.getElementById("message-read").textContent === "Read as a list."');
  await page.click("#message-decode");
  await page.until('document.getElementById("message-frame").textContent === "03 0a 0b 02 0c"');
  await page.fill("#message-input", "03 0a 0b 00 02 07 00");
  await page.until('document.getElementById("message-offer-text").textContent.includes("a stream of frames")');
  await page.click("#message-stream");
  await page.until('!document.getElementById("stream").hidden');
  await summary(page, "7 bytes, 2 pieces: 2 messages.");
}));

await check("message: a link gives the same message, and text becomes bytes and back", () => on("message", async (page) => {
  await chooseHex(page);
  await page.fill("#message-input", "68 c3 a9");
  await page.fill("#message-sentinel", "aa");
  await page.until('location.hash === "#hex=68c3a9&sentinel=aa"');
  await chooseText(page);
  await page.until('document.getElementById("message-input").value === "hé"');
  await page.until('location.hash === "#text=h%C3%A9&sentinel=aa"');
  await page.click("#message-share");
  await page.until('document.getElementById("message-copied").textContent === "The link is copied."');
  const link = await page.value("navigator.clipboard.readText()");
  const frame = await page.text("#message-frame");
  const other = await browser.open(link);
  await other.until(READY);
  await other.until(`document.getElementById("message-frame").textContent === "${frame}"`);
  equal(await other.value('document.getElementById("message-input").value'), "hé", "the text");
  await other.close();
  await chooseHex(page);
  await page.until('document.getElementById("message-input").value === "68 c3 a9"');
  await page.value('document.getElementById("message-form").value = "c"');
  await page.click("#message-ended");
  await page.click("#message-copy");
  await page.until('document.getElementById("message-copied").textContent === "5 bytes copied."');
  equal(await page.value("navigator.clipboard.readText()"), "static const unsigned char frame[5] = {0xae, 0xc2, 0x69, 0x03, 0xaa};\n", "as C, with the sentinel");
}));

await check("message: the call that makes the frame is copied, and of a broken frame none", () => on("message", async (page) => {
  await page.value('document.getElementById("message-form").value = "python-call"');
  await page.click("#message-copy");
  await page.until('document.getElementById("message-copied").textContent === "The call is copied."');
  equal(await page.value("navigator.clipboard.readText()"), 'frame = jcobs.encode(bytes.fromhex("0a 0b 00 0c"))\n', "the call");
  await page.fill("#message-frame-edit", "05 0a");
  await page.click("#message-copy");
  await page.until('document.getElementById("message-copied").textContent === "No call makes these bytes from the message."');
}));

await check("message: a frame that is edited changes its message", () => on("message", async (page) => {
  for (const [sentinel, frame] of [["00", "03 0a 0b 02 0c"], ["aa", "a9 a0 a1 a8 a6"]]) {
    await page.fill("#message-sentinel", sentinel);
    await page.until(`document.getElementById("message-frame-edit").value === "${frame}"`);
    const changed = `${frame.slice(0, -2)}${sentinel === "00" ? "0d" : "a7"}`;
    await page.fill("#message-frame-edit", changed);
    await page.until('document.getElementById("message-input").value === "0a 0b 00 0d"');
    await page.until(`document.getElementById("message-frame").textContent === "${changed}"`);
    await page.fill("#message-frame-edit", sentinel === "00" ? "05 0a" : "af a0");
    await page.until('document.getElementById("message-frame-error").textContent.includes("breaks off")');
    equal(await page.value('document.getElementById("message-input").value'), "0a 0b 00 0d", "the message stays");
    await page.until('document.querySelector("#message-drawing .badge").textContent === "broken" && document.querySelectorAll("#message-drawing .arc.bad").length === 1');
    await page.fill("#message-frame-edit", `a0 ${sentinel} a1`);
    await page.until('document.getElementById("message-frame-pieces").textContent.startsWith("These are 2 pieces") && document.getElementById("message-frame-error").hidden');
    await page.until('document.querySelectorAll("#message-drawing .badge").length === 2');
    await page.fill("#message-frame-edit", "0");
    await page.until('document.getElementById("message-frame-error").textContent.includes("one digit")');
    await page.click("#message-back");
    await page.until(`document.getElementById("message-frame-edit").value === "${changed}" && document.getElementById("message-frame-error").hidden`);
    await page.fill("#message-input", "0a 0b 00 0c");
    await page.until(`document.getElementById("message-frame").textContent === "${frame}"`);
  }
}));

await check("message: the link of a frame that was written by hand leads to it", () => on("message", async (page) => {
  const link = async () => {
    await page.value('document.getElementById("message-copied").textContent = ""');
    await page.click("#message-share");
    await page.until('document.getElementById("message-copied").textContent === "The link is copied."');
    return page.value("navigator.clipboard.readText()");
  };
  await page.fill("#message-frame-edit", "05 0a 0b");
  await page.until('document.getElementById("message-frame-error").textContent.includes("breaks off")');
  holds(!/[0-9]/.test(await page.text("#message-blocks")), "no number of blocks is given of a broken frame");
  holds((await page.text("#message-status")).startsWith("3 bytes that aren't a frame"), "the status");
  const other = await browser.open(await link());
  await other.until(READY);
  await other.until('document.getElementById("message-frame").textContent === "05 0a 0b"');
  equal([await other.value('document.getElementById("message-input").value'), await other.text("#message-drawing .badge")], ["0a 0b 00 0c", "broken"], "the message, and what the frame is");
  await other.close();
  const full = `ff ${"01 ".repeat(254)}01`;
  await page.fill("#message-frame-edit", full);
  await page.until('document.getElementById("message-copied").textContent.includes("this is the longer one")');
  const longer = await browser.open(await link());
  await longer.until(READY);
  await longer.until(`document.getElementById("message-frame").textContent === "${full}"`);
  await longer.close();
}));

await check("message: a browser that takes no more changes of the address shows the right frame all the same", () => on("message", async (page) => {
  await page.value("history.replaceState = () => { throw new DOMException('more than 100 times per 10 seconds', 'SecurityError'); }, doLater()");
  await chooseText(page);
  await page.fill("#message-input", "twenty letters or so");
  await page.until('document.getElementById("message-length").dataset.bytes === "20"');
  await page.value("doLater()");
  const frame = hex(plainEncode(Buffer.from("twenty letters or so")));
  equal([await page.text("#message-frame"), await page.text("#message-frame-length")], [frame, "21 bytes"], "the frame and its length");
}, { before: BY_HAND }));

await check("message: the address is written once for changes that follow each other", () => on("message", async (page) => {
  await page.value("doLater(), globalThis.written = 0, history.replaceState = () => void written++");
  await chooseText(page);
  await page.fill("#message-input", "twenty letters or so");
  await page.until('document.getElementById("message-length").dataset.bytes === "20"');
  equal(await page.value("[written, (doLater(), written)]"), [0, 1], "how often it was written, before and after the page is still");
}, { before: BY_HAND }));

await check("message: step by step, on the drawing", () => on("message", async (page) => {
  const drawn = () => page.value(`(() => {
    const svg = document.querySelector("#message-drawing svg");
    const texts = (selector) => [...svg.querySelectorAll(selector)].map((each) => each.textContent);
    return { codes: texts("text.on"), open: texts("text.open"), zeros: texts("text.zero"), todo: svg.querySelectorAll(".todo").length, arcs: svg.querySelectorAll(".arc").length };
  })()`);
  const said = () => page.text("#steps-said");
  const line = () => page.text("#steps-code .on");
  const steps = async (number) => {
    for (let i = 0; i < number; i++) await page.click("#steps-next");
  };
  const choose = (which) => page.value(`(() => { const choice = document.getElementById("steps-which"); choice.value = "${which}"; choice.dispatchEvent(new Event("change")); })()`);
  const whole = { codes: ["03", "02"], open: [], zeros: ["0"], todo: 0, arcs: 2 };
  equal(await drawn(), whole, "the whole drawing");
  await page.click("#steps-open");
  equal([await drawn(), await said(), await page.value("document.activeElement.id")], [{ codes: [], open: ["01"], zeros: [], todo: 4, arcs: 0 }, "Step 1 of 7: A place is kept for the first code.", "steps-next"], "the first step");
  await steps(2);
  equal([await drawn(), await line()], [{ codes: [], open: ["03"], zeros: [], todo: 2, arcs: 0 }, "    out.push(byte); code += 1"], "after two bytes");
  await steps(1);
  equal([await drawn(), await said()], [{ codes: ["03"], open: [], zeros: ["0"], todo: 2, arcs: 1 }, "Step 4 of 7: A zero: the open code becomes 3, the distance to this place."], "at the zero");
  equal(await page.value('[...document.querySelectorAll("#message-drawing .fresh")].map((each) => each.getAttribute("class"))'), ["on fresh", "arc fresh"], "what appears");
  await steps(1);
  equal(await drawn(), { codes: ["03"], open: ["01"], zeros: ["0"], todo: 1, arcs: 1 }, "after it");
  await page.click("#steps-back");
  holds((await said()).startsWith("Step 4"), "Back goes back");
  await steps(3);
  equal([await drawn(), await page.value('[document.getElementById("steps-next").disabled, document.getElementById("steps-at").value]')], [whole, [true, "6"]], "the last step");
  await choose("decoder");
  equal([await drawn(), await said()], [{ codes: ["03", "02"], open: [], zeros: [], todo: 0, arcs: 0 }, "Step 1 of 7: The output is still empty."], "the decoder");
  const over = () => page.value('[...document.querySelectorAll("#message-drawing text:is(.over, .zero)")].map((each) => each.textContent).slice(0, -1)'); // and the sentinel
  await steps(2);
  equal([await over(), await said()], [["0a", "0b"], "Step 3 of 7: 2 bytes are copied."], "what has come out");
  await steps(1);
  equal(await over(), ["0a", "0b", "0"], "and its zero");
  await page.fill("#message-input", "01 02");
  await page.until('document.getElementById("steps-said").textContent.startsWith("Step 1 of 4")');
  await page.fill("#message-sentinel", "aa");
  await page.until('document.getElementById("steps-said").textContent === "Step 1 of 5: Each byte is XORed with aa."');
  equal((await drawn()).codes, ["03"], "the code before it is XORed");
  await choose("encoder");
  await steps(4);
  equal([(await drawn()).codes, await line()], [["a9"], "out = each byte of out XOR the sentinel"], "the frame for another sentinel");
  await page.fill("#message-sentinel", "00");
  await page.click("#steps-play");
  await page.until('document.getElementById("steps-said").textContent.startsWith("Step 4 of 4") && document.getElementById("steps-play").textContent === "Play"');
  await page.fill("#message-frame-edit", "09 01");
  await page.until('!document.getElementById("steps-long").hidden && document.getElementById("steps-all").hidden');
  await page.click("#steps-close");
  await page.click("#message-back");
  await page.click('[data-run="255"]');
  await page.until('document.getElementById("message-full").textContent === "1"');
  await page.click("#steps-open");
  await page.value('(() => { const at = document.getElementById("steps-at"); at.value = 254; at.dispatchEvent(new Event("input")); })()');
  await page.until('document.getElementById("steps-said").textContent.includes("The byte is copied. The open code is 255 so far.")');
  await page.until('document.querySelector("#message-drawing .now")');
  await page.click("#steps-close");
  equal(await page.value('[document.getElementById("message-steps").hidden, document.querySelector("#message-drawing .todo") === null, document.activeElement.id]'), [true, true, "steps-open"], "the whole drawing again");
}));

await check("message: the line ends of pasted text are kept, whatever its length", () => on("message", async (page) => {
  const isFrame = (bytes) => page.until(`document.getElementById("message-frame").textContent === "${hex(plainEncode(Buffer.from(bytes)))}"`);
  const isLong = (bytes) => page.until(`document.getElementById("message-length").dataset.bytes === "${bytes}"`);
  const ends = () => page.value('(({ value }) => value)(document.getElementById("message-ends"))');
  const paste = async (text) => {
    await page.click("#message-input");
    await page.selectAll();
    await page.paste(text);
  };
  await chooseText(page);
  for (const [name, end] of [["CRLF", "\r\n"], ["LF", "\n"]]) {
    await paste(`a${end}b${end}`);
    await isFrame(`a${end}b${end}`);
    equal(await ends(), name, "the line ends");
  }
  await page.value('(() => { const ends = document.getElementById("message-ends"); ends.value = "CR"; ends.dispatchEvent(new Event("change")); })()');
  await isFrame("a\rb\r");
  await paste("a\r\nb\nc");
  await isFrame("a\nb\nc");
  await page.until('document.getElementById("message-status").textContent.includes("pasted text had several kinds of line ends")');
  await paste("x\r\n".repeat(12_000));
  await isLong(36_000);
  await page.click(".held button:nth-of-type(2)");
  await isLong(36_000);
  await page.type("y");
  await isLong(36_001);
  await chooseHex(page); // which makes it longer
  await page.click(".held button");
  await page.fill("#message-input", "61 0d 0a 62");
  await chooseText(page);
  await page.until('document.getElementById("message-input").value === "a\\nb"');
  await isFrame("a\r\nb");
  await page.until('location.hash === "#text=a%0D%0Ab"');
  const other = await browser.open(await page.value("location.href"));
  await other.until(READY);
  await other.until('document.getElementById("message-input").value === "a\\nb" && document.getElementById("message-ends").value === "CRLF"');
  equal(await other.text("#message-frame"), hex(plainEncode(Buffer.from("a\r\nb"))), "the frame behind the link");
  await other.close();
  await page.value('(() => { const input = document.getElementById("message-input"); input.value = "a\\ud800"; input.dispatchEvent(new Event("input")); })()');
  await page.until('document.getElementById("message-status").textContent.includes("A lone surrogate has no bytes in UTF-8; it was replaced by ef bf bd.")');
}));

await check("message: a long frame is copied with its sentinel, and a picture of one that breaks off", () => on("message", async (page) => {
  await chooseHex(page);
  await page.click("#message-input");
  await page.selectAll();
  await page.paste("01 00 ".repeat(200_000));
  await page.until('document.getElementById("message-length").dataset.bytes === "400000"');
  await page.click("#message-ended");
  await page.click("#message-copy");
  await page.until('document.getElementById("message-copied").textContent === "400,002 bytes copied."');
  holds((await page.value("navigator.clipboard.readText()")).endsWith(" 01 00"), "the sentinel is the last byte");
  await page.click(".held button");
  await page.fill("#message-input", "07 08");
  await page.until('document.getElementById("message-frame").textContent === "03 07 08"');
  await page.fill("#message-frame-edit", "04 07 00 02");
  await page.until('document.querySelectorAll("#message-drawing .badge").length === 2');
  await page.value('document.getElementById("message-form").value = "svg"');
  await page.click("#message-copy");
  await page.until('document.getElementById("message-copied").textContent.includes("copied")');
  const picture = await page.value("navigator.clipboard.readText()");
  equal([picture.match(/class="arc bad"/g).length, picture.match(/class="end"/g).length], [2, 2], "broken arcs and sentinels of the picture");
}));
