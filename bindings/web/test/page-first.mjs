// Tests the page as a user first sees it, and the ways to it: links, other pages, pastes.
import { mkdtemp, readFile, rm, writeFile } from "node:fs/promises";
import { tmpdir } from "node:os";
import { join } from "node:path";
import { serve } from "../serve.mjs";
import { encode as plainEncode } from "./plain.js";
import { equal, holds } from "./tally.mjs";
import { BY_HAND, READY, STREAM, address, browser, check, chooseHex, chooseText, fillStream, hex, on, summary } from "./page-setup.mjs";

const copied = async (page, view) => {
  await page.value(`document.getElementById("${view}-copied").textContent = ""`);
  await page.click(`#${view}-share`);
  await page.until(`document.getElementById("${view}-copied").textContent === "The link is copied."`);
  return page.value("navigator.clipboard.readText()");
};
const frameIs = (page, digits) => page.until(`document.getElementById("message-frame").textContent === "${digits}"`);
const HELLO = "06 48 65 6c 6c 6f 06 57 6f 72 6c 64";

for (const [name, options] of [["a computer", { width: 1280, height: 800 }], ["a phone", { width: 390, height: 844, isPhone: true }]]) {
  await check(`first: the idea, message, frame, Copy and drawing are in the first screen of ${name}`, async () => {
    const page = await browser.open(address, options);
    await page.until(READY);
    await page.drawn();
    await frameIs(page, HELLO);
    equal(await page.value('[document.getElementById("message-input").value, document.querySelector("[name=message-kind]:checked").value]'), ["Hello\u2205World", "text"], "the first sample");
    const low = await page.value(`[".idea", "#message-input", "#message-frame-edit", "#message-copy", "#message-drawing", "#message-length"].filter((each) => {
      const { top, bottom, width } = document.querySelector(each).getBoundingClientRect();
      return top < 0 || bottom > innerHeight || width === 0;
    })`);
    equal(low, [], "what isn't in sight");
    const [input, frame] = await page.value('["message-input", "message-frame-edit"].map((id) => document.getElementById(id).getBoundingClientRect()).map(({ left, top }) => [left, top])');
    holds(options.isPhone ? frame[1] > input[1] : frame[0] > input[0] && frame[1] === input[1], "the frame is right of the message, or below it");
    holds(Math.round(await page.value('document.querySelector("#message-drawing .spot.byte").getBoundingClientRect().width')) >= (options.isPhone ? 32 : 48), "how large a cell is");
    await page.close();
  });
}

await check("first: what is pasted is found out, each time with a way back", () => on("message", async (page) => {
  const state = () => page.value('[document.querySelector("[name=message-kind]:checked").value, document.getElementById("message-read").textContent]');
  const paste = async (text) => {
    await page.click("#message-input");
    await page.selectAll();
    await page.paste(text);
  };
  await page.click('[name="message-kind"][value="text"]');
  await paste("hello world");
  await frameIs(page, hex(plainEncode(Buffer.from("hello world"))));
  equal(await state(), ["text", "Read as text (UTF-8)."], "of text");
  await paste("static const uint8_t f[] = {0x03, 0x0a, 0x0b, 0x02, 0x0c};");
  await page.until('document.getElementById("message-offer-text").textContent === "These bytes are a frame themselves."');
  equal(await state(), ["hex", "Read as a list."], "of an array");
  await page.click("#message-decode");
  await frameIs(page, "03 0a 0b 02 0c");
  await page.click("#message-undo");
  await page.until('document.getElementById("message-input").value.startsWith("static")');
  await page.click("#message-undo");
  await page.until('document.getElementById("message-input").value === "hello world"');
  equal((await state())[0], "text", "the kind after Undo");
  await chooseHex(page);
  await paste("not bytes at all");
  await page.click("#message-as-text");
  await frameIs(page, hex(plainEncode(Buffer.from("not bytes at all"))));
  await page.fill("#message-input", "a\u2205b");
  await frameIs(page, "02 61 02 62");
  equal((await state())[1], "Read as text (UTF-8); each \u2205 is a byte 00.", "of a zero");
  await paste('b"\\x03\\012"');
  await page.until('document.getElementById("message-error").textContent.includes("octal")');
  equal(await state(), ["hex", ""], "of a literal with two readings");
}));

await check("first: text that may be bytes is offered to be read so, in each form", () => on("message", async (page) => {
  for (const [text, form, frame] of [["030a0b020c", "hex", "06 03 0a 0b 02 0c"], ["03 0a", "hex", "03 03 0a"], ["10, 11, 0, 12", "decimal numbers", "03 0a 0b 02 0c"], ["AwoLAgw=", "base64", "06 03 0a 0b 02 0c"], ["b'hello'", "a string", "06 68 65 6c 6c 6f"]]) {
    await chooseText(page);
    await page.fill("#message-input", text);
    await page.until(`document.getElementById("message-offer-text").textContent === "This could be bytes (${form})."`);
    await frameIs(page, hex(plainEncode(Buffer.from(text))));
    await page.click("#message-as-bytes");
    await frameIs(page, frame);
    await page.until(`document.getElementById("message-input").value === ${JSON.stringify(text)} && document.getElementById("message-as-bytes").hidden`);
  }
  await chooseText(page);
  await page.fill("#message-input", "Hello World");
  await page.until('document.getElementById("message-length").dataset.bytes === "11"');
  equal(await page.value('document.getElementById("message-offer").hidden'), true, "no offer for words");
}));

await check("first: decimal numbers stay so while one of them changes, and are hex by a switch", () => on("message", async (page) => {
  await page.click('[data-hex="10, 11, 0, 12"]');
  await frameIs(page, "03 0a 0b 02 0c");
  equal(await page.value('document.getElementById("message-other").hidden'), true, "0 is no pair of hex digits");
  await page.fill("#message-input", "10, 11, 14, 12");
  await frameIs(page, "05 0a 0b 0e 0c");
  equal(await page.text("#message-other"), "Read as hex", "the switch");
  await page.click("#message-other");
  await frameIs(page, "05 10 11 14 12");
  equal([await page.text("#message-read"), await page.text("#message-other")], ["Read as hex.", "Read as decimal numbers"], "what it is then");
  await page.click("#message-input");
  await page.press("End", 2);
  await page.type(", 13");
  await frameIs(page, "06 10 11 14 12 13"); // it stays hex while it is typed on
  await page.click('[data-hex="10, 11, 0, 12"]');
  await page.fill("#message-input", "");
  for (const key of "10, 11, 14") await page.type(key);
  await frameIs(page, "04 0a 0b 0e");
  await page.fill("#message-input", "1011, 1213");
  await page.until('document.getElementById("message-error").textContent.includes("more than 255")');
  await page.click("#message-other");
  await frameIs(page, "05 10 11 12 13");
}));

await check("first: Frame takes what came over a line: with sentinels, as decimal numbers, and several frames by an offer", () => on("message", async (page) => {
  const isRead = (digits) => page.until(`document.getElementById("message-input").value === "${digits}" && document.getElementById("message-frame-error").hidden`);
  const paste = async (text) => {
    await page.click("#message-frame-edit");
    await page.selectAll();
    await page.paste(text);
  };
  for (const around of ["03 01 02 02 03 00", "00 03 01 02 02 03", "00 00 03 01 02 02 03 00 00", "candump", "<Buffer 03 01 02 02 03 00>"]) {
    await paste("02 07");
    await isRead("07");
    await paste(around === "candump" ? "can0  123   [6]  03 01 02 02 03 00" : around);
    await isRead("01 02 00 03");
    await page.click("#message-input");
    await frameIs(page, "03 01 02 02 03");
    equal(await page.value('document.getElementById("message-frame-edit").value'), "03 01 02 02 03", "the field then");
  }
  await page.click("#message-ended");
  await page.click("#message-copy");
  await page.until('document.getElementById("message-copied").textContent === "6 bytes copied."');
  await paste(await page.value("navigator.clipboard.readText()"));
  await isRead("01 02 00 03");
  await paste("3, 10, 11, 2, 12");
  await isRead("0a 0b 00 0c");
  await paste("12, 10, 11, 12, 13, 14, 15, 16, 17, 18, 19, 20");
  await isRead("0a 0b 0c 0d 0e 0f 10 11 12 13 14");
  equal([await page.text("#message-frame-read"), await page.text("#message-frame-other")], ["Read as decimal numbers.", "Read as hex"], "of a frame with two readings");
  await page.click("#message-frame-other");
  await page.until('document.getElementById("message-frame-error").textContent === "The frame breaks off inside a block: the code 12 (byte 0) announces 17 bytes, and only 11 follow. Message still has what it had before."');
  await paste("03 0a 0b 02 0c 00 02 07 00");
  await page.until('document.getElementById("message-frame-pieces").textContent.startsWith("These are 2 pieces")');
  const [field, said] = await page.value('["message-frame-edit", "message-typed"].map((id) => document.getElementById(id).getBoundingClientRect()).map(({ top, bottom }) => [top, bottom])');
  holds(said[0] - field[1] >= 0 && said[0] - field[1] < 40, `the complaint is right under the field: ${said[0] - field[1]} pixels`);
  await page.click("#message-frame-stream");
  await page.until('!document.getElementById("stream").hidden');
  await summary(page, "9 bytes, 2 pieces: 2 messages.");
  await page.click("#tab-message");
  await page.fill("#message-frame-edit", "00 00");
  await page.until('document.getElementById("message-frame-error").textContent === "A frame has at least one byte."');
  equal(await page.value('document.getElementById("message-frame-stream").hidden'), true, "no offer of a stream");
  await chooseHex(page);
  await page.fill("#message-input", "03 0a 0b 02 0c 00");
  await page.until('document.getElementById("message-offer-text").textContent === "These bytes are a frame themselves."');
  await page.click("#message-decode");
  await frameIs(page, "03 0a 0b 02 0c");
}));

await check("first: Undo takes back samples, bytes that were written, and a whole word that was typed", () => on("message", async (page) => {
  const value = () => page.value('document.getElementById("message-input").value');
  await page.fill("#message-input", "01 02");
  await frameIs(page, "03 01 02");
  await page.click('[data-zeros="8"]');
  await frameIs(page, "01 01 01 01 01 01 01 01 01");
  await page.click("#message-byte-0");
  await page.type("09");
  await frameIs(page, "09 01 01 01 01 01 01 01 01");
  await page.press("z", 2);
  await frameIs(page, "01 01 01 01 01 01 01 01 01");
  for (const wanted of ["01 02", "0a 0b 00 0c"]) {
    await page.click("#message-undo");
    await page.until(`document.getElementById("message-input").value === "${wanted}"`);
  }
  equal(await value(), "0a 0b 00 0c", "the first one");
  await page.click('[data-zeros="8"]');
  await frameIs(page, "01 01 01 01 01 01 01 01 01");
  await page.click("#message-input");
  await page.press("End", 2);
  for (const [at, key] of [..." 0203"].entries()) {
    await page.type(key); // key by key, each of them drawn
    await page.until(`document.getElementById("message-input").value.length === ${24 + at}`);
    await page.drawn();
  }
  await frameIs(page, "01 01 01 01 01 01 01 01 03 02 03");
  await page.click("#message-undo");
  await frameIs(page, "01 01 01 01 01 01 01 01 01");
}));

await check("first: a frame that is pasted is decoded, and of none nothing is copied", () => on("message", async (page) => {
  await page.click("#message-frame-edit");
  await page.selectAll();
  await page.paste("<Buffer 06 68 65 6c 6c 6f>");
  await page.until('document.getElementById("message-input").value === "68 65 6c 6c 6f"');
  await page.click('[name="message-kind"][value="text"]');
  await page.until('document.getElementById("message-input").value === "hello"');
  await page.fill("#message-frame-edit", "");
  await page.until('document.getElementById("message-frame-error").textContent === "A frame has at least one byte."');
  await page.value('document.getElementById("message-form").value = "c"');
  await page.click("#message-copy");
  await page.until('document.getElementById("message-copied").textContent === "There is nothing to copy."');
}));

await check("first: the checksum is that of cobs_watch, and is appended", () => on("message", async (page) => {
  await chooseHex(page);
  await page.fill("#message-input", "31 32 33 34 35 36 37 38 39");
  await page.until('document.getElementById("message-length").dataset.bytes === "9"');
  for (const [kind, sum] of [["crc8", "f4"], ["crc16-modbus", "4b 37"], ["crc32", "cb f4 39 26"], ["crc16-ccitt-false", "29 b1"]]) {
    await page.value(`(() => { const kinds = document.getElementById("message-crc"); kinds.value = "${kind}"; kinds.dispatchEvent(new Event("input")); })()`);
    equal(await page.text("#message-crc-value"), sum, kind); // set at once
  }
  await page.click("#message-crc-low");
  await page.until('document.getElementById("message-input").value === "31 32 33 34 35 36 37 38 39 b1 29"');
  await page.click("#message-undo");
  await page.until('document.getElementById("message-length").dataset.bytes === "9"');
  await page.click("#message-crc-high");
  await page.until('document.getElementById("message-input").value.endsWith("39 29 b1")');
  await page.until('document.querySelector("#message-curve svg").getAttribute("aria-label") === "A message of 11 bytes has 1 byte of overhead, of at most 1"');
}));

await check("first: a link opens at a byte, in Message and in Stream", async () => {
  await on("message", async (page) => {
    await page.click("#message-byte-3");
    const link = await copied(page, "message");
    holds(link.endsWith("&at=3"), link);
    const other = await browser.open(link);
    await other.until(READY);
    await other.until('document.getElementById("message-explained").textContent.startsWith("Byte 3, 02: a code")');
    await other.close();
  });
  await on("stream", async (page) => {
    await fillStream(page, `${"02 07 00 ".repeat(100)}${STREAM}`);
    await summary(page, "105 pieces");
    await page.click("#stream-pieces");
    await page.press("End");
    const other = await browser.open(await copied(page, "stream"));
    await other.until(READY);
    await other.until(`(() => {
      const box = document.getElementById("stream-pieces").getBoundingClientRect();
      const cell = document.getElementById("stream-byte-327")?.getBoundingClientRect();
      return cell && cell.bottom <= box.bottom + 1 && document.getElementById("stream-explained").textContent.startsWith("Byte 327");
    })()`);
    await other.close();
  });
});

/** What the fields of Message hold, which of them are wrong, and what is drawn. */
const shownIn = (page) => page.value(`[document.getElementById("message-input").value, document.getElementById("message-frame-edit").value, [...document.querySelectorAll("#message-drawing .badge")].map((badge) => badge.textContent).join()]`);

await check("first: a link with a frame opens it, and its message", async () => {
  for (const [hash, wanted, words] of [
    ["#frame=030a0b020c", ["0a 0b 00 0c", "03 0a 0b 02 0c", ""], ""],
    ["#frame=00030a0b020c00", ["0a 0b 00 0c", "03 0a 0b 02 0c", ""], ""],
    ["#frame=0b10101010101010101010", ["10 10 10 10 10 10 10 10 10 10", "0b 10 10 10 10 10 10 10 10 10 10", ""], ""],
    ["#hex=0a0b000c&frame=0268", ["68", "02 68", ""], ""],
    ["#text=hi&frame=050a0b", ["hi", "05 0a 0b", "broken"], "the code 05 (byte 0) announces 4 bytes, and only 2 follow."],
    ["#frame=050a0b", ["", "05 0a 0b", "broken"], "the code 05 (byte 0) announces 4 bytes, and only 2 follow."],
    ["#frame=xyz", ["", "xyz", ""], "isn't a hexadecimal digit"],
  ]) {
    const page = await browser.open(`${address}${hash}`);
    await page.until(READY);
    await page.drawn();
    equal(await shownIn(page), wanted, hash);
    const said = await page.text("#message-frame-error");
    holds(words === "" ? said === "" : said.includes(words), `${hash}: ${said}`);
    await page.close();
  }
});

await check("first: a link with what the page doesn't know says so", async () => {
  for (const [hash, words] of [["#base64=AAEC", "The page doesn't know “base64” of this link, “#base64=AAEC”."], ["#foo", "“foo”"], ["#STREAM&hex=00", "“STREAM”"], ["#stream&text=a", "“text”"], ["#line&hex=00", "“hex”"]]) {
    const page = await browser.open(`${address}${hash}`);
    await page.until(READY);
    holds((await page.text("#unsupported")).includes(words) && !(await page.value('document.getElementById("unsupported").hidden')), `${hash}: ${await page.text("#unsupported")}`);
    await page.value('location.hash = "#hex=07"');
    await page.until('document.getElementById("message-input").value === "07" && document.getElementById("unsupported").hidden');
    await page.close();
  }
});

await check("first: what Frame can't read stays there, is read by the keyboard alone, and Undo brings it back", () => on("message", async (page) => {
  const paste = async (text) => {
    await page.click("#message-frame-edit");
    await page.selectAll();
    await page.paste(text);
  };
  const unread = "3 10 11 2 12 0";
  await paste(unread);
  await page.until('document.getElementById("message-frame-error").textContent.includes("The drawing below still shows the last valid frame.")');
  holds(await page.value('document.getElementById("message").classList.contains("stale")'), "the drawing is dimmed");
  await page.click("#message-copy");
  await page.until('document.getElementById("message-copied").textContent.startsWith("Nothing is copied")');
  equal(await shownIn(page), ["0a 0b 00 0c", unread, ""], "after the focus has left the field");
  await page.click("#message-frame-edit");
  for (let i = 0; (await page.value("document.activeElement.id")) !== "message-frame-other"; i++) {
    holds(i < 5, "Tab reaches the other reading");
    await page.press("Tab");
  }
  await page.press("Enter");
  await page.until('document.getElementById("message-frame-read").textContent === "Read as decimal numbers."');
  await page.click(".idea");
  equal(await shownIn(page), ["0a 0b 00 0c", "03 0a 0b 02 0c", ""], "what was read");
  await page.click('[data-zeros="8"]');
  await page.until('document.getElementById("message-frame-edit").value.startsWith("01 01")');
  await page.click("#message-undo");
  await page.until('document.getElementById("message-frame-edit").value === "03 0a 0b 02 0c"');
  await page.click("#message-undo");
  await page.until(`document.getElementById("message-frame-edit").value === "${unread}" && document.getElementById("message-frame-error").textContent.includes("The drawing below still shows the last valid frame.")`);
  await page.click("#message-undo");
  await page.until('document.getElementById("message-frame-edit").value === "03 0a 0b 02 0c" && document.getElementById("message-frame-error").hidden && !document.getElementById("message").classList.contains("stale")');
}));

await check("first: the bytes in a line of a log are offered in each field, and taken by the keyboard", async () => {
  const line = "[10:00:00.123] RX: 03 0A 0B 02 0C 00";
  for (const [view, field, button] of [["message", "message-input", "message-other"], ["message", "message-frame-edit", "message-frame-other"], ["stream", "stream-input", "stream-other"]]) await on(view, async (page) => {
    await page.click(`#${field}`);
    await page.selectAll();
    await page.paste(line);
    await page.until(`document.getElementById("${button}").getClientRects().length > 0 && document.getElementById("${button}").textContent === "Read as the bytes in it (6: 03 0a 0b 02 0c 00)"`);
    await page.click(".idea");
    equal(await page.value(`document.getElementById("${field}").value`), line, "the text");
    await page.click(`#${field}`);
    for (let i = 0; (await page.value("document.activeElement.id")) !== button; i++) {
      holds(i < 6, "Tab reaches the button");
      await page.press("Tab");
    }
    await page.press("Enter");
    if (view === "stream") await summary(page, "6 bytes, 1 piece: 1 message.");
    else await frameIs(page, field === "message-input" ? "06 03 0a 0b 02 0c 01" : "03 0a 0b 02 0c");
  });
});

await check("first: what Message and Stream can't read stays there too, and Undo brings it back", async () => {
  for (const [view, unread] of [["message", "05 0g"], ["stream", "05 0g"]]) await on(view, async (page) => {
    const input = `document.getElementById("${view}-input").value`;
    const before = await page.value(input);
    await page.click(`#${view}-input`);
    await page.selectAll();
    await page.paste(unread);
    await page.until(`document.getElementById("${view}-error").textContent.includes("The drawing below still shows the last valid input.") && document.getElementById("${view}").classList.contains("stale")`);
    await page.click(".idea");
    equal(await page.value(input), unread, "the text");
    await page.click(view === "stream" ? "#stream-example" : '[data-zeros="8"]');
    await page.until(`!document.getElementById("${view}").classList.contains("stale")`);
    for (const wanted of [unread, before]) {
      await page.click(`#${view}-undo`);
      await page.until(`${input} === ${JSON.stringify(wanted)} && document.getElementById("${view}").classList.contains("stale") === ${wanted === unread}`);
    }
  });
});

await check("first: links that are written by hand: text, hex, and a sentinel alone", async () => {
  for (const [hash, text, kind, frame] of [
    ["#text=Hello%00World", "Hello\u2205World", "text", HELLO],
    ["#text=1+1=2", "1+1=2", "text", "06 31 2b 31 3d 32"],
    ["#message&text=h%C3%A9&sentinel=aa", "h\u00e9", "text", "ae c2 69 03"],
    ["#hex=0a0b000c", "0a 0b 00 0c", "hex", "03 0a 0b 02 0c"],
    ["#message&sentinel=aa", "Hello\u2205World", "text", "ac e2 cf c6 c6 c5 ac fd c5 d8 c6 ce"],
  ]) {
    const page = await browser.open(`${address}${hash}`);
    await page.until(READY);
    await frameIs(page, frame);
    equal(await page.value('[document.getElementById("message-input").value, document.querySelector("[name=message-kind]:checked").value]'), [text, kind], hash);
    await page.close();
  }
  const page = await browser.open(`${address}#stream&room=3`);
  await page.until(READY);
  await summary(page, "5 too long");
  equal(await page.value('document.getElementById("stream-room").value'), "3", "the buffer of the example");
  await page.close();
});

await check("first: a faulty link stays in the address until what it leads to is mended", async () => {
  for (const [hash, mend, wanted] of [
    ["#stream&hex=030a0b020c00&room=abc", ["#stream-room", "100"], "#stream&hex=030a0b020c00&sentinel=00&room=100"],
    ["#stream&hex=03zz&sentinel=00&room=64", ["#stream-input", "02 07 00"], "#stream&hex=020700&sentinel=00&room=64"],
    ["#hex=zz0a0b", ["#message-input", "0a 0b"], "#hex=0a0b"],
    ["#hex=0a0b&sentinel=zz", ["#message-sentinel", "01"], "#hex=0a0b&sentinel=01"],
  ]) {
    const page = await browser.open(`${address}${hash}`, { before: BY_HAND });
    await page.until(READY);
    await page.drawn();
    await page.value("doLater()");
    equal(await page.value("location.hash"), hash, "the address");
    await page.fill(...mend);
    await page.until(`(doLater(), location.hash === "${wanted}")`);
    await page.close();
  }
});

await check("first: a link is taken even if the page is about to write its own address", () => on("stream&hex=020700&sentinel=00&room=64", async (page) => {
  await page.value('location.hash = "#stream&hex=030a0b00&sentinel=00&room=64", doLater()');
  await page.until('document.getElementById("stream-input").value === "03 0a 0b 00"');
}, { before: BY_HAND }));

await check("first: what is too long for a link isn't said to be copied", () => on(`stream&hex=${"020700".repeat(600)}&sentinel=00&room=64`, async (page) => {
  await summary(page, "600 pieces");
  await page.value('document.getElementById("stream-damage").value = "ff"');
  const damages = Array.from({ length: 600 }, (_, i) => `${3 * i + 1}:ff`).join();
  await page.value(`location.hash = "#stream&hex=${"020700".repeat(600)}&sentinel=00&room=64&damage=${damages}"`);
  await summary(page, "600 bytes damaged");
  await page.value('navigator.clipboard.writeText("nothing")');
  await page.click("#stream-share");
  await page.until('document.getElementById("stream-copied").textContent === "The stream with its damage is too long for a link."');
  equal(await page.value("navigator.clipboard.readText()"), "nothing", "the clipboard");
}));

await check("first: damage is in the link of Stream, up to the last byte", () => on("stream", async (page) => {
  await fillStream(page, "03 0a 0b 00 02 07 00");
  await summary(page, "2 pieces: 2 messages");
  await page.click("#stream-byte-6");
  await page.click("#stream-byte-1");
  await summary(page, "2 bytes damaged");
  const other = await browser.open(await copied(page, "stream"));
  await other.until(READY);
  await summary(other, "2 bytes damaged");
  equal(await other.value('[...document.querySelectorAll("#stream-pieces [aria-selected=true]")].map((each) => each.getAttribute("aria-label"))').then((labels) => labels.map((label) => label.match(/^Byte (\d+): (..).*was (..)/).slice(1))), [["1", "0b", "0a"], ["6", "01", "00"]], "the damaged bytes");
  await other.close();
}));

await check("first: with ?embed the page is a drawing with a link to the whole of it", async () => {
  for (const view of ["message", "stream"]) {
    const hash = `#${view}&hex=030a0b020c00&${view === "message" ? "sentinel=00" : "sentinel=00&room=64"}`;
    const page = await browser.open(`${address}?embed${hash}`, { width: 600, height: 300 });
    await page.until(READY);
    await page.until(`document.querySelector("#${view} .bytes svg")`);
    equal(await page.value(`[...document.querySelectorAll("h1, .idea, [role=tab], textarea, footer, #${view} form")].filter((each) => each.getClientRects().length > 0).length`), 0, "what else is in sight");
    await page.until('document.getElementById("embed-open").getClientRects().length > 0');
    equal(await page.value('document.getElementById("embed-open").focus(), document.getElementById("embed-open").href'), `${address}${hash}`, "its link");
    equal(page.faults, [], "what the page complained of on its console");
    await page.close();
  }
});

await check("first: an embedded page posts its height, so that nothing of it is cut", async () => {
  const folder = await mkdtemp(join(tmpdir(), "jcobs-embed-"));
  const { server: own, address: there } = await serve(0, { outer: folder });
  const [, script] = (await readFile(new URL("../PAGE.md", import.meta.url), "utf8")).match(/```js\n([^]*?)```/); // as PAGE.md has it
  try {
    await writeFile(join(folder, "outer.html"), `<!doctype html><iframe src="/?embed#stream&hex=${"020700".repeat(5)}&sentinel=00&room=64" width="600" height="40"></iframe>
      <script>${script}</script>`);
    const page = await browser.open(`${there}outer/outer.html`);
    await page.until('Number(document.querySelector("iframe").height) > 400');
    await page.until('(({ contentDocument: { documentElement: root, body } }) => root.scrollHeight <= root.clientHeight && body.querySelector("#embed-open").getBoundingClientRect().bottom <= root.clientHeight)(document.querySelector("iframe"))');
    await page.value('document.querySelector("iframe").contentWindow.location.hash = "#stream&hex=0207&sentinel=00&room=64"');
    await page.until('Number(document.querySelector("iframe").height) < 320');
    await page.close();
  } finally {
    own.close();
    own.closeAllConnections();
    await rm(folder, { recursive: true });
  }
});

await check("first: the settings of Line are in its address", () => on("line&baud=9600&parity=even&stop=2&room=100&sentinel=aa&flow=nonsense&data=", async (page) => {
  const values = () => page.value('["baud", "data", "parity", "stop", "flow", "room", "sentinel"].map((name) => document.getElementById(`line-${name}`).value)');
  equal(await values(), ["9600", "8", "even", "2", "none", "100", "aa"], "what the link sets, and what it can't");
  await page.fill("#line-baud", "57600");
  await page.until('location.hash === "#line&baud=57600&data=8&parity=even&stop=2&flow=none&room=100&sentinel=aa"');
}));

await check("first: what is empty says what to do", async () => {
  await on("line", (page) => page.until('document.getElementById("line-empty").getClientRects().length > 0'));
  await on("stream", async (page) => {
    await page.fill("#stream-input", "");
    await page.until('document.getElementById("stream-empty").getClientRects().length > 0');
    equal(await page.value('document.getElementById("stream-pieces").getClientRects().length'), 0, "no box");
    await page.click("#stream-undo");
    await summary(page, "142 bytes, 7 pieces");
  });
});
