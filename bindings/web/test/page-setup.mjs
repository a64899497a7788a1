// Starts the browser and the server, and has the functions that the tests of the page share.
import { readFile } from "node:fs/promises";
import { fileURLToPath } from "node:url";
import { load } from "../jcobs.js";
import { serve } from "../serve.mjs";
import { Browser } from "./chromium.mjs";
import { check as checkAny, equal } from "./tally.mjs";

await load(await readFile(new URL("../cobs.wasm", import.meta.url)));
export const conformance = fileURLToPath(new URL("../../../conformance", import.meta.url));
export const { server, address } = await serve(0, { conformance });
export const browser = await Browser.start(process.env.CHROMIUM ?? "chromium");
const wanted = process.argv[3] ?? ""; // a part of the names of the checks to run
export const check = (name, act) => (name.includes(wanted) ? checkAny(name, act) : undefined);
console.log(`page: in ${await browser.version()}`);

export const READY = "document.documentElement.dataset.ready === 'yes'";
export const hex = (bytes) => Buffer.from(bytes).toString("hex").replace(/..(?=.)/g, "$& ");
export const number = (text) => Number(text.replace(/[^0-9]/g, ""));

/** The message with which most tests of Message begin. */
const SAMPLE = "&hex=0a0b000c";

/** Opens a page on a view, and closes it when `act` is done. The page must have written nothing to its console. */
export async function on(view, act, options = {}) {
  const page = await browser.open(`${address}#${view}${view === "message" ? SAMPLE : ""}`, options);
  try {
    await page.until(READY);
    await page.until(`!document.getElementById("${view.split("&")[0]}").hidden`);
    await page.drawn();
    await act(page);
    equal(page.faults, [], "what the page complained of on its console");
  } finally {
    await page.close();
  }
}

/**
 * Returns the milliseconds of `act`: `pause`, the longest time between two frames, and `busy`, the processor time of the page's thread,
 * which doesn't depend on other work of the machine.
 */
export async function timed(page, act) {
  await page.send("Performance.enable", { timeDomain: "threadTicks" });
  const busy = async () => (await page.send("Performance.getMetrics")).metrics.find(({ name }) => name === "TaskDuration").value * 1000;
  const before = await busy();
  await page.value(`(() => {
    const watch = (globalThis.watch = { longest: 0, isOn: true });
    let last = performance.now();
    const look = () => {
      const now = performance.now();
      watch.longest = Math.max(watch.longest, now - last);
      last = now;
      if (watch.isOn) requestAnimationFrame(look);
    };
    requestAnimationFrame(look);
  })()`);
  await act();
  return { pause: await page.value("(watch.isOn = false, watch.longest)"), busy: (await busy()) - before };
}

/** Delays the page's timers until `doLater` is called, so that the order of events doesn't depend on a clock. */
export const BY_HAND = `{
  const later = new Map();
  let number = 0;
  globalThis.setTimeout = (act) => (later.set(++number, act), number);
  globalThis.clearTimeout = (timer) => void later.delete(timer);
  globalThis.doLater = () => [...later].forEach(([timer, act]) => (later.delete(timer), act()));
}`;

export const summary = (page, words) => page.until(`document.getElementById("stream-status").textContent.includes(${JSON.stringify(words)})`);

export const chooseHex = (page) => page.click('input[name="message-kind"][value="hex"]');
export const chooseText = (page) => page.click('input[name="message-kind"][value="text"]');
export const outcomes = (page) => page.value('[...document.querySelectorAll("#stream-pieces .outcome")].map((row) => row.textContent)');
export const badges = (page) => page.value('[...document.querySelectorAll("#stream-pieces .badge")].map((badge) => badge.textContent)');
export const STREAM = "03 0a 0b 02 0c 00 02 07 02 09 00 00 03 05 06 00 05 01 00 07 01 02 03 04 05 06 00 02";

export async function fillStream(page, text) {
  await page.click("#stream-input");
  await page.selectAll();
  await page.paste(text);
}
