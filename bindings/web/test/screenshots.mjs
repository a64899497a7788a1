// Takes the pictures of the page: node screenshots.mjs
//
// preview.png is the picture that a link to the page shows. The other pictures are in docs/images.
import { join } from "node:path";
import { fileURLToPath, pathToFileURL } from "node:url";
import { serve } from "../serve.mjs";
import { Browser } from "./chromium.mjs";

/** A clock that advances by 37 ms each time it is read, so that the pictures are the same in each run. */
const CLOCK = "{ let now = Date.UTC(2026, 10, 23, 10); const Clock = Date; Date = class extends Clock { constructor(...given) { super(...(given.length > 0 ? given : [(now += 37)])); } }; }";

async function stream(page) {
  for (const at of [3, 11]) await page.click(`#stream-byte-${at}`);
  await page.until('document.querySelectorAll("#stream-pieces [aria-selected=true]").length === 2');
  await page.value('document.getElementById("stream-pieces").scrollTop = 0');
}

async function line(page) {
  await page.click("#line-noise");
  await page.click("#line-loop");
  await page.until('!document.getElementById("line-submit").disabled');
  let rows = 0;
  for (const text of ["hello", "temp=21.5", "temp=21.6", "temp=21.7"]) {
    await page.fill("#line-text", text);
    await page.press("Enter");
    rows += 2; // what is sent, and what comes of it
    await page.until(`document.querySelectorAll("#line-log .row").length === ${rows}`);
  }
}

/** The pictures: the view, the window, and the actions before the picture is taken. */
export const PICTURES = {
  "preview.png": ["message", { width: 1200, height: 630 }, (page) => page.click("#message-byte-6")],
  "page-stream-dark.png": ["stream", { width: 1000, height: 700, isDark: true }, stream],
  "page-line-phone.png": ["line", { width: 390, height: 844, isPhone: true, scale: 1 }, line],
};

/** Takes a picture of the page at an address. */
export async function take(browser, address, name, folder) {
  const [view, options, act] = PICTURES[name];
  const page = await browser.open(`${address}#${view}`, { ...options, before: CLOCK });
  await page.send("Emulation.setTimezoneOverride", { timezoneId: "UTC" });
  await page.until("document.documentElement.dataset.ready === 'yes'");
  await act(page);
  await page.value("document.activeElement.blur(), scrollTo({ top: 0, behavior: 'instant' })");
  await page.send("Input.dispatchMouseEvent", { type: "mouseMoved", x: 1, y: 1 });
  await page.drawn();
  await page.screenshot(join(folder, name));
  await page.close();
}

/** Returns the folder in which a picture is stored. */
export const folderOf = (name) => fileURLToPath(new URL(name === "preview.png" ? ".." : "../../../docs/images", import.meta.url));

if (process.argv[1] && import.meta.url === pathToFileURL(process.argv[1]).href) {
  const { server, address } = await serve();
  const browser = await Browser.start(process.env.CHROMIUM ?? "chromium");
  for (const name of Object.keys(PICTURES)) await take(browser, address, name, folderOf(name));
  await browser.close();
  server.close();
}
