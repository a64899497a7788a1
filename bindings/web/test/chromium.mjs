// Controls Chromium with the DevTools protocol over a pipe, using only Node. Input is sent as if a user made it.
import { spawn } from "node:child_process";
import { mkdtemp, rm, writeFile } from "node:fs/promises";
import { tmpdir } from "node:os";
import { join } from "node:path";
import { until } from "./tally.mjs";

const ANSWER_MILLISECONDS = 600_000;
const KEYS = {
  Enter: { code: "Enter", windowsVirtualKeyCode: 13, text: "\r" },
  Tab: { code: "Tab", windowsVirtualKeyCode: 9 },
  Backspace: { code: "Backspace", windowsVirtualKeyCode: 8 },
  ArrowLeft: { code: "ArrowLeft", windowsVirtualKeyCode: 37 },
  ArrowUp: { code: "ArrowUp", windowsVirtualKeyCode: 38 },
  ArrowRight: { code: "ArrowRight", windowsVirtualKeyCode: 39 },
  ArrowDown: { code: "ArrowDown", windowsVirtualKeyCode: 40 },
  PageUp: { code: "PageUp", windowsVirtualKeyCode: 33 },
  PageDown: { code: "PageDown", windowsVirtualKeyCode: 34 },
  Home: { code: "Home", windowsVirtualKeyCode: 36 },
  End: { code: "End", windowsVirtualKeyCode: 35 },
  Insert: { code: "Insert", windowsVirtualKeyCode: 45 },
  Delete: { code: "Delete", windowsVirtualKeyCode: 46 },
  Escape: { code: "Escape", windowsVirtualKeyCode: 27 },
  " ": { code: "Space", windowsVirtualKeyCode: 32, text: " " },
};
const CONTROL = 2;

export class Browser {
  #process;
  #folder;
  #asked = new Map();
  #number = 0;
  #listeners = new Map();

  static async start(command = "chromium", flags = []) {
    const browser = new Browser();
    browser.#folder = await mkdtemp(join(tmpdir(), "jcobs-chromium-"));
    const asRoot = process.getuid?.() === 0 ? ["--no-sandbox"] : [];
    browser.#process = spawn(command, ["--headless=new", "--remote-debugging-pipe", "--disable-gpu", "--disable-dev-shm-usage", "--no-first-run", "--hide-scrollbars", `--user-data-dir=${browser.#folder}`, ...asRoot, ...flags, "about:blank"], { stdio: ["ignore", "ignore", "ignore", "pipe", "pipe"] });
    const gone = (why) => {
      for (const { failed } of browser.#asked.values()) failed(new Error(`Chromium ended: ${why}`));
      browser.#asked.clear();
    };
    browser.#process.once("error", (error) => gone(error.message));
    browser.#process.once("exit", (status) => gone(`status ${status}`));
    browser.#process.stdio[3].on("error", () => {});
    let rest = "";
    browser.#process.stdio[4].setEncoding("utf8").on("data", (text) => {
      const said = (rest + text).split("\0");
      rest = said.pop();
      for (const each of said) browser.#take(JSON.parse(each));
    });
    await browser.send("Browser.getVersion");
    return browser;
  }

  send(method, params = {}, sessionId = undefined) {
    const id = ++this.#number;
    return new Promise((done, failed) => {
      const timer = setTimeout(() => {
        this.#asked.delete(id);
        failed(new Error(`no answer to ${method}`));
      }, ANSWER_MILLISECONDS);
      const end = (act) => (value) => {
        clearTimeout(timer);
        act(value);
      };
      this.#asked.set(id, { done: end(done), failed: end(failed), method });
      this.#process.stdio[3].write(`${JSON.stringify({ id, method, params, sessionId })}\0`);
    });
  }

  #take({ id, result, error, method, params, sessionId }) {
    if (id === undefined) {
      this.#listeners.get(sessionId)?.(method, params);
      return;
    }
    const asked = this.#asked.get(id);
    this.#asked.delete(id);
    if (error) asked?.failed(new Error(`${asked.method}: ${error.message}`));
    else asked?.done(result);
  }

  async version() {
    return (await this.send("Browser.getVersion")).product;
  }

  /** Opens a new page at an address. The script `before` runs in the page before its own scripts. */
  async open(address, { width = 1100, height = 900, isDark = false, isPhone = false, scale = isPhone ? 2 : 1, before } = {}) {
    const { browserContextId } = await this.send("Target.createBrowserContext");
    const { targetId } = await this.send("Target.createTarget", { url: "about:blank", browserContextId });
    const { sessionId } = await this.send("Target.attachToTarget", { targetId, flatten: true });
    await this.send("Browser.grantPermissions", { permissions: ["clipboardReadWrite", "clipboardSanitizedWrite"], browserContextId });
    const page = new Page((method, params) => this.send(method, params, sessionId), () => this.send("Target.disposeBrowserContext", { browserContextId }));
    this.#listeners.set(sessionId, (method, params) => page.take(method, params));
    for (const part of ["Page.enable", "Runtime.enable", "Log.enable"]) await page.send(part);
    await page.send("Emulation.setDeviceMetricsOverride", { width, height, deviceScaleFactor: scale, mobile: isPhone });
    await page.send("Emulation.setEmulatedMedia", { features: [{ name: "prefers-color-scheme", value: isDark ? "dark" : "light" }] });
    if (before) await page.send("Page.addScriptToEvaluateOnNewDocument", { source: before });
    await page.go(address);
    return page;
  }

  async close() {
    const ended = this.#process.exitCode ?? this.#process.signalCode ?? new Promise((done) => this.#process.once("exit", done));
    await this.send("Browser.close").catch(() => {});
    const timer = setTimeout(() => this.#process.kill("SIGKILL"), 60_000);
    await ended;
    clearTimeout(timer);
    await rm(this.#folder, { recursive: true, force: true, maxRetries: 20, retryDelay: 200 }); // its children may still write there
  }
}

export class Page {
  /** The errors on the page's console, and its exceptions. */
  faults = [];

  constructor(send, close) {
    this.send = send;
    this.close = close;
  }

  take(method, params) {
    if (method === "Runtime.exceptionThrown") this.faults.push(params.exceptionDetails.exception?.description ?? params.exceptionDetails.text);
    if (method === "Log.entryAdded" && params.entry.level === "error") this.faults.push(`${params.entry.text} ${params.entry.url ?? ""}`);
    if (method === "Runtime.consoleAPICalled" && params.type === "error") this.faults.push(JSON.stringify(params.args));
  }

  async go(address) {
    await this.send("Page.navigate", { url: address });
    await this.until("document.readyState === 'complete'");
  }

  /** Returns the value of an expression in the page. */
  async value(expression) {
    const { result, exceptionDetails } = await this.send("Runtime.evaluate", { expression, awaitPromise: true, returnByValue: true, userGesture: true });
    if (exceptionDetails) throw new Error(exceptionDetails.exception?.description ?? exceptionDetails.text);
    return result.value;
  }

  until(expression) {
    return until(() => this.value(expression), expression);
  }

  /** Waits until the page is drawn, including its reaction to a change of size. */
  drawn() {
    return this.value("new Promise((done) => requestAnimationFrame(() => requestAnimationFrame(() => done())))");
  }

  text(selector) {
    return this.value(`document.querySelector(${JSON.stringify(selector)}).textContent`);
  }

  /** Scrolls to an element, and returns its middle once it doesn't move any more: the page may still be handling earlier input. */
  async placeOf(selector) {
    const find = `document.querySelector(${JSON.stringify(selector)})`;
    await this.until(`${find}?.getClientRects().length > 0`);
    return this.value(`(async () => {
      for (let last = {}; ; await new Promise((done) => requestAnimationFrame(() => requestAnimationFrame(done)))) {
        const element = ${find};
        element.scrollIntoView({ block: "center", behavior: "instant" });
        const { left, top, width, height } = element.getBoundingClientRect();
        const place = { x: left + width / 2, y: top + height / 2 };
        if (place.x === last.x && place.y === last.y) return place;
        last = place;
      }
    })()`);
  }

  /** Clicks with the mouse on the middle of an element. */
  async click(selector) {
    await this.clickAt(await this.placeOf(selector));
  }

  async clickAt(place) {
    for (const type of ["mousePressed", "mouseReleased"]) await this.send("Input.dispatchMouseEvent", { type, ...place, button: "left", clickCount: 1 });
  }

  /** Types text into the focused element, key by key. */
  async type(text) {
    for (const sign of text) {
      await this.send("Input.dispatchKeyEvent", { type: "keyDown", key: sign, text: sign });
      await this.send("Input.dispatchKeyEvent", { type: "keyUp", key: sign });
    }
  }

  async press(key, modifiers = 0) {
    const { text, ...known } = KEYS[key] ?? {};
    await this.send("Input.dispatchKeyEvent", { type: text ? "keyDown" : "rawKeyDown", key, text, modifiers, ...known });
    await this.send("Input.dispatchKeyEvent", { type: "keyUp", key, modifiers, ...known });
  }

  async selectAll() {
    await this.send("Input.dispatchKeyEvent", { type: "keyDown", key: "a", code: "KeyA", windowsVirtualKeyCode: 65, modifiers: CONTROL, commands: ["selectAll"] });
    await this.send("Input.dispatchKeyEvent", { type: "keyUp", key: "a", code: "KeyA", modifiers: CONTROL });
  }

  /** Puts text on the clipboard, and pastes it into the focused element. */
  async paste(text) {
    await this.value(`navigator.clipboard.writeText(${JSON.stringify(text)})`);
    await this.send("Input.dispatchKeyEvent", { type: "keyDown", key: "v", code: "KeyV", windowsVirtualKeyCode: 86, modifiers: CONTROL, commands: ["paste"] });
    await this.send("Input.dispatchKeyEvent", { type: "keyUp", key: "v", code: "KeyV", modifiers: CONTROL });
  }

  /** Clicks into a field, and replaces its contents at once, as an input method does. */
  async fill(selector, text) {
    await this.click(selector);
    await this.selectAll();
    if (text === "") await this.press("Backspace");
    else await this.send("Input.insertText", { text });
  }

  async screenshot(path) {
    const { data } = await this.send("Page.captureScreenshot", { format: "png" });
    await writeFile(path, Buffer.from(data, "base64"));
  }
}
