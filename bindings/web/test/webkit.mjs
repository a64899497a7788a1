// Tests the conformance cases, the streams and the page in a WebKit engine, with WebDriver: node webkit.mjs MINIBROWSER CONFORMANCE
//
// The engine needs a display, for example that of xvfb-run.
import { spawn } from "node:child_process";
import { readdir } from "node:fs/promises";
import { request } from "node:http";
import { createServer } from "node:net";
import { json } from "node:stream/consumers";
import { serve } from "../serve.mjs";
import { check, count, equal, holds, report, until } from "./tally.mjs";

const [, , browser, folder] = process.argv;
const { server, address } = await serve(0, { conformance: folder });
const port = await new Promise((done) => {
  const probe = createServer().listen(0, "127.0.0.1", () => {
    const { port: free } = probe.address();
    probe.close(() => done(free));
  });
});
const env = { ...process.env, WEBKIT_DISABLE_SANDBOX_THIS_IS_DANGEROUS: "1", WEBKIT_DISABLE_COMPOSITING_MODE: "1" };
const driver = spawn("WebKitWebDriver", [`--port=${port}`], { env, stdio: "ignore" });

const LONGEST = 1_800_000; // milliseconds of a script, on a machine that is busy with other work

/** Returns the value in the driver's reply. `fetch` isn't used, because it would give up after five minutes without a reply. */
async function call(method, path, body) {
  const response = await new Promise((done, failed) => {
    const options = { host: "127.0.0.1", port, path, method, agent: false, signal: AbortSignal.timeout(LONGEST + 60_000) };
    request(options, done).on("error", failed).end(body && JSON.stringify(body));
  });
  const { value } = await json(response);
  if (value?.error) throw new Error(`${path}: ${value.error}: ${value.message}`);
  return value;
}

let session;
/** Returns the value of an expression in the page. The value may be a promise. */
const value = (expression) => call("POST", `/session/${session}/execute/async`, {
  script: `const done = arguments[0]; Promise.resolve().then(() => (${expression})).then(done, (error) => done({ threw: String(error) }))`,
  args: [],
});
/** Presses keys as a user does, in the focused element. */
const type = (keys) => call("POST", `/session/${session}/actions`, {
  actions: [{ type: "key", id: "keys", actions: [...keys].flatMap((key) => [{ type: "keyDown", value: key }, { type: "keyUp", value: key }]) }],
});
/** Moves the mouse to the middle of an element, once the element is visible and doesn't move any more, and clicks if this is asked for. */
async function point(id, isClick = false) {
  let last;
  const [x, y] = await until(async () => {
    const before = last;
    last = await value(`(() => {
      const element = document.getElementById("${id}");
      element.scrollIntoView({ block: "center", behavior: "instant" });
      const { left, top, width, height } = element.getBoundingClientRect();
      return width > 0 && [left + width / 2, top + height / 2].map(Math.round);
    })()`);
    return last && String(last) === String(before) && last;
  });
  const press = isClick ? [{ type: "pointerDown", button: 0 }, { type: "pointerUp", button: 0 }] : [];
  await call("POST", `/session/${session}/actions`, { actions: [{ type: "pointer", id: "mouse", actions: [{ type: "pointerMove", x, y, duration: 0 }, ...press] }] });
}
const go = (path) => call("POST", `/session/${session}/url`, { url: address + path });

try {
  await until(() => call("GET", "/status"));
  const options = { binary: browser, args: ["--automation"] };
  const started = await call("POST", "/session", { capabilities: { alwaysMatch: { "webkitgtk:browserOptions": options } } });
  session = started.sessionId;
  console.log(`webkit: in ${started.capabilities.browserName} ${started.capabilities.browserVersion}`);
  await call("POST", `/session/${session}/timeouts`, { script: LONGEST });
  const names = (await readdir(folder)).filter((name) => name.endsWith(".txt")).sort();

  await go("test/blank.html");
  const ran = await value(`import("/test/cases.js").then(({ runServed }) => runServed("/cobs.wasm", ${JSON.stringify(names.map((name) => `/conformance/${name}`))}))`);
  for (const line of ran.said ?? [JSON.stringify(ran)]) if (!line.startsWith("left out")) console.log(line);
  count(ran.cases - ran.differ || 0, ran.differ ?? 1);

  await check("webkit: the page is drawn", async () => {
    await go("#message");
    await until(() => value("document.documentElement.dataset.ready === 'yes'"));
    await until(() => value("document.getElementById('message-frame').textContent === '06 48 65 6c 6c 6f 06 57 6f 72 6c 64'"));
    await until(() => value("document.querySelectorAll('#message-drawing .arc').length === 2"));
    await value("document.getElementById('tab-stream').click()");
    await until(() => value("document.getElementById('stream-status').textContent.includes('7 pieces: 5 messages')"));
    await value("document.getElementById('stream-byte-1').click()");
    await until(() => value("document.querySelector('#stream-pieces .badge').textContent === 'altered message'"));
  });
  await check("webkit: after 100 changes of the address within 10 s the page shows the right frame", async () => {
    await go("#text=%0A%0B%00%0C");
    await until(() => value("document.documentElement.dataset.ready === 'yes'"));
    await value("document.querySelector('input[name=message-kind][value=text]').click()");
    const spent = await value("(() => { for (let i = 0; i < 200; i++) try { history.replaceState(null, '', location.href); } catch { return i; } return -1; })()");
    holds(spent >= 0 && spent <= 100, `the engine allowed ${spent} changes`);
    for (let i = 1; i <= 20; i++) await value(`(document.getElementById('message-input').value = 'x'.repeat(${i}), document.getElementById('message-input').dispatchEvent(new Event('input')))`);
    await until(() => value("document.getElementById('message-length').textContent === '20 bytes'"));
    equal(await value("document.getElementById('message-frame').textContent"), `15${" 78".repeat(20)}`, "the frame");
    equal(await value("document.getElementById('message-frame-length').textContent"), "21 bytes", "its length");
  });
  await check("webkit: bytes of the canvas are explained and written", async () => {
    await go("#hex=0a0b000c");
    await until(() => value("document.querySelectorAll('#message-drawing .arc').length === 2"));
    await point("message-byte-3");
    await until(() => value("document.getElementById('message-explained').textContent.startsWith('Byte 3, 02: a code, in place of a zero')"));
    await point("message-over-1", true);
    await type("1f");
    await until(() => value("document.getElementById('message-frame').textContent === '03 1f 0b 02 0c'"));
    await type("\uE015"); // arrow down
    await type("00"); // a sentinel in the frame
    await until(() => value("[...document.querySelectorAll('#message-drawing .badge')].map((badge) => badge.textContent).join() === 'broken,message'"));
  });
  await check("webkit: the loop gives back what is sent, and Stream shows it", async () => {
    await value("document.getElementById('tab-line').click()");
    await value("document.getElementById('line-loop').click()");
    await until(() => value("!document.getElementById('line-submit').disabled"));
    await value("(document.getElementById('line-text').value = 'hello', document.getElementById('line-submit').click())");
    await until(() => value("document.getElementById('line-messages').textContent === '1'"));
    await value("document.getElementById('line-close').click()");
    await until(() => value("document.getElementById('line-status').textContent === 'Not connected.'"));
    await value("document.getElementById('line-stream').click()");
    await until(() => value("document.getElementById('stream-status').textContent.startsWith('7 bytes, 1 piece: 1 message. Read as a log: 1 row received.')"));
  });
  await check("webkit: dist/jcobs.js has the module inside", async () => {
    const said = await value('import("/dist/jcobs.js").then(async (cobs) => (await cobs.load(), [...cobs.encode(Uint8Array.of(10, 11, 0, 12))].join(" ")))');
    equal(said, "3 10 11 2 12", "the frame");
  });
  holds(session, "a session");
} finally {
  if (session) await call("DELETE", `/session/${session}`).catch(() => {});
  driver.kill();
  server.close();
  server.closeAllConnections();
}
report("webkit");
