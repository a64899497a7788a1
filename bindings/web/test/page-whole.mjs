// Tests the page as a whole in Chromium.
import { execFileSync, spawnSync } from "node:child_process";
import { existsSync } from "node:fs";
import { cp, mkdtemp, readFile, readdir, rm, stat, writeFile } from "node:fs/promises";
import { tmpdir } from "node:os";
import { dirname, join, relative } from "node:path";
import { fileURLToPath, pathToFileURL } from "node:url";
import { serve } from "../serve.mjs";
import { Browser } from "./chromium.mjs";
import { count as countAny, equal, holds, throws } from "./tally.mjs";
import { READY, address, browser, check, conformance, hex, on, server } from "./page-setup.mjs";

await check("page: the tabs by the keyboard", () => on("message", async (page) => {
  await page.click("#tab-message");
  for (const [key, view] of [["ArrowRight", "stream"], ["ArrowRight", "line"], ["ArrowRight", "message"], ["ArrowLeft", "line"], ["Home", "message"], ["End", "line"]]) {
    await page.press(key);
    await page.until(`document.activeElement.id === "tab-${view}" && !document.getElementById("${view}").hidden`);
    equal(await page.value('[...document.querySelectorAll("[role=tabpanel]")].filter((each) => !each.hidden).length'), 1, "views in sight");
  }
  await page.value("history.back()");
  await page.until('!document.getElementById("message").hidden');
}));

for (const view of ["message", "stream", "line"]) {
  await check(`page: every control of ${view} has a name, and Tab reaches it`, () => on(view, async (page) => {
    await page.value('document.querySelectorAll("details").forEach((each) => (each.open = true))');
    const { nodes } = await page.send("Accessibility.getFullAXTree");
    const roles = new Set(["button", "textbox", "radio", "checkbox", "combobox", "spinbutton", "tab", "listbox", "option", "group", "log", "tabpanel", "tablist", "image"]);
    const nameless = nodes.filter((node) => !node.ignored && roles.has(node.role?.value) && !node.name?.value);
    equal(nameless.map((node) => node.role.value), [], "controls without a name");
    const wanted = await page.value(`[...document.querySelectorAll("#${view} :is(button, input, textarea, select, [tabindex])")].filter((each) => !each.disabled && each.tabIndex >= 0 && each.getClientRects().length > 0 && each.type !== "radio").map((each) => each.id || each.textContent)`);
    const reached = new Set();
    await page.click(`#tab-${view}`);
    for (let i = 0; i < wanted.length + 8; i++) {
      await page.press("Tab");
      reached.add(await page.value("document.activeElement.id || document.activeElement.textContent"));
    }
    equal(wanted.filter((each) => !reached.has(each)), [], "what Tab doesn't reach");
  }));
  for (const [width, isDark] of [[360, false], [360, true], [1100, true]]) {
    await check(`page: ${view} fits ${width} pixels${isDark ? " in the dark" : ""}, and its text stands out`, () => on(view, async (page) => {
      holds((await page.value("document.documentElement.scrollWidth")) <= width, "nothing is wider than the window");
      const faint = await page.value(`(() => {
        const parse = (color) => color.match(/[0-9.]+/g).map(Number);
        const shine = ([r, g, b]) => [r, g, b].map((c) => c / 255).map((c) => (c <= 0.03928 ? c / 12.92 : ((c + 0.055) / 1.055) ** 2.4)).reduce((sum, c, i) => sum + c * [0.2126, 0.7152, 0.0722][i], 0);
        const ground = (element) => {
          for (let each = element; each; each = each.parentElement) {
            const color = parse(getComputedStyle(each).backgroundColor);
            if (color[3] === undefined || color[3] > 0) return color;
          }
          return [255, 255, 255];
        };
        const faint = [];
        const inside = ({ left, top, width, height }, box) => left + width / 2 > box.left && left + width / 2 < box.right && top + height / 2 > box.top && top + height / 2 < box.bottom;
        for (const text of document.querySelectorAll(".rows svg text")) {
          if (text.getClientRects().length === 0) continue;
          const place = text.getBoundingClientRect();
          const rect = [...text.closest("svg").querySelectorAll("rect:not(.end)")].find((each) => inside(place, each.getBoundingClientRect()));
          const [a, b] = [shine(parse(getComputedStyle(text).fill)), shine(rect ? parse(getComputedStyle(rect).fill) : ground(text))].sort((x, y) => y - x);
          if ((a + 0.05) / (b + 0.05) < 4.5) faint.push(text.outerHTML);
        }
        for (const element of document.querySelectorAll("main *, header *, footer *")) {
          if (element.closest("svg") || element.closest(":disabled") || element.getClientRects().length === 0) continue;
          if (![...element.childNodes].some((node) => node.nodeType === 3 && node.textContent.trim())) continue;
          const [a, b] = [shine(parse(getComputedStyle(element).color)), shine(ground(element))].sort((x, y) => y - x);
          const contrast = (a + 0.05) / (b + 0.05);
          if (contrast < 4.5) faint.push(element.outerHTML.slice(0, 80) + " " + contrast.toFixed(2));
        }
        for (const element of document.querySelectorAll("main :is(button, input, select, textarea, .button, .rows, .hex)")) {
          const style = getComputedStyle(element);
          const isBare = element.matches(".spoken, [type=radio], [type=checkbox], [type=range]") || style.borderTopWidth === "0px" || parse(style.borderTopColor)[3] === 0;
          if (isBare || element.getClientRects().length === 0) continue;
          const [a, b] = [shine(parse(style.borderTopColor)), shine(ground(element.parentElement))].sort((x, y) => y - x);
          if ((a + 0.05) / (b + 0.05) < 3) faint.push("the border of " + element.outerHTML.slice(0, 80));
        }
        return faint;
      })()`);
      equal(faint, [], "text whose contrast is under 4.5, and borders whose is under 3");
    }, { width, height: 800, isDark, isPhone: width < 500 }));
  }
}

await check("page: an engine that is too old is told so", async () => {
  const page = await browser.open(address, { before: "WebAssembly.validate = () => false" });
  await page.until('!document.getElementById("unsupported").hidden');
  holds((await page.text("#unsupported")).includes("lacks the WebAssembly"), "it says why");
  equal(await page.value('document.getElementById("views").hidden'), true, "no view is shown");
  await page.close();
});

await check("page: a fault of the page isn't called one of loading", async () => {
  const page = await browser.open(address, { before: "ResizeObserver = class { constructor() { throw new Error('planted'); } }" });
  await page.until('!document.getElementById("unsupported").hidden');
  equal(await page.text("#unsupported"), "An error has occurred in this page: planted", "what it says");
  await page.close();
});

await check("page: a content security policy that forbids the module is named, and one that allows it is enough; in a worker too", async () => {
  const folder = await mkdtemp(join(tmpdir(), "jcobs-policy-"));
  const site = await serve(0, { policy: folder });
  try {
    await writeFile(join(folder, "jcobs.js"), await readFile(new URL("../dist/jcobs.js", import.meta.url)));
    await writeFile(join(folder, "said.js"), `import { encode, isSupported, load } from "./jcobs.js";
      export const said = load().then(() => encode(Uint8Array.of(7)).join(), ({ name, kind, message }) => [name, kind, message].join()).then((text) => [isSupported(), text].join());`);
    await writeFile(join(folder, "worker.js"), 'import { said } from "./said.js"; said.then(postMessage);');
    await writeFile(join(folder, "page.js"), `import { said } from "./said.js";
      new Worker("worker.js", { type: "module" }).onmessage = async ({ data }) => { document.title = [await said, data].join(" | "); };`);
    for (const [policy, wanted] of [["'self' 'wasm-unsafe-eval'", "true,2,7 | true,2,7"], ["'self'", "false,CobsError,unsupported,a content security policy forbids WebAssembly: its script-src needs 'wasm-unsafe-eval'"]]) {
      await writeFile(join(folder, "page.html"), `<!doctype html><meta http-equiv="Content-Security-Policy" content="script-src ${policy}"><script type="module" src="page.js"></script>`);
      const page = await browser.open(`${site.address}policy/page.html`);
      await page.until(`document.title.startsWith(${JSON.stringify(wanted)})`);
      await page.close();
    }
  } finally {
    site.server.close();
    await rm(folder, { recursive: true });
  }
});

await check("page: every vector", () => on("message", async (page) => {
  const names = (await readdir(conformance)).filter((name) => name.endsWith(".txt")).map((name) => `/conformance/${name}`);
  const { cases, differ, said } = await page.value(`import("/test/cases.js").then(({ runServed }) => runServed("/cobs.wasm", ${JSON.stringify(names)}))`);
  equal(said.filter((line) => !line.startsWith("left out")), [], "what differs");
  countAny(cases - differ, differ);
}));

await check("page: the folder that build.sh makes serves it, under its content security policy", async () => {
  const folder = await mkdtemp(join(tmpdir(), "jcobs-site-"));
  try {
    execFileSync(fileURLToPath(new URL("../build.sh", import.meta.url)), ["site", folder]);
    const site = await serve(0, { site: folder });
    const page = await browser.open(`${site.address}site/index.html#message&hex=0a00&sentinel=00`);
    await page.until(READY);
    await page.until('document.getElementById("message-frame").textContent === "02 0a 01"');
    await page.until('getComputedStyle(document.querySelector("#message-drawing text.on")).fontWeight === "700"');
    equal(await page.value('performance.getEntriesByType("resource").filter(({ name }) => !name.includes("/site/")).map(({ name }) => name)'), [], "requests beside the folder");
    const files = (await readdir(folder, { recursive: true, withFileTypes: true })).filter((each) => each.isFile()).map((each) => relative(folder, join(each.path, each.name)));
    const named = new Set();
    for (const file of files.filter((name) => /\.(html|js|css)$/.test(name))) {
      const text = await readFile(join(folder, file), "utf8");
      const links = [...text.matchAll(/(?:href|src)="([^"#:]+)"|^import [^"]*"(\.[^"]+)"|^export [^"]* from "(\.[^"]+)"|new URL\("([\w.]+)", import\.meta\.url\)|property="og:image" content="([^"]+)"/gm)];
      for (const found of links) named.add(join(dirname(file), found.slice(1).find((each) => each)));
    }
    equal([...named].filter((name) => !files.includes(name)), [], "links to files that aren't there");
    equal(files.filter((name) => !named.has(name) && name !== "index.html"), [], "files that nothing links to");
    const size = (await Promise.all(files.map(async (name) => (await stat(join(folder, name))).size))).reduce((sum, each) => sum + each, 0);
    holds(size < 450_000, `the site has ${size} bytes`);
    const policy = await page.value(`document.querySelector("meta[http-equiv]").content`);
    holds(!policy.includes("unsafe-inline") && policy.startsWith("default-src 'none'"), "the policy is strict");
    equal(page.faults, [], "what the page complained of on its console");
    await page.close();
    site.server.close();
  } finally {
    await rm(folder, { recursive: true });
  }
});

await check("page: the site links to the repository's files if it is told their address, and runs at any address", async () => {
  const folder = await mkdtemp(join(tmpdir(), "jcobs-linked-"));
  const build = (repository, own = "") => execFileSync(fileURLToPath(new URL("../build.sh", import.meta.url)), ["site", folder], { env: { ...process.env, REPOSITORY: repository, ADDRESS: own }, stdio: "pipe" });
  const links = (page) => page.value('[...document.querySelectorAll("a[data-file]")].map((link) => [link.getClientRects().length > 0 || !link.closest("[role=tabpanel]:not([hidden]), footer"), link.href])');
  const other = await Browser.start(process.env.CHROMIUM ?? "chromium", ["--host-resolver-rules=MAP cobs.test 127.0.0.1"]);
  const site = await serve(0, { deep: folder });
  try {
    await throws(() => build("javascript:alert(1)"), (error) => String(error.stderr).includes("REPOSITORY"), "an address that is none");
    await throws(() => build("", 'https://x"y'), (error) => String(error.stderr).includes("ADDRESS"), "an address of its own that is none");
    build("https://example.org/cobs/blob/main", "https://example.org/cobs");
    // over plain HTTP from another host: this isn't a secure context, so there is no clipboard and no Web Serial
    const page = await other.open(`${site.address.replace("localhost", "cobs.test")}deep/index.html`);
    await page.until(READY);
    const found = await links(page);
    equal(found.every(([isSeen]) => isSeen), true, "the links are seen");
    equal(await page.value('document.querySelector("[property=\'og:image\']").content'), "https://example.org/cobs/preview.png", "the picture of a link");
    const files = found.map(([, href]) => href.replace("https://example.org/cobs/blob/main/", ""));
    holds(files.length >= 12 && files.every((file) => existsSync(new URL(`../../../${file}`, import.meta.url))), `each is a file of the repository: ${files}`);
    equal(await page.text("#message-frame"), "06 48 65 6c 6c 6f 06 57 6f 72 6c 64", "the frame");
    await page.click("#message-copy");
    await page.until('document.getElementById("message-copied").textContent.includes("no access to the clipboard")');
    await page.click("#tab-line");
    holds((await page.text("#line-lacking")).includes("https"), "why there is no Web Serial");
    equal(page.faults, [], "what the page complained of on its console");
    build("");
    const bare = await browser.open(`${site.address}deep/index.html`);
    await bare.until(READY);
    equal((await links(bare)).map(([, href]) => href).filter((href) => href !== ""), [], "links without an address");
    equal(await bare.value('[...document.querySelectorAll(".proofs")].every((part) => part.hidden)'), true, "nothing speaks of them");
    await bare.close();
  } finally {
    await other.close();
    site.server.close();
    await rm(folder, { recursive: true });
  }
});

await check("page: serve.mjs listens where it is told, and says in a line that it can't", async () => {
  const file = fileURLToPath(new URL("../serve.mjs", import.meta.url));
  const { server: own, address: there } = await serve(0, {}, "127.0.0.2");
  try {
    holds(there.startsWith("http://127.0.0.2:"), "its address");
    equal((await fetch(there)).status, 200, "the page's status");
    const port = new URL(there).port;
    const { status, stderr } = spawnSync(process.execPath, [file, port, "127.0.0.2"], { encoding: "utf8" });
    equal([status, stderr.split("\n").length], [1, 2], "the status and the lines of a second one");
    holds(stderr.includes(`port ${port} of 127.0.0.2 can't be used`), "what it says");
  } finally {
    own.close();
    own.closeAllConnections();
  }
});

await check("page: a page that is opened as a file, with dist/jcobs.cjs", async () => {
  const folder = await mkdtemp(join(tmpdir(), "jcobs-opened-"));
  try {
    const script = "jcobs.load().then(() => (document.title = jcobs.encode(Uint8Array.of(10, 11, 0, 12)).join()))";
    await writeFile(join(folder, "jcobs.cjs"), await readFile(new URL("../dist/jcobs.cjs", import.meta.url)));
    await writeFile(join(folder, "page.html"), `<!doctype html><script src="jcobs.cjs"></script><script>${script}</script>`);
    const page = await browser.open(pathToFileURL(join(folder, "page.html")).href);
    await page.until('document.title === "3,10,11,2,12"');
    await page.close();
  } finally {
    await rm(folder, { recursive: true });
  }
});

await check("page: opened as a file it says why nothing is there, and so it does if a file is missing", async () => {
  const seen = 'document.getElementById("unsupported").getClientRects().length > 0 && document.getElementById("loading").getClientRects().length === 0';
  const page = await browser.open(new URL("../index.html", import.meta.url).href);
  await page.until(seen);
  holds((await page.text("#unsupported")).includes("opened as a file"), "it says why");
  await page.close();
  const folder = await mkdtemp(join(tmpdir(), "jcobs-part-"));
  const web = fileURLToPath(new URL("..", import.meta.url));
  await cp(join(web, "index.html"), join(folder, "index.html"));
  await cp(join(web, "page"), join(folder, "page"), { recursive: true });
  const { server: own, address: there } = await serve(0, { part: folder });
  try {
    const part = await browser.open(`${there}part/index.html`);
    await part.until(seen);
    holds((await part.text("#unsupported")).startsWith("This page could not be started."), "it says so");
    await part.close();
  } finally {
    own.close();
    own.closeAllConnections();
    await rm(folder, { recursive: true });
  }
});

await check("page: without scripts it is its idea and the first drawing, which are what scripts show first", async () => {
  const shown = `["message-input", "message-frame-edit"].map((id) => document.getElementById(id).value)
    .concat(["message-read", "message-length", "message-frame-length", "message-greatest", "message-blocks", "message-full"].map((id) => document.getElementById(id).textContent))`;
  const cells = (id) => `[...document.querySelectorAll("#${id} svg :is(text, path, rect)")].map((each) => each.outerHTML)`;
  const still = await browser.open("about:blank", { width: 1000 });
  await still.send("Emulation.setScriptExecutionDisabled", { value: true });
  await still.go(address);
  const inSight = await still.value('["h1", ".idea", "noscript p", "#message-first svg", ".legend", "#loading", "[role=tablist]", "textarea", ".samples", "#message-help", "footer"].map((each) => document.querySelector(each).getClientRects().length)');
  equal(inSight, [1, 1, 1, 1, 1, 0, 0, 0, 0, 0, 1], "what is in sight");
  const page = await browser.open(address, { width: 1000 });
  await page.until(READY);
  await page.drawn();
  equal(await still.value(shown), await page.value(shown), "what the fields and lengths say");
  equal(await still.value(cells("message-first")), await page.value(cells("message-drawing")), "the drawing");
  for (const each of [still, page]) {
    equal(each.faults, [], "what the page complained of on its console");
    await each.close();
  }
});

await check("page: in forced colours", () => on("stream", async (page) => {
  await page.send("Emulation.setEmulatedMedia", { features: [{ name: "forced-colors", value: "active" }] });
  const fill = (selector) => page.value(`getComputedStyle(document.querySelector("#stream-pieces svg ${selector}")).fill`);
  const [code, data, ink, onCode] = [await fill("rect.code"), await fill("rect.data"), await fill("text:not([class])"), await fill("text.on")];
  equal(new Set([code, data, ink]).size, 3, "colours of codes, of other bytes, of their digits");
  holds(onCode !== code, "the digits of codes are seen");
  await page.value('document.getElementById("stream-pieces").focus()');
  await page.press("Enter");
  await page.until('document.querySelector("#stream-pieces [aria-selected=true]") !== null');
  holds((await page.value('getComputedStyle(document.querySelector("#stream-pieces [aria-selected=true]")).outlineStyle')) === "solid", "damage is seen");
}));

await check("page: it asks for nothing but its own files", () => on("message", async (page) => {
  const asked = await page.value('performance.getEntriesByType("resource").map((each) => each.name)');
  equal(asked.filter((name) => !name.startsWith(address) && !name.startsWith("data:")), [], "requests to other places");
}));
