// Checks that README.md, PAGE.md and the page name the oldest versions of browsers that can run the code. Each method, global and form
// of syntax that the code uses is listed below: in COMMON, if browsers had it before 2020, or with the first versions that have it,
// from the compatibility tables of MDN. A name that isn't listed is an error, so that nobody uses a newer name unnoticed.
import { execFileSync } from "node:child_process";
import { readFile, readdir } from "node:fs/promises";
import { check, equal, holds } from "./tally.mjs";

/** The first versions of Chrome, Firefox and Safari that have a method or a global. */
const SINCE = {
  at: [92, 90, 15.4], replaceAll: [85, 77, 13.1], replaceChildren: [86, 78, 14], instantiate: [57, 52, 11], matchAll: [73, 67, 13],
  BigInt64Array: [67, 68, 15], BigInt: [67, 68, 14], ReadableStream: [52, 65, 10.1], WritableStream: [59, 100, 14.1], TransformStream: [67, 102, 14.1], ResizeObserver: [64, 69, 13.1],
};

/** Forms of syntax: their pattern, and the first versions that have them. */
const SYNTAX = {
  "logical assignment": [/(\?\?|\|\||&&)=/, [85, 79, 14]],
  "optional chaining": [/\?\.[\w[(]/, [80, 74, 13.1]],
  "private methods": [/^ +(async |get |set )*#\w+\(/m, [84, 90, 15]],
  "private fields": [/^ +#\w+( =|;)/m, [74, 90, 14.1]],
  "await at the top": [/^(if \()?await /m, [89, 89, 15]],
  "look-behind": [/\(\?<[=!]/, [62, 78, 16.4]],
  "static blocks": [/static \{/, [94, 93, 16.4]],
  "private names with in": [/#\w+ in /, [91, 90, 15]],
  "the address of a module": [/import\.meta/, [64, 62, 11.1]],
  ":is": [/:is\(/, [88, 78, 14]],
  ":has": [/:has\(/, [105, 121, 15.4]],
  "contain": [/contain: /, [52, 69, 15.4]],
  "overflow-wrap: anywhere": [/overflow-wrap: anywhere/, [80, 65, 15.4]],
  ":focus-visible": [/:focus-visible/, [86, 85, 15.4]],
  "clamp": [/clamp\(/, [79, 75, 13.1]],
  "layers and nesting": [/@layer|^\s*&/m, [120, 117, 17.2]],
};

/** The features that cobs.wasm needs: 64-bit numbers from and to JavaScript, and memory.copy. */
const MODULE = [[85, 78, 15], [75, 79, 15]];

/** Names that the code uses only if the browser has them. */
const GUARDED = "FinalizationRegistry getBuiltinModule unregister register dispose requestPort getPorts getInfo setSignals";

const COMMON = `Array ArrayBuffer Blob Boolean CustomEvent DataView Date Error Float64Array Infinity Int8Array JSON Map Math NaN Number Object Option Promise RangeError RegExp
  Response Set String Symbol TextDecoder TextEncoder TypeError URL URLSearchParams Uint32Array Uint8Array WebAssembly Instance Module addEventListener dispatchEvent atob fetch
  parseInt setInterval clearInterval setTimeout clearTimeout requestAnimationFrame getSelection
  abort abs add after append arrayBuffer assign cancel catch ceil charCodeAt checkValidity clear click closest codePointAt compile contains createElement createObjectURL decode
  delete encode encodeURIComponent enqueue entries error every exec exports fill filter find findIndex flatMap floor focus forEach from fromCharCode fromCodePoint fromEntries get getAttribute getBoundingClientRect
  getData getElementById getMilliseconds getReader getTime getWriter has hasAttribute includes indexOf insertBefore isArray isInteger isNaN isSafeInteger isView join keys lastIndexOf map match matches max min now observe of
  padEnd padStart parse pop postMessage preventDefault push pushState querySelector querySelectorAll read reduce releaseLock remove removeAttribute removeEventListener repeat replace replaceState
  resolve reverse revokeObjectURL round scrollIntoView select selectAllChildren set setAttribute setProperty shift slice some sort splice split startsWith endsWith subarray test text toISOString toLocaleString
  toLowerCase toString toTimeString toUpperCase toggle trim trimEnd trimStart validate values write writeText close call apply concat then reject`;

/** Methods of this code's own objects, of the module and of Node. */
const OWN = `about act back changedFrom codes complain countOf decoder encoder changed fault finish give goTo grow isAll isIdle isIn isNoisy isThere item left loop maxLength
  mark message name note on outcome open piece placeAfter reach readFile readFileSync readInto receive refresh reset reveal send setLine show speak stage start take topOf wake whole words
  splice write jcobs_decode jcobs_decoder_is_idle jcobs_decoder_push jcobs_decoder_reset jcobs_encoder_finish jcobs_encoder_push jcobs_encoder_reset jcobs_frame_kind jcobs_max_length
  byteOf byId c constructor fromhex idle parseHex python rust`;

const listed = (text) => text.split(/\s+/);
const known = new Set([...listed(COMMON), ...listed(OWN), ...listed(GUARDED), ...Object.keys(SINCE)]);
const read = (name) => readFile(new URL(`../${name}`, import.meta.url), "utf8");
const bare = (text) => text.replace(/\/\*[\s\S]*?\*\//g, "").replace(/(^|\s)\/\/[^\n]*/g, "$1").replace(/"(?:\\.|[^"\\\n])*"/g, '""');

/** Returns the methods and globals that the code uses and whose names have several words or begin with a capital letter. */
function namesIn(text) {
  const called = [...text.matchAll(/\.([A-Za-z_$][\w$]*)(?=\??\.?\(|\.call\()/g)].map(([, name]) => name);
  const made = [...text.matchAll(/(?<![.\w$#"'`-])(?:new |extends |instanceof |typeof )([A-Za-z]\w*)/g)].map(([, name]) => name);
  const globals = [...text.matchAll(/(?<![.\w$#"'`<-])(?:globalThis|[a-z]+[A-Z]\w*|[A-Z]\w*)(?=[.(])/g)].map(([name]) => name).filter((name) => name in globalThis);
  return new Set([...called, ...made.filter((name) => name in globalThis), ...globals]);
}

const greatest = (all) => [0, 1, 2].map((at) => Math.max(...all.map((versions) => versions[at])));

function needed(text) {
  const names = namesIn(text);
  const unknown = [...names].filter((name) => !known.has(name) && name !== "globalThis");
  equal(unknown, [], "names that are in no list of test/browsers.mjs");
  return greatest(Object.entries(SINCE).filter(([name]) => names.has(name)).map(([, versions]) => versions).concat(Object.values(SYNTAX).filter(([pattern]) => pattern.test(text)).map(([, versions]) => versions), MODULE));
}

const SENTENCE = /Chrome or Edge (\d+), Firefox (\d+) or Safari ([\d.]+)/;
const named = async (file) => (await read(file)).match(SENTENCE).slice(1).map((version) => Number(version.replace(/\.$/, "")));

await check("the package needs the browsers that its README names", async () => {
  const files = ["jcobs.js", "machine.js"];
  equal(await named("README.md"), needed(bare((await Promise.all(files.map(read))).join("\n"))), "the versions");
});
await check("the page needs the browsers that PAGE.md and itself name", async () => {
  const files = [...(await readdir(new URL("../page", import.meta.url))).map((name) => `page/${name}`), "draw.js", "jcobs.js", "machine.js"].filter((name) => name !== "page/early.js");
  const versions = needed(bare((await Promise.all(files.map(read))).join("\n")));
  equal(await named("PAGE.md"), versions, "the versions of PAGE.md");
  equal(await named("page/early.js"), versions, "those that the page says when it can't be started");
});
await check("what says so is for older browsers", async () => {
  const text = bare(await read("page/early.js"));
  holds(!/=>|\blet\b|\bconst\b|`|\?\.|\?\?/.test(text), "it has no syntax of after 2010");
});
await check("esbuild finds no syntax that those browsers lack", async () => {
  let esbuild;
  try {
    esbuild = execFileSync("sh", ["-c", "command -v esbuild"], { encoding: "utf8" }).trim();
  } catch {
    console.log("skipped: the syntax by esbuild: it is not there: install Debian's esbuild");
    return;
  }
  const [chrome, firefox, safari] = await named("README.md");
  const text = await read("dist/jcobs.js");
  // esbuild takes optional chaining to be newer than it is, because older versions of Chrome have a fault in it, which only a call with a spread shows
  const built = (target) => execFileSync(esbuild, ["--format=esm", "--log-level=error", "--supported:optional-chain=true", `--target=${target}`], { input: text, encoding: "utf8", maxBuffer: 1 << 26 });
  equal(built(`chrome${chrome},firefox${firefox},safari${safari}`) === built("esnext"), true, "whether nothing is rewritten");
});
