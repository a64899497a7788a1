// Writes jcobs.js, machine.js and cobs.wasm as one file for `import`, and as another file for `require` and for a <script>:
//
//     node pack.mjs FOLDER        # FOLDER/jcobs.js, FOLDER/jcobs.cjs, the types of the second, and the files below
//
// In Node, `import` gets node.js, which exports jcobs.cjs. So a program has only one module, even if it uses both `import` and
// `require`. auto.js, auto.cjs and auto.node.js load the module themselves. serialport.cjs is serialport.js for `require`.
// integrity.json has the hashes for a <script> from another host.
//
// Only the lines that import, export or find cobs.wasm are changed. If one of these lines isn't as this script expects it, the script fails.
import { createHash } from "node:crypto";
import { copyFile, mkdir, readFile, writeFile } from "node:fs/promises";
import { join } from "node:path";

const read = (name, encoding = "utf8") => readFile(new URL(name, import.meta.url), encoding);

/** Returns `text` with the match of `pattern` replaced. There must be exactly one match. */
function replaced(text, pattern, by) {
  const found = text.match(new RegExp(pattern, "gm")) ?? [];
  if (found.length !== 1) throw new Error(`pack.mjs: ${pattern} matches ${found.length} times`);
  return text.replace(found[0], () => by);
}

const { version } = JSON.parse(await read("package.json"));
const base64 = await read("cobs.wasm", "base64");
const embedded = `const moduleAddress = () => Uint8Array.from(atob(EMBEDDED), (sign) => sign.charCodeAt(0));
const EMBEDDED =
  "${base64}";`;

let machine = replaced(await read("machine.js"), "^const moduleAddress = .*;$", embedded);
machine = replaced(machine, "new URL\\(source, import\\.meta\\.url\\)", "new URL(source, globalThis.document?.baseURI)");
let calls = replaced(await read("jcobs.js"), '^import \\{.*\\} from "\\./machine\\.js";\n', "");
calls = replaced(calls, '^export \\{.*\\} from "\\./machine\\.js";\n', "");
const names = [...calls.matchAll(/^export (?:async )?(?:function\*?|class|const) (\w+)/gm)].map(([, name]) => name);
names.push("CobsError", "isSupported", "load", "loadSync");
const body = [machine, calls].map((text) => text.replace(/^export /gm, "")).join("\n");
const head = `// jcobs ${version}, with the module inside. Written by pack.mjs from jcobs.js, machine.js and cobs.wasm; edit those.\n`;
const list = names.sort().join(", ");

const folder = process.argv[2];
await mkdir(folder, { recursive: true });
const named = (from) => `// Written by pack.mjs.\nimport jcobs from "./${from}";\nexport const { ${list} } = jcobs;\n`;
let transforms = replaced(await read("serialport.js"), '^import \\{(.*)\\} from "node:stream";$', 'const { Transform } = require("node:stream");');
transforms = replaced(transforms, '^import \\{(.*)\\} from "\\./dist/node\\.js";$', 'const { FrameDecoder, encode, load } = require("./jcobs.cjs");');
const classes = [...transforms.matchAll(/^export class (\w+)/gm)].map(([, name]) => name);
const files = {
  "jcobs.js": `${head}${body}\nexport { ${list} };\n`,
  "jcobs.cjs": `${head}var jcobs = (() => {\n"use strict";\n${body}\nreturn { ${list} };\n})();\nif (typeof module === "object") module.exports = jcobs;\n`,
  "node.js": named("jcobs.cjs"),
  "auto.js": `// Written by pack.mjs.\nimport { load } from "./jcobs.js";\nexport * from "./jcobs.js";\nawait load();\n`,
  "auto.cjs": `// Written by pack.mjs.\nconst jcobs = require("./jcobs.cjs");\njcobs.loadSync();\nmodule.exports = jcobs;\n`,
  "auto.node.js": named("auto.cjs"),
  "serialport.cjs": `// Written by pack.mjs from serialport.js; edit that.\n${transforms.replace(/^export /gm, "")}\nmodule.exports = { ${classes.join(", ")} };\n`,
};
const sumOf = (text) => `sha384-${createHash("sha384").update(text).digest("base64")}`;
files["integrity.json"] = `${JSON.stringify(Object.fromEntries(["jcobs.js", "jcobs.cjs"].map((name) => [name, sumOf(files[name])])), null, 2)}\n`;
for (const [name, text] of Object.entries(files)) await writeFile(join(folder, name), text);
await copyFile(new URL("jcobs.d.ts", import.meta.url), join(folder, "jcobs.d.cts"));
await writeFile(join(folder, "serialport.d.cts"), replaced(await read("serialport.d.ts"), '"\\./jcobs\\.js"', '"./jcobs.cjs"'));
