// Tests the package as users get it: installed, imported, required and bundled, with its examples: node package.mjs
import { execFileSync, spawn } from "node:child_process";
import { createHash } from "node:crypto";
import { createReadStream, createWriteStream, existsSync } from "node:fs";
import { copyFile, cp, mkdir, mkdtemp, readFile, rm, writeFile } from "node:fs/promises";
import { createRequire } from "node:module";
import { tmpdir } from "node:os";
import { join } from "node:path";
import { fileURLToPath, pathToFileURL } from "node:url";
import { gzipSync } from "node:zlib";
import { FakePort } from "./port.js";
import { check, equal, holds, report, until } from "./tally.mjs";

const web = fileURLToPath(new URL("..", import.meta.url));
const folder = await mkdtemp(join(tmpdir(), "jcobs-package-"));
const run = (command, ...args) => execFileSync(command, args, { cwd: folder, encoding: "utf8", stdio: ["ignore", "pipe", "pipe"], timeout: 600_000 });
const has = (command) => {
  try {
    return run("sh", "-c", `command -v ${command}`) !== "";
  } catch {
    return false;
  }
};
const skip = (part, why) => console.log(`skipped: ${part}: ${why}`);
const DIST = ["auto.cjs", "auto.js", "auto.node.js", "integrity.json", "jcobs.cjs", "jcobs.d.cts", "jcobs.js", "node.js", "serialport.cjs", "serialport.d.cts"];
const TOP = ["LICENSE-APACHE", "LICENSE-MIT", "README.md", "auto.d.ts", "examples/first.js", "examples/serial.js", "jcobs.d.ts", "package.json", "serialport.d.ts", "serialport.js"];
const PACKED = [...TOP, ...DIST.map((name) => `dist/${name}`)].sort();
const SAID = "3 10 11 2 12\n10 11 0 12\n3 10 11 2 12 0\n9 0 1 8 6\n";

/** Sends messages through the transforms of jcobs/serialport: writes them to one end of a pseudo-terminal, and reads them at the other. */
async function overTerminal(there) {
  const { FrameDecoderTransform, FrameEncoderTransform } = createRequire(join(there, "program.cjs"))("jcobs/serialport");
  const [left, right] = ["left", "right"].map((name) => join(there, name));
  const socat = spawn("socat", [`pty,raw,echo=0,link=${left}`, `pty,raw,echo=0,link=${right}`], { stdio: "ignore" });
  try {
    await until(() => existsSync(left) && existsSync(right), "the terminal is there");
    const reader = createReadStream(right).on("error", () => {}); // of the terminal's end
    const outcomes = reader.pipe(new FrameDecoderTransform({ maxLength: 2000, skipFirst: true }));
    const seen = [];
    outcomes.on("data", (outcome) => seen.push(outcome));
    const writer = createWriteStream(left).on("error", () => {});
    writer.write(Uint8Array.of(9, 9, 0, 5, 1, 0)); // the end of a frame, and a broken one
    const encoder = new FrameEncoderTransform();
    encoder.pipe(writer);
    const messages = [Uint8Array.of(10, 0, 11), new Uint8Array(), Uint8Array.from({ length: 1500 }, (_, i) => i)];
    for (const message of messages) encoder.write(message);
    await until(() => seen.length === 4, "four outcomes");
    equal([outcomes.skipped, seen[0], seen.slice(1).map(({ message }) => message)], [3, { kind: "broken", decodedBytes: 1 }, messages], "what came");
    encoder.end();
    reader.destroy();
    outcomes.destroy();
    let fault;
    const bad = new FrameEncoderTransform().on("error", (error) => (fault = error));
    bad.write("text");
    await until(() => fault, "a message that is no bytes");
    holds(fault instanceof TypeError, "its error");
    for (const options of [{ terminated: false }, null]) {
      fault = undefined;
      try {
        new FrameEncoderTransform(options);
      } catch (error) {
        fault = error;
      }
      holds(fault instanceof TypeError, "options that aren't its own");
    }
  } finally {
    socat.kill();
  }
}

try {
  await writeFile(join(folder, "package.json"), '{ "type": "module" }');
  if (has("npm")) {
    await check("npm installs the folder", () => run("npm", "install", "--offline", "--no-audit", "--no-fund", web));
    await check("npm packs what is needed", async () => {
      const [{ files, version }] = JSON.parse(run("npm", "pack", "--dry-run", "--json", "--offline", web));
      const names = files.map(({ path }) => path).sort();
      equal(names, PACKED, "the files");
      const header = await readFile(join(web, "../c/include/jcobs.h"), "utf8");
      const part = (name) => header.match(new RegExp(`#define JCOBS_VERSION_${name} (\\d+)`))[1];
      equal(version, `${part("MAJOR")}.${part("MINOR")}.${part("PATCH")}`, "the version, as jcobs.h has it");
    });
  } else {
    skip("npm install", "npm is not there: install Debian's npm");
    await mkdir(join(folder, "node_modules/jcobs/examples"), { recursive: true });
    for (const name of TOP) await copyFile(join(web, name), join(folder, "node_modules/jcobs", name));
    await cp(join(web, "dist"), join(folder, "node_modules/jcobs/dist"), { recursive: true });
  }
  await check("the licences are those of the repository", async () => {
    for (const name of ["LICENSE-MIT", "LICENSE-APACHE"]) equal(await readFile(join(web, name), "utf8"), await readFile(join(web, "../..", name), "utf8"), name);
  });
  for (const name of ["first.js", "serial.js"]) {
    await copyFile(join(web, "examples", name), join(folder, name));
    await check(`README.md has ${name}`, async () => {
      const [readme, example] = await Promise.all([join(web, "README.md"), join(web, "examples", name)].map((path) => readFile(path, "utf8")));
      holds(readme.includes(`\`\`\`js\n${example}\`\`\``) || readme.includes(`(examples/${name})`), "its text, or a link to it");
    });
  }
  await check("the first example runs", () => equal(run("node", "first.js"), SAID, "what it prints"));
  const first = (await readFile(join(folder, "first.js"), "utf8")).replace("await load();\n", "load().then(() => {\n") + "});\n";
  await writeFile(join(folder, "later.js"), first);
  await check("require gives the same", async () => {
    await writeFile(join(folder, "required.cjs"), first.replace(/^import (.*) from "jcobs";/, 'const $1 = require("jcobs");'));
    equal(run("node", "required.cjs"), SAID, "what it prints");
  });
  await check("import and require are one module", async () => {
    await writeFile(join(folder, "both.mjs"), `import { createRequire } from "node:module";
      import * as imported from "jcobs";
      const required = createRequire(import.meta.url)("jcobs");
      await imported.load();
      console.log(imported.CobsError === required.CobsError, required.encode(Uint8Array.of(0)).join());`);
    equal(run("node", "both.mjs"), "true 1,1\n", "what it prints");
  });
  await check("jcobs/auto needs no load, by import and by require, and is the module that jcobs is", async () => {
    const print = "console.log(encode(Uint8Array.of(7, 0)).join());\n";
    await writeFile(join(folder, "auto.mjs"), `import { encode } from "jcobs/auto";\n${print}`);
    await writeFile(join(folder, "auto.cjs"), `const { encode } = require("jcobs/auto");\n${print}`);
    for (const name of ["auto.mjs", "auto.cjs"]) equal(run("node", name), "2,7,1\n", `what ${name} prints`);
    await writeFile(join(folder, "autos.mjs"), 'import { encode } from "jcobs/auto";\nimport * as jcobs from "jcobs";\nconsole.log(encode === jcobs.encode, jcobs.encode(Uint8Array.of(0)).join());\n');
    equal(run("node", "autos.mjs"), "true 1,1\n", "what it prints");
  });
  await check("a program of CommonJS has frames without a promise", async () => {
    await writeFile(join(folder, "sync.cjs"), first.replace(/^import (.*) from "jcobs";/, 'const $1 = require("jcobs");').replace(/load\b/, "loadSync").replace("load().then(() => {\n", "loadSync();\n").replace(/\}\);\n$/, ""));
    equal(run("node", "sync.cjs"), SAID, "what it prints");
  });
  await check("the package has the module once for import and once for require", async () => {
    const base64 = await readFile(join(web, "cobs.wasm"), "base64");
    const texts = await Promise.all(PACKED.map(async (name) => [name, await readFile(join(web, name), "utf8")]));
    equal(texts.filter(([, text]) => text.includes(base64)).map(([name]) => name), ["dist/jcobs.cjs", "dist/jcobs.js"], "the files that have it");
  });
  await check("README.md has the size of the file for a page", async () => {
    const [readme, file] = await Promise.all([readFile(join(web, "README.md"), "utf8"), readFile(join(web, "dist/jcobs.js"))]);
    const kilobytes = [file.length, gzipSync(file, { level: 9 }).length].map((length) => Math.round(length / 1000));
    holds(readme.includes(`has ${kilobytes[0]} kB, ${kilobytes[1]} kB after gzip`), `it has ${kilobytes} kB`);
  });
  await check("the sums of integrity.json are those of the files", async () => {
    const sums = JSON.parse(await readFile(join(web, "dist/integrity.json"), "utf8"));
    for (const [name, sum] of Object.entries(sums)) equal(`sha384-${createHash("sha384").update(await readFile(join(web, "dist", name))).digest("base64")}`, sum, name);
  });
  await check("the serial example talks and closes", async () => {
    const { talk } = await import(pathToFileURL(join(folder, "serial.js")));
    const port = new FakePort();
    await port.open({});
    const shown = [];
    const { ended, send, close } = talk(port, (message) => shown.push([...message]));
    port.give(9, 9, 0, 3, 10);
    port.give(11, 0, 2, 7, 0);
    await send(Uint8Array.of(5));
    await until(() => shown.length === 2, "two messages are shown");
    equal(shown, [[10, 11], [7]], "the messages");
    equal(port.sent, [2, 5, 0], "what was sent");
    await close();
    await ended;
    equal(port.opened, null, "the port is closed");
    await port.open({});
    const again = talk(port, () => {});
    port.fail("BreakError");
    let fault;
    await again.ended.catch((error) => (fault = error.name));
    equal(fault, "BreakError", "a fault of the line");
    await again.close();
    equal(port.opened, null, "the port is closed after the fault");
  });
  if (has("socat")) await check("Node's streams over a pseudo-terminal", () => overTerminal(folder));
  else skip("the pseudo-terminal", "socat is not there: install Debian's socat");
  if (has("tsc")) {
    await check("the examples compile in strict TypeScript", () =>
      run("tsc", "--noEmit", "--strict", "--allowJs", "--checkJs", "--target", "es2022", "--module", "node16", "--moduleResolution", "node16", "--lib", "es2022,dom", "first.js", "serial.js"));
    const paths = [
      'import { decode } from "jcobs";',
      'import { encode } from "jcobs/auto";',
      'import { FrameDecoderTransform } from "jcobs/serialport";',
      "export const use = (bytes: Uint8Array): Uint8Array => decode(encode(bytes));",
      'export type Kept = FrameDecoderTransform["skipped"];',
      "export const none: Kept = 0;",
    ];
    for (const name of ["paths.ts", "paths.cts"]) await writeFile(join(folder, name), `${paths.join("\n")}\n`); // the second is CommonJS
    await mkdir(join(folder, "node_modules/@types/node"), { recursive: true }); // what of Node's types these files use
    await writeFile(join(folder, "node_modules/@types/node/index.d.ts"), 'declare module "node:stream" { export class Transform { constructor(options?: object); } }\n');
    for (const [resolution, module, source] of [
      ["node", "es2022", "paths.ts"], ["node16", "node16", "paths.ts"], ["node16", "node16", "paths.cts"],
      ["nodenext", "nodenext", "paths.ts"], ["nodenext", "nodenext", "paths.cts"],
    ]) {
      await check(`each path of the package has its types with the module resolution ${resolution}: ${source}`, () =>
        run("tsc", "--noEmit", "--strict", "--target", "es2022", "--module", module, "--moduleResolution", resolution, "--lib", "es2022,dom", "--types", "node", source));
    }
  } else skip("the examples' types", "tsc is not there: install Debian's node-typescript");
  const sending = "const sender = new FrameEncoderTransform();\nsender.on('data', (frame) => console.log([...frame.subarray(0, 3)].join()));\nsender.write(Uint8Array.of(7, 0));\n";
  await writeFile(join(folder, "serialport.mjs"), `import { FrameEncoderTransform } from "jcobs/serialport";\n${sending}`);
  await writeFile(join(folder, "serialport.cjs"), `const { FrameEncoderTransform } = require("jcobs/serialport");\n${sending}`);
  await check("jcobs/serialport is imported and required", () => {
    for (const name of ["serialport.mjs", "serialport.cjs"]) equal(run("node", name), "2,7,1\n", `what ${name} prints`);
  });
  await check("a transform that is destroyed gives its memory back", async () => {
    await writeFile(join(folder, "destroyed.mjs"), `import { once } from "node:events";
      import { memoryOf } from ${JSON.stringify(new URL("memory.mjs", import.meta.url).href)};
      import { FrameDecoderTransform } from "jcobs/serialport";
      await memoryOf(async (pages) => {
        const use = async () => {
          const transform = new FrameDecoderTransform({ maxLength: 1 << 20 });
          transform.write(Uint8Array.of(2, 7, 0));
          await once(transform, "data");
          await once(transform.destroy(), "close");
        };
        await use();
        const before = pages();
        for (let i = 0; i < 20; i++) await use();
        console.log(pages() - before);
      });`);
    equal(run("node", "destroyed.mjs"), "0\n", "how many pages of memory it takes");
  });
  if (has("esbuild")) {
    const required = "required.cjs";
    for (const [platform, format, source] of [["browser", "esm", "later.js"], ["browser", "iife", "later.js"], ["neutral", "esm", "later.js"], ["node", "esm", "later.js"], ["node", "cjs", "later.js"], ["node", "cjs", required], ["browser", "iife", required], ["node", "esm", "auto.mjs"], ["browser", "esm", "auto.mjs"], ["node", "cjs", "auto.mjs"], ["node", "cjs", "auto.cjs"], ["node", "esm", "serialport.mjs"], ["node", "cjs", "serialport.cjs"]]) {
      await check(`esbuild bundles it: ${platform}, ${format}, ${source}`, async () => {
        const name = `bundle-${platform}-${format}-${source}`.replace(/\.\w+$/, format === "esm" ? ".mjs" : ".cjs");
        equal(run("esbuild", "--bundle", `--platform=${platform}`, `--format=${format}`, "--log-level=warning", `--outfile=bundled/${name}`, source), "", "warnings");
        equal(execFileSync("node", [name], { cwd: join(folder, "bundled"), encoding: "utf8" }), source.startsWith("auto") || source.startsWith("serialport") ? "2,7,1\n" : SAID, "what it prints");
      });
    }
  } else skip("esbuild", "it is not there: install Debian's esbuild");
  if (has("rollup")) {
    await check("rollup bundles it", async () => {
      await writeFile(join(folder, "rolled.js"), first.replace('"jcobs"', '"./node_modules/jcobs/dist/jcobs.js"'));
      run("rollup", "rolled.js", "--format", "iife", "--file", "rolled.cjs", "--preserveSymlinks", "--failAfterWarnings");
      equal(run("node", "rolled.cjs"), SAID, "what it prints");
    });
  } else skip("rollup", "it is not there: install Debian's rollup");
} finally {
  await rm(folder, { recursive: true });
}
report("package");
