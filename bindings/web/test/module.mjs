// Tests the parts of jcobs.js that aren't calls of the module: node --expose-gc module.mjs COBS.WASM
import { report } from "./tally.mjs";

for (const part of ["calls", "streams", "memory", "page", "forms", "tools"]) await import(`./module-${part}.mjs`);
await import("./browsers.mjs");
report("module");
