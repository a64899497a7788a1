// Written by pack.mjs.
import { load } from "./jcobs.js";
export * from "./jcobs.js";
await load();
