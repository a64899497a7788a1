// Written by pack.mjs.
const jcobs = require("./jcobs.cjs");
jcobs.loadSync();
module.exports = jcobs;
