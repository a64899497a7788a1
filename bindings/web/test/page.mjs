// Tests the page in Chromium with keys, clicks and pastes: node page.mjs [FILE,.. [PART OF A NAME]]
import { browser, server } from "./page-setup.mjs";
import { report } from "./tally.mjs";

const files = process.argv[2] ?? "first,message,canvas,stream,line,whole,pictures";
for (const file of files.split(",")) await import(`./page-${file}.mjs`);
await browser.close();
server.close();
report(`page, ${files}`);
