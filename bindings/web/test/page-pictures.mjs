// Tests the three pictures of the page: each is taken again, and must show the same as the stored picture, apart from fonts.
import { mkdtemp, rm } from "node:fs/promises";
import { tmpdir } from "node:os";
import { join } from "node:path";
import { serve } from "../serve.mjs";
import { PICTURES, folderOf, take } from "./screenshots.mjs";
import { equal, holds } from "./tally.mjs";
import { address, browser, check } from "./page-setup.mjs";

const APART = 12; // of 255, how much the colours of small copies may differ on average

for (const name of Object.keys(PICTURES)) {
  await check(`picture: ${name} is what the page looks like`, async () => {
    const folder = await mkdtemp(join(tmpdir(), "jcobs-pictures-"));
    const { server, address: there } = await serve(0, { made: folder, kept: folderOf(name) });
    try {
      await take(browser, address, name, folder);
      const page = await browser.open(`${there}test/blank.html`);
      const { sizes, apart, shades } = await page.value(`(async () => {
        const small = async (url) => {
          const blob = await (await fetch(url)).blob();
          const { width, height } = await createImageBitmap(blob);
          const bitmap = await createImageBitmap(blob, { resizeWidth: 48, resizeHeight: 48, resizeQuality: "high" });
          const context = new OffscreenCanvas(48, 48).getContext("2d");
          context.drawImage(bitmap, 0, 0);
          return { size: [width, height], data: context.getImageData(0, 0, 48, 48).data };
        };
        const [made, kept] = [await small("/made/${name}"), await small("/kept/${name}")];
        const sum = made.data.reduce((sum, value, i) => sum + Math.abs(value - kept.data[i]), 0);
        return { sizes: [made.size, kept.size], apart: sum / made.data.length, shades: new Set(made.data).size };
      })()`);
      await page.close();
      equal(sizes[0], sizes[1], "their sizes");
      holds(shades > 20, "something is drawn");
      holds(apart < APART, `they differ by ${apart.toFixed(1)}: make them again by build.sh screenshots`);
    } finally {
      server.close();
      await rm(folder, { recursive: true });
    }
  });
}
