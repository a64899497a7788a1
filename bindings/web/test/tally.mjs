// Counts checks. A test file ends with `report()`, which prints the counts for tests/web.sh and sets the status.
import { isDeepStrictEqual, inspect } from "node:util";

let passed = 0;
let failed = 0;

const PATIENCE = Number(process.env.PATIENCE ?? 120) * 1000; // a loaded machine is slow

/** Runs a check and counts it. A check that waits for ever fails by its name. */
export async function check(name, act) {
  let timer;
  const late = new Promise((_, failed) => {
    timer = setTimeout(() => failed(new Error(`it hasn't ended after ${PATIENCE / 200} s`)), 5 * PATIENCE);
  });
  try {
    await Promise.race([act(), late]);
    passed++;
    if (process.env.VERBOSE) console.log(`ok: ${name}`);
  } catch (error) {
    failed++;
    console.log(`FAILED: ${name}\n  ${error.stack ?? error}`);
  } finally {
    clearTimeout(timer);
  }
}

/** Adds the counts of checks that other code made. */
export function count(good, bad) {
  passed += good;
  failed += bad;
}

export function equal(found, wanted, what = "it") {
  if (isDeepStrictEqual(found, wanted)) return;
  const shown = (value) => inspect(value, { maxArrayLength: 40, maxStringLength: 300, breakLength: 200 });
  throw new Error(`${what} is ${shown(found)}, and ${shown(wanted)} was wanted`);
}

export function holds(condition, what) {
  if (!condition) throw new Error(`this doesn't hold: ${what}`);
}

export async function throws(act, matches, what) {
  try {
    await act();
  } catch (error) {
    holds(matches(error), `${what}: it threw ${error.name} ${error.kind ?? ""} ${error.message}`);
    return;
  }
  throw new Error(`${what}: nothing was thrown`);
}

/** Waits until `act` returns a true value, or a promise of one, and returns this value. An error of `act` is thrown only when the time is over. */
export async function until(act, what = act) {
  for (const end = Date.now() + PATIENCE; ; await new Promise((done) => setTimeout(done, 25))) {
    const found = await Promise.resolve().then(act).catch((error) => {
      if (Date.now() > end) throw error;
    });
    if (found) return found;
    if (Date.now() > end) throw new Error(`this never came true: ${what}`);
  }
}

export function report(name) {
  console.log(`${name}: ${passed} passed, ${failed} failed`);
  process.exitCode = failed === 0 ? 0 : 1;
}
