// Reads and writes the page's address, `#VIEW&NAME=VALUE&..`, so that a link opens a view with its contents.

export const VIEWS = ["message", "stream", "line"];
const LONGEST = 4000; // characters of a value; browsers, and programs that pass links on, limit the length of a link
const SETTLED = 300;  // milliseconds from the last change until the address is written: WebKit allows 100 writes in 10 s
const AGAIN = 10_000; // milliseconds until the next try, if the browser rejected a write
const states = new Map(); // the values of each view, as they are in the address; null if they are too long for an address
let timer = 0;
let known = null; // the hash that the page has last taken or set

/** Returns the view that the address names, its values, and the text of the values. A “+” in a value means a plus sign, not a space, so that links can be written by hand. */
export function readAddress() {
  const [named, ...rest] = location.hash.slice(1).split("&");
  const text = VIEWS.includes(named) ? rest.join("&") : location.hash.slice(1);
  return { view: VIEWS.includes(named) ? named : VIEWS[0], values: new URLSearchParams(text.replaceAll("+", "%2B")), text };
}

/** Returns whether the address names contents that the page hasn't taken yet, as when the user has just followed a link. */
export const isNewAddress = () => location.hash !== known;

/** Reads the address, as `readAddress` does, for a page that then shows these contents. */
export function takeAddress() {
  known = location.hash;
  return readAddress();
}

/** Leaves the values of a view in the address unchanged, until the view has valid values. */
export function holdAddress() {
  const { view, text } = readAddress();
  states.set(view, text);
}

/** Returns values as they are written into an address: a space as %20, because a “+” means a plus sign. */
const written = (values) => Object.entries(values).map(([name, value]) => `${name}=${encodeURIComponent(value)}`).join("&");

/** Returns whether a value is short enough for an address. */
export const isLinkable = (value) => encodeURIComponent(value).length <= LONGEST;

/** The first view isn't named if there are values, so that the link is short. */
const hashOf = (view) => `#${(view === VIEWS[0] && states.get(view)) || [view, states.get(view)].filter((part) => part).join("&")}`;

/** Returns the address of a view with its last values and with other values, or null if they are too long for an address. */
export function linkOf(view, others = {}) {
  if (states.get(view) === null) return null;
  const more = written(others);
  return new URL(more === "" ? hashOf(view) : `${hashOf(view)}&${more}`, location.href).href;
}

/** Keeps the values of a view. If all of them fit, and the view is shown, they are soon written into the address. */
export function keepState(view, values) {
  states.set(view, Object.values(values).every(isLinkable) ? written(values) : null);
  writeLater(SETTLED);
}

function writeLater(milliseconds) {
  clearTimeout(timer);
  timer = setTimeout(writeAddress, milliseconds);
}

/**
 * Writes the values of the view that is shown into the address. An address that the page hasn't taken yet stays: the browser changes the
 * address first and reports the change later, and a timer can end between the two.
 */
function writeAddress() {
  clearTimeout(timer);
  if (isNewAddress()) return;
  try {
    history.replaceState(null, "", hashOf(readAddress().view));
    known = location.hash;
  } catch {
    writeLater(AGAIN);
  }
}

/** Names another view in the address. Setting the hash would also scroll the page. */
export function nameView(view) {
  if (view === readAddress().view) return;
  writeAddress();
  try {
    history.pushState(null, "", hashOf(view));
  } catch {
    location.hash = hashOf(view);
  }
  known = location.hash;
}
