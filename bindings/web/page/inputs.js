// Small inputs that several views use.
import { parseHex } from "./hex.js";

/** Returns the element with an id. */
export const byId = (id) => document.getElementById(id);

/** Returns a whole number as text, with commas. */
export const count = (number) => number.toLocaleString("en");

/** Returns a number and its noun, such as "1 byte" or "2 bytes". */
export const counted = (number, noun) => `${count(number)} ${noun}${number === 1 ? "" : "s"}`;

/** Shows what is wrong with an input, or removes this text. */
export function complain(input, error, place) {
  place.textContent = error ?? "";
  place.hidden = error === null;
  if (error === null) input.removeAttribute("aria-invalid");
  else input.setAttribute("aria-invalid", "true");
}

/** Returns the byte in a sentinel's input. If it isn't a byte, says so and returns null. */
export function readSentinel(input, place) {
  const { bytes } = parseHex(input.value);
  const isByte = bytes?.length === 1;
  complain(input, isByte ? null : `“${input.value}” isn't a sentinel: type one byte, as two hexadecimal digits.`, place);
  return isByte ? bytes[0] : null;
}

/** Returns the buffer's length in an input. If it isn't a length, says so and returns null. */
export function readRoom(input, place) {
  const room = input.valueAsNumber;
  const isRoom = Number.isInteger(room) && room >= 0 && room <= 1 << 20;
  complain(input, isRoom ? null : "The buffer's length must be a whole number of bytes, from 0 to 1,048,576.", place);
  return isRoom ? room : null;
}

/** Returns a function that, however often it is called, calls `act` once before the next frame is painted. */
export function once(act) {
  let isAsked = false;
  return () => {
    if (isAsked) return;
    isAsked = true;
    requestAnimationFrame(() => {
      isAsked = false;
      act();
    });
  };
}

/**
 * Makes the status of a view. `show(text)` shows a text at once, and passes it to screen readers. `speak(text)` only passes a text to
 * screen readers. A text is spoken after `milliseconds`. If another text comes before that, only the later text is spoken. If texts keep
 * coming, one of them is spoken after five times `milliseconds`. Without this delay, a screen reader would speak at each key.
 */
export function statusOf(view, milliseconds) {
  let timer = 0;
  let since = 0; // when the first waiting text came
  const speak = (text) => {
    clearTimeout(timer);
    since ||= Date.now();
    const wait = Math.max(0, Math.min(milliseconds, since + 5 * milliseconds - Date.now()));
    timer = setTimeout(() => {
      since = 0;
      byId(`${view}-spoken`).textContent = text;
    }, wait);
  };
  const show = (text) => {
    byId(`${view}-status`).textContent = text;
    speak(text);
  };
  return { show, speak };
}

/** Offers a text to the user as a file. */
export function save(name, text, type = "text/plain") {
  const link = document.createElement("a");
  link.href = URL.createObjectURL(new Blob([text], { type }));
  link.download = name;
  link.click();
  setTimeout(() => URL.revokeObjectURL(link.href), 1000);
}
